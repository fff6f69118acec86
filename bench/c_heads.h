/* The head of a Guantian year in C: reckoned, and from a table. */

#ifndef C_HEADS_H
#define C_HEADS_H

#include <stdint.h>

enum {
    FIRST_PRINTED = 960,
    PRINTED_YEARS = 320
};

/* The register day; 0 for any other system and outside the years 1 to 3000. */
uint32_t c_head(uint32_t system, uint32_t year);

/* The same from a table; 0 for years not in it. */
uint32_t c_head_from_table(uint32_t system, uint32_t year);

/* To be called before. */
void c_fill_table(void);

#endif

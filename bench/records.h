/* Random citation records to measure with. They are made before anything is
 * timed, so that making them need not be quick. */

#ifndef RECORDS_H
#define RECORDS_H

#include <stddef.h>
#include <stdint.h>

#include "random.h"

enum {
    RECORD_ROOM = 16    /* more than the longest record made here */
};

/* One of the kinds 1, 3, 4 and 5. */
uint32_t random_kind(struct random *random);

/* Writes an accepted record of the kind for a random day of the years 1 to
 * 3000, in a system or in a random one. Returns its length. */
size_t make_in_system(struct random *random, uint32_t system, uint32_t kind,
                      uint8_t *record);
size_t make_accepted(struct random *random, uint32_t kind, uint8_t *record);

/* The same of an old kind, 1 to 4, where the retired kind 2 has names 0 to
 * 59. */
size_t make_old(struct random *random, uint32_t kind, uint8_t *record);

/* The same for a random day of the Guantian years 960 to 1279, whose heads are
 * printed. */
size_t make_printed(struct random *random, uint32_t kind, uint8_t *record);

/* Writes a record that the storing step refuses by the number, 1 to 7, 10 or
 * 11. Returns its length, which may differ from what its length field says. */
size_t make_refused_by(struct random *random, uint32_t refusal,
                       uint8_t *record);

/* The same by any of those numbers. */
size_t make_refused(struct random *random, uint8_t *record);

#endif

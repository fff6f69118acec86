/* The exchange of rows with the observatory's list, written by hand in C: what
 * the library's speed is held against. */

#ifndef C_EXCHANGE_H
#define C_EXCHANGE_H

#include <stddef.h>
#include <stdint.h>

enum {
    ROW_LEN = 13
};

/* Writes the row of a day and a time in the first 13 output bytes and returns
 * whether small units were cut off; refused, writes nothing and returns 2^32
 * times the refusal number. */
uint64_t c_export(uint64_t system, uint32_t day, uint64_t parts,
                  uint64_t units, uint8_t *output, size_t output_len);

/* Reads a row. Returns its day, plus 2^40 times the count of parts that its time
 * settles to, plus 2^56 times its tag; refused, 2^32 times the refusal number. */
uint64_t c_import(uint64_t system, const uint8_t *row, size_t row_len);

#endif

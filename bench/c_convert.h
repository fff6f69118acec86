/* The conversion of an old record, written by hand in C: what the library's
 * speed is held against. */

#ifndef C_CONVERT_H
#define C_CONVERT_H

#include <stddef.h>
#include <stdint.h>

/* Reads one record of the retired kind 2. When it can be converted, writes the
 * record of kind 5 in the first ten output bytes and returns 0; otherwise
 * writes nothing and returns 2^32 times the refusal number. Input and output do
 * not overlap. */
uint64_t c_convert(const uint8_t *input, size_t input_len,
                   uint8_t *output, size_t output_len);

#endif

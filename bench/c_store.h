/* The storing step, written by hand in C: what the library's speed is held
 * against. */

#ifndef C_STORE_H
#define C_STORE_H

#include <stddef.h>
#include <stdint.h>

/* Reads one citation record. When accepted, writes its kind 1 record in the
 * first ten output bytes and returns the register day; otherwise writes
 * nothing and returns 2^32 times the refusal number, plus 2^40 times the month
 * that refusal 10 tells. Input and output do not overlap. */
uint64_t c_store(const uint8_t *input, size_t input_len,
                 uint8_t *output, size_t output_len);

#endif

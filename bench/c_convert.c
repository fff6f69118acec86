#include "c_convert.h"

#include <string.h>

enum {
    RECORD_LEN = 10
};

/* Of a record that is not converted: why. */
static uint64_t refusal_of(const uint8_t *input, size_t input_len)
{
    if (input_len < 4)
        return 1;
    if (input[2] != 2 || input[3] != 0)
        return 2;
    if (input[0] != RECORD_LEN || input[1] != 0 || input_len != RECORD_LEN)
        return 3;
    return input[9] >= 60 ? 7 : 8;
}

/* A record to be converted is told by one test of its first four bytes, and only
 * another is looked at for what is wrong. */
uint64_t c_convert(const uint8_t *restrict input, size_t input_len,
                   uint8_t *restrict output, size_t output_len)
{
    static const uint8_t begin[] = {RECORD_LEN, 0, 2, 0};

    if (input_len != RECORD_LEN || memcmp(input, begin, sizeof begin) != 0 ||
        input[9] >= 60 || output_len < RECORD_LEN)
        return refusal_of(input, input_len) << 32;
    memcpy(output, input, 8);
    output[2] = 5;
    output[8] = input[8];
    output[9] = (uint8_t)(input[9] + 1);
    return 0;
}

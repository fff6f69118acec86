/* Numbers as text, two digits at a time, for the C that the programs' speed
 * is held against. Each function gives the place after what it wrote. */

#ifndef C_NUMBERS_H
#define C_NUMBERS_H

#include <stdint.h>
#include <string.h>

static const char pairs[] =
    "00010203040506070809" "10111213141516171819"
    "20212223242526272829" "30313233343536373839"
    "40414243444546474849" "50515253545556575859"
    "60616263646566676869" "70717273747576777879"
    "80818283848586878889" "90919293949596979899";

static inline char *put_pair(char *at, uint32_t number)
{
    memcpy(at, pairs + 2 * number, 2);
    return at + 2;
}

/* Below 10 this starts at the second digit and writes one byte too many,
 * which the next one covers; so there is no branch to guess wrong. */
static inline char *put_below_100(char *at, uint32_t number)
{
    uint32_t skipped = number < 10;

    memcpy(at, pairs + 2 * number + skipped, 2);
    return at + 2 - skipped;
}

static inline char *put_below_10000(char *at, uint32_t number)
{
    if (number < 100)
        return put_below_100(at, number);
    at = put_below_100(at, number / 100);
    return put_pair(at, number % 100);
}

/* Every day of the years 1 to 3000 has a number of seven digits. */
static inline char *put_register_day(char *at, uint32_t day)
{
    *at++ = (char)('0' + day / 1000000);
    at = put_pair(at, day / 10000 % 100);
    at = put_pair(at, day / 100 % 100);
    return put_pair(at, day % 100);
}

#endif

#include "c_sun.h"

/* All in parts of a day. */
enum {
    DAY = 12030,
    HALF_YEAR = 182 * DAY + 7480
};

static const uint64_t limits[] = {
    [WINTER] = 88 * DAY + 10958,
    [SUMMER] = 93 * DAY + 8552
};

static const uint64_t square = UINT64_C(1) * DAY * DAY;

uint32_t c_sun_amount(uint32_t season, uint32_t days)
{
    if (days > LAST_DAY)
        return 0;

    uint64_t parts = days * DAY;
    uint32_t beyond = parts > limits[season], used = season ^ beyond;
    uint64_t x = beyond ? HALF_YEAR - parts : parts;
    uint64_t numerator = 10000 * (x * (2 * limits[used] - x));

    /* By both divisors: a jump that is not foreseen would take longer. */
    uint64_t by_winter = numerator / (square * 3294);
    uint64_t by_summer = numerator / (square * 3659);
    return (uint32_t)(used == WINTER ? by_winter : by_summer);
}

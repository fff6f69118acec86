/* The calendars, for the C that the library's speed is held against. */

#ifndef C_CALENDAR_H
#define C_CALENDAR_H

#include <stdint.h>

/* Everything that takes a calendar is put into each of its callers, so that
 * its constants are literals there and no division is left to the machine. */
#if defined(__GNUC__)
#define INLINE static inline __attribute__((always_inline))
#else
#define INLINE static inline
#endif

enum {
    SYSTEMS = 3,
    LAST_YEAR = 3000
};

struct calendar {
    uint64_t solar;         /* parts in a day, of the year's */
    uint64_t lunar;         /* and of the month's */
    uint64_t year;          /* parts in a year */
    uint64_t month;         /* parts in a mean month */
    uint64_t denominator;   /* of a pentad's fraction of a part */
    uint64_t elapsed;       /* years elapsed at common year 0 */
    uint64_t anchor;        /* count day less register day, modulo 2^64 */
};

static const struct calendar guantian = {
    12030, 12030, 4393880, 355253, 36, 5944808 - 1092, 2169182929
};

static const struct calendar jiyuan = {
    7290, 7290, 2662626, 215278, 60, 28613460 - 1100, 10448760934
};

static const struct calendar jingchu = {
    1843, 4559, 673150, 134630, 36, 4045 - 237, -UINT64_C(330191)
};

/* A month, its first day and the next month's, as count days. */
struct month {
    uint64_t count;
    uint64_t head;
    uint64_t next;
};

INLINE uint64_t day_of_qi(const struct calendar *c, uint64_t qi)
{
    return qi * c->year / (12 * c->solar);
}

INLINE uint64_t head_of_month(const struct calendar *c, uint64_t month)
{
    return month * c->month / c->lunar;
}

/* From the new moon to the end of the day there are as many whole days as the
 * month has days before this one; what is left of it has the days after. */
INLINE struct month month_of_day(const struct calendar *c, uint64_t day)
{
    uint64_t day_end = (day + 1) * c->lunar - 1;
    uint32_t into = (uint32_t)(day_end % c->month);
    uint32_t left = (uint32_t)c->month - into - 1;
    struct month found = {
        day_end / c->month,
        day - into / (uint32_t)c->lunar,
        day + 1 + left / (uint32_t)c->lunar
    };

    return found;
}

INLINE uint64_t solstice_day(const struct calendar *c, uint32_t year)
{
    return (c->elapsed + year) * c->year / c->solar;
}

/* The solstice's day is the year's first middle qi's. */
INLINE uint64_t head_of_year(const struct calendar *c, uint32_t year)
{
    return month_of_day(c, solstice_day(c, year)).head;
}

/* The last middle qi before the end of a month; whether the month is leap,
 * that is, whether that qi fell before its first day. */
struct last_qi {
    uint64_t qi;
    uint32_t leap;
};

INLINE struct last_qi last_qi(const struct calendar *c, struct month month)
{
    uint64_t month_end = 12 * c->solar * month.next - 1;
    struct last_qi found = {
        month_end / c->year,
        month_end % c->year >= 12 * c->solar * (month.next - month.head)
    };

    return found;
}

INLINE uint32_t number_of_qi(uint32_t qi_of_year)
{
    return qi_of_year < 2 ? qi_of_year + 11 : qi_of_year - 1;
}

/* The sixty-day name of a register day, 1 for jiazi to 60 for guihai. */
INLINE uint32_t name_of_day(uint32_t day)
{
    return (day + 49) % 60 + 1;
}

#endif

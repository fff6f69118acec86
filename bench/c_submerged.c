/* Submerged and extinguished days over a range of years, written by hand in C:
 *
 *     c_submerged submerged SYSTEM YEAR LAST
 *     c_submerged extinguished SYSTEM YEAR LAST
 *
 * The arguments are taken as they come: what is measured is the reckoning
 * and the lines, not the reading of arguments. */

#define _POSIX_C_SOURCE 200809L

#include <stdint.h>
#include <stdlib.h>
#include <string.h>

#include "c_calendar.h"
#include "c_lines.h"

enum {
    QI = 24
};

/* A system's rules. */
struct rule {
    uint32_t units;         /* small units in a part */
    uint32_t limit;         /* in small units */
    uint32_t minuend;
    uint32_t multiplier;
    uint32_t divisor;
    uint32_t shortfall;     /* of a mean month from thirty days */
};

static const struct rule guantian_rule = {
    36, 9402 * 36, 4393880, 360, 63080, 5647
};

static const struct rule jiyuan_rule = {
    4, 5697 * 4 + 1, 443771, 60, 6371, 3422
};

/* Output: number, day, and distance or '-'. */
static char *put_day(const char *word, uint32_t number, uint32_t day)
{
    char *at = put_field(put_word(line_start(), word), number);

    *at++ = ' ';
    return put_register_day(at, day);
}

static void put_distance(char *at, int some, uint32_t days)
{
    line_end(some ? put_field(at, days) : put_word(at, " -"));
}

INLINE void write_submerged(const struct calendar *c, const struct rule *r,
                            char letter, uint32_t year)
{
    uint64_t day_units = c->solar * r->units;
    uint64_t step = c->year * r->units / QI;
    uint64_t moment = (c->elapsed + year) * c->year * r->units;

    line_end(put_year(put_word(line_start(), "submerged "), letter, year));
    for (uint32_t i = 0; i <= QI; i++, moment += step) {
        uint32_t rest = (uint32_t)(moment % day_units);
        uint32_t left = r->minuend * r->units - r->multiplier * rest;

        put_distance(put_day("qi", i, (uint32_t)(moment / day_units - c->anchor)),
                     rest >= r->limit, left / (r->divisor * r->units));
    }
}

/* A new moon later the remainder has lost the shortfall, after thirty days, or
 * gained what it lacks of a day, after 29. */
INLINE void write_extinguished(const struct calendar *c, const struct rule *r,
                               char letter, uint32_t year)
{
    uint64_t first = month_of_day(c, solstice_day(c, year)).count;
    uint64_t next = month_of_day(c, solstice_day(c, year + 1)).count;
    uint64_t moon = first * c->month;
    uint32_t day = (uint32_t)(moon / c->lunar - c->anchor);
    uint32_t rest = (uint32_t)(moon % c->lunar);

    line_end(put_year(put_word(line_start(), "extinguished "), letter, year));
    for (uint32_t place = 1; place <= next - first; place++) {
        int some = rest < r->shortfall;

        put_distance(put_day("moon", place, day), some, 30 * rest / r->shortfall);
        day += some ? 29 : 30;
        rest += (some ? (uint32_t)c->lunar : 0) - r->shortfall;
    }
}

static void write_page(int submerged, uint32_t system, uint32_t year)
{
    if (system - 1 >= 2)
        write_refused(4);
    else if (year - 1 >= LAST_YEAR)
        write_refused(5);
    else if (system == 1 && submerged)
        write_submerged(&guantian, &guantian_rule, 'G', year);
    else if (system == 1)
        write_extinguished(&guantian, &guantian_rule, 'G', year);
    else if (submerged)
        write_submerged(&jiyuan, &jiyuan_rule, 'J', year);
    else
        write_extinguished(&jiyuan, &jiyuan_rule, 'J', year);
}

int main(int argc, char **argv)
{
    if (argc != 5)
        return 2;

    int submerged = strcmp(argv[1], "submerged") == 0;
    uint32_t system = (uint32_t)strtoul(argv[2], NULL, 10);
    uint32_t last = (uint32_t)strtoul(argv[4], NULL, 10);
    for (uint32_t n = (uint32_t)strtoul(argv[3], NULL, 10); n <= last; n++)
        write_page(submerged, system, n);
    flush_output();
    return 0;
}

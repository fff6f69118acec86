/* Pentads over a range of years, and the pentads in force over a range of
 * register days, written by hand in C:
 *
 *     c_pentads pentads SYSTEM YEAR LAST
 *     c_pentads pentad SYSTEM DAY LAST
 *
 * The arguments are taken as they come: what is measured is the reckoning
 * and the lines, not the reading of arguments. */

#define _POSIX_C_SOURCE 200809L

#include <stdint.h>
#include <stdlib.h>
#include <string.h>

#include "c_calendar.h"
#include "c_lines.h"

enum {
    PENTADS = 72
};

/* The pentads of a year. */
INLINE void write_pentads(const struct calendar *c, char letter, uint32_t year)
{
    uint64_t step = c->year * c->denominator / PENTADS;
    uint64_t moment = (c->elapsed + year) * c->year * c->denominator;

    line_end(put_year(put_word(line_start(), "pentads "), letter, year));
    for (uint32_t p = 0; p < PENTADS; p++, moment += step) {
        uint64_t parts = moment / c->denominator;
        uint32_t day = (uint32_t)(parts / c->solar - c->anchor);
        char *at = put_field(put_word(line_start(), "pentad"), p);

        *at++ = ' ';
        at = put_field(put_register_day(at, day), name_of_day(day));
        at = put_field(at, (uint32_t)(parts % c->solar));
        line_end(put_field(at, (uint32_t)(moment % c->denominator)));
    }
}

/* The pentad in force at the end of a day: the last before the next day. */
INLINE void write_in_force(const struct calendar *c, char letter, uint32_t day)
{
    uint64_t count_day = day + c->anchor;

    if (count_day < solstice_day(c, 1) ||
        count_day >= solstice_day(c, LAST_YEAR + 1)) {
        write_refused(7);
        return;
    }
    uint64_t pentad = ((count_day + 1) * (PENTADS * c->solar) - 1) / c->year;
    uint64_t year = pentad / PENTADS - c->elapsed;
    char *at = put_register_day(line_start(), day);
    *at++ = ' ';
    at = put_year(at, letter, (uint32_t)year);
    line_end(put_field(at, (uint32_t)(pentad % PENTADS)));
}

static void write_year(uint32_t system, uint32_t year)
{
    if (system - 1 >= SYSTEMS)
        write_refused(4);
    else if (year - 1 >= LAST_YEAR)
        write_refused(5);
    else if (system == 1)
        write_pentads(&guantian, 'G', year);
    else if (system == 2)
        write_pentads(&jiyuan, 'J', year);
    else
        write_pentads(&jingchu, 'W', year);
}

static void write_day(uint32_t system, uint32_t day)
{
    if (system - 1 >= SYSTEMS)
        write_refused(4);
    else if (system == 1)
        write_in_force(&guantian, 'G', day);
    else if (system == 2)
        write_in_force(&jiyuan, 'J', day);
    else
        write_in_force(&jingchu, 'W', day);
}

int main(int argc, char **argv)
{
    if (argc != 5)
        return 2;

    uint32_t system = (uint32_t)strtoul(argv[2], NULL, 10);
    uint32_t last = (uint32_t)strtoul(argv[4], NULL, 10);
    int years = strcmp(argv[1], "pentads") == 0;
    for (uint32_t n = (uint32_t)strtoul(argv[3], NULL, 10); n <= last; n++) {
        if (years)
            write_year(system, n);
        else
            write_day(system, n);
    }
    flush_output();
    return 0;
}

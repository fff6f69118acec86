/* Measures the heads of Guantian years 960 to 1279, from the printed page and
 * reckoned, against each other and against C, after checking that all agree.
 *
 *     bench_heads [SEED] */

#include <inttypes.h>
#include <stdbool.h>
#include <stdio.h>
#include <stdlib.h>

#include "c_calendar.h"
#include "c_heads.h"
#include "random.h"
#include "timing.h"

enum {
    ASKED = 100000
};

/* Of the crate bench_heads. */
uint32_t head_from_page(uint32_t system, uint32_t year);
uint32_t head_reckoned(uint32_t system, uint32_t year);

static uint32_t years[ASKED];

/* All agree, and no other year has a head on the page or in the table. */
static void check(void)
{
    for (uint32_t year = 0; year <= LAST_YEAR + 1; year++) {
        bool is_printed = year - FIRST_PRINTED < PRINTED_YEARS;
        uint32_t head = c_head(1, year), printed = is_printed ? head : 0;

        if (head_reckoned(1, year) == head &&
            head_from_page(1, year) == printed && c_head_from_table(1, year) == printed)
            continue;
        fprintf(stderr, "bench_heads: the heads of year %" PRIu32 " differ\n",
                year);
        exit(1);
    }
}

DEFINE_ANSWER_PASS(pass_page, uint32_t, ASKED, head_from_page(1, *job))
DEFINE_ANSWER_PASS(pass_reckoned, uint32_t, ASKED, head_reckoned(1, *job))
DEFINE_ANSWER_PASS(pass_c, uint32_t, ASKED, c_head(1, *job))
DEFINE_ANSWER_PASS(pass_c_table, uint32_t, ASKED, c_head_from_table(1, *job))

int main(int argc, char **argv)
{
    struct random random = seeded(argc, argv);
    struct way page = {"page", pass_page}, reckoned = {"reckoned", pass_reckoned};
    struct way c_table = {"C table", pass_c_table}, c = {"C", pass_c};

    c_fill_table();
    check();
    for (size_t i = 0; i < ASKED; i++)
        years[i] = FIRST_PRINTED + random_below(&random, PRINTED_YEARS);

    compare_ways("head page/reckoned", page, reckoned, years, ASKED);
    compare_ways("head page", page, c_table, years, ASKED);
    compare_ways("head reckoned", reckoned, c, years, ASKED);
    return 0;
}

/* Measures the sun's excess and shortfall on days after either solstice against
 * C, after checking that they agree.
 *
 *     bench_sun [SEED] */

#include <inttypes.h>
#include <stdio.h>
#include <stdlib.h>

#include "c_sun.h"
#include "random.h"
#include "timing.h"

enum {
    ASKED = 100000          /* too many for branches to be learnt by heart */
};

/* Of the crate bench_sun. */
uint32_t sun_amount(uint32_t season, uint32_t days);

static struct asked {
    uint32_t season, days;
} asked[ASKED];

static void check(uint32_t season, uint32_t days)
{
    if (sun_amount(season, days) == c_sun_amount(season, days))
        return;
    fprintf(stderr, "bench_sun: season %" PRIu32 ", day %" PRIu32 " differ\n", season, days);
    exit(1);
}

DEFINE_ANSWER_PASS(pass_amount, struct asked, ASKED, sun_amount(job->season, job->days))
DEFINE_ANSWER_PASS(pass_c, struct asked, ASKED, c_sun_amount(job->season, job->days))

int main(int argc, char **argv)
{
    struct random random = seeded(argc, argv);
    struct way amount = {"amount", pass_amount}, c = {"C", pass_c};

    for (uint32_t days = 0; days <= 2 * LAST_DAY; days++) {
        check(WINTER, days);
        check(SUMMER, days);
    }
    for (size_t i = 0; i < ASKED; i++) {
        asked[i].season = random_below(&random, 2);
        asked[i].days = random_below(&random, LAST_DAY + 1);
    }
    compare_ways("sun", amount, c, asked, ASKED);
    return 0;
}

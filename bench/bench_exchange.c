/* Measures chiselbrow_export against c_export, and chiselbrow_import against
 * c_import, after checking that they agree.
 *
 *     bench_exchange [SEED] */

#include <inttypes.h>
#include <stdio.h>
#include <stdlib.h>
#include <string.h>

#include "c_exchange.h"
#include "chiselbrow.h"
#include "random.h"
#include "timing.h"

enum {
    ROWS = 100000,          /* too many for branches to be learnt by heart */
    OUTPUT_ROOM = 16
};

/* What is asked, for the export by its numbers and for the import by its row. */
struct asked {
    uint32_t system, day, parts, units;
    uint8_t row[ROW_LEN];
};

static uint64_t random_bits(struct random *random)
{
    uint64_t high = random_below(random, UINT32_MAX);

    return high << 32 | random_below(random, UINT32_MAX);
}

static void put_time(struct asked *asked, uint8_t tag, const void *time)
{
    asked->row[4] = tag;
    memcpy(asked->row + 5, time, 8);
}

/* The fraction of a count, as it is exported. */
static void make_exported(struct random *random, struct asked *asked)
{
    (void)random;
    c_export(asked->system, asked->day, asked->parts, 0, asked->row, ROW_LEN);
}

/* Any fraction. */
static void make_fraction(struct random *random, struct asked *asked)
{
    double fraction = (double)(random_bits(random) >> 11) / 9007199254740992.0;

    put_time(asked, 1, &fraction);
}

static void make_count(struct random *random, struct asked *asked)
{
    uint64_t time = asked->parts;

    (void)random;
    put_time(asked, 2, &time);
}

/* Any of these, and of a hundred so many with any time at all. */
static void make_mixed(struct random *random, struct asked *asked)
{
    uint32_t which = random_below(random, 100);
    uint64_t time = random_bits(random);

    if (which < 5)
        put_time(asked, 1, &time);
    else if (which < 35)
        make_exported(random, asked);
    else if (which < 65)
        make_fraction(random, asked);
    else
        make_count(random, asked);
}

static const struct {
    const char *name;
    void (*make)(struct random *random, struct asked *asked);
} makers[] = {
    {"exported", make_exported},
    {"fraction", make_fraction},
    {"count", make_count},
    {"mixed", make_mixed}
};

enum {
    BATCHES = sizeof makers / sizeof makers[0],
    MIXED = BATCHES - 1
};

static struct asked batches[BATCHES][ROWS];

static void fill_batches(struct random *random)
{
    static const uint32_t in_day[] = {12030, 7290};

    for (size_t b = 0; b < BATCHES; b++)
        for (size_t i = 0; i < ROWS; i++) {
            struct asked *asked = &batches[b][i];
            uint32_t which = random_below(random, 2);

            asked->system = 1 + which;
            asked->day = random_below(random, UINT32_MAX);
            asked->parts = random_below(random, in_day[which]);
            asked->units = random_below(random, 4);
            memcpy(asked->row, &asked->day, sizeof asked->day);
            makers[b].make(random, asked);
        }
}

/* Agreement. */

static void differ(const char *batch, const char *function, size_t i)
{
    fprintf(stderr, "bench_exchange: %s %zu: %s and C differ\n", batch, i,
            function);
    exit(1);
}

static void check_batch(size_t b)
{
    for (size_t i = 0; i < ROWS; i++) {
        const struct asked *a = &batches[b][i];
        uint8_t theirs[OUTPUT_ROOM] = {0}, ours[OUTPUT_ROOM] = {0};

        if (chiselbrow_import(a->system, a->row, ROW_LEN) !=
            c_import(a->system, a->row, ROW_LEN))
            differ(makers[b].name, "chiselbrow_import", i);
        if (chiselbrow_export(a->system, a->day, a->parts, a->units, theirs,
                              sizeof theirs) !=
                c_export(a->system, a->day, a->parts, a->units, ours,
                         sizeof ours) ||
            memcmp(theirs, ours, sizeof ours) != 0)
            differ(makers[b].name, "chiselbrow_export", i);
    }
}

/* Time. */

/* Takes up every answer and an output byte, so that no call is left out. */
static volatile uint64_t sink;

#define DEFINE_EXPORT(pass, function)                                   \
    static void pass(const void *batch)                                 \
    {                                                                   \
        const struct asked *asked = batch;                              \
        uint8_t output[OUTPUT_ROOM] = {0};                              \
        uint64_t sum = 0;                                               \
                                                                        \
        for (size_t i = 0; i < ROWS; i++) {                             \
            const struct asked *a = &asked[i];                          \
            sum += function(a->system, a->day, a->parts, a->units,      \
                            output, sizeof output);                     \
            sum += output[12];                                          \
        }                                                               \
        sink += sum;                                                    \
    }

DEFINE_ANSWER_PASS(pass_import, struct asked, ROWS, chiselbrow_import(job->system, job->row, ROW_LEN))
DEFINE_ANSWER_PASS(pass_c_import, struct asked, ROWS, c_import(job->system, job->row, ROW_LEN))
DEFINE_EXPORT(pass_export, chiselbrow_export)
DEFINE_EXPORT(pass_c_export, c_export)

int main(int argc, char **argv)
{
    struct random random = seeded(argc, argv);
    struct way import = {"chiselbrow", pass_import}, c_import_way = {"C", pass_c_import};
    struct way export = {"chiselbrow", pass_export}, c_export_way = {"C", pass_c_export};
    char job[32];

    fill_batches(&random);
    for (size_t b = 0; b < BATCHES; b++)
        check_batch(b);
    compare_ways("export", export, c_export_way, batches[MIXED], ROWS);
    for (size_t b = 0; b < BATCHES; b++) {
        snprintf(job, sizeof job, "import %s", makers[b].name);
        compare_ways(job, import, c_import_way, batches[b], ROWS);
    }
    return 0;
}

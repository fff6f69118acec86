/* Measures chiselbrow_store against c_store, and chiselbrow_convert against
 * c_convert, after checking that they agree; and chiselbrow_store against
 * itself with the heads that ordinals are counted from taken from the printed
 * page.
 *
 *     bench [SEED] */

#include <inttypes.h>
#include <stdio.h>
#include <stdlib.h>
#include <string.h>

#include "c_convert.h"
#include "c_store.h"
#include "chiselbrow.h"
#include "records.h"
#include "timing.h"

/* chiselbrow_store with the head of a citation by ordinal read from the page:
 * build/from_page.a, from a copy changed by from_page.patch. */
uint64_t store_from_page(const uint8_t *input, size_t input_len,
                         uint8_t *output, size_t output_len);

enum {
    RECORDS = 100000,       /* too many for branches to be learnt by heart */
    OUTPUT_ROOM = 16
};

/* Of a hundred records so many are refused. */
static size_t make_mixed(struct random *random, uint32_t refused,
                         uint8_t *record)
{
    if (random_below(random, 100) < refused)
        return make_refused(random, record);
    return make_accepted(random, random_kind(random), record);
}

/* Of a hundred old records by name so many are not converted. */
static size_t make_old_names(struct random *random, uint32_t refused,
                             uint8_t *record)
{
    size_t length = make_old(random, 2, record);

    if (random_below(random, 100) < refused)
        record[9] = (uint8_t)(60 + random_below(random, 196));
    return length;
}

static size_t make_guantian(struct random *random, uint32_t kind,
                            uint8_t *record)
{
    return make_in_system(random, 1, kind, record);
}

static size_t make_jiyuan(struct random *random, uint32_t kind,
                          uint8_t *record)
{
    return make_in_system(random, 2, kind, record);
}

static size_t make_jingchu(struct random *random, uint32_t kind,
                           uint8_t *record)
{
    return make_in_system(random, 3, kind, record);
}

/* What is measured: how each record is made, and of which kind, share or
 * refusal. */
static const struct {
    const char *name;
    size_t (*make)(struct random *random, uint32_t which, uint8_t *record);
    uint32_t which;
} makers[] = {
    {"kind 3 printed", make_printed, 3},
    {"kind 1 G", make_guantian, 1},
    {"kind 1 J", make_jiyuan, 1},
    {"kind 1 W", make_jingchu, 1},
    {"kind 3 G", make_guantian, 3},
    {"kind 3 J", make_jiyuan, 3},
    {"kind 3 W", make_jingchu, 3},
    {"kind 4 G", make_guantian, 4},
    {"kind 4 J", make_jiyuan, 4},
    {"kind 4 W", make_jingchu, 4},
    {"kind 5 G", make_guantian, 5},
    {"kind 5 J", make_jiyuan, 5},
    {"kind 5 W", make_jingchu, 5},
    {"mixed", make_mixed, 5},
    {"refused 10", make_refused_by, 10},
    {"old", make_old_names, 5}
};

enum {
    PRINTED = 0,            /* the batch of records in printed years */
    BATCHES = sizeof makers / sizeof makers[0],
    OLD = BATCHES - 1       /* the batch of records to convert */
};

/* Records one after another, with their lengths. */

struct batch {
    const char *name;
    uint8_t lengths[RECORDS];
    uint8_t bytes[RECORDS * RECORD_ROOM];
};

static struct batch batches[BATCHES];

static void fill_batches(struct random *random)
{
    for (size_t b = 0; b < BATCHES; b++) {
        uint8_t *at = batches[b].bytes;

        batches[b].name = makers[b].name;
        for (size_t i = 0; i < RECORDS; i++) {
            size_t length = makers[b].make(random, makers[b].which, at);
            batches[b].lengths[i] = (uint8_t)length;
            at += length;
        }
    }
}

/* Agreement. */

static void print_bytes(const char *what, const uint8_t *bytes, size_t count)
{
    fprintf(stderr, "  %s:", what);
    for (size_t i = 0; i < count; i++)
        fprintf(stderr, " %02X", bytes[i]);
    fprintf(stderr, "\n");
}

/* A function of the library, and the same by hand. */
struct checked {
    const char *name;
    uint64_t (*library)(const uint8_t *input, size_t input_len,
                        uint8_t *output, size_t output_len);
    uint64_t (*c)(const uint8_t *input, size_t input_len,
                  uint8_t *output, size_t output_len);
};

static const struct checked storing = {
    "chiselbrow_store", chiselbrow_store, c_store
};
static const struct checked storing_from_page = {
    "store_from_page", store_from_page, c_store
};
static const struct checked converting = {
    "chiselbrow_convert", chiselbrow_convert, c_convert
};

static void check_record(const char *batch, const struct checked *checked,
                         const uint8_t *record, size_t length,
                         size_t output_len)
{
    uint8_t theirs[OUTPUT_ROOM], ours[OUTPUT_ROOM];

    memset(theirs, 0xA5, sizeof theirs);
    memset(ours, 0xA5, sizeof ours);
    uint64_t answer = checked->library(record, length, theirs, output_len);
    uint64_t expected = checked->c(record, length, ours, output_len);
    if (answer == expected && memcmp(theirs, ours, sizeof ours) == 0)
        return;

    fprintf(stderr, "bench: %s: %s and C differ\n", batch, checked->name);
    print_bytes("record", record, length);
    fprintf(stderr, "  output length: %zu\n", output_len);
    fprintf(stderr, "  answer: %016" PRIX64 "\n", answer);
    fprintf(stderr, "  C:      %016" PRIX64 "\n", expected);
    print_bytes("output", theirs, sizeof theirs);
    print_bytes("C     ", ours, sizeof ours);
    exit(1);
}

static void check_batch(const struct batch *batch,
                        const struct checked *checked)
{
    const uint8_t *record = batch->bytes;

    for (size_t i = 0; i < RECORDS; i++) {
        size_t length = batch->lengths[i];
        check_record(batch->name, checked, record, length, OUTPUT_ROOM);
        check_record(batch->name, checked, record, length, 10);
        check_record(batch->name, checked, record, length, 9);
        record += length;
    }
}

/* Time. */

/* Takes up every answer and an output byte, so that no call is left out. */
static volatile uint64_t sink;

/* One loop for each function, so that each is called by its symbol. */
#define DEFINE_PASS(pass, function)                                     \
    static void pass(const void *records)                               \
    {                                                                   \
        const struct batch *batch = records;                            \
        uint8_t output[OUTPUT_ROOM] = {0};                              \
        const uint8_t *record = batch->bytes;                           \
        uint64_t sum = 0;                                               \
                                                                        \
        for (size_t i = 0; i < RECORDS; i++) {                          \
            size_t length = batch->lengths[i];                          \
            sum += function(record, length, output, sizeof output);     \
            sum += output[9];                                           \
            record += length;                                           \
        }                                                               \
        sink += sum;                                                    \
    }

DEFINE_PASS(pass_chiselbrow, chiselbrow_store)
DEFINE_PASS(pass_c, c_store)
DEFINE_PASS(pass_from_page, store_from_page)
DEFINE_PASS(pass_convert, chiselbrow_convert)
DEFINE_PASS(pass_c_convert, c_convert)

static void measure(const struct batch *batch)
{
    struct way chiselbrow = {"chiselbrow", pass_chiselbrow};
    struct way c = {"C", pass_c};
    char job[32];

    snprintf(job, sizeof job, "store %s", batch->name);
    compare_ways(job, chiselbrow, c, batch, RECORDS);
}

static void measure_page(const struct batch *batch)
{
    struct way from_page = {"from page", pass_from_page};
    struct way reckoned = {"reckoned", pass_chiselbrow};

    compare_ways("store kind 3 page/reckoned", from_page, reckoned,
                 batch, RECORDS);
}

static void measure_conversion(const struct batch *batch)
{
    struct way chiselbrow = {"chiselbrow", pass_convert};
    struct way c = {"C", pass_c_convert};

    compare_ways("convert", chiselbrow, c, batch, RECORDS);
}

int main(int argc, char **argv)
{
    struct random random = seeded(argc, argv);

    fill_batches(&random);
    for (size_t i = 0; i < BATCHES; i++) {
        check_batch(&batches[i], &storing);
        check_batch(&batches[i], &storing_from_page);
        check_batch(&batches[i], &converting);
    }
    for (size_t i = 0; i < OLD; i++)
        measure(&batches[i]);
    measure_page(&batches[PRINTED]);
    measure_conversion(&batches[OLD]);
    return 0;
}

#include "records.h"

#include <string.h>

#include "c_calendar.h"
#include "c_heads.h"
#include "c_store.h"

static void put_16(uint8_t *to, uint32_t number)
{
    to[0] = (uint8_t)number;
    to[1] = (uint8_t)(number >> 8);
}

static void put_32(uint8_t *to, uint32_t number)
{
    put_16(to, number);
    put_16(to + 2, number >> 16);
}

uint32_t random_kind(struct random *random)
{
    static const uint8_t kinds[] = {1, 3, 4, 5};

    return kinds[random_below(random, sizeof kinds)];
}

/* Some systems and years, each from the first on. */
struct span {
    uint32_t system, systems;
    uint32_t year, years;
};

/* Writes an accepted record of the kind for a random day of a span. Returns its
 * length. */
static size_t make_within(struct random *random, const struct span *span,
                          uint32_t kind, uint8_t *record)
{
    uint8_t by_ordinal[9] = {9, 0, 3, 0};
    uint8_t stored[10];
    uint64_t day;

    /* Drawing until the year has the ordinal makes all days alike likely. */
    do {
        by_ordinal[4] =
            (uint8_t)(span->system + random_below(random, span->systems));
        put_16(by_ordinal + 5, span->year + random_below(random, span->years));
        put_16(by_ordinal + 7, 1 + random_below(random, 384));
        day = c_store(by_ordinal, sizeof by_ordinal, stored, sizeof stored);
    } while (day >> 32 != 0);

    if (kind == 3) {
        memcpy(record, by_ordinal, sizeof by_ordinal);
        return sizeof by_ordinal;
    }
    if (kind == 4) {
        memcpy(record, by_ordinal, 5);
        record[2] = 4;
        put_32(record + 5, (uint32_t)day);
        return 9;
    }
    memcpy(record, stored, sizeof stored);
    if (kind == 5) {
        record[2] = 5;
        record[9] = (uint8_t)name_of_day((uint32_t)day);
    }
    return sizeof stored;
}

size_t make_in_system(struct random *random, uint32_t system, uint32_t kind,
                      uint8_t *record)
{
    struct span one = {system, 1, 1, LAST_YEAR};

    return make_within(random, &one, kind, record);
}

size_t make_accepted(struct random *random, uint32_t kind, uint8_t *record)
{
    static const struct span all = {1, SYSTEMS, 1, LAST_YEAR};

    return make_within(random, &all, kind, record);
}

size_t make_old(struct random *random, uint32_t kind, uint8_t *record)
{
    size_t length = make_accepted(random, kind == 2 ? 5 : kind, record);

    if (kind == 2) {
        record[2] = 2;
        record[9]--;
    }
    return length;
}

size_t make_printed(struct random *random, uint32_t kind, uint8_t *record)
{
    static const struct span printed = {
        1, 1, FIRST_PRINTED, PRINTED_YEARS
    };

    return make_within(random, &printed, kind, record);
}

/* Changes one part of an accepted record, so that the refusal may apply.
 * Returns the new length. */
static size_t spoil(struct random *random, uint32_t refusal,
                    uint8_t *record, size_t length)
{
    uint32_t kind = record[2];
    uint32_t way = random_below(random, 3);

    switch (refusal) {
    case 1:
        return random_below(random, 4);
    case 2:
        put_16(record + 2, way == 0 ? 0 : way == 1 ? 6 : 256 + kind);
        return length;
    case 11:
        put_16(record + 2, 2);
        return way == 0 ? 4 : length;
    case 3:
        if (way == 0) {
            put_16(record, random_below(random, 65));
            return length;
        }
        record[length] = 0;
        return way == 1 ? length - 1 : length + 1;
    case 4:
        record[4] = (uint8_t)(way == 0 ? 0 : SYSTEMS + 1 +
                              random_below(random, 255 - SYSTEMS));
        return length;
    case 5:
        if (kind != 4)
            put_16(record + 5,
                   way == 0 ? 0 : 3001 + random_below(random, 62535));
        return length;
    case 6:
        if (way == 0)
            record[7] = (uint8_t)(random_below(random, 2) ? 0 : 13);
        else
            record[8] = (uint8_t)(2 + random_below(random, 254));
        return length;
    case 10:
        record[8] = 1;
        return length;
    default:
        if (kind == 1 || kind == 5)
            record[9] = (uint8_t)random_below(random, 256);
        else if (kind == 3)
            put_16(record + 7, way == 0 ? 0 : 354 + random_below(random, 64));
        else
            put_32(record + 5, way == 0 ? random_below(random, 1721000)
                                        : 2830000 + random_below(random, 9999));
        return length;
    }
}

size_t make_refused_by(struct random *random, uint32_t refusal,
                       uint8_t *record)
{
    uint8_t output[10];
    size_t length;
    uint64_t answer;

    /* Some ways to spoil a record leave it accepted, or refused otherwise. */
    do {
        length = make_accepted(random, random_kind(random), record);
        length = spoil(random, refusal, record, length);
        answer = c_store(record, length, output, sizeof output);
    } while ((answer >> 32 & 0xFF) != refusal);
    return length;
}

size_t make_refused(struct random *random, uint8_t *record)
{
    static const uint8_t refusals[] = {1, 2, 11, 3, 4, 5, 6, 10, 7};
    uint32_t refusal = refusals[random_below(random, sizeof refusals)];

    return make_refused_by(random, refusal, record);
}

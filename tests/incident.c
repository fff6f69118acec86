/* Two lots from days of one name, sixty days apart, must never be merged:
 * each is stored by its day and by its name, and keeps a record of its own.
 * The records are written out here, and not taken from the library. */

#include <chiselbrow.h>
#include <stdio.h>
#include <stdlib.h>
#include <string.h>

enum {
    FIRST = 2120808,
    SECOND = FIRST + 60,
    NAME = 38
};

static void require(int holds, const char *what, unsigned system, uint32_t day)
{
    if (holds)
        return;
    fprintf(stderr, "incident: system %u, day %lu: %s\n", system, (unsigned long)day, what);
    exit(1);
}

struct lot {
    unsigned system;
    uint32_t day;
    unsigned month, leap;    /* of year 1094 */
    uint8_t record[CHISELBROW_STORED_SIZE];
};

static const struct lot lots[] = {
    /* In every system: month 5, day 1, and month 7, day 2. */
    {CHISELBROW_GUANTIAN, FIRST, 5, 0, {0x0A, 0, 1, 0, 1, 0x46, 0x04, 5, 0, 1}},
    {CHISELBROW_GUANTIAN, SECOND, 7, 0, {0x0A, 0, 1, 0, 1, 0x46, 0x04, 7, 0, 2}},
    {CHISELBROW_JIYUAN, FIRST, 5, 0, {0x0A, 0, 1, 0, 2, 0x46, 0x04, 5, 0, 1}},
    {CHISELBROW_JIYUAN, SECOND, 7, 0, {0x0A, 0, 1, 0, 2, 0x46, 0x04, 7, 0, 2}},
    {CHISELBROW_JINGCHU, FIRST, 5, 0, {0x0A, 0, 1, 0, 3, 0x46, 0x04, 5, 0, 1}},
    {CHISELBROW_JINGCHU, SECOND, 7, 0, {0x0A, 0, 1, 0, 3, 0x46, 0x04, 7, 0, 2}},
};

/* A citation of the lot must name its day and be stored as its record. */
static void check(const struct lot *lot, const uint8_t *cited, size_t length, const char *what)
{
    uint8_t stored[CHISELBROW_STORED_SIZE];
    uint64_t answer = chiselbrow_store(cited, length, stored, sizeof stored);

    require(chiselbrow_refusal(answer) == CHISELBROW_ACCEPTED, "refused", lot->system, lot->day);
    require(chiselbrow_day(answer) == lot->day, "another day", lot->system, lot->day);
    require(memcmp(stored, lot->record, sizeof stored) == 0, what, lot->system, lot->day);
}

static void check_lot(const struct lot *lot)
{
    uint8_t cited[CHISELBROW_CITATION_ROOM];
    size_t length;

    require((lot->day + 49) % 60 + 1 == NAME, "another name", lot->system, lot->day);
    length = chiselbrow_cite_day(cited, lot->system, lot->day);
    check(lot, cited, length, "by day, another record");
    length = chiselbrow_cite_name(cited, lot->system, 1094, lot->month, lot->leap, NAME);
    check(lot, cited, length, "by name, another record");
    check(lot, lot->record, sizeof lot->record, "read back, another record");
}

int main(void)
{
    size_t count = sizeof lots / sizeof *lots;

    for (size_t i = 0; i < count; i++)
        check_lot(&lots[i]);
    for (size_t i = 0; i < count; i++)
        for (size_t j = 0; j < i; j++)
            require(memcmp(lots[i].record, lots[j].record, CHISELBROW_STORED_SIZE) != 0,
                    "the same record as another lot", lots[i].system, lots[i].day);
    printf("incident: days %d and %d share name %d and have records of their own\n",
           FIRST, SECOND, NAME);
    return 0;
}

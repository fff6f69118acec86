/* The storing step by closed forms: no table of months or days, and no loop or
 * search but for the leap month that refusal 10 tells.
 *
 * Months k, days d (count days) and middle qi g are all counted from the
 * epoch. Middle qi 12 N + j is number j, 0 to 11, of the year with N years
 * elapsed, so that nothing needs a case for the turn of the year. */

#include "c_store.h"

#include <string.h>

#include "c_calendar.h"

enum {
    STORED_LEN = 10
};

/* Bytes. The shifts become single loads and stores. */

INLINE uint32_t get_16(const uint8_t *from)
{
    return (uint32_t)from[0] | (uint32_t)from[1] << 8;
}

INLINE uint32_t get_32(const uint8_t *from)
{
    return get_16(from) | get_16(from + 2) << 16;
}

INLINE void put_stored(uint8_t *to, uint32_t system, uint32_t year,
                       uint32_t month, uint32_t leap, uint32_t day)
{
    to[0] = STORED_LEN;
    to[1] = 0;
    to[2] = 1;
    to[3] = 0;
    to[4] = (uint8_t)system;
    to[5] = (uint8_t)year;
    to[6] = (uint8_t)(year >> 8);
    to[7] = (uint8_t)month;
    to[8] = (uint8_t)leap;
    to[9] = (uint8_t)day;
}

INLINE uint64_t refuse(uint64_t number)
{
    return number << 32;
}

INLINE uint64_t refuse_telling(uint64_t number, uint64_t month)
{
    return refuse(number) | month << 40;
}

/* The reckoning. */

/* The number of a year's leap month; 0 if it has none. Up to the leap month
 * the months keep step with the year's middle qi, and from it on they are one
 * behind, so that halving finds the last qi in step. */
INLINE uint32_t leap_month_of_year(const struct calendar *c, uint32_t year)
{
    uint64_t qi = 12 * (c->elapsed + year);
    uint64_t first = month_of_day(c, day_of_qi(c, qi)).count;
    uint32_t last = 0;

    for (uint32_t step = 8; step > 0; step /= 2) {
        uint32_t next = last + step;
        if (day_of_qi(c, qi + next) < head_of_month(c, first + next + 1))
            last = next;
    }
    return last < 12 ? number_of_qi(last) : 0;
}

/* A month as kinds 1 and 5 cite it. */
struct cited {
    uint32_t refusal;   /* 0, 5, 6 or 10 */
    uint32_t told;      /* with 10, the year's leap month */
    uint32_t length;
    uint64_t head;      /* count day */
};

INLINE struct cited cited_month(const struct calendar *c, uint32_t year,
                                uint32_t number, uint32_t leap)
{
    struct cited found = {0, 0, 0, 0};

    if (year - 1 >= LAST_YEAR) {
        found.refusal = 5;
        return found;
    }
    if (number - 1 >= 12 || leap > 1) {
        found.refusal = 6;
        return found;
    }

    /* The year begins with month 11, so months 11 and 12 come before 1. */
    uint32_t qi_of_year = number + 1 - (number > 10 ? 12 : 0);
    uint64_t qi = 12 * (c->elapsed + year) + qi_of_year;
    struct month month = month_of_day(c, day_of_qi(c, qi));

    if (leap) {
        /* A leap month comes next exactly when the next middle qi falls
         * after its end. */
        uint64_t end = head_of_month(c, month.count + 2);
        if (day_of_qi(c, qi + 1) < end) {
            found.refusal = 10;
            found.told = leap_month_of_year(c, year);
            return found;
        }
        month.head = month.next;
        month.next = end;
    }

    found.head = month.head;
    found.length = (uint32_t)(month.next - month.head);
    return found;
}

/* A day's date, the year and month number still to be read from the qi. */
struct date {
    uint64_t qi;        /* the last middle qi before the end of the month */
    uint32_t leap;
    uint32_t day;
};

INLINE struct date date_of_day(const struct calendar *c, uint64_t day)
{
    struct month month = month_of_day(c, day);
    struct last_qi last = last_qi(c, month);
    struct date found = {last.qi, last.leap, (uint32_t)(day - month.head) + 1};

    return found;
}

/* The four kinds. The record's own shape and system are settled before. */

INLINE uint64_t store_kind_1(const struct calendar *c, const uint8_t *input,
                             uint8_t *output, size_t output_len)
{
    struct cited month =
        cited_month(c, get_16(input + 5), input[7], input[8]);
    uint32_t before = (uint32_t)input[9] - 1;

    if (month.refusal)
        return refuse_telling(month.refusal, month.told);
    if (before >= month.length)
        return refuse(7);
    if (output_len < STORED_LEN)
        return refuse(8);
    memcpy(output, input, STORED_LEN);
    return month.head - c->anchor + before;
}

INLINE uint64_t store_kind_3(const struct calendar *c, const uint8_t *input,
                             uint8_t *output, size_t output_len)
{
    uint32_t year = get_16(input + 5);
    uint32_t ordinal = get_16(input + 7);

    if (year - 1 >= LAST_YEAR)
        return refuse(5);
    if (ordinal == 0)
        return refuse(7);

    /* Past the year's end the date's qi is one of a later year. */
    uint64_t day = head_of_year(c, year) + ordinal - 1;
    struct date date = date_of_day(c, day);
    uint64_t qi_of_year = date.qi - 12 * (c->elapsed + year);
    if (qi_of_year >= 12)
        return refuse(7);
    if (output_len < STORED_LEN)
        return refuse(8);
    put_stored(output, input[4], year, number_of_qi((uint32_t)qi_of_year),
               date.leap, date.day);
    return day - c->anchor;
}

INLINE uint64_t store_kind_4(const struct calendar *c, const uint8_t *input,
                             uint8_t *output, size_t output_len)
{
    uint64_t register_day = get_32(input + 5);
    uint64_t day = register_day + c->anchor;

    if (day < head_of_year(c, 1) || day >= head_of_year(c, LAST_YEAR + 1))
        return refuse(7);
    if (output_len < STORED_LEN)
        return refuse(8);

    struct date date = date_of_day(c, day);
    uint32_t qi = (uint32_t)(date.qi - 12 * c->elapsed);
    put_stored(output, input[4], qi / 12, number_of_qi(qi % 12),
               date.leap, date.day);
    return register_day;
}

INLINE uint64_t store_kind_5(const struct calendar *c, const uint8_t *input,
                             uint8_t *output, size_t output_len)
{
    uint32_t year = get_16(input + 5);
    struct cited month = cited_month(c, year, input[7], input[8]);
    uint32_t after_jiazi = (uint32_t)input[9] - 1;

    if (month.refusal)
        return refuse_telling(month.refusal, month.told);
    if (after_jiazi >= 60)
        return refuse(7);

    uint32_t head = (uint32_t)(month.head - c->anchor);
    uint32_t head_after = (head + 49) % 60;
    uint32_t before =
        after_jiazi - head_after + (after_jiazi < head_after ? 60 : 0);
    if (before >= month.length)
        return refuse(7);
    if (output_len < STORED_LEN)
        return refuse(8);
    put_stored(output, input[4], year, input[7], input[8], before + 1);
    return head + before;
}

INLINE uint64_t store_by(const struct calendar *c, uint32_t kind,
                         const uint8_t *input,
                         uint8_t *output, size_t output_len)
{
    switch (kind) {
    case 1:
        return store_kind_1(c, input, output, output_len);
    case 3:
        return store_kind_3(c, input, output, output_len);
    case 4:
        return store_kind_4(c, input, output, output_len);
    default:
        return store_kind_5(c, input, output, output_len);
    }
}

uint64_t c_store(const uint8_t *input, size_t input_len,
                 uint8_t *output, size_t output_len)
{
    if (input_len < 4)
        return refuse(1);

    uint32_t kind = get_16(input + 2);
    if (kind > 5)
        return refuse(2);

    /* Kinds 0 and 2 have the length 0, which no input has that comes here, so
     * that a record to be stored need not be tested for them. */
    static const uint8_t lengths[] = {0, 10, 0, 9, 9, 10};
    uint32_t kind_len = lengths[kind];
    if (get_16(input) != kind_len || input_len != kind_len)
        return refuse(kind == 0 ? 2 : kind == 2 ? 11 : 3);

    switch (input[4]) {
    case 1:
        return store_by(&guantian, kind, input, output, output_len);
    case 2:
        return store_by(&jiyuan, kind, input, output, output_len);
    case 3:
        return store_by(&jingchu, kind, input, output, output_len);
    default:
        return refuse(4);
    }
}

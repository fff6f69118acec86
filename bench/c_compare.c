/* Comparisons of two systems over a range of years, written by hand in C:
 *
 *     c_compare FIRST SECOND YEAR LAST
 *
 * The arguments are taken as they come: what is measured is the reckoning
 * and the lines, not the reading of arguments. */

#define _POSIX_C_SOURCE 200809L

#include <stdint.h>
#include <stdlib.h>
#include <string.h>

#include "c_calendar.h"
#include "c_output.h"

enum {
    PLACES = 13,
    LONGEST_PAGE = 1024
};

/* The months of a year. */
struct months {
    uint32_t count;
    uint32_t head[PLACES];
    uint32_t number[PLACES];
    uint32_t leap[PLACES];
};

INLINE void reckon(const struct calendar *c, uint32_t year, struct months *m)
{
    uint64_t qi = 12 * (c->elapsed + year);
    struct month month = month_of_day(c, day_of_qi(c, qi));
    uint64_t end = month_of_day(c, day_of_qi(c, qi + 12)).count;

    m->count = (uint32_t)(end - month.count);
    for (uint32_t i = 0; i < m->count; i++) {
        struct last_qi last = last_qi(c, month);

        m->head[i] = (uint32_t)(month.head - c->anchor);
        m->number[i] = number_of_qi((uint32_t)(last.qi - qi));
        m->leap[i] = last.leap;
        month.count++;
        month.head = month.next;
        month.next = head_of_month(c, month.count + 1);
    }
}

static void months_of(uint32_t system, uint32_t year, struct months *m)
{
    if (system == 1)
        reckon(&guantian, year, m);
    else if (system == 2)
        reckon(&jiyuan, year, m);
    else
        reckon(&jingchu, year, m);
}

static int is_listed(const struct months *a, const struct months *b,
                     uint32_t i)
{
    if (i >= a->count || i >= b->count)
        return i < a->count || i < b->count;
    return a->number[i] != b->number[i] || a->leap[i] != b->leap[i] ||
           a->head[i] != b->head[i];
}

/* Output. */

static void put(const char *word, size_t length)
{
    memcpy(output + output_len, word, length);
    output_len += length;
}

static void put_number(uint32_t number)
{
    char digits[10];
    size_t first = sizeof digits;

    do
        digits[--first] = (char)('0' + number % 10);
    while (number /= 10);
    put(digits + first, sizeof digits - first);
}

static void put_field(uint32_t number)
{
    put(" ", 1);
    put_number(number);
}

static void put_month(const struct months *m, uint32_t i)
{
    if (i >= m->count) {
        put(" - -", 4);
        return;
    }
    put_field(m->number[i]);
    put("*", m->leap[i]);
    put_field(m->head[i]);
}

static void put_difference(uint32_t head, uint32_t other)
{
    put(" -", other < head ? 2 : 1);
    put_number(other < head ? head - other : other - head);
}

static void put_place(const struct months *a, const struct months *b,
                      uint32_t i)
{
    put("place", 5);
    put_field(i + 1);
    put_month(a, i);
    put_month(b, i);
    if (i >= a->count)
        put(" first", 6);
    else if (i >= b->count)
        put(" second", 7);
    else
        put_difference(a->head[i], b->head[i]);
    put("\n", 1);
}

static void put_comparison(uint32_t first, uint32_t second, uint32_t year)
{
    struct months a, b;
    uint32_t listed[PLACES], count = 0;

    months_of(first, year, &a);
    months_of(second, year, &b);
    for (uint32_t i = 0; i < PLACES; i++)
        if (is_listed(&a, &b, i))
            listed[count++] = i;

    put("compare ", 8);
    put(&"?GJW"[first], 1);
    put(" ", 1);
    put(&"?GJW"[second], 1);
    put_field(year);
    put_field(count);
    put("\n", 1);
    for (uint32_t i = 0; i < count; i++)
        put_place(&a, &b, listed[i]);
}

static void put_page(uint32_t first, uint32_t second, uint32_t year)
{
    if (OUTPUT_ROOM - output_len < LONGEST_PAGE)
        flush_output();
    if (first - 1 >= SYSTEMS || second - 1 >= SYSTEMS)
        put("refused 4\n", 10);
    else if (year - 1 >= LAST_YEAR)
        put("refused 5\n", 10);
    else
        put_comparison(first, second, year);
}

int main(int argc, char **argv)
{
    if (argc != 5)
        return 2;

    uint32_t first = (uint32_t)strtoul(argv[1], NULL, 10);
    uint32_t second = (uint32_t)strtoul(argv[2], NULL, 10);
    uint32_t last = (uint32_t)strtoul(argv[4], NULL, 10);
    for (uint32_t year = (uint32_t)strtoul(argv[3], NULL, 10); year <= last; year++)
        put_page(first, second, year);
    flush_output();
    return 0;
}

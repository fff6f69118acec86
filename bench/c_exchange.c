#include "c_exchange.h"

#include <string.h>

/* Parts in a day, 0 of a system that has no exchange; by a table, since a jump
 * for the system is often guessed wrong. */
static uint32_t parts_in_day(uint64_t system)
{
    static const uint32_t parts[] = {0, 12030, 7290};

    return system < 3 ? parts[system] : 0;
}

static uint64_t refused(uint64_t number)
{
    return number << 32;
}

uint64_t c_export(uint64_t system, uint32_t day, uint64_t parts,
                  uint64_t units, uint8_t *output, size_t output_len)
{
    uint32_t in_day = parts_in_day(system);

    if (in_day == 0)
        return refused(4);
    if (parts >= in_day)
        return refused(12);
    if (output_len < ROW_LEN)
        return refused(8);
    double fraction = (double)(int32_t)parts / (int32_t)in_day;
    memcpy(output, &day, sizeof day);
    output[4] = 1;
    memcpy(output + 5, &fraction, sizeof fraction);
    return units != 0;
}

/* The product cut down is the count or next to it. Both tests are made, since
 * a jump costs more than a division that nothing waits for. */
static uint32_t settled(double fraction, uint32_t in_day)
{
    int32_t count = (int32_t)(fraction * (int32_t)in_day);
    double all = (int32_t)in_day;

    return (uint32_t)(count - 1 + (count / all <= fraction) +
                      ((count + 1) / all <= fraction));
}

uint64_t c_import(uint64_t system, const uint8_t *row, size_t row_len)
{
    uint32_t in_day = parts_in_day(system), day, count;
    uint64_t time;

    if (row_len != ROW_LEN)
        return refused(3);
    if (in_day == 0)
        return refused(4);
    memcpy(&time, row + 5, sizeof time);
    if (row[4] == 1) {
        double fraction;

        memcpy(&fraction, &time, sizeof fraction);
        if (!(fraction >= 0 && fraction < 1))
            return refused(12);
        count = settled(fraction, in_day);
    } else if (row[4] == 2) {
        if (time >= in_day)
            return refused(12);
        count = (uint32_t)time;
    } else {
        return refused(2);
    }
    memcpy(&day, row, sizeof day);
    return day + ((uint64_t)count << 40) + ((uint64_t)row[4] << 56);
}

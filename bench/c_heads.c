#include "c_heads.h"

#include "c_calendar.h"

static uint32_t table[PRINTED_YEARS];

INLINE uint32_t reckon(uint32_t year)
{
    return (uint32_t)(head_of_year(&guantian, year) - guantian.anchor);
}

uint32_t c_head(uint32_t system, uint32_t year)
{
    return system != 1 || year - 1 >= LAST_YEAR ? 0 : reckon(year);
}

uint32_t c_head_from_table(uint32_t system, uint32_t year)
{
    uint32_t place = year - FIRST_PRINTED;

    return system != 1 || place >= PRINTED_YEARS ? 0 : table[place];
}

void c_fill_table(void)
{
    for (uint32_t i = 0; i < PRINTED_YEARS; i++)
        table[i] = reckon(FIRST_PRINTED + i);
}

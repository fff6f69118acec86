/* The sun's excess and shortfall in C. */

#ifndef C_SUN_H
#define C_SUN_H

#include <stdint.h>

enum {
    WINTER,
    SUMMER,
    LAST_DAY = 182
};

/* In ten-thousandths of a degree, so many days after the solstice of a season,
 * WINTER or SUMMER; 0 past the last day. */
uint32_t c_sun_amount(uint32_t season, uint32_t days);

#endif

/* Lines through the buffer of c_output.h, for the C that the almanac's pages
 * are held against. */

#ifndef C_LINES_H
#define C_LINES_H

#include <stdint.h>
#include <string.h>

#include "c_numbers.h"
#include "c_output.h"

enum {
    LONGEST_LINE = 64
};

/* Room for one more line. */
static char *line_start(void)
{
    if (OUTPUT_ROOM - output_len < LONGEST_LINE)
        flush_output();
    return output + output_len;
}

static void line_end(char *at)
{
    *at++ = '\n';
    output_len = (size_t)(at - output);
}

static char *put_word(char *at, const char *word)
{
    size_t length = strlen(word);

    memcpy(at, word, length);
    return at + length;
}

static char *put_field(char *at, uint32_t number)
{
    *at++ = ' ';
    if (number < 10000)
        return put_below_10000(at, number);
    at = put_below_100(at, number / 10000);
    at = put_pair(at, number / 100 % 100);
    return put_pair(at, number % 100);
}

static char *put_year(char *at, char letter, uint32_t year)
{
    *at++ = letter;
    return put_field(at, year);
}

static void write_refused(uint32_t number)
{
    line_end(put_field(put_word(line_start(), "refused"), number));
}

#endif

/* The program, written by hand in C: records from standard input, one line
 * for each to standard output. */

#define _POSIX_C_SOURCE 200809L

#include <errno.h>
#include <stdint.h>
#include <string.h>
#include <unistd.h>

#include "c_calendar.h"
#include "c_numbers.h"
#include "c_output.h"
#include "c_store.h"

enum {
    INPUT_ROOM = 64 * 1024,
    SHORTEST_RECORD = 4,
    LONGEST_RECORD = 64,
    LONGEST_LINE = 32,  /* "G 3000 10* 30 2817999 60\n" has 25 bytes */
    STORED_LEN = 10
};

/* Output: room for one more line. */
static char *line_start(void)
{
    if (OUTPUT_ROOM - output_len < LONGEST_LINE)
        flush_output();
    return output + output_len;
}

static void line_end(const char *end)
{
    output_len = (size_t)(end - output);
}

/* Lines. */

static void write_refused(uint32_t number, uint32_t told)
{
    static const char word[8] = "refused ";
    char *at = line_start();

    memcpy(at, word, sizeof word);
    at = put_below_100(at + sizeof word, number);
    if (number == 10) {
        *at++ = ' ';
        at = put_below_100(at, told);
    }
    *at++ = '\n';
    line_end(at);
}

static void write_stored(const uint8_t *stored, uint32_t day)
{
    uint32_t year = (uint32_t)stored[5] | (uint32_t)stored[6] << 8;
    char *at = line_start();

    *at++ = "?GJW"[stored[4]];
    *at++ = ' ';
    at = put_below_10000(at, year);
    *at++ = ' ';
    at = put_below_100(at, stored[7]);
    *at = '*';
    at += stored[8];
    *at++ = ' ';
    at = put_below_100(at, stored[9]);
    *at++ = ' ';
    at = put_register_day(at, day);
    *at++ = ' ';
    at = put_below_100(at, name_of_day(day));
    *at++ = '\n';
    line_end(at);
}

static void write_line(const uint8_t *record, size_t length)
{
    uint8_t stored[STORED_LEN];
    uint64_t answer = c_store(record, length, stored, sizeof stored);
    uint32_t refusal = (uint32_t)(answer >> 32 & 0xFF);

    if (refusal != 0)
        write_refused(refusal, (uint32_t)(answer >> 40));
    else
        write_stored(stored, (uint32_t)answer);
}

/* Input: the bytes not yet used are those from input_at to input_end. */

static uint8_t input[INPUT_ROOM];
static size_t input_at, input_end;

/* Adds bytes to those left. Returns 0 when the input has ended. All lines are
 * out before it waits, so that who writes a record can wait for its line. */
static int read_more(void)
{
    ssize_t got;

    flush_output();
    memmove(input, input + input_at, input_end - input_at);
    input_end -= input_at;
    input_at = 0;
    do
        got = read(0, input + input_end, INPUT_ROOM - input_end);
    while (got < 0 && errno == EINTR);
    if (got < 0)
        _exit(1);
    input_end += (size_t)got;
    return got > 0;
}

/* Writes the lines of all whole records at hand. Returns 0 when what follows
 * cannot be a record, whatever bytes may still come. */
static int write_lines(void)
{
    while (input_end - input_at >= 2) {
        const uint8_t *record = input + input_at;
        size_t length = (size_t)record[0] | (size_t)record[1] << 8;

        if (length < SHORTEST_RECORD || length > LONGEST_RECORD)
            return 0;
        if (length > input_end - input_at)
            return 1;
        write_line(record, length);
        input_at += length;
    }
    return 1;
}

int main(void)
{
    int sound = 1;

    while (sound && read_more())
        sound = write_lines();
    if (input_at < input_end)
        write_refused(1, 0);
    flush_output();
    return 0;
}

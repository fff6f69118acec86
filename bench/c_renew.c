/* The program chiselbrow-renew, written by hand in C: old records from standard
 * input, and the same to standard output with those of kind 2 made kind 5. */

#define _POSIX_C_SOURCE 200809L

#include <errno.h>
#include <inttypes.h>
#include <stdint.h>
#include <stdio.h>
#include <string.h>
#include <unistd.h>

enum {
    ROOM = 64 * 1024,
    SHORTEST_RECORD = 4,
    LONGEST_RECORD = 64,
    OLD_LENGTH = 10
};

/* The bytes that were read and not yet written. */
static uint8_t buffer[ROOM];
static size_t filled;
static uint64_t place;      /* of the first of them in the input */

/* What goes wrong. */

static int status;

static void note_refused(size_t at, unsigned refusal)
{
    dprintf(2, "chiselbrow-renew: standard input: record at byte %" PRIu64
            ": refused %u\n", place + at, refusal);
    status = 1;
}

static void note_no_record(size_t at)
{
    dprintf(2, "chiselbrow-renew: standard input: no record at byte %" PRIu64
            "\n", place + at);
    status = 1;
}

static void fail(const char *stream)
{
    dprintf(2, "chiselbrow-renew: %s: %s\n", stream, strerror(errno));
    _exit(1);
}

/* Adds bytes to those at hand. Returns 0 when the input has ended. */
static int read_more(void)
{
    ssize_t got;

    do
        got = read(0, buffer + filled, ROOM - filled);
    while (got < 0 && errno == EINTR);
    if (got < 0)
        fail("standard input");
    filled += (size_t)got;
    return got > 0;
}

/* Writes so many bytes, and moves the rest to the front. */
static void write_first(size_t count)
{
    size_t done = 0;

    while (done < count) {
        ssize_t written = write(1, buffer + done, count - done);
        if (written >= 0)
            done += (size_t)written;
        else if (errno != EINTR)
            fail("standard output");
    }
    filled -= count;
    place += count;
    memmove(buffer, buffer + count, filled);
}

static uint32_t get_16(const uint8_t *from)
{
    return (uint32_t)from[0] | (uint32_t)from[1] << 8;
}

/* Converts the whole records at hand, in place. Returns how many bytes they
 * have. */
static size_t convert_records(void)
{
    size_t at = 0;

    while (filled - at >= SHORTEST_RECORD) {
        uint8_t *record = buffer + at;
        size_t length = get_16(record);

        if (length < SHORTEST_RECORD || length > LONGEST_RECORD ||
            length > filled - at)
            break;
        if (get_16(record + 2) == 2) {
            if (length == OLD_LENGTH && record[9] < 60) {
                record[2] = 5;
                record[9]++;
            } else
                note_refused(at, length == OLD_LENGTH ? 7 : 3);
        }
        at += length;
    }
    return at;
}

/* Whether what follows cannot be a record, whatever bytes may still come. */
static int is_misframed(void)
{
    if (filled < 2)
        return 0;
    size_t length = get_16(buffer);
    return length < SHORTEST_RECORD || length > LONGEST_RECORD;
}

int main(void)
{
    int misframed = 0;

    while (!misframed && read_more()) {
        write_first(convert_records());
        misframed = is_misframed();
    }
    if (filled > 0)
        note_no_record(0);
    do
        write_first(filled);
    while (misframed && read_more());
    return status;
}

/* A small host: stores the one citation that its arguments spell in hex.
 *
 *     store 09 00 04 00 01 68 5C 20 00
 *     store 090004000168 5C2000
 *     store --version
 *
 * It prints the day and the stored record, or the refusal, with the year's leap
 * month where the refusal tells it. Exit status: 0 stored, 1 refused, 2 the
 * arguments are no hex or the output cannot be written. */

#include <chiselbrow.h>
#include <inttypes.h>
#include <stdio.h>
#include <stdlib.h>
#include <string.h>

/* The value of a hex digit; -1 if it is none. */
static int digit(char c)
{
    static const char digits[] = "0123456789ABCDEFabcdef";
    const char *found = c == '\0' ? NULL : strchr(digits, c);

    if (found == NULL)
        return -1;
    int place = (int)(found - digits);
    return place < 16 ? place : place - 6;
}

/* Reads bytes of two digits each, with or without spaces between them, and
 * returns where the next byte goes; NULL if the text is anything else. */
static uint8_t *read_hex(const char *text, uint8_t *to)
{
    while (*text != '\0') {
        if (*text == ' ') {
            text++;
            continue;
        }
        int high = digit(text[0]);
        int low = high < 0 ? -1 : digit(text[1]);
        if (low < 0)
            return NULL;
        *to++ = (uint8_t)(16 * high + low);
        text += 2;
    }
    return to;
}

/* All arguments, one after another. Returns how many bytes they spell. */
static size_t read_arguments(int argc, char **argv, uint8_t *bytes)
{
    uint8_t *end = bytes;

    for (int i = 1; i < argc && end != NULL; i++)
        end = read_hex(argv[i], end);
    if (argc < 2 || end == NULL) {
        fprintf(stderr, "usage: store HEX...\n");
        exit(2);
    }
    return (size_t)(end - bytes);
}

static void print_refusal(uint64_t answer)
{
    printf("refused %u", chiselbrow_refusal(answer));
    if (chiselbrow_refusal(answer) == CHISELBROW_REFUSED_LEAP)
        printf(" %u", chiselbrow_leap_month(answer));
    printf("\n");
}

/* The exit status for this one, if what was printed has reached its end. */
static int finish(int status)
{
    if (fflush(stdout) == 0 && !ferror(stdout))
        return status;
    perror("store");
    return 2;
}

int main(int argc, char **argv)
{
    if (argc == 2 && strcmp(argv[1], "--version") == 0) {
        printf("store %s\n", CHISELBROW_VERSION);
        return finish(0);
    }

    /* A byte takes two digits, so there is room for more than all of them. */
    size_t room = 1;
    for (int i = 1; i < argc; i++)
        room += strlen(argv[i]);
    uint8_t *citation = malloc(room);
    if (citation == NULL) {
        perror("store");
        return 2;
    }
    size_t length = read_arguments(argc, argv, citation);

    uint8_t stored[CHISELBROW_STORED_SIZE];
    uint64_t answer = chiselbrow_store(citation, length, stored, sizeof stored);
    free(citation);

    if (chiselbrow_refusal(answer) != CHISELBROW_ACCEPTED) {
        print_refusal(answer);
        return finish(1);
    }
    printf("day %" PRIu32 "\nrecord", chiselbrow_day(answer));
    for (size_t i = 0; i < sizeof stored; i++)
        printf(" %02X", stored[i]);
    printf("\n");
    return finish(0);
}

/* Preloaded, meddles with a program's reads of standard input and its writes to standard output and standard error, as
 * the system may.
 *
 *     READ_MOST=N    a read gives at most N bytes
 *     WRITE_MOST=N   a write takes at most N bytes, and so does
 *     NOTE_MOST=N    a write to standard error, called note here
 *     INTERRUPTS=N   N calls are interrupted before each that is not
 *     FAULT=CALL     the fault is of this call, read or write,
 *     FAULT_AT=N     of the Nth one, from 1,
 *     FAULT_CUT=HOW  which moves only `one` byte or `half` of its bytes
 *     FAULT_ERROR=E  and fails with errno E; after a cut the next one fails, as on a disk that is filled up
 *
 * Each of these calls is told on descriptor 9: its name, and how many bytes it moved or -E. */

#define _GNU_SOURCE

#include <errno.h>
#include <stdint.h>
#include <stdio.h>
#include <stdlib.h>
#include <string.h>
#include <sys/syscall.h>
#include <unistd.h>

enum { TOLD_ON = 9 };

/* The calls of one name: how many there were, and how many interrupted ones before the one that is due. */
struct calls {
    const char *name;
    const char *most;
    long made;
    long interrupted;
};

static struct calls reads = {"read", "READ_MOST", 0, 0};
static struct calls writes = {"write", "WRITE_MOST", 0, 0};
static struct calls notes = {"note", "NOTE_MOST", 0, 0};

/* A word of the environment, or an empty one. */
static const char *word(const char *variable)
{
    const char *text = getenv(variable);

    return text == NULL ? "" : text;
}

static long number(const char *variable)
{
    return strtol(word(variable), NULL, 10);
}

/* Whether the call that is due has the fault, or comes so many calls after the one that has it. */
static int is_faulty(const struct calls *calls, long after)
{
    return strcmp(word("FAULT"), calls->name) == 0 && calls->made == number("FAULT_AT") + after;
}

/* The errno that the call that is due fails with, or 0. */
static int error_of(struct calls *calls)
{
    if (calls->interrupted < number("INTERRUPTS")) {
        calls->interrupted++;
        return EINTR;
    }
    calls->interrupted = 0;
    calls->made++;
    return is_faulty(calls, *word("FAULT_CUT") != '\0') ? (int)number("FAULT_ERROR") : 0;
}

/* How many of the bytes asked for the call that is due may move. */
static size_t most_of(const struct calls *calls, size_t asked)
{
    size_t most = (size_t)number(calls->most);

    if (most == 0 || most > asked)
        most = asked;
    if (is_faulty(calls, 0) && strcmp(word("FAULT_CUT"), "half") == 0)
        return (most + 1) / 2;
    if (is_faulty(calls, 0) && strcmp(word("FAULT_CUT"), "one") == 0 && most > 1)
        return 1;
    return most;
}

static ssize_t meddle(struct calls *calls, long call, int descriptor, uintptr_t bytes, size_t asked)
{
    int error = error_of(calls);
    ssize_t moved = -1;

    if (error == 0) {
        moved = syscall(call, descriptor, bytes, most_of(calls, asked));
        error = errno;
    }
    dprintf(TOLD_ON, "%s %zd\n", calls->name, moved < 0 ? -error : moved);
    errno = error;
    return moved;
}

ssize_t read(int descriptor, void *bytes, size_t asked)
{
    if (descriptor == STDIN_FILENO)
        return meddle(&reads, SYS_read, descriptor, (uintptr_t)bytes, asked);
    return syscall(SYS_read, descriptor, bytes, asked);
}

ssize_t write(int descriptor, const void *bytes, size_t asked)
{
    if (descriptor == STDOUT_FILENO)
        return meddle(&writes, SYS_write, descriptor, (uintptr_t)bytes, asked);
    if (descriptor == STDERR_FILENO)
        return meddle(&notes, SYS_write, descriptor, (uintptr_t)bytes, asked);
    return syscall(SYS_write, descriptor, bytes, asked);
}

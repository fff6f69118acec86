/* Passes standard input on in random pieces, as a slow or uneven writer would.
 *
 *     feed SEED LONGEST PAUSE
 *
 * Pieces have 1 to LONGEST bytes, and PAUSE microseconds lie between them. */

#define _POSIX_C_SOURCE 200809L

#include <stdint.h>
#include <stdio.h>
#include <stdlib.h>
#include <time.h>
#include <unistd.h>

enum { ROOM = 1 << 17 };

static void stop(const char *what)
{
    perror(what);
    exit(1);
}

int main(int argc, char **argv)
{
    static uint8_t piece[ROOM];

    if (argc != 4) {
        fprintf(stderr, "usage: feed SEED LONGEST PAUSE\n");
        return 2;
    }
    uint64_t state = strtoull(argv[1], NULL, 10);
    size_t longest = strtoul(argv[2], NULL, 10);
    long pause = strtol(argv[3], NULL, 10);
    struct timespec between = {pause / 1000000, pause % 1000000 * 1000};
    if (longest < 1 || longest > ROOM) {
        fprintf(stderr, "feed: pieces may have 1 to %d bytes\n", ROOM);
        return 2;
    }

    for (;;) {
        state = state * 6364136223846793005u + 1442695040888963407u;
        ssize_t came = read(0, piece, 1 + (size_t)(state >> 33) % longest);
        if (came < 0)
            stop("feed: read");
        if (came == 0)
            return 0;
        for (ssize_t done = 0; done < came;) {
            ssize_t written = write(1, piece + done, (size_t)(came - done));
            if (written < 0)
                stop("feed: write");
            done += written;
        }
        if (pause > 0)
            nanosleep(&between, NULL);
    }
}

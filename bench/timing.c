#define _POSIX_C_SOURCE 200809L

#include "timing.h"

#include <stdio.h>
#include <time.h>

enum {
    ROUNDS = 15
};

static const double shortest_round = 0.020;    /* seconds */

static double now(void)
{
    struct timespec instant;

    clock_gettime(CLOCK_MONOTONIC, &instant);
    return (double)instant.tv_sec + (double)instant.tv_nsec * 1e-9;
}

static double seconds(struct way way, const void *batch, unsigned passes)
{
    double start = now();

    for (unsigned i = 0; i < passes; i++)
        way.pass(batch);
    return now() - start;
}

void compare_ways(const char *job, struct way first, struct way second,
                  const void *batch, size_t jobs)
{
    double best_first = 0, best_second = 0;
    unsigned passes = 1, round = 0;

    while (round < ROUNDS) {
        double took_first = 0, took_second;

        /* Each goes first in every other round. */
        if (round % 2 == 0)
            took_first = seconds(first, batch, passes);
        took_second = seconds(second, batch, passes);
        if (round % 2 != 0)
            took_first = seconds(first, batch, passes);

        if (took_first < shortest_round || took_second < shortest_round) {
            passes *= 2;
            round = 0;
            continue;
        }
        if (round == 0 || took_first < best_first)
            best_first = took_first;
        if (round == 0 || took_second < best_second)
            best_second = took_second;
        round++;
    }

    double to_ns = 1e9 / ((double)passes * (double)jobs);
    printf("%s: %s %.1f ns, %s %.1f ns, ratio %.2f\n", job,
           first.name, best_first * to_ns, second.name, best_second * to_ns,
           best_first / best_second);
    fflush(stdout);
}

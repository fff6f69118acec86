/* Two ways to do one job, timed in turn. */

#ifndef TIMING_H
#define TIMING_H

#include <stddef.h>
#include <stdint.h>

/* A name, and a pass over a batch of jobs. */
struct way {
    const char *name;
    void (*pass)(const void *batch);
};

/* Defines a pass over so many jobs of a type. What a job gives is an expression
 * that calls it `job`; every answer is taken up, so that no call is left out. */
#define DEFINE_ANSWER_PASS(pass, type, jobs, answer)                    \
    static void pass(const void *batch)                                 \
    {                                                                   \
        static volatile uint64_t sink;                                  \
        const type *job = batch, *end = job + (jobs);                   \
        uint64_t sum = 0;                                               \
                                                                        \
        for (; job != end; job++)                                       \
            sum += (answer);                                            \
        sink += sum;                                                    \
    }

/* Prints the nanoseconds that each way takes for one of a batch's jobs, the
 * least of several rounds, and the ratio of the first to the second. */
void compare_ways(const char *job, struct way first, struct way second,
                  const void *batch, size_t jobs);

#endif

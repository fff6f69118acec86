/* Random numbers to measure with. */

#ifndef RANDOM_H
#define RANDOM_H

#include <stdint.h>

struct random {
    uint64_t state;     /* any seed */
};

/* By the one argument that a program may have, a seed, or else by the clock;
 * prints the seed, so that a run can be had again. Ends the program if there
 * are more arguments. */
struct random seeded(int argc, char **argv);

/* A number from 0 up to, not including, the bound. */
uint32_t random_below(struct random *random, uint32_t bound);

#endif

#include "random.h"

#include <inttypes.h>
#include <stdio.h>
#include <stdlib.h>
#include <time.h>

struct random seeded(int argc, char **argv)
{
    struct random random;

    if (argc > 2) {
        fprintf(stderr, "usage: %s [SEED]\n", argv[0]);
        exit(2);
    }
    random.state = argc == 2 ? strtoull(argv[1], NULL, 0)
                             : (uint64_t)time(NULL);
    printf("seed %" PRIu64 "\n", random.state);
    return random;
}

static uint64_t next_random(struct random *random)
{
    uint64_t mixed = random->state += UINT64_C(0x9E3779B97F4A7C15);

    mixed = (mixed ^ mixed >> 30) * UINT64_C(0xBF58476D1CE4E5B9);
    mixed = (mixed ^ mixed >> 27) * UINT64_C(0x94D049BB133111EB);
    return mixed ^ mixed >> 31;
}

uint32_t random_below(struct random *random, uint32_t bound)
{
    return (uint32_t)((next_random(random) >> 32) * bound >> 32);
}

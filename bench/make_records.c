/* Writes a stream of records, of random kinds, systems and days: accepted ones,
 * those of a refusal, or old ones, as there were before kind 2 was retired.
 *
 *     make_records SEED COUNT [REFUSAL | old] */

#include <stdio.h>
#include <stdlib.h>
#include <string.h>

#include "records.h"

/* Writes one record, as the last argument asks. Returns its length. */
static size_t make(struct random *random, const char *which, uint8_t *record)
{
    if (which == NULL)
        return make_accepted(random, random_kind(random), record);
    if (strcmp(which, "old") == 0)
        return make_old(random, 1 + random_below(random, 4), record);
    return make_refused_by(random, (uint32_t)strtoul(which, NULL, 0), record);
}

int main(int argc, char **argv)
{
    struct random random;
    uint8_t record[RECORD_ROOM];

    if (argc != 3 && argc != 4) {
        fprintf(stderr, "usage: make_records SEED COUNT [REFUSAL | old]\n");
        return 2;
    }
    random.state = strtoull(argv[1], NULL, 0);
    for (unsigned long left = strtoul(argv[2], NULL, 0); left > 0; left--) {
        size_t length = make(&random, argv[3], record);
        fwrite(record, 1, length, stdout);
    }
    if (fflush(stdout) != 0 || ferror(stdout)) {
        perror("make_records");
        return 1;
    }
    return 0;
}

/* A small host: imports the rows of the observatory's list that a file has, one
 * after another, by a system.
 *
 *     rows SYSTEM FILE
 *     rows --version
 *
 * It prints a line for each row: its register day, the count of parts that its
 * time settles to, and what the time came as, `fraction` or `parts`; or the
 * refusal. What is left at the end of the file and is shorter than a row is
 * refused as such. Exit status: 0 all were imported, 1 one was refused, 2 the
 * arguments are wrong, the file cannot be read or the output not be written. */

#include <chiselbrow.h>
#include <errno.h>
#include <inttypes.h>
#include <stdio.h>
#include <stdlib.h>
#include <string.h>

/* A system's number in decimal digits; one that is too large is handed in as
 * the largest, and refused as it would be. */
static int read_system(const char *text, uint64_t *system)
{
    if (*text == '\0' || text[strspn(text, "0123456789")] != '\0')
        return 0;
    *system = strtoull(text, NULL, 10);
    return 1;
}

/* Prints what a row tells, and returns whether it was imported. */
static int print_row(uint64_t system, const uint8_t *row, size_t length)
{
    uint64_t answer = chiselbrow_import(system, row, length);

    if (chiselbrow_refusal(answer) != CHISELBROW_ACCEPTED) {
        printf("refused %u\n", chiselbrow_refusal(answer));
        return 0;
    }
    printf("%" PRIu32 " %u %s\n", chiselbrow_day(answer),
           chiselbrow_parts(answer),
           chiselbrow_tag(answer) == CHISELBROW_TAG_FRACTION ? "fraction"
                                                             : "parts");
    return 1;
}

/* Prints all rows of a file, up to the first error of reading or of writing.
 * Returns whether all were imported. */
static int print_rows(uint64_t system, FILE *file)
{
    uint8_t row[CHISELBROW_ROW_SIZE];
    size_t length;
    int all = 1;

    while (!ferror(stdout) && (length = fread(row, 1, sizeof row, file)) > 0
           && !ferror(file))
        all &= print_row(system, row, length);
    return all;
}

/* The exit status for this one, if what was printed has reached its end. */
static int finish(int status)
{
    if (fflush(stdout) == 0 && !ferror(stdout))
        return status;
    perror("rows");
    return 2;
}

/* Tells what went wrong with a file, and returns the exit status for that. */
static int no_file(const char *file)
{
    fprintf(stderr, "rows: %s: %s\n", file, strerror(errno));
    return 2;
}

int main(int argc, char **argv)
{
    uint64_t system;

    if (argc == 2 && strcmp(argv[1], "--version") == 0) {
        printf("rows %s\n", CHISELBROW_VERSION);
        return finish(0);
    }
    if (argc != 3 || !read_system(argv[1], &system)) {
        fprintf(stderr, "usage: rows SYSTEM FILE\n");
        return 2;
    }

    FILE *file = fopen(argv[2], "rb");
    if (file == NULL)
        return no_file(argv[2]);
    int all = print_rows(system, file);
    if (ferror(file))
        return finish(no_file(argv[2]));
    fclose(file);
    return finish(all ? 0 : 1);
}

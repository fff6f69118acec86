/* Standard output through one buffer. Nothing more can be told once writing
 * fails. */

#ifndef C_OUTPUT_H
#define C_OUTPUT_H

#include <errno.h>
#include <stddef.h>
#include <unistd.h>

enum {
    OUTPUT_ROOM = 128 * 1024
};

static char output[OUTPUT_ROOM];
static size_t output_len;

static void flush_output(void)
{
    size_t done = 0;

    while (done < output_len) {
        ssize_t written = write(1, output + done, output_len - done);
        if (written >= 0)
            done += (size_t)written;
        else if (errno != EINTR)
            _exit(1);
    }
    output_len = 0;
}

#endif

/* Calls the storing step on every frame of a stream and compares.
 *
 * A frame is: input length (1 byte), the input, output length (1 byte), the
 * expected answer (8 bytes, little-endian) and, where that accepts the input,
 * the expected ten bytes. */

#define _DEFAULT_SOURCE
#include "chiselbrow.h"
#include "frames.h"

/* The stored record is handed in again, from a buffer apart from the output,
 * and must be stored as itself. */
static void check_again(const struct call *stored)
{
    struct call again = *stored;

    memcpy(again.input, stored->record, RECORD);
    again.input_len = RECORD;
    check_call(chiselbrow_store, &again);
}

int main(void)
{
    uint64_t accepted = 0;
    struct call call;

    begin("store_check");
    while (next_call(&call)) {
        check_call(chiselbrow_store, &call);
        if (is_accepted(call.answer)) {
            check_again(&call);
            accepted++;
        }
        cases_done++;
    }
    end();
    printf("store_check: %llu cases, %llu accepted, %llu refused\n",
           (unsigned long long)cases_done, (unsigned long long)accepted,
           (unsigned long long)(cases_done - accepted));
    return 0;
}

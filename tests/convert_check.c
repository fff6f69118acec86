/* Calls the conversion on every frame of a stream, stores what it gave, and
 * compares both.
 *
 * A frame is: input length (1 byte), the input, output length (1 byte) and the
 * expected answer (8 bytes, little-endian). Where that is 0 there follow the
 * expected ten bytes; then the output length (1 byte) with which these are to
 * be stored, the expected answer (8 bytes) and, where that accepts them, the
 * expected ten bytes. */

#define _DEFAULT_SOURCE
#include "chiselbrow.h"
#include "frames.h"

/* What was converted is not converted again, and is stored as the frame says. */
static uint64_t check_converted(const struct call *converted)
{
    struct call then;

    then.form = converted->form;
    memcpy(then.input, converted->record, RECORD);
    then.input_len = RECORD;
    then.output_len = converted->output_len;
    then.answer = UINT64_C(2) << 32;
    check_call(chiselbrow_convert, &then);
    take_expected(&then);
    check_call(chiselbrow_store, &then);
    return then.answer;
}

int main(void)
{
    uint64_t converted = 0, stored = 0;
    struct call call;

    begin("convert_check");
    while (next_call(&call)) {
        check_call(chiselbrow_convert, &call);
        if (is_accepted(call.answer)) {
            stored += is_accepted(check_converted(&call));
            converted++;
        }
        cases_done++;
    }
    end();
    printf("convert_check: %llu cases, %llu refused, %llu converted, of which %llu were stored\n",
           (unsigned long long)cases_done, (unsigned long long)(cases_done - converted),
           (unsigned long long)converted, (unsigned long long)stored);
    return 0;
}

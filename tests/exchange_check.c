/* Calls export and import on every frame of a stream and compares. What was
 * exported is imported, and must come back as its own count.
 *
 * A frame begins with a byte that tells the call:
 * - 1, an export: system (8 bytes), register day (4), parts (8), small units
 *   (8), output length (1), the expected answer (8) and, where there is no
 *   refusal, the expected row (13);
 * - 2, an import: system (8), row length (1), the row, a 0 for the output that
 *   it does not have, the expected answer (8).
 * All numbers are little-endian. */

#define _DEFAULT_SOURCE
#include "chiselbrow.h"
#include "frames.h"

enum { EXPORT = 1, IMPORT = 2, ROW = 13, TAG_FRACTION = 1 };

/* The numbers, each by its place. */
enum { SYSTEM, DAY, PARTS, UNITS };

static const struct form exports = {
    {"export, system", "register day", "parts", "small units"}, {{"small units cut off", 0, 32}}, ROW
};
static const struct form imports = {
    {"import, system"}, {{"tag", 56, 8}, {"count", 40, 16}, {"day", 0, 32}}, 0
};

/* Reads a frame; 0 at the end of the stream. */
static int next_exchange(struct call *call)
{
    if (!have(1))
        return 0;
    switch (take_number(1)) {
    case EXPORT:
        call->form = &exports;
        call->numbers[SYSTEM] = take_number(8);
        call->numbers[DAY] = take_number(4);
        call->numbers[PARTS] = take_number(8);
        call->numbers[UNITS] = take_number(8);
        call->input_len = 0;
        break;
    case IMPORT:
        call->form = &imports;
        call->numbers[SYSTEM] = take_number(8);
        take_input(call);
        break;
    default:
        fprintf(stderr, "%s: case %llu is neither an export nor an import\n", check_name,
                (unsigned long long)(cases_done + 1));
        exit(1);
    }
    take_expected(call);
    return 1;
}

static void check_exchange(const struct call *call)
{
    const uint64_t *numbers = call->numbers;
    const uint8_t *row;
    uint8_t *output;

    lend(call, &row, &output);
    if (call->form == &exports)
        check_answer(call, chiselbrow_export(numbers[SYSTEM], (uint32_t)numbers[DAY], numbers[PARTS],
                                             numbers[UNITS], output, call->output_len));
    else
        check_answer(call, chiselbrow_import(numbers[SYSTEM], row, call->input_len));
}

/* An exported row tells its day, a fraction, and the count that was exported;
 * this is expected by the numbers handed in, and not by the stream. */
static void check_back(const struct call *exported)
{
    struct call back;

    back.form = &imports;
    back.numbers[SYSTEM] = exported->numbers[SYSTEM];
    memcpy(back.input, exported->record, ROW);
    back.input_len = ROW;
    back.output_len = 0;
    back.answer = (uint64_t)TAG_FRACTION << 56 | exported->numbers[PARTS] << 40 | exported->numbers[DAY];
    check_exchange(&back);
}

int main(void)
{
    uint64_t exported = 0, imported = 0;
    struct call call;

    begin("exchange_check");
    while (next_exchange(&call)) {
        check_exchange(&call);
        if (is_accepted(call.answer)) {
            if (call.form == &exports) {
                check_back(&call);
                exported++;
            } else {
                imported++;
            }
        }
        cases_done++;
    }
    end();
    printf("exchange_check: %llu cases, of which %llu were exported and came back, %llu imported, %llu refused\n",
           (unsigned long long)cases_done, (unsigned long long)exported, (unsigned long long)imported,
           (unsigned long long)(cases_done - exported - imported));
    return 0;
}

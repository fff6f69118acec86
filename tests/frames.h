/* What the checks that read a stream of cases share: the stream, the buffers
 * that are lent to a call, and what is printed where a case fails. Each check
 * is one file that includes this.
 *
 * A buffer ends where a page begins that cannot be touched, so that one byte
 * read or written past the end stops the run. */

#include <signal.h>
#include <stddef.h>
#include <stdint.h>
#include <stdio.h>
#include <stdlib.h>
#include <string.h>
#include <sys/mman.h>
#include <unistd.h>

enum {
    BLOCK = 1 << 20,      /* bytes asked for at a time */
    LONGEST = 255,        /* of an input or an output */
    BEFORE = 64,          /* bytes watched before each buffer */
    MOST_NUMBERS = 4,     /* that are handed in before the buffers */
    MOST_FIELDS = 3,      /* of an answer, beside the refusal */
    MOST_WRITTEN = 13,    /* where a call is accepted */
    RECORD = 10
};

static const char *check_name;
static uint64_t cases_done;

/* The stream, read by large blocks, and taken by LONGEST bytes at most. */

static uint8_t block[BLOCK + LONGEST];
static size_t block_at, block_end;

/* Makes sure that so many bytes are there, if the stream still has them. */
static int have(size_t wanted)
{
    if (block_end - block_at >= wanted)
        return 1;
    memmove(block, block + block_at, block_end - block_at);
    block_end -= block_at;
    block_at = 0;
    while (block_end < wanted) {
        ssize_t came = read(0, block + block_end, BLOCK);
        if (came < 0) {
            perror(check_name);
            exit(1);
        }
        if (came == 0)
            return 0;
        block_end += (size_t)came;
    }
    return 1;
}

/* The next so many bytes of a frame that has begun. */
static const uint8_t *take(size_t count)
{
    if (!have(count)) {
        fprintf(stderr, "%s: the stream is cut in case %llu\n", check_name,
                (unsigned long long)(cases_done + 1));
        exit(1);
    }
    const uint8_t *taken = block + block_at;
    block_at += count;
    return taken;
}

/* The next number, of so many bytes, the low one first. */
static uint64_t take_number(size_t bytes)
{
    const uint8_t *taken = take(bytes);
    uint64_t number = 0;

    while (bytes-- > 0)
        number = number << 8 | taken[bytes];
    return number;
}

/* A part of an answer: from which bit on, and how many. */
struct field {
    const char *name;
    unsigned lowest, bits;
};

/* What the calls of a function have in common: the names of the numbers that it
 * is handed before its buffers, what its answers tell beside the refusal, and
 * how many bytes it writes where it accepts. */
struct form {
    const char *numbers[MOST_NUMBERS];
    struct field fields[MOST_FIELDS];
    size_t written_len;
};

/* The storing step and the conversion. */
static const struct form of_records = {{NULL}, {{"month", 40, 8}, {"day", 0, 32}}, RECORD};

/* A call as a frame has it: its numbers, its input, the length of its output,
 * the expected answer and, where that accepts it, the bytes to be written. */
struct call {
    const struct form *form;
    uint64_t numbers[MOST_NUMBERS];
    uint8_t input[LONGEST];
    size_t input_len, output_len;
    uint64_t answer;
    uint8_t record[MOST_WRITTEN];
};

static unsigned refusal_in(uint64_t answer)
{
    return (unsigned)(answer >> 32 & 0xFF);
}

static int is_accepted(uint64_t answer)
{
    return refusal_in(answer) == 0;
}

static void take_input(struct call *call)
{
    call->input_len = take_number(1);
    memcpy(call->input, take(call->input_len), call->input_len);
}

/* What a call that was begun with its input is expected to give. */
static void take_expected(struct call *call)
{
    call->output_len = take_number(1);
    call->answer = take_number(8);
    if (is_accepted(call->answer))
        memcpy(call->record, take(call->form->written_len), call->form->written_len);
}

static void print_hex(const char *what, const uint8_t *bytes, size_t count)
{
    fprintf(stderr, "  %s (%zu):", what, count);
    for (size_t i = 0; i < count; i++)
        fprintf(stderr, " %02X", bytes[i]);
    fprintf(stderr, "\n");
}

static void print_answer(const char *what, const struct form *form, uint64_t answer)
{
    const struct field *field = form->fields;

    fprintf(stderr, "  %s: refusal %u", what, refusal_in(answer));
    for (; field < form->fields + MOST_FIELDS && field->name != NULL; field++)
        fprintf(stderr, ", %s %llu", field->name,
                (unsigned long long)(answer >> field->lowest & ((UINT64_C(1) << field->bits) - 1)));
    fprintf(stderr, " (%016llX)\n", (unsigned long long)answer);
}

static void print_call(const char *why, const struct call *call)
{
    const struct form *form = call->form;

    fflush(stdout);
    fprintf(stderr, "%s: case %llu: %s\n", check_name, (unsigned long long)(cases_done + 1), why);
    for (size_t i = 0; i < MOST_NUMBERS && form->numbers[i] != NULL; i++)
        fprintf(stderr, "  %s: %llu\n", form->numbers[i], (unsigned long long)call->numbers[i]);
    print_hex("input", call->input, call->input_len);
    fprintf(stderr, "  output length: %zu\n", call->output_len);
    print_answer("expected", form, call->answer);
    if (is_accepted(call->answer))
        print_hex("expected to be written", call->record, form->written_len);
}

/* Buffers that end at a page which cannot be touched. */

struct guarded {
    uint8_t *end;                      /* the first byte that cannot be touched */
    uint8_t copy[BEFORE + LONGEST];    /* what was filled in before the call */
};

static struct guarded input_place, output_place;

static void make_guarded(struct guarded *place)
{
    size_t page = (size_t)sysconf(_SC_PAGESIZE);
    uint8_t *start = mmap(NULL, 3 * page, PROT_READ | PROT_WRITE,
                          MAP_PRIVATE | MAP_ANONYMOUS, -1, 0);
    if (start == MAP_FAILED || mprotect(start, page, PROT_NONE) != 0 ||
        mprotect(start + 2 * page, page, PROT_NONE) != 0) {
        perror(check_name);
        exit(1);
    }
    place->end = start + 2 * page;
}

/* Fills the last so many bytes, and those watched before them, with a pattern
 * that no two calls in a row share, and keeps a copy. */
static uint8_t *fill(struct guarded *place, size_t length)
{
    static uint64_t salt;
    uint8_t *at = place->end - length - BEFORE;
    uint64_t state = ++salt * 0x9E3779B97F4A7C15u + 0x632BE59BD9B4E019u;
    for (size_t i = 0; i < length + BEFORE; i++) {
        state = state * 6364136223846793005u + 1442695040888963407u;
        place->copy[i] = (uint8_t)(state >> 56);
    }
    memcpy(at, place->copy, length + BEFORE);
    return at + BEFORE;
}

/* The same, with given bytes in the buffer itself. */
static uint8_t *fill_with(struct guarded *place, const uint8_t *bytes, size_t length)
{
    uint8_t *at = fill(place, length);
    memcpy(place->copy + BEFORE, bytes, length);
    memcpy(at, bytes, length);
    return at;
}

/* Whether the bytes before the buffer, and those from `skip` on, are as they
 * were filled. */
static int untouched(const struct guarded *place, size_t length, size_t skip)
{
    const uint8_t *at = place->end - length - BEFORE;
    return memcmp(at, place->copy, BEFORE) == 0 &&
           memcmp(at + BEFORE + skip, place->copy + BEFORE + skip, length - skip) == 0;
}

/* The call at hand, for the case that it does not come back. */
static const struct call *call_at_hand;

static void fail(const char *why, uint64_t came)
{
    const struct call *call = call_at_hand;

    print_call(why, call);
    print_answer("came", call->form, came);
    print_hex("output after the call", output_place.end - call->output_len, call->output_len);
    print_hex("output before the call", output_place.copy + BEFORE, call->output_len);
    exit(1);
}

/* Fills the buffers of a call that is to be made next. */
static void lend(const struct call *call, const uint8_t **input, uint8_t **output)
{
    *input = fill_with(&input_place, call->input, call->input_len);
    *output = fill(&output_place, call->output_len);
    call_at_hand = call;
    if (is_accepted(call->answer) && call->output_len < call->form->written_len)
        fail("the stream expects more bytes than there is room for", call->answer);
}

/* The call that was made must answer as is expected, leave its input alone, and
 * write the expected bytes and no others; refused, none at all. */
static void check_answer(const struct call *call, uint64_t came)
{
    size_t written_len = call->form->written_len;

    if (came != call->answer)
        fail("another answer", came);
    if (!untouched(&input_place, call->input_len, 0))
        fail("the input was changed", came);
    if (!is_accepted(came)) {
        if ((came & 0xFFFFFFFFu) != 0)
            fail("refused, and yet more is told below the refusal", came);
        if (!untouched(&output_place, call->output_len, 0))
            fail("refused, and yet the output was changed", came);
        return;
    }
    if (memcmp(output_place.end - call->output_len, call->record, written_len) != 0)
        fail("other bytes were written", came);
    if (!untouched(&output_place, call->output_len, written_len))
        fail("a byte beside those to be written was changed", came);
}

/* A fault inside the call: a byte beyond a buffer was touched. Printing here
 * is safe enough, since the fault does not come from within printing. */
static void on_fault(int signal_number)
{
    (void)signal_number;
    print_call("the call touched memory that it was not lent", call_at_hand);
    _exit(1);
}

/* To be done before the first case. */
static void begin(const char *name)
{
    struct sigaction action;

    check_name = name;
    memset(&action, 0, sizeof action);
    action.sa_handler = on_fault;
    if (sigaction(SIGSEGV, &action, NULL) != 0 || sigaction(SIGBUS, &action, NULL) != 0) {
        perror(check_name);
        exit(1);
    }
    make_guarded(&input_place);
    make_guarded(&output_place);
}

/* To be done after the last: there must have been one. */
static void end(void)
{
    if (cases_done > 0)
        return;
    fprintf(stderr, "%s: the stream is empty\n", check_name);
    exit(1);
}

/* What the checks of the storing step and of the conversion have besides. */

typedef uint64_t function(const uint8_t *, size_t, uint8_t *, size_t);

/* Reads the call by which a frame begins; 0 at the end of the stream. It is
 * inline, as is the next, for the check that has calls of other forms. */
static inline int next_call(struct call *call)
{
    if (!have(1))
        return 0;
    call->form = &of_records;
    take_input(call);
    take_expected(call);
    return 1;
}

static inline void check_call(function *called, const struct call *call)
{
    const uint8_t *input;
    uint8_t *output;

    lend(call, &input, &output);
    check_answer(call, called(input, call->input_len, output, call->output_len));
}

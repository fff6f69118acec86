/* Null pointers with length 0, in every call, and the accessors of the header. */

#include <chiselbrow.h>
#include <stdio.h>
#include <string.h>

static int failures;

static void expect_telling(const char *what, uint64_t answer, unsigned refusal,
                           unsigned leap_month, uint32_t day)
{
    if (chiselbrow_refusal(answer) == refusal && chiselbrow_leap_month(answer) == leap_month &&
        chiselbrow_day(answer) == day)
        return;
    fprintf(stderr, "null: %s: refusal %u, leap month %u, day %lu\n", what,
            chiselbrow_refusal(answer), chiselbrow_leap_month(answer),
            (unsigned long)chiselbrow_day(answer));
    failures++;
}

static void expect(const char *what, uint64_t answer, unsigned refusal, uint32_t day)
{
    expect_telling(what, answer, refusal, 0, day);
}

/* No byte of an output may have been changed. */
static void expect_same(const char *what, const uint8_t *output, const uint8_t *before, size_t count)
{
    if (memcmp(output, before, count) == 0)
        return;
    fprintf(stderr, "null: %s, and yet the output was changed\n", what);
    failures++;
}

static void check_convert(void)
{
    static const uint8_t old[] = {0x0A, 0, 2, 0, 1, 0x46, 0x04, 5, 0, 37};
    static const uint8_t no_name[] = {0x0A, 0, 2, 0, 1, 0x46, 0x04, 5, 0, 60};
    static const uint8_t short_one[] = {0x09, 0, CHISELBROW_KIND_RETIRED, 0, 1, 0x46, 0x04, 5, 0};
    uint8_t turned[CHISELBROW_NAME_SIZE];
    uint8_t output[12], before[12];

    chiselbrow_cite_name(turned, CHISELBROW_GUANTIAN, 1094, 5, 0, 38);
    memset(output, 0xA5, sizeof output);
    memcpy(before, output, sizeof output);
    expect("convert, no input", chiselbrow_convert(NULL, 0, output, sizeof output),
           CHISELBROW_REFUSED_SHORT, 0);
    expect_same("convert, no input", output, before, sizeof output);
    expect("convert, neither", chiselbrow_convert(NULL, 0, NULL, 0), CHISELBROW_REFUSED_SHORT, 0);
    expect("convert, no output", chiselbrow_convert(old, sizeof old, NULL, 0),
           CHISELBROW_REFUSED_OUTPUT, 0);
    expect("convert, no output, no name", chiselbrow_convert(no_name, sizeof no_name, NULL, 0),
           CHISELBROW_REFUSED_DAY, 0);
    expect("convert, no output, nine bytes", chiselbrow_convert(short_one, sizeof short_one, NULL, 0),
           CHISELBROW_REFUSED_LENGTH, 0);
    expect("convert, no output, kind 5", chiselbrow_convert(turned, sizeof turned, NULL, 0),
           CHISELBROW_REFUSED_KIND, 0);
    expect("convert, both there", chiselbrow_convert(old, sizeof old, output, sizeof output),
           CHISELBROW_ACCEPTED, 0);
    if (memcmp(output, turned, sizeof turned) != 0 || memcmp(output + 10, before + 10, 2) != 0) {
        fprintf(stderr, "null: converted to other bytes\n");
        failures++;
    }
    expect("an old record", chiselbrow_store(old, sizeof old, NULL, 0), CHISELBROW_REFUSED_RETIRED, 0);
}

/* Answers of the exchange, taken apart. */
static void expect_row(const char *what, uint64_t answer, unsigned refusal, unsigned tag,
                       unsigned parts, uint32_t day)
{
    if (chiselbrow_refusal(answer) == refusal && chiselbrow_tag(answer) == tag &&
        chiselbrow_parts(answer) == parts && chiselbrow_day(answer) == day)
        return;
    fprintf(stderr, "null: %s: refusal %u, tag %u, parts %u, day %lu\n", what,
            chiselbrow_refusal(answer), chiselbrow_tag(answer), chiselbrow_parts(answer),
            (unsigned long)chiselbrow_day(answer));
    failures++;
}

static void expect_export(const char *what, uint64_t answer, unsigned refusal, int cut)
{
    if (chiselbrow_refusal(answer) == refusal && chiselbrow_units_cut(answer) == cut)
        return;
    fprintf(stderr, "null: %s: refusal %u, small units cut off: %d\n", what,
            chiselbrow_refusal(answer), chiselbrow_units_cut(answer));
    failures++;
}

static void check_exchange(void)
{
    static const uint8_t half[] = {0x68, 0x5C, 0x20, 0, CHISELBROW_TAG_FRACTION, 0, 0, 0, 0, 0, 0, 0xE0, 0x3F};
    uint8_t output[16], before[16];

    memset(output, 0xA5, sizeof output);
    memcpy(before, output, sizeof output);
    expect_export("export, no output", chiselbrow_export(CHISELBROW_GUANTIAN, 2120808, 6015, 1, NULL, 0),
                  CHISELBROW_REFUSED_OUTPUT, 0);
    expect_export("export, no output, no time", chiselbrow_export(CHISELBROW_GUANTIAN, 2120808, 12030, 1, NULL, 0),
                  CHISELBROW_REFUSED_TIME, 0);
    expect_export("export, no output, no exchange", chiselbrow_export(CHISELBROW_JINGCHU, 2120808, 12030, 1, NULL, 0),
                  CHISELBROW_REFUSED_SYSTEM, 0);
    expect_export("export, twelve bytes", chiselbrow_export(CHISELBROW_GUANTIAN, 2120808, 6015, 0, output, 12),
                  CHISELBROW_REFUSED_OUTPUT, 0);
    expect_same("export, twelve bytes", output, before, sizeof output);
    expect_export("export", chiselbrow_export(CHISELBROW_GUANTIAN, 2120808, 6015, 0, output, sizeof output),
                  CHISELBROW_ACCEPTED, 0);
    expect_same("export past the row", output + 13, before + 13, sizeof output - 13);
    if (memcmp(output, half, sizeof half) != 0) {
        fprintf(stderr, "null: exported as other bytes\n");
        failures++;
    }
    expect_export("export, units", chiselbrow_export(CHISELBROW_JIYUAN, 2120808, 7289, 3, output, sizeof output),
                  CHISELBROW_ACCEPTED, 1);

    expect_row("import, no row", chiselbrow_import(CHISELBROW_GUANTIAN, NULL, 0), CHISELBROW_REFUSED_LENGTH, 0, 0, 0);
    expect_row("import, no row, no exchange", chiselbrow_import(0, NULL, 0), CHISELBROW_REFUSED_LENGTH, 0, 0, 0);
    expect_row("import", chiselbrow_import(CHISELBROW_GUANTIAN, half, sizeof half), CHISELBROW_ACCEPTED,
               CHISELBROW_TAG_FRACTION, 6015, 2120808);

    /* Written out, so that the accessors are held to the layout. */
    expect_row("imported, written out", UINT64_C(2) << 56 | UINT64_C(12029) << 40 | 2120808, 0, 2, 12029, 2120808);
    expect_row("refused 12, written out", UINT64_C(12) << 32, CHISELBROW_REFUSED_TIME, 0, 0, 0);
    expect_row("the largest of each", UINT64_MAX, 0xFF, 0xFF, 0xFFFF, 0xFFFFFFFFu);
    expect_export("cut, written out", 1, 0, 1);
    expect_export("refused 4, written out", UINT64_C(4) << 32, CHISELBROW_REFUSED_SYSTEM, 0);
}

int main(void)
{
    uint8_t cited[CHISELBROW_DAY_SIZE], no_system[CHISELBROW_DAY_SIZE];
    uint8_t not_leap[CHISELBROW_STORED_SIZE];
    uint8_t output[12], before[12];

    chiselbrow_cite_day(cited, CHISELBROW_GUANTIAN, 2120808);
    chiselbrow_cite_day(no_system, 4, 2120808);
    chiselbrow_cite_date(not_leap, CHISELBROW_GUANTIAN, 1094, 5, 1, 1);
    memset(output, 0xA5, sizeof output);
    memcpy(before, output, sizeof output);
    expect("no input", chiselbrow_store(NULL, 0, output, sizeof output),
           CHISELBROW_REFUSED_SHORT, 0);
    expect_same("no input", output, before, sizeof output);
    expect("neither", chiselbrow_store(NULL, 0, NULL, 0), CHISELBROW_REFUSED_SHORT, 0);
    expect("no output", chiselbrow_store(cited, sizeof cited, NULL, 0),
           CHISELBROW_REFUSED_OUTPUT, 0);
    expect("no output, no such system", chiselbrow_store(no_system, sizeof no_system, NULL, 0),
           CHISELBROW_REFUSED_SYSTEM, 0);
    expect_telling("no output, not leap", chiselbrow_store(not_leap, sizeof not_leap, NULL, 0),
                   CHISELBROW_REFUSED_LEAP, 4, 0);
    expect("both there", chiselbrow_store(cited, sizeof cited, output, sizeof output),
           CHISELBROW_ACCEPTED, 2120808);

    /* Answers written out, so that the accessors are held to the layout. */
    expect("accepted, written out", UINT64_C(2120808), 0, 2120808);
    expect("refused 8, written out", UINT64_C(8) << 32, 8, 0);
    expect("refused 11, written out", UINT64_C(11) << 32, CHISELBROW_REFUSED_RETIRED, 0);
    expect_telling("refused 10, written out", UINT64_C(10) << 32 | UINT64_C(12) << 40, 10, 12, 0);
    expect_telling("the largest of each", UINT64_C(0xFFFFFFFFFFFF), 0xFF, 0xFF, 0xFFFFFFFFu);
    expect("the largest day", UINT64_C(0xFFFFFFFF), 0, 0xFFFFFFFFu);

    check_convert();
    check_exchange();
    if (failures != 0)
        return 1;
    printf("null: empty buffers are refused as they must be\n");
    return 0;
}

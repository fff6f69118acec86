/* The header's builders and its reader: their exact bytes, every day through
 * the storing step and back, numbers that do not fit, and bytes that are no
 * stored record. */

#include <chiselbrow.h>
#include <inttypes.h>
#include <stdio.h>
#include <stdlib.h>
#include <string.h>

enum {
    FIELDS = 5,               /* the most that a kind has */
    FIRST_DAY = 1721407,      /* of years 1 to 3000, in every system */
    LAST_DAY = 2817138,
    ROOM = CHISELBROW_CITATION_ROOM + 4,
    UNTOUCHED = 0xA5
};

struct citation {
    uint8_t bytes[ROOM];
    size_t size;
};

static void require(int holds, const char *what)
{
    if (holds)
        return;
    fprintf(stderr, "builders: %s\n", what);
    exit(1);
}

/* A citation of the kind, with its fields in the order of the bytes. */
static struct citation cite(int kind, const int64_t *field)
{
    struct citation cited;

    memset(cited.bytes, UNTOUCHED, sizeof cited.bytes);
    cited.size = kind == CHISELBROW_KIND_STORED
        ? chiselbrow_cite_date(cited.bytes, field[0], field[1], field[2], field[3], field[4])
        : kind == CHISELBROW_KIND_NAME
        ? chiselbrow_cite_name(cited.bytes, field[0], field[1], field[2], field[3], field[4])
        : kind == CHISELBROW_KIND_ORDINAL
        ? chiselbrow_cite_ordinal(cited.bytes, field[0], field[1], field[2])
        : chiselbrow_cite_day(cited.bytes, field[0], field[1]);
    return cited;
}

static unsigned refusal_of(struct citation cited)
{
    uint8_t stored[CHISELBROW_STORED_SIZE];

    return chiselbrow_refusal(chiselbrow_store(cited.bytes, cited.size, stored, sizeof stored));
}

/* Case 9 in each kind: its record written out, and for each field its number,
 * its width in bits, and the refusal of a number outside of it. */
struct field {
    int64_t number;
    int bits;
    unsigned refusal;
};

static const struct in_kind {
    int kind;
    size_t size;
    uint8_t bytes[CHISELBROW_CITATION_ROOM];
    int fields;
    struct field field[FIELDS];
} case_9[] = {
    {1, 10, {0x0A, 0x00, 0x01, 0x00, 0x01, 0x46, 0x04, 0x05, 0x00, 0x01},
     5, {{1, 8, 4}, {1094, 16, 5}, {5, 8, 6}, {0, 8, 6}, {1, 8, 7}}},
    {5, 10, {0x0A, 0x00, 0x05, 0x00, 0x01, 0x46, 0x04, 0x05, 0x00, 0x26},
     5, {{1, 8, 4}, {1094, 16, 5}, {5, 8, 6}, {0, 8, 6}, {38, 8, 7}}},
    {3, 9, {0x09, 0x00, 0x03, 0x00, 0x01, 0x46, 0x04, 0xD0, 0x00},
     3, {{1, 8, 4}, {1094, 16, 5}, {208, 16, 7}}},
    {4, 9, {0x09, 0x00, 0x04, 0x00, 0x01, 0x68, 0x5C, 0x20, 0x00},
     2, {{1, 8, 4}, {2120808, 32, 7}}},
};

enum { KINDS = sizeof case_9 / sizeof *case_9 };

/* The numbers of case 9 in a kind, but for one. */
static struct citation cite_case_9(const struct in_kind *in, int changed, int64_t number)
{
    int64_t field[FIELDS] = {0};

    for (int i = 0; i < FIELDS; i++)
        field[i] = i == changed ? number : in->field[i].number;
    return cite(in->kind, field);
}

static void check_bytes(void)
{
    for (int i = 0; i < KINDS; i++) {
        struct citation cited = cite_case_9(&case_9[i], FIELDS, 0);
        size_t size = case_9[i].size;

        require(cited.size == size, "case 9: another size");
        require(memcmp(cited.bytes, case_9[i].bytes, size) == 0, "case 9: other bytes");
        for (size_t at = size; at < ROOM; at++)
            require(cited.bytes[at] == UNTOUCHED, "a byte past the citation was changed");
    }
}

static void require_refused(const struct in_kind *in, int changed, int64_t number)
{
    unsigned expected = in->field[changed].refusal;
    unsigned came = refusal_of(cite_case_9(in, changed, number));

    if (came == expected)
        return;
    fprintf(stderr, "builders: kind %d, field %d, number %" PRId64 ": refusal %u, and not %u\n",
            in->kind, changed, number, came, expected);
    exit(1);
}

/* Numbers whose low bits are those of case 9, and the ends of the type. */
static unsigned check_field(const struct in_kind *in, int changed)
{
    struct field field = in->field[changed];
    unsigned done = 0;

    for (int bit = field.bits; bit < 63; bit++) {
        require_refused(in, changed, field.number + (INT64_C(1) << bit));
        require_refused(in, changed, field.number - (INT64_C(1) << bit));
        done += 2;
    }
    require_refused(in, changed, INT64_MIN + field.number);
    require_refused(in, changed, INT64_MAX);
    require_refused(in, changed, -1);
    return done + 3;
}

/* Every field of every kind; then two at once, of which the first is told, and
 * numbers that are not allowed but fit, which are written as they are. */
static unsigned check_out_of_range(void)
{
    static const uint8_t large[] = {0x0A, 0, 1, 0, 0xFE, 0xFE, 0xFF, 0xFE, 0xFE, 0xFE};
    static const int64_t large_fields[FIELDS] = {254, 65534, 254, 254, 254};
    static const int64_t two_fields[FIELDS] = {1, 70000, 300, 1, 1};
    static const int64_t names[][FIELDS] = {{1, 1094, 5, 0, 0}, {1, 1094, 5, 0, 61}};
    unsigned done = 0;

    for (int i = 0; i < KINDS; i++)
        for (int field = 0; field < case_9[i].fields; field++)
            done += check_field(&case_9[i], field);
    require(refusal_of(cite(CHISELBROW_KIND_STORED, two_fields)) == CHISELBROW_REFUSED_YEAR,
            "year 70000, month 300: not refused by its year");
    for (size_t i = 0; i < sizeof names / sizeof *names; i++)
        require(refusal_of(cite(CHISELBROW_KIND_NAME, names[i])) == CHISELBROW_REFUSED_DAY,
                "name 0 or 61: not refused by its name");
    require(memcmp(cite(CHISELBROW_KIND_STORED, large_fields).bytes, large, sizeof large) == 0,
            "numbers that fit: other bytes");
    return done;
}

/* The citation must be stored as these ten bytes, and name the day. */
static void require_stored(struct citation cited, const uint8_t *expected, uint32_t day)
{
    uint8_t stored[CHISELBROW_STORED_SIZE];
    uint64_t answer = chiselbrow_store(cited.bytes, cited.size, stored, sizeof stored);

    require(chiselbrow_refusal(answer) == CHISELBROW_ACCEPTED, "a day that is refused");
    require(chiselbrow_day(answer) == day, "another day");
    require(memcmp(stored, expected, sizeof stored) == 0, "another stored record");
}

/* Every day of the system: stored, read, and cited again in all four kinds. */
static unsigned check_every_day(int64_t system)
{
    unsigned year = 0, ordinal = 0, done = 0;

    for (uint32_t day = FIRST_DAY; day <= LAST_DAY; day++) {
        struct citation by_day = cite(CHISELBROW_KIND_DAY, (int64_t[]){system, day});
        uint8_t stored[CHISELBROW_STORED_SIZE];
        struct chiselbrow_date date;

        chiselbrow_store(by_day.bytes, by_day.size, stored, sizeof stored);
        require(chiselbrow_read_date(stored, sizeof stored, &date), "a stored record is not read");
        require(date.system == system, "another system is read");
        ordinal = date.year == year ? ordinal + 1 : 1;
        year = date.year;

        int64_t by_date[] = {system, year, date.month, date.leap, date.day};
        int64_t by_name[] = {system, year, date.month, date.leap, (day + 49) % 60 + 1};
        int64_t by_ordinal[] = {system, year, ordinal};
        require_stored(by_day, stored, day);
        require_stored(cite(CHISELBROW_KIND_STORED, by_date), stored, day);
        require_stored(cite(CHISELBROW_KIND_NAME, by_name), stored, day);
        require_stored(cite(CHISELBROW_KIND_ORDINAL, by_ordinal), stored, day);
        require(memcmp(cite(CHISELBROW_KIND_STORED, by_date).bytes, stored, sizeof stored) == 0,
                "what is read and cited again has other bytes");
        done++;
    }
    return done;
}

/* What is read must be as expected; refused, the date must stay as it was. */
static void require_read(const char *what, const uint8_t *bytes, size_t size, int expected)
{
    const struct chiselbrow_date before = {91, 92, 93, 94, 95};
    struct chiselbrow_date date = before;
    int came = chiselbrow_read_date(bytes, size, &date);

    if (came == expected && (came || memcmp(&date, &before, sizeof date) == 0))
        return;
    fprintf(stderr, "builders: the reader says %d for %s, or changes the date\n", came, what);
    exit(1);
}

static void check_reader(void)
{
    static const struct {
        const char *what;
        size_t at;
        uint8_t byte;
        int expected;
    } changes[] = {
        {"length field 9", 0, 9, 0},   {"length field 266", 1, 1, 0}, {"kind 0", 2, 0, 0},
        {"kind 2", 2, 2, 0},           {"kind 5", 2, 5, 0},           {"kind 257", 3, 1, 0},
        {"system 0", 4, 0, 0},         {"system 2", 4, 2, 1},         {"system 3", 4, 3, 1},
        {"system 4", 4, 4, 0},         {"year 3000", 5, 0xB8, 1},     {"year 3001", 5, 0xB9, 0},
        {"year 2817", 5, 0x01, 1},     {"year 65464", 6, 0xFF, 0},    {"month 0", 7, 0, 0},
        {"month 12", 7, 12, 1},        {"month 13", 7, 13, 0},        {"leap mark 2", 8, 2, 0},
        {"day 0", 9, 0, 0},            {"day 30", 9, 30, 1},          {"day 31", 9, 31, 0},
    };
    static const uint8_t year_0[] = {0x0A, 0, 1, 0, 1, 0, 0, 5, 0, 1};
    static const uint8_t eleven[] = {0x0A, 0, 1, 0, 1, 0x46, 0x04, 5, 0, 1, 0};
    static const uint8_t leap_4[] = {0x0A, 0, 1, 0, 1, 0x46, 0x04, 4, 1, 1};
    struct chiselbrow_date date;

    require(chiselbrow_read_date(case_9[0].bytes, 10, &date) && date.system == 1 && date.year == 1094 &&
            date.month == 5 && date.leap == 0 && date.day == 1, "case 9 is read as another date");
    require(chiselbrow_read_date(leap_4, sizeof leap_4, &date) && date.month == 4 && date.leap == 1,
            "a leap month is read as another");
    require_read("a citation by name", case_9[1].bytes, case_9[1].size, 0);
    require_read("a citation by ordinal", case_9[2].bytes, case_9[2].size, 0);
    require_read("a citation by day", case_9[3].bytes, case_9[3].size, 0);
    require_read("nothing", NULL, 0, 0);
    require_read("nine bytes", eleven, 9, 0);
    require_read("eleven bytes", eleven, 11, 0);
    require_read("year 0", year_0, sizeof year_0, 0);
    for (size_t i = 0; i < sizeof changes / sizeof *changes; i++) {
        /* A date of year 3000, so that either byte of the year can be one too many. */
        uint8_t record[] = {0x0A, 0, 1, 0, 1, 0xB8, 0x0B, 5, 0, 1};

        record[changes[i].at] = changes[i].byte;
        require_read(changes[i].what, record, sizeof record, changes[i].expected);
    }
}

int main(void)
{
    check_bytes();
    unsigned refused = check_out_of_range();
    check_reader();
    unsigned days = check_every_day(CHISELBROW_GUANTIAN) + check_every_day(CHISELBROW_JIYUAN) +
                    check_every_day(CHISELBROW_JINGCHU);
    printf("builders: %u days cited in four kinds and read back; %u numbers out of range refused\n", days, refused);
    return 0;
}

/* Chiselbrow: one stored record for every day of three Chinese calendars.
 *
 * Inscriptions and papers cite a day in several ways: by its date, by its
 * name in the round of sixty, by its place in the year, or by a day number
 * worked out before. The storing step reads any of these and writes one
 * canonical record of ten bytes. Two citations give the same ten bytes just
 * when they mean the same day in the same system, so stored records can be
 * compared for equality and used as keys, byte for byte.
 *
 * A call, from declaration to answer:
 *
 *     #include <chiselbrow.h>
 *     #include <stdio.h>
 *
 *     int main(void)
 *     {
 *         // Guantian, year 1094, leap month 4, the day named 8
 *         uint8_t cited[CHISELBROW_CITATION_ROOM];
 *         size_t size = chiselbrow_cite_name(cited, CHISELBROW_GUANTIAN,
 *                                            1094, 4, 1, 8);
 *         uint8_t stored[CHISELBROW_STORED_SIZE];
 *         uint64_t answer = chiselbrow_store(cited, size,
 *                                            stored, sizeof stored);
 *         struct chiselbrow_date date;
 *
 *         if (chiselbrow_refusal(answer) != CHISELBROW_ACCEPTED) {
 *             printf("refused %u\n", chiselbrow_refusal(answer));
 *             return 1;
 *         }
 *         if (chiselbrow_read_date(stored, sizeof stored, &date))
 *             printf("register day %lu, day %u of %smonth %u\n",
 *                    (unsigned long)chiselbrow_day(answer), date.day,
 *                    date.leap ? "leap " : "", date.month);
 *         return 0;
 *     }
 *
 * It prints "register day 2120778, day 1 of leap month 4".
 *
 * Link with -lchiselbrow; nothing else is needed. The library is an archive
 * and a shared library. The linker takes the shared one, which the loader has
 * to find when the host is run; -Wl,-Bstatic -lchiselbrow -Wl,-Bdynamic takes
 * the archive. Both export chiselbrow_store, chiselbrow_convert,
 * chiselbrow_export and chiselbrow_import, and all else is defined here.
 *
 *
 * WORDS
 *
 * system        Which calendar reckons: 1 is Guantian, 2 is Jiyuan, 3 is
 *               Jingchu. The same date can fall on different days in two of
 *               them.
 *
 * year          Numbered 1 to 3000 like the common years. It opens with month
 *               11, which has the day of the winter solstice, and so begins
 *               late in the common year before; its months run 11, 12, 1, 2
 *               up to 10. So Guantian year 1094, month 11, day 1 is 21
 *               November 1093 of the Julian calendar. Where a source begins
 *               its years with month 1, its months 11 and 12, leap or not,
 *               are cited here with the number of the year after: month 11 of
 *               its 1093 is month 11 of 1094. A leap month 10 stays with its
 *               year.
 *
 * leap          The twelve middle qi, equal steps of the sun's year counted
 *               from the winter solstice, give the months their numbers. A
 *               month holds a middle qi that falls on one of its days. A year
 *               of thirteen months has one month that holds none. That month
 *               is leap: it repeats the number of the month just before it,
 *               and is told apart by its leap mark, 1 where all other months
 *               have 0.
 *
 * register day  The day's own number: its Julian Day Number, taken for the
 *               civil day from midnight to midnight. With the system it
 *               identifies a day. Years 1 to 3000 have the register days
 *               1721407 to 2817138 in all three systems.
 *
 * name          The sixty-day name: a day's place in the round of sixty day
 *               names, 1 for jiazi to 60 for guihai. It is (register day +
 *               49) % 60 + 1 in every system, and comes back every sixty days.
 *               It is a label, and never enough to tell one day from another.
 *
 * ordinal       A day's place in its year, from 1 to as many days as the year
 *               has: 354, 355, 383 or 384.
 *
 *
 * RECORDS
 *
 * A citation is one record. Numbers of more than one byte have the low byte
 * first. There are four kinds, and they begin alike:
 *
 *     bytes 0, 1   length of the whole record
 *     bytes 2, 3   kind
 *     byte 4       system
 *
 *     kind            length   bytes 5, 6   byte 7   byte 8   byte 9
 *     1 stored form       10   year         month    leap     day of month
 *     5 by name           10   year         month    leap     name
 *
 *     kind            length   bytes 5, 6   bytes 7, 8
 *     3 by ordinal         9   year         ordinal
 *
 *     kind            length   bytes 5 to 8
 *     4 by day             9   register day
 *
 * Months are 1 to 12, days of the month count from 1, and a month has 29 or
 * 30 of them. Since that is less than sixty, a name fits at most one day of a
 * month. Kind 2 is retired; see OLD RECORDS. The same day four times over, each
 * stored as the first:
 *
 *     0A 00 01 00 01 46 04 05 00 01    year 1094, month 5, day 1
 *     0A 00 05 00 01 46 04 05 00 26    year 1094, month 5, name 38
 *     09 00 03 00 01 46 04 D0 00       year 1094, ordinal 208
 *     09 00 04 00 01 68 5C 20 00       register day 2120808
 *
 * chiselbrow_cite_date, _name, _ordinal and _day build the four kinds, and
 * chiselbrow_read_date reads a stored record.
 *
 *
 * ORDER
 *
 * Stored records do not sort by date. A year has its low byte first, and month
 * 11 is the first of its year. By their bytes these three stand as below, and
 * by date the other way round:
 *
 *     0A 00 01 00 01 00 05 01 00 01    year 1280, month 1: day 2188610
 *     0A 00 01 00 01 46 04 01 00 01    year 1094, month 1: day 2120660
 *     0A 00 01 00 01 46 04 0B 00 01    year 1094, month 11: day 2120601
 *
 * To sort, keep the register day that chiselbrow_store returns, and sort by
 * the system and then by that.
 *
 *
 * REFUSALS
 *
 * What cannot be stored is refused by a number. The conditions are tried in
 * the order below, in which 11 stands between 2 and 3, and 10 between 6 and 7.
 * The first that holds is the one told; if none holds the citation is stored.
 *
 *     1   the input is shorter than 4 bytes
 *     2   the kind is none of 1 to 5
 *    11   the kind is 2, which is retired, whatever the length
 *     3   the length field is not what the kind has, or the input is longer
 *         or shorter than that
 *     4   the system is none of 1 to 3
 *     5   kinds 1, 3 and 5: the year is outside 1 to 3000
 *     6   kinds 1 and 5: the month is outside 1 to 12, or the leap byte is
 *         neither 0 nor 1
 *    10   kinds 1 and 5: the leap byte is 1, and that month of that year is
 *         not leap; the answer tells the year's leap month, or 0 if it has
 *         none (chiselbrow_leap_month)
 *     7   the month has no such day (kind 1) or no day so named (kind 5), the
 *         year has no such ordinal (kind 3), or the register day is outside
 *         years 1 to 3000 of its system (kind 4); names are 1 to 60, and no
 *         day bears another
 *     8   the output is shorter than 10 bytes
 *
 * Refusal 9 is of requests that are not made from C, and 12 of rows. What 2, 3,
 * 4 and 8 say of rows is told at chiselbrow_export and chiselbrow_import, below.
 * Later versions can have other numbers: take any but CHISELBROW_ACCEPTED as a
 * refusal.
 *
 *
 * OLD RECORDS
 *
 * Before version 2.0 names were 0 for jiazi to 59 for guihai, and records of
 * kind 2 cited by them. Now names count from 1, as in the concordances, and
 * records of kind 5 cite by them. Kind 2 is retired: it is refused 11, so that
 * no old name passes for a new one. A record of kind 5 has the length and the
 * layout that kind 2 had:
 *
 *     0A 00 02 00 01 46 04 05 00 25    kind 2, name 37: refused 11
 *     0A 00 05 00 01 46 04 05 00 26    kind 5, name 38: day 2120808
 *
 * chiselbrow_convert makes the second out of the first, one record at a call.
 * For a file of records, of any kinds and one directly after another, there is
 * the program chiselbrow-renew:
 *
 *     chiselbrow-renew < old > new
 *
 * It converts the records of kind 2 and leaves all others as they are, so that
 * a file that is renewed twice is the same as one that is renewed once; its
 * manual page is chiselbrow-renew(1).
 *
 * A converted record stores as version 1.2 stored the old one: the same day and
 * the same ten bytes, or the same refusal. Records of kinds 1, 3 and 4 have not
 * changed, stored records among them.
 *
 * A host of version 1.x has to be gone over for two things that no compiler
 * sees. Names that it keeps elsewhere or works out by itself are one higher now:
 * if it still counts from 0, it cites the day before by chiselbrow_cite_name, or
 * none. And CHISELBROW_KIND_NAME is 5: old records are of
 * CHISELBROW_KIND_RETIRED.
 *
 *
 * ROWS
 *
 * The observatory's list has rows of 13 bytes, each a register day with a time
 * of that day. Numbers have the low byte first:
 *
 *     bytes 0 to 3    register day
 *     byte 4          tag, which tells how the time is written
 *     bytes 5 to 12   tag 1: the fraction of the day that has gone, from 0 up
 *                     to, not including, 1: a 64-bit float (IEEE 754)
 *                     tag 2: in bytes 5 and 6 a count of whole parts of the
 *                     day, and then six zero bytes
 *
 * Whose parts they are the row does not say. A day has 12030 of them by Guantian
 * and 7290 by Jiyuan, so that the caller names the system; Jingchu has no
 * exchange. Counts are not converted: a row with tag 2 has to be imported by the
 * system that it was written by, and by the other would tell another time, or be
 * refused. The same time by Guantian, with either tag:
 *
 *     68 5C 20 00 01 00 00 00 00 00 00 E0 3F    day 2120808, half of it
 *     68 5C 20 00 02 7F 17 00 00 00 00 00 00    day 2120808, 6015 parts
 *
 * chiselbrow_export writes rows, always with tag 1. The fraction of a count is
 * one division by the parts of the day, rounded once. chiselbrow_import reads
 * rows with either tag, and settles a fraction to a count: to the largest whose
 * own fraction is not above it. So every fraction that was exported comes back
 * as the count that it was made from, and any other one is cut down.
 *
 * The days of rows are not judged; chiselbrow_cite_day and chiselbrow_store tell
 * whether a system has a day. Nothing in a row tells where it begins: after a
 * byte lost or too many most rows of a file are refused, and some can be read as
 * others. So do not trust a file whose length is no multiple of 13.
 */

#ifndef CHISELBROW_H
#define CHISELBROW_H

#include <stddef.h>
#include <stdint.h>

/* The version of this header and its library. The first number, which is also
 * that of the soname, rises when hosts have to be built anew. The second rises
 * when the rules of the calendars change or a calendar is added. Where rules
 * changed, a record that an earlier version stored can name another day or
 * none, and has to be stored anew, from the register day that was answered with
 * it. The third rises with what is told, as when a refusal gets a number of its
 * own, or a page of the almanac another line, and with functions that are added:
 * chiselbrow_export and chiselbrow_import are there from 2.0.4 on.
 *
 * Version 2.0 counts names from 1 and retires kind 2. A host that was built
 * with a header of 1.x cites by name in kind 2, which is refused now, and so
 * has to be built anew; OLD RECORDS, above, tells what else it has to see to.
 * The calendars are those of 1.2, and what 1.2 stored stands as it is. So does
 * what 1.1 stored, since 1.2 only added Jingchu. */
#define CHISELBROW_VERSION "2.0.4"

#ifdef __cplusplus
extern "C" {
#endif

/* Byte 4 of a record, and the system that a row is exported or imported by. */
enum {
    CHISELBROW_GUANTIAN = 1,
    CHISELBROW_JIYUAN = 2,
    CHISELBROW_JINGCHU = 3
};

/* Bytes 2 and 3 of a record. Of the retired kind, with names 0 to 59, there are
 * old records; only chiselbrow_convert takes it. */
enum {
    CHISELBROW_KIND_STORED = 1,
    CHISELBROW_KIND_RETIRED = 2,
    CHISELBROW_KIND_ORDINAL = 3,
    CHISELBROW_KIND_DAY = 4,
    CHISELBROW_KIND_NAME = 5
};

/* Bytes in a record of each kind, and the room that a citation of any kind
 * needs. CHISELBROW_STORED_SIZE is also the room that the output of
 * chiselbrow_store needs, and CHISELBROW_NAME_SIZE that of chiselbrow_convert.
 */
enum {
    CHISELBROW_STORED_SIZE = 10,
    CHISELBROW_NAME_SIZE = 10,
    CHISELBROW_ORDINAL_SIZE = 9,
    CHISELBROW_DAY_SIZE = 9,
    CHISELBROW_CITATION_ROOM = 10
};

/* Bytes in a row of the observatory's list, which is also the room that the
 * output of chiselbrow_export needs. */
enum {
    CHISELBROW_ROW_SIZE = 13
};

/* Byte 4 of a row: how its time came. */
enum {
    CHISELBROW_TAG_FRACTION = 1,
    CHISELBROW_TAG_PARTS = 2
};

/* What chiselbrow_refusal gives: the table above, and those of
 * chiselbrow_convert, chiselbrow_export and chiselbrow_import. */
enum {
    CHISELBROW_ACCEPTED = 0,
    CHISELBROW_REFUSED_SHORT = 1,
    CHISELBROW_REFUSED_KIND = 2,
    CHISELBROW_REFUSED_LENGTH = 3,
    CHISELBROW_REFUSED_SYSTEM = 4,
    CHISELBROW_REFUSED_YEAR = 5,
    CHISELBROW_REFUSED_MONTH = 6,
    CHISELBROW_REFUSED_DAY = 7,
    CHISELBROW_REFUSED_OUTPUT = 8,
    CHISELBROW_REFUSED_LEAP = 10,
    CHISELBROW_REFUSED_RETIRED = 11,
    CHISELBROW_REFUSED_TIME = 12
};

/* Stores one citation.
 *
 * input, input_len     the citation, and nothing after it; never changed
 * output, output_len   where the stored record goes
 *
 * Accepted: the first ten output bytes become the stored record, a record of
 * kind 1, and any bytes after them stay as they were. What the output held
 * before makes no difference. Handed in again, the ten bytes are accepted and
 * give the same ten bytes and the same day.
 *
 * Refused: no byte of the output changes.
 *
 * The answer is one number, to be taken apart by the three functions below:
 * the register day plus 2^32 times the refusal number plus 2^40 times the month
 * told with refusal 10. Accepted, the refusal number is 0; refused, the day is
 * 0; and no other refusal tells a month. Bits 48 and up are 0.
 *
 * Any bytes may be handed in, and any lengths. Only the bytes lent are read
 * or written. A pointer whose length is 0 may be null and stands for an empty
 * buffer: such an input is refused 1, and such an output is refused 8 where
 * nothing is wrong with the citation. The two buffers must not overlap.
 *
 * The call keeps no state, allocates nothing, makes no system call and ends
 * after a fixed handful of steps. It may be made from any number of threads
 * at once and from a signal handler. */
uint64_t chiselbrow_store(const uint8_t *input, size_t input_len,
                          uint8_t *output, size_t output_len);

/* The register day in an answer of chiselbrow_store or chiselbrow_import; 0 when
 * refused. Answers of chiselbrow_convert have none, and give 0; those of
 * chiselbrow_export have none either, see chiselbrow_units_cut. */
static inline uint32_t chiselbrow_day(uint64_t answer)
{
    return (uint32_t)(answer & 0xFFFFFFFFu);
}

/* The refusal number in an answer of any function; CHISELBROW_ACCEPTED when
 * stored, converted, exported or imported. */
static inline unsigned chiselbrow_refusal(uint64_t answer)
{
    return (unsigned)(answer >> 32 & 0xFFu);
}

/* With CHISELBROW_REFUSED_LEAP, the number of the leap month that the cited
 * year has, 1 to 12, or 0 if it has none; with any other answer of
 * chiselbrow_store 0. So ask chiselbrow_refusal first: 0 by itself does not say
 * that a year has no leap month. */
static inline unsigned chiselbrow_leap_month(uint64_t answer)
{
    return (unsigned)(answer >> 40 & 0xFFu);
}

/* Building a citation.
 *
 * Each of the four functions below writes a citation of its kind to an array
 * with room for it, and returns its size. Array and size are what
 * chiselbrow_store takes.
 *
 * Any numbers may be handed in; whether they name a day is for the storing
 * step to say. A number that is negative, or too large for its field, is
 * written as the largest that the field holds. That is never allowed, so the
 * citation is refused as the number itself has to be: year 70000 by 5, month
 * 300 by 6. It does not become another date. The parameters are wide for this
 * alone: an int, a size_t or a long that is out of range arrives as such. */

/* Not for hosts: the bytes of one field. */
static inline void chiselbrow_put_(uint8_t *to, int bytes, int64_t number)
{
    int64_t largest = (INT64_C(1) << 8 * bytes) - 1;

    if (number < 0 || number > largest)
        number = largest;
    for (int i = 0; i < bytes; i++)
        to[i] = (uint8_t)(number >> 8 * i & 0xFF);
}

/* Not for hosts: the five bytes by which all kinds begin. */
static inline void chiselbrow_begin_(uint8_t *cited, int64_t size,
                                     int64_t kind, int64_t system)
{
    chiselbrow_put_(cited, 2, size);
    chiselbrow_put_(cited + 2, 2, kind);
    chiselbrow_put_(cited + 4, 1, system);
}

/* By date: kind 1, the form that is stored. leap is 1 for a leap month and 0
 * for any other. */
static inline size_t
chiselbrow_cite_date(uint8_t cited[CHISELBROW_STORED_SIZE], int64_t system,
                     int64_t year, int64_t month, int64_t leap, int64_t day)
{
    chiselbrow_begin_(cited, CHISELBROW_STORED_SIZE, CHISELBROW_KIND_STORED,
                      system);
    chiselbrow_put_(cited + 5, 2, year);
    chiselbrow_put_(cited + 7, 1, month);
    chiselbrow_put_(cited + 8, 1, leap);
    chiselbrow_put_(cited + 9, 1, day);
    return CHISELBROW_STORED_SIZE;
}

/* By sixty-day name within a month: kind 5. Names are 1 to 60. */
static inline size_t
chiselbrow_cite_name(uint8_t cited[CHISELBROW_NAME_SIZE], int64_t system,
                     int64_t year, int64_t month, int64_t leap, int64_t name)
{
    chiselbrow_begin_(cited, CHISELBROW_NAME_SIZE, CHISELBROW_KIND_NAME,
                      system);
    chiselbrow_put_(cited + 5, 2, year);
    chiselbrow_put_(cited + 7, 1, month);
    chiselbrow_put_(cited + 8, 1, leap);
    chiselbrow_put_(cited + 9, 1, name);
    return CHISELBROW_NAME_SIZE;
}

/* By ordinal in the year: kind 3. */
static inline size_t
chiselbrow_cite_ordinal(uint8_t cited[CHISELBROW_ORDINAL_SIZE], int64_t system,
                        int64_t year, int64_t ordinal)
{
    chiselbrow_begin_(cited, CHISELBROW_ORDINAL_SIZE, CHISELBROW_KIND_ORDINAL,
                      system);
    chiselbrow_put_(cited + 5, 2, year);
    chiselbrow_put_(cited + 7, 2, ordinal);
    return CHISELBROW_ORDINAL_SIZE;
}

/* By register day: kind 4. */
static inline size_t
chiselbrow_cite_day(uint8_t cited[CHISELBROW_DAY_SIZE], int64_t system,
                    int64_t register_day)
{
    chiselbrow_begin_(cited, CHISELBROW_DAY_SIZE, CHISELBROW_KIND_DAY, system);
    chiselbrow_put_(cited + 5, 4, register_day);
    return CHISELBROW_DAY_SIZE;
}

/* What a stored record tells. */
struct chiselbrow_date {
    unsigned system;    /* CHISELBROW_GUANTIAN to CHISELBROW_JINGCHU */
    unsigned year;      /* 1 to 3000 */
    unsigned month;     /* 1 to 12 */
    unsigned leap;      /* 1 for a leap month, and otherwise 0 */
    unsigned day;       /* of the month, 1 to 30 */
};

/* Reads a stored record. Returns 1 and fills the date in if the bytes have the
 * form of one: ten of them, the length and kind of a stored record, and
 * numbers within the bounds beside the fields above. Returns 0 and leaves the
 * date alone if they have not. All that chiselbrow_store writes has the form.
 * Bytes from elsewhere can have it and name no day, as day 30 of a month of
 * 29; chiselbrow_store refuses those. The pointer may be null if the length is
 * 0. */
static inline int
chiselbrow_read_date(const uint8_t *record, size_t record_len,
                     struct chiselbrow_date *date)
{
    struct chiselbrow_date read;

    if (record_len != CHISELBROW_STORED_SIZE ||
        record[0] != CHISELBROW_STORED_SIZE || record[1] != 0 ||
        record[2] != CHISELBROW_KIND_STORED || record[3] != 0)
        return 0;
    read.system = record[4];
    read.year = record[5] + 256u * record[6];
    read.month = record[7];
    read.leap = record[8];
    read.day = record[9];
    if (read.system < CHISELBROW_GUANTIAN ||
        read.system > CHISELBROW_JINGCHU ||
        read.year < 1 || read.year > 3000 ||
        read.month < 1 || read.month > 12 || read.leap > 1 ||
        read.day < 1 || read.day > 30)
        return 0;
    *date = read;
    return 1;
}

/* Converts an old record: of the retired kind 2, with names 0 to 59, to kind 5.
 *
 * input, input_len     the old record, and nothing after it; never changed
 * output, output_len   where the record of kind 5 goes
 *
 * Converted: the first ten output bytes become those of the input, but for the
 * kind, byte 2, which is 5, and the name, byte 9, which is one higher; any
 * bytes after them stay as they were. What the output held before makes no
 * difference. The ten bytes are a citation that chiselbrow_store takes.
 *
 * Refused: no byte of the output changes. The first that holds is the one told,
 * in this order:
 *
 *     1   the input is shorter than 4 bytes
 *     2   the kind is not 2
 *     3   the length field is not 10, or the input is longer or shorter than
 *         that
 *     7   the name is above 59
 *     8   the output is shorter than 10 bytes
 *
 * The answer is 2^32 times the refusal number, and 0 when converted;
 * chiselbrow_refusal takes the number out.
 *
 * No more is judged. System, year, month and leap mark are taken over as they
 * are, whether they name a day or not: that is for the storing step to say, of
 * the converted record as it did of the old one. What is refused 1, 3 or 7 here
 * named no day in version 1.2 either. A record of any other kind is refused 2,
 * one that was converted before among them, so that no name rises twice.
 *
 * To put the new record in the place of the old one:
 *
 *     uint8_t renewed[CHISELBROW_NAME_SIZE];
 *     uint64_t answer = chiselbrow_convert(record, record_len,
 *                                          renewed, sizeof renewed);
 *
 *     if (chiselbrow_refusal(answer) == CHISELBROW_ACCEPTED)
 *         memcpy(record, renewed, sizeof renewed);
 *
 * Any bytes may be handed in, and any lengths. Only the bytes lent are read
 * or written. A pointer whose length is 0 may be null and stands for an empty
 * buffer: such an input is refused 1, and such an output is refused 8 where
 * nothing is wrong with the record. The two buffers must not overlap.
 *
 * The call keeps no state, allocates nothing, makes no system call and ends
 * after a fixed handful of steps. It may be made from any number of threads
 * at once and from a signal handler. */
uint64_t chiselbrow_convert(const uint8_t *input, size_t input_len,
                            uint8_t *output, size_t output_len);

/* Exports a day and a time of it as a row of the observatory's list.
 *
 * system               the system whose parts the time is in
 * day                  the register day; any is taken
 * parts, units         the time since midnight in parts of the day, and what is
 *                      left of a part in small units, of whatever size: as
 *                      `almanac year` tells them of a qi
 * output, output_len   where the row goes
 *
 * Exported: the first 13 output bytes become the row, with the fraction of the
 * day that the whole parts are; any bytes after them stay as they were. What the
 * output held before makes no difference. Small units are cut off, and the
 * answer says whether there were any.
 *
 * Refused: no byte of the output changes. The first that holds is the one told,
 * in this order:
 *
 *     4   the system is neither 1 nor 2
 *    12   the parts are not below those of a day, 12030 or 7290
 *     8   the output is shorter than 13 bytes
 *
 * The answer is 2^32 times the refusal number, plus 1 where small units were cut
 * off; chiselbrow_refusal and chiselbrow_units_cut take it apart.
 *
 * System, parts and units are wide, so that none is cut before it can be judged.
 * The day has the 32 bits of a row: one that is negative or larger has been cut
 * by C before the call. Only the bytes lent are written. A pointer whose length
 * is 0 may be null.
 *
 * The call keeps no state, allocates nothing, makes no system call and ends
 * after a fixed handful of steps. It may be made from any number of threads
 * at once and from a signal handler. Floats have to be rounded to the nearest,
 * as they are unless a program asks for another way; that the smallest be taken
 * for zero, as gcc -ffast-math asks, changes nothing. The floats' flag `inexact`
 * may be raised. */
uint64_t chiselbrow_export(uint64_t system, uint32_t day, uint64_t parts,
                           uint64_t units, uint8_t *output, size_t output_len);

/* Whether small units were cut off, in an answer of chiselbrow_export: 1 or 0;
 * 0 when refused. */
static inline int chiselbrow_units_cut(uint64_t answer)
{
    return (int)(answer & 1u);
}

/* Imports a row of the observatory's list.
 *
 * system               the system whose parts the time is to be told in
 * row, row_len         the row, and nothing after it; never changed
 *
 * Imported: the answer has the row's day as it stands, the tag, which tells what
 * the time came as, and the count of parts that the time settles to. A count is
 * taken as it is. A fraction settles to the largest count below the parts of a
 * day whose exported fraction is not above it. Negative zero settles to 0.
 *
 * Refused: the first that holds is the one told, in this order:
 *
 *     3   the row is longer or shorter than 13 bytes
 *     4   the system is neither 1 nor 2
 *     2   the tag is neither 1 nor 2
 *    12   tag 1: the fraction is not a number, below zero or not below one;
 *         tag 2: the parts are not below those of a day, or one of the six
 *         bytes after them is not zero
 *
 * The answer is the day, plus 2^32 times the refusal number, plus 2^40 times the
 * count, plus 2^56 times the tag, to be taken apart by chiselbrow_day,
 * chiselbrow_refusal and the two functions below. Refused, it is 2^32 times the
 * refusal number: there is neither day nor time.
 *
 *     uint64_t answer = chiselbrow_import(CHISELBROW_GUANTIAN,
 *                                         row, row_len);
 *
 *     if (chiselbrow_refusal(answer) == CHISELBROW_ACCEPTED)
 *         printf("day %lu, %u parts\n",
 *                (unsigned long)chiselbrow_day(answer),
 *                chiselbrow_parts(answer));
 *
 * Any bytes may be handed in, and any lengths. Only the bytes lent are read. A
 * pointer whose length is 0 may be null; such a row is refused 3.
 *
 * The call keeps no state, allocates nothing, makes no system call and ends
 * after a fixed handful of steps. It may be made from any number of threads
 * at once and from a signal handler. Floats have to be rounded to the nearest,
 * as they are unless a program asks for another way; that the smallest be taken
 * for zero, as gcc -ffast-math asks, changes nothing. The floats' flag `inexact`
 * may be raised. */
uint64_t chiselbrow_import(uint64_t system, const uint8_t *row,
                           size_t row_len);

/* The count of parts in an answer of chiselbrow_import; 0 when refused, so ask
 * chiselbrow_refusal first. */
static inline unsigned chiselbrow_parts(uint64_t answer)
{
    return (unsigned)(answer >> 40 & 0xFFFFu);
}

/* What the time came as, in an answer of chiselbrow_import:
 * CHISELBROW_TAG_FRACTION or CHISELBROW_TAG_PARTS; 0 when refused. */
static inline unsigned chiselbrow_tag(uint64_t answer)
{
    return (unsigned)(answer >> 56);
}

#ifdef __cplusplus
}
#endif

#endif

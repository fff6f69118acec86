"""The almanac of Guantian and Jiyuan beside the sky: its month heads, solstices and month numbers, and those by true
new moons at Kaifeng.

usage: python3 tests/sky ALMANAC

Ends with status 1 if, in the years of a system's use, fewer than half of the heads or of the solstices are on the true
day: then an anchor or a count of years is off.
"""
import sys
from collections import namedtuple

import ephem
import kaifeng
from compare import by_date, by_name, tally_citations, tally_days, tally_heads, tally_numbers, true_months
from pages import read_pages

SYSTEMS = {"G": 1, "J": 2}  # not Jingchu: by document 000 its solstices are days behind the sky
IN_USE = {"G": (1091, 1105), "J": (1106, 1135)}  # README.md tells by which source
# Year 3000 is left out: its last true month could only be numbered by a middle qi of the year after, and none is read.
OTHER_SPANS = ((1, 50), (2950, 2999), (1, 2999))
HOUR = 1 / 24
OF_SOLSTICE = "11"  # the number of the month that holds qi 0, the winter solstice

Row = namedtuple("Row", "title in_use heads solstices numbers dates names delta_t hour_less hour_more")


def within(span, entries):
    return [entry for entry in entries if span[0] <= entry.year <= span[1]]


def compare(letter, span, pages, moons):
    """One system's years beside the sky."""
    months = within(span, pages.months)
    solstices = [qi for qi in within(span, pages.qi) if qi.number == OF_SOLSTICE]
    true = true_months([kaifeng.civil_day(moon) for moon in moons], pages.qi)

    def heads(later):
        return tally_heads(months, [kaifeng.civil_day(moon + later) for moon in moons])

    in_use = span == IN_USE[letter]
    return Row(
        title=f"{letter} {span[0]:4} to {span[1]:4}{', in use' if in_use else '':8}",
        in_use=in_use,
        heads=heads(0),
        solstices=tally_days([qi.day - kaifeng.solstice_day(qi.year) for qi in solstices]),
        numbers=tally_numbers(months, true),
        dates=tally_citations(pages.months, within(span, true), by_date),
        names=tally_citations(pages.months, within(span, true), by_name),
        delta_t=[kaifeng.delta_t(months[place].head) for place in (0, -1)],
        # A smaller Delta T puts the moon later in UT.
        hour_less=heads(HOUR).same,
        hour_more=heads(-HOUR).same,
    )


def compare_all(almanac):
    pages = {letter: read_pages(almanac, system) for letter, system in SYSTEMS.items()}
    ends = [of.months[place].head for of in pages.values() for place in (0, -1)]
    moons = kaifeng.new_moons(min(ends), max(ends))
    return [
        compare(letter, span, pages[letter], moons) for letter in SYSTEMS for span in (IN_USE[letter], *OTHER_SPANS)
    ]


def share(part, whole):
    return f"{part} {100 * part / whole:5.1f}%"


def days_cells(of):
    return (of.count, *(share(part, of.count) for part in (of.same, of.early, of.late, of.more)), f"{of.mean:+.2f}")


def numbers_cells(of):
    return of.months, share(of.other, of.months), of.leap, share(of.leap_too, of.leap)


def citations_cells(of):
    return (of.count, *(share(part, of.count) for part in (of.right, of.day_off, of.month_off, of.refused)))


def delta_t_cells(row):
    return (*(f"{seconds:.0f}" for seconds in row.delta_t), row.heads.same, row.hour_less, row.hour_more)


def print_table(heading, columns, rows):
    """Rows are a title and cells."""
    for title, cells in [(heading, columns), *rows]:
        print(f"{title:22}" + "".join(f"{cell:>15}" for cell in cells))
    print()


def print_tables(rows):
    days = ("count", "true day", "a day early", "a day late", "further off", "mean, days")
    cited = ("days", "right", "a day off", "a month off", "refused")
    print(f"The almanac beside the sky at {kaifeng.EAST} E, local mean time, by ephem {ephem.__version__}.\n")
    print_table("Month heads", days, [(row.title, days_cells(row.heads)) for row in rows])
    print_table("Solstices", days, [(row.title, days_cells(row.solstices)) for row in rows])
    print("Months from true new moon to true new moon, numbered by the almanac's qi.\n")
    print_table(
        "Numbers", ("months", "another number", "leap months", "leap there too"),
        [(row.title, numbers_cells(row.numbers)) for row in rows],
    )
    print_table("Days cited by date", cited, [(row.title, citations_cells(row.dates)) for row in rows])
    print_table("Days cited by name", cited, [(row.title, citations_cells(row.names)) for row in rows])
    print("Delta T in seconds, by ephem; month heads on the true day with that, with an hour less and an hour more.\n")
    print_table(
        "Delta T", ("first", "last", "true day", "an hour less", "an hour more"),
        [(row.title, delta_t_cells(row)) for row in rows],
    )


def complaints(rows):
    return [
        f"{row.title}: most {what} are not on the true day"
        for row in rows
        if row.in_use
        for what, of in (("month heads", row.heads), ("solstices", row.solstices))
        if 2 * of.same < of.count
    ]


if __name__ == "__main__":
    compared = compare_all(sys.argv[1])
    print_tables(compared)
    sys.exit("\n".join(complaints(compared)) or 0)

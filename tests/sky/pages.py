"""The almanac's pages; man/almanac.1 tells their form."""
import subprocess
from collections import namedtuple

Pages = namedtuple("Pages", "months qi")
Month = namedtuple("Month", "head days year number")  # the number is text, with * if leap
MiddleQi = namedtuple("MiddleQi", "day year number")  # the number of the month that holds it
MIDDLE = range(0, 24, 2)  # qi 24 is qi 0 of the year after


def read_pages(almanac, system):
    """The months and middle qi of every year of a system, in order."""
    command = [almanac, "year", str(system), "1", "3000"]
    pages = Pages([], [])
    for kind, *fields in map(str.split, subprocess.check_output(command, text=True).splitlines()):
        if kind == "year":
            year = int(fields[1])
        elif kind == "qi" and int(fields[0]) in MIDDLE:
            pages.qi.append(MiddleQi(int(fields[1]), year, str((int(fields[0]) // 2 + 10) % 12 + 1)))
        elif kind == "month":
            pages.months.append(Month(int(fields[2]), int(fields[4]), year, fields[1]))
    return pages

#!/usr/bin/env python3
"""Stores the day that a date cites, by way of the shared library.

    store.py SYSTEM YEAR MONTH LEAP DAY
    store.py 1 1094 5 0 1

The system is 1 for Guantian, 2 for Jiyuan or 3 for Jingchu. The loader has to
find libchiselbrow.so.2: where it is not installed, LD_LIBRARY_PATH says where
it is. Printed is what store prints; so is the exit status. chiselbrow.h is the
manual.
"""

import ctypes
import struct
import sys

STORED_SIZE = 10
REFUSED_LEAP = 10  # the one refusal that tells a month


def load():
    """The storing step of the shared library."""
    store = ctypes.CDLL("libchiselbrow.so.2").chiselbrow_store
    store.restype = ctypes.c_uint64
    store.argtypes = [ctypes.c_char_p, ctypes.c_size_t, ctypes.c_char_p, ctypes.c_size_t]
    return store


def fitted(number, most):
    """A number for a field, or the field's largest, which is refused as the number would be."""
    return number if 0 <= number <= most else most


def cite_date(system, year, month, leap, day):
    """A citation of kind 1."""
    fields = [fitted(system, 0xFF), fitted(year, 0xFFFF), fitted(month, 0xFF), fitted(leap, 0xFF), fitted(day, 0xFF)]
    return struct.pack("<HHBHBBB", STORED_SIZE, 1, *fields)


def answer(store, citation):
    """The refusal number, the leap month told with it, the register day and the stored record."""
    stored = ctypes.create_string_buffer(STORED_SIZE)
    given = store(citation, len(citation), stored, STORED_SIZE)
    return given >> 32 & 0xFF, given >> 40 & 0xFF, given & 0xFFFFFFFF, stored.raw


def main():
    try:
        citation = cite_date(*map(int, sys.argv[1:]))
    except (ValueError, TypeError):
        print("usage: store.py SYSTEM YEAR MONTH LEAP DAY", file=sys.stderr)
        return 2
    if sys.stdout is None:
        print("store.py: standard output is closed", file=sys.stderr)
        return 2
    try:
        refusal, leap_month, day, stored = answer(load(), citation)
        if refusal != 0:
            told = [leap_month] if refusal == REFUSED_LEAP else []
            print("refused", refusal, *told, flush=True)
            return 1
        print("day", day)
        print("record", stored.hex(" ").upper(), flush=True)
        return 0
    except OSError as error:
        print("store.py:", error, file=sys.stderr)
        sys.stderr.flush()
        sys.stdout = None  # what could not be written is not tried again at the end
        return 2


if __name__ == "__main__":
    sys.exit(main())

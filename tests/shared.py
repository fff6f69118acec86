#!/usr/bin/env python3
"""The shared library, called from Python: case 9, a day of Jingchu, an old record, a row, refusals, and outputs that are
long and short."""

import ctypes
import os
import struct
import sys

os.chdir(os.path.join(os.path.dirname(os.path.abspath(__file__)), ".."))
library = ctypes.CDLL("build/libchiselbrow.so")
store, convert = library.chiselbrow_store, library.chiselbrow_convert
for call in store, convert:
    call.restype = ctypes.c_uint64
    call.argtypes = [ctypes.POINTER(ctypes.c_uint8), ctypes.c_size_t] * 2

CASE_9 = [
    "0A 00 01 00 01 46 04 05 00 01",
    "0A 00 05 00 01 46 04 05 00 26",
    "09 00 03 00 01 46 04 D0 00",
    "09 00 04 00 01 68 5C 20 00",
]
JINGCHU_238 = [
    "0A 00 01 00 03 EE 00 0A 01 01",
    "0A 00 05 00 03 EE 00 0A 01 19",
    "09 00 03 00 03 EE 00 63 01",
    "09 00 04 00 03 BB 97 1B 00",
]
ORDINAL_385 = "09 00 03 00 01 46 04 81 01"
LEAP_5_OF_1094 = "0A 00 01 00 01 46 04 05 01 01"
LEAP_5_OF_1092 = "0A 00 01 00 01 44 04 05 01 01"
NO_SYSTEM = "0A 00 01 00 04 46 04 05 00 01"
BEFORE_COUNT_DAY_0 = "09 00 04 00 03 CE 09 05 00"
OLD = "0A 00 02 00 01 46 04 05 00 25"
OLD_NO_NAME = "0A 00 02 00 01 46 04 05 00 3C"
OLD_SHORT = "09 00 02 00 01 46 04 05 00"


def check(call, cited, room, answer, written):
    """The call must answer so, leave these bytes and what was behind them, and leave its input alone."""
    citation = bytes.fromhex(cited)
    before = bytes(0xA5 ^ i for i in range(room))
    given = (ctypes.c_uint8 * len(citation))(*citation)
    output = (ctypes.c_uint8 * room)(*before)
    came = call(given, len(citation), output, room)
    expected = (answer, written + before[len(written):], citation)
    if (came, bytes(output), bytes(given)) != expected:
        sys.exit(f"shared.py: {call.__name__}, {cited}, room for {room}: {came:#x}, output {bytes(output).hex(' ')}")


for day, records in (2120808, CASE_9), (1808315, JINGCHU_238):
    for record in records:
        check(store, record, 10, day, bytes.fromhex(records[0]))
        check(store, record, 16, day, bytes.fromhex(records[0]))
        check(store, record, 9, 8 << 32, b"")
        check(store, record, 0, 8 << 32, b"")
for room in 0, 9, 10, 16:
    check(store, ORDINAL_385, room, 7 << 32, b"")
    check(store, LEAP_5_OF_1094, room, 4 << 40 | 10 << 32, b"")
    check(store, LEAP_5_OF_1092, room, 10 << 32, b"")
    check(store, NO_SYSTEM, room, 4 << 32, b"")
    check(store, BEFORE_COUNT_DAY_0, room, 7 << 32, b"")
    for old in OLD, OLD_NO_NAME, OLD_SHORT:
        check(store, old, room, 11 << 32, b"")
    check(convert, CASE_9[1], room, 2 << 32, b"")
    check(convert, OLD_SHORT, room, 3 << 32, b"")
    check(convert, OLD_NO_NAME, room, 7 << 32, b"")
for room in 0, 9:
    check(convert, OLD, room, 8 << 32, b"")
for room in 10, 16:
    check(convert, OLD, room, 0, bytes.fromhex(CASE_9[1]))
for call in store, convert:
    check(call, "", 16, 1 << 32, b"")
    if call(None, 0, None, 0) != 1 << 32:
        sys.exit(f"shared.py: {call.__name__}: null pointers are not refused 1")
export, import_row = library.chiselbrow_export, library.chiselbrow_import
export.restype = import_row.restype = ctypes.c_uint64
export.argtypes = [ctypes.c_uint64, ctypes.c_uint32, ctypes.c_uint64, ctypes.c_uint64, ctypes.c_char_p, ctypes.c_size_t]
import_row.argtypes = [ctypes.c_uint64, ctypes.c_char_p, ctypes.c_size_t]
for system, parts_in_day in (1, 12030), (2, 7290):
    for parts in 0, 1, parts_in_day // 3, parts_in_day - 1:
        output = ctypes.create_string_buffer(b"\xA5" * 16, 16)
        row = struct.pack("<IBd", 2120808, 1, parts / parts_in_day)
        if export(system, 2120808, parts, parts % 2, output, 16) != parts % 2 or output.raw != row + b"\xA5" * 3:
            sys.exit(f"shared.py: {parts} parts of system {system} are exported otherwise")
        if import_row(system, row, 13) != 1 << 56 | parts << 40 | 2120808:
            sys.exit(f"shared.py: the fraction of {parts} parts of system {system} settles otherwise")
if export(1, 0, 12030, 0, None, 0) != 12 << 32 or import_row(1, None, 0) != 3 << 32:
    sys.exit("shared.py: a row is not refused as it must be")
print("shared.py: two days in four kinds, an old record, rows, refusals that change no byte, outputs long and short")

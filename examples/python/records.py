#!/usr/bin/env python3
"""Prints the runs of bytes in a record file, or converts the file to Intel HEX or S-records:

    records.py FILE SIZE [ihex | srec]

SIZE is the size of the memory in bytes. The environment variable AVR_RECORDS_LIBRARY names the library, as made by
examples/c/build.sh; the default is the installed one.
"""

import ctypes
import itertools
import os
import sys
from pathlib import Path

SONAME = "libavr_records.so.0.9"
VERSION = 900
FORMATS = {"ihex": 1, "srec": 2}
OUT_OF_RANGE = 6
FAULT_TEXT = 40


class Outcome(ctypes.Structure):
    _fields_ = [
        ("line", ctypes.c_uint32),
        ("address", ctypes.c_uint32),
        ("fault", ctypes.c_uint8),
        ("ended", ctypes.c_bool),
    ]


class Cursor(ctypes.Structure):
    """The position in a file that is being written; all 0 at the beginning."""

    _fields_ = [
        ("address", ctypes.c_uint32),
        ("gone", ctypes.c_uint32),
        ("upper", ctypes.c_uint16),
        ("address_size", ctypes.c_uint8),
        ("ended", ctypes.c_uint8),
    ]


class Piece(ctypes.Structure):
    _fields_ = [("length", ctypes.c_size_t), ("fault", ctypes.c_uint8)]


def load():
    try:
        library = ctypes.CDLL(os.environ.get("AVR_RECORDS_LIBRARY", SONAME))
    except OSError as fault:
        sys.exit(f"{fault}: examples/c/build.sh builds the library, and ./install.sh --with-c installs it")
    octet = ctypes.c_uint8
    slice_of = [ctypes.POINTER(octet), ctypes.c_size_t]
    for name, arguments, result in (
        ("detect", slice_of, octet),
        ("read", [octet] + 3 * slice_of, Outcome),
        ("length", [octet] + 2 * slice_of, Piece),
        ("write", [octet] + 2 * slice_of + [ctypes.POINTER(Cursor)] + slice_of, Piece),
        ("fault_text", [octet] + slice_of, ctypes.c_size_t),
        ("version", [], ctypes.c_uint32),
    ):
        function = getattr(library, f"avr_records_{name}")
        function.argtypes, function.restype = arguments, result
    if library.avr_records_version() // 100 != VERSION // 100:
        raise ValueError(f"version {library.avr_records_version()} of the library, not {VERSION}")
    return library


def lent(data):
    """Returns the memory of a bytearray and its length, as the library takes them."""
    return (ctypes.c_uint8 * len(data)).from_buffer(data), len(data)


def fault_text(library, fault, line=0, address=0):
    text = bytearray(FAULT_TEXT)
    length = library.avr_records_fault_text(fault, *lent(text))
    place = f"line {line}: " if line else ""
    return place + text[:length].decode() + (f": {address:08X}" if fault == OUT_OF_RANGE else "")


def read(library, text, size):
    """Reads a record file. Returns the bytes of a memory of this size, its bitmap, and whether an end record came."""
    text, data, present = bytearray(text), bytearray(size), bytearray((size + 7) // 8)
    kind = library.avr_records_detect(*lent(text))
    outcome = library.avr_records_read(kind, *lent(text), *lent(data), *lent(present))
    if outcome.fault:
        raise ValueError(fault_text(library, outcome.fault, outcome.line, outcome.address))
    return data, present, outcome.ended


def pieces(library, kind, data, present, length=4096):
    """Yields the record file of a memory, `length` bytes at a time."""
    cursor, room = Cursor(), bytearray(length)
    while True:
        piece = library.avr_records_write(kind, *lent(data), *lent(present), cursor, *lent(room))
        if piece.fault:
            raise ValueError(fault_text(library, piece.fault))
        yield room[: piece.length]
        if piece.length < length:
            return


def runs(data, present):
    """Yields (address, bytes) of each longest run of bytes that are there."""
    for there, places in itertools.groupby(range(len(data)), lambda n: present[n // 8] >> n % 8 & 1):
        places = list(places)
        if there:
            yield places[0], data[places[0] : places[-1] + 1]


def main(file, size, kind=None):
    library = load()
    data, present, _ = read(library, Path(file).read_bytes(), int(size))
    if kind is not None:
        for piece in pieces(library, FORMATS[kind], data, present):
            sys.stdout.buffer.write(piece)
        return
    for address, run in runs(data, present):
        print(f"{address:08X}: {run.hex()}")


if __name__ == "__main__":
    if len(sys.argv) not in (3, 4) or sys.argv[3:] not in ([], ["ihex"], ["srec"]):
        sys.exit(__doc__.strip())
    try:
        main(*sys.argv[1:])
    except ValueError as fault:
        sys.exit(str(fault))

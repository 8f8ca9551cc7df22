"""ELF files for AVR: what they have for each memory, and the chip that they name."""

from __future__ import annotations

import os
import re
import struct
from typing import Iterable, Iterator, NamedTuple, Tuple

# the address of bytes, and these
Run = Tuple[int, bytes]

# the addresses of each memory in an ELF file, and all that it may have (a signature names the part, and is not written)
AREAS = {"flash": (0, 0x800000), "eeprom": (0x810000, 0x820000), "lock": (0x830000, 0x830001)}
AREAS.update({fuse: (0x820000 + place, 0x820001 + place) for place, fuse in enumerate(["lfuse", "hfuse", "efuse"])})
SIGNATURE = 0x840000
KNOWN = {
    **{"flash": AREAS["flash"], "eeprom": AREAS["eeprom"], "the fuses": (0x820000, 0x820003)},
    **{"the lock": AREAS["lock"], "the signature": (SIGNATURE, SIGNATURE + 3)},
}

# the memories of sections with these names
NAMED = dict(zip([".text", ".eeprom", ".fuse", ".lock", ".signature"], KNOWN), **{".data": "flash"})

# the kinds and the flags of sections with bytes for a memory, and what avr-gcc notes about the chip
KINDS, FLAGS = {1, 7, 14, 15, 16}, 0x300277
DEVICE_NOTE = ".note.gnu.avr.deviceinfo"
NOTE = re.compile(rb"\x04\0{3}.{4}\x01\0{3}AVR\0.{32}\0([a-z0-9]+)\0", re.S)

# an honest file has about 30 headers
MOST = 1000


class Segment(NamedTuple):
    """A program header. `offset` is the place in the file."""

    kind: int
    offset: int
    address: int
    load_address: int
    file_size: int
    memory_size: int
    flags: int
    align: int


class Header(NamedTuple):
    """A section header. `name` is a place in the section with the names, `offset` the place in the file."""

    name: int
    kind: int
    flags: int
    address: int
    offset: int
    size: int
    link: int
    info: int
    align: int
    entry_size: int


class Section(NamedTuple):
    """The bytes for a memory, at their load address."""

    name: str
    place: int
    held: memoryview


def headers_of(elf: bytes) -> tuple[list[Segment], list[tuple[str, Header]]]:
    """Returns the loaded segments of an ELF file for AVR, and its sections, each with its name."""
    # (32 bits, low byte first, version 1; a file that can be executed, for machine 83)
    if elf[4:7] != b"\1\1\1" or struct.unpack_from("<2HI", elf, 16) != (2, 83, 1):
        raise IndexError
    loads, at, _, _, size, count, wide, many, names = struct.unpack_from("<3I6H", elf, 28)
    if (count and size != 32) or (many and wide != 40) or count + many > MOST:
        raise IndexError
    if max(loads + 32 * count, at + 40 * many) > len(elf):
        raise IndexError
    segments = [Segment(*row) for row in struct.iter_unpack("<8I", elf[loads : loads + 32 * count])]
    sections = [Header(*row) for row in struct.iter_unpack("<10I", elf[at : at + 40 * many])]
    texts = sections[names]
    if texts.kind != 3 or any(section.name >= texts.size for section in sections):
        raise IndexError
    if any(section.kind not in (0, 8) and section.offset + section.size > len(elf) for section in sections):
        raise IndexError
    begins = [texts.offset + section.name for section in sections]
    named = [os.fsdecode(bytes(elf[begin : begin + 80]).partition(b"\0")[0]) for begin in begins]
    return [segment for segment in segments if segment.kind == 1], list(zip(named, sections))


def place_of(segments: list[Segment], section: Header) -> int | None:
    """Returns the load address of a section; None if not exactly one segment has it."""
    places = {
        segment.load_address + section.offset - segment.offset
        for segment in segments
        if segment.offset <= section.offset
        and section.offset + section.size <= segment.offset + min(segment.file_size, segment.memory_size)
        and section.address - segment.address == section.offset - segment.offset
    }
    return places.pop() if len(places) == 1 else None


def checked_place(name: str, section: Header, segments: list[Segment], left: int) -> int:
    """Returns the load address of a section. Raises ValueError if the section can't be read: its kind isn't known, it
    is longer than `left`, it isn't in exactly one segment, or it isn't in one memory, which is that of its name."""
    place = place_of(segments, section) if segments else section.address
    is_known = section.kind in KINDS and not section.flags & ~FLAGS
    if place is not None and is_known and section.size <= left:
        homes = [memory for memory, (low, high) in KNOWN.items() if low <= place and place + section.size <= high]
        if homes and NAMED.get(name, homes[0]) in homes:
            return place
    raise ValueError(f"has a section {name} that isn't taken")


def sections_of(elf: bytes) -> tuple[list[Section], str | None]:
    """Returns the sections of an ELF file for a memory, as avr-objcopy reads it, and the chip that the file names.
    Raises ValueError with the reason if programs may read the file in different ways."""
    try:
        segments, sections = headers_of(elf)
    except (struct.error, IndexError):
        raise ValueError("isn't taken as a linked ELF file for AVR")
    found: list[Section] = []
    left = len(elf)
    for name, header in sections:
        # (8: it has no bytes in the file; flag 2: it is in a memory)
        if header.kind not in (0, 8) and header.flags & 2 and header.size:
            place = checked_place(name, header, segments, left)
            left -= header.size
            found.append(Section(name, place, memoryview(elf)[header.offset : header.offset + header.size]))
    found.sort(key=lambda section: section.place)
    for one, other in zip(found, found[1:]):
        if one.place + len(one.held) > other.place:
            raise ValueError(f"has sections {one.name} and {other.name} that overlap")
    notes = [
        elf[header.offset : header.offset + min(header.size, MOST)] for name, header in sections if name == DEVICE_NOTE
    ]
    made = NOTE.match(notes[0]) if notes else None
    return found, made[1].decode() if made else None


def record(body: bytes) -> str:
    """Returns a record of Intel HEX: its sum ends it."""
    return f":{(body + bytes([-sum(body) & 255])).hex().upper()}\n"


def hex_rows(runs: Iterable[Run]) -> Iterator[str]:
    """Yields the rows of an Intel HEX file with these bytes at these addresses, each row after one with its base."""
    for begin, held in runs:
        for place in range(-(begin % 16), len(held), 16):
            at, row = begin + max(place, 0), bytes(held[max(place, 0) : place + 16])
            yield record(b"\2\0\0\4" + (at >> 16).to_bytes(2, "big"))
            yield record(bytes([len(row), at >> 8 & 255, at & 255, 0]) + row)
    yield ":00000001FF\n"

#!/usr/bin/env python3
"""Tests runs of the built program with an emulated part: the messages, output, files and status, the frames sent, and
the chip at the end. Each run is made over `emu:`, and again over TCP to the served emulator to see its frames. Then two
runs are made over bad links. (tests/rattle/runs_over_wires.rs has other faults of a link, and bad_lines.py has drawn
ones.)

Not proved: Proofs are about the sources, not about the compiled program or the system's files and sockets.

    tests/runs.py [CASE ..]        needs a built program (program.py)
"""

import shlex
import sys
from collections import namedtuple
from functools import partial

from cases import bytes_of, check, check_equal, named, run_cases, table
from line import BadLine
from program import CHIP_FILE, FRAMES, SIGNATURE, Room, frame, lines

# the addresses of an ATmega328P's memories in its chip file
PLACES = {"flash": 0, "eeprom": 32_768, "lfuse": 33_792, "hfuse": 33_793, "efuse": 33_794, "lock": 33_795}

# the frames that read 32 kB of flash in blocks of 256 bytes; flash addresses count words
READ_FLASH = " ".join(f"06{128 * block:08X} 14010020" for block in range(128))

# a run: the cells of tests/tables/runs.txt, whose head says how they are written
Run = namedtuple("Run", "words messages written before after frames")

room = Room()
room.keep("few.bin", b"\x0c\x94\x34\x00\xff\x12")
room.keep("a.hex", b":03000000010203F7\n:00000001FF\n")
room.keep("two_pages.hex", b":0100000011EE\n:01008200225B\n:00000001FF\n")
room.keep("high.hex", b":020000040002F8\n:0100000055AA\n:00000001FF\n")
room.keep("gaps.hex", b":0100000011EE\n:0100020033CA\n:00000001FF\n")


def chip_of(cell):
    """Returns a chip file of FF except for these bytes."""
    chip = bytearray(b"\xff" * CHIP_FILE)
    for place, digits in (item.split("=") for item in cell.split()):
        name, _, offset = place.partition("+")
        at, content = PLACES[name] + int(offset or "0", 16), bytes_of(digits)
        chip[at : at + len(content)] = content
    return bytes(chip)


def sent_by(run):
    """Returns the frames of a run, numbered from 1 and with LEAVE at the end."""
    bodies = [*run.frames.replace("READ-FLASH", READ_FLASH).split(), "110101"]
    return [*FRAMES[:5], *(frame(number, bytes_of(body)) for number, body in enumerate(bodies, 6))]


def prepare(run, chip_file):
    room.clear()
    if run.before != "-":
        room.put(chip_file, chip_of(run.before))


def look(label, run, found, chip_file):
    """Checks the outcome of a run, its chip and its files."""
    files = {name: bytes_of(content) for name, content in (item.split("=") for item in run.written.split())}
    status = int("error: " in run.messages)
    messages = [SIGNATURE, *filter(None, run.messages.split("; ")), *["done"] * (not status)]
    check_equal(label, found, (status, files.pop("-", b""), lines(*(messages if run.messages != "-" else []))))
    check(
        f"{label}: the chip", room.read(chip_file) == chip_of(run.after), f"{chip_file} is not the chip that is wanted"
    )
    for name, content in files.items():
        check_equal(f"{label}: {name}", room.read(name), content)


def over_emulator(label, run):
    prepare(run, "chip.bin")
    look(label, run, room.run(["-P", "emu:chip.bin", "-p", "m328p", *shlex.split(run.words)]), "chip.bin")


def over_line(label, run, fates=()):
    """Makes a run over a link to the served emulator, and checks its frames if they are given."""
    prepare(run, "served.bin")
    peer = BadLine(room, dict(fates))
    found = room.run(["-P", f"net:127.0.0.1:{peer.port}", "-p", "m328p", *shlex.split(run.words)])
    sent = peer.end()
    look(f"{label}, over a line", run, found, "served.bin")
    if run.frames != "-":
        check_equal(f"{label}: the number of frames", len(sent), len(sent_by(run)))
        check_equal(f"{label}: frames", sent, sent_by(run))


def over_both(label, run):
    """Makes a run over `emu:`, and again over a link without faults."""
    over_emulator(label, run)
    over_line(label, run)


# whole.bin, and the frames that write a block of four bytes of it to the EEPROM
PATTERN = bytes(place % 256 for place in range(1024))
BLOCKS = [f"06{at:08X} 150004C10AC1C2A0FFFF{PATTERN[at : at + 4].hex()}" for at in range(0, 1024, 4)]

# each run, and what goes wrong with a frame of its number
BAD_LINES = {
    "no answer to any of four attempts to erase: nothing is written": (
        Run("-V -U flash:w:0x12:m", "error: no answer", "", "flash=0F", "", " ".join(["120900AC800000"] * 4)),
        dict.fromkeys(range(6, 10), "lost answer"),
    ),
    # (block 124 comes again, under the numbers 00 and 01)
    "the answer to frame 255, which writes block 124, is late, and skipped": (
        Run(
            *("-V -U eeprom:w:whole.bin:r", "eeprom: 1024 bytes written", "", "-", f"eeprom={PATTERN.hex()}"),
            " ".join([*BLOCKS[:125], *BLOCKS[124:]]),
        ),
        {255: "late answer"},
    ),
}


def a_large_flash():
    """A byte at 128 KiB is written to an ATmega2560: the address of its page has bit 31."""
    room.clear()
    peer = BadLine(room, {}, part="m2560")
    words = ["-p", "m2560", "-P", f"net:127.0.0.1:{peer.port}", "-V", "-U", "flash:w:high.hex"]
    messages = ["device signature = 1E 98 01", "chip erased", "flash: 1 bytes written", "done"]
    check_equal("a large flash", room.run(words), (0, b"", lines(*messages)))
    sent = peer.end()
    check_equal("the number of frames", len(sent), 9)
    page = frame(8, bytes.fromhex("130100C10A404C20FFFF 55") + b"\xff" * 255)
    wanted = [bytes.fromhex("1B 07 00 05 0E 06 80 01 00 00 90"), page, bytes.fromhex("1B 09 00 03 0E 11 01 01 0E")]
    check_equal("frames 7 to 9", sent[6:], wanted)
    chip = room.read("served.bin") or b""
    check_equal(
        "the chip's bytes other than FF", {at: byte for at, byte in enumerate(chip) if byte != 0xFF}, {0x20000: 0x55}
    )
    check_equal("the chip's length", len(chip), 266_244)


CASES = {label: partial(over_both, label, Run(*cells)) for label, *cells in table("runs")}
CASES |= {label: partial(over_line, label, run, fates) for label, (run, fates) in BAD_LINES.items()}
CASES |= named(a_large_flash)

if __name__ == "__main__":
    # (each case has a run over a port, which waits a second for a reply)
    sys.exit(run_cases(CASES, __doc__, timed=CASES))

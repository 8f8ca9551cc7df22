#!/usr/bin/env python3
"""Makes calls of the built program fail in turn: allocations, reads, writes, opens and socket calls.

Not proved: No proof shows that the failure of a system call reaches the program, or that `out of memory` is reported
only after a failed allocation.

    tests/faults.py [CASE ..]        needs a built program (program.py) and a C compiler (tests/refuse.c);
                                     without one all is left out

The runs over the emulator begin with a chip that isn't empty. Its file must stay whole: each byte is the old one, an
erased one, or that of an undisturbed run's end. For every run below and every kind of call, the nth call is refused,
for n from 1 until a run has no nth call. For allocations, the nth and all later ones are refused too.

A run with a refused call must end in one of two ways. Either it sends and prints a prefix of the undisturbed run, then
prints the error's line, and ends with status 1. The line names the file that the call was for; if a message couldn't be
written, it may be incomplete. Or, if the call wasn't needed, the run is the same as the undisturbed one. Three faults
must change nothing: a read or write interrupted by a signal, one that moves only one byte, and an error from closing a
file. (Some allocations of the unproved program are not seen here.)
"""

import os
import shutil
import subprocess
import sys
import time
from collections import Counter
from functools import partial
from pathlib import Path

from cases import check, check_equal, leave_out, run_cases
from line import BadLine
from program import REPLIES, CHIP_FILE, EMULATED, ENDS, FRAMES, STDIO, TOP, Room, Server, full_chip

# the chip files that the runs begin with, by the part's name
CHIPS = {"m328p": full_chip(), "m2560": full_chip(262_144, 4096)}

# the program's options, its standard input, and its status if that isn't 0
RUNS = {
    "a session opened and closed": (STDIO, REPLIES),
    "an empty file as flash": ([*EMULATED, "-U", "flash:w:empty.bin"], b""),
    "a fuse written and read": ([*EMULATED, "-U", "lfuse:w:0xE2:m", "-U", "lfuse:r:-:h"], b""),
    "the whole EEPROM": ([*EMULATED, "-V", "-U", "eeprom:w:whole.bin:r"], b""),
    "a firmware, and read back": ([*EMULATED, "-U", "flash:w:blink.hex", "-U", "flash:r:out.hex:i"], b""),
    "a firmware of 256 kB, and read back": (
        ["-p", "m2560", "-P", "emu:chip.bin", "-U", "flash:w:large.bin:r", "-U", "flash:r:out.hex:i"],
        b"",
    ),
    "an image on standard input": ([*EMULATED, "-U", "flash:w:-:r"], bytes(range(1, 251)) * 20),
    "a part file": ([*EMULATED, "--parts", "parts.toml"], b""),
    "a request for help": (["--help"], b""),
    "an option that isn't known": (["-p", "m328p", "--nonsense"], b"", 1),
    "no part": (["-P", "stdio:"], b"", 1),
}

# (before a file is created, the run looks whether it is the held chip, or a file that the run makes beside it)
CREATED = "out.hex: cannot be created"

# The lines that may report a refused call of each kind; the file is the one that the call was for. (A device that can't
# allocate fails like any other.)
LINES = {
    "growth": [
        "out of memory",
        "link cannot be written",
        "link cannot be read",
        "chip.bin: cannot be written",
        CREATED,
    ],
    "read": ["link cannot be read", "{file}: cannot be read"],
    "write": ["link cannot be written", "{file}: cannot be written"],
    "open": ["{file}: cannot be opened", "{file}: cannot be created", "{file}: cannot be written", CREATED],
    "file": ["{file}: cannot be written", "{file}: cannot be created", "{file}: cannot be opened", CREATED],
    "socket": ["port net:127.0.0.1:PORT cannot be opened", "port PORT cannot be opened"],
}

# the calls that are refused
FAULTS = [*((kind, "fail") for kind in LINES), ("growth", "onwards")]

# the faults that must change nothing
HARMLESS = [("read", "interrupt"), ("read", "one"), ("write", "interrupt"), ("write", "one"), ("close", "fail")]


class Sweep:
    """Makes runs with these options, with one call refused in each."""

    def __init__(self, room, shim, label, words, given, status=0):
        self.room, self.shim, self.label, self.words, self.given = room, shim, label, words, given
        self.old = None
        self.sound = self.done()
        if self.sound[0] != status:
            raise AssertionError(f"{label}: {self.sound}")

    def prepare(self):
        """Empties the room, except for the chip."""
        self.room.clear()
        self.old = None
        if "emu:chip.bin" in self.words:
            self.old = CHIPS[self.words[self.words.index("-p") + 1]]
            self.room.put("chip.bin", self.old)

    def refusing(self, refused):
        """Returns the variables with which this call is refused."""
        return {"LD_PRELOAD": str(self.shim), "REFUSE": refused, "REFUSED": "refused"} if refused else {}

    def done(self, refused=None):
        """Returns the status, the output and the messages, and the files that were made."""
        self.prepare()
        ran = self.room.run(self.words, self.given, self.refusing(refused))
        return *ran, self.room.read("chip.bin"), self.room.read("out.hex")

    def through(self, kind, how):
        """Refuses each call of a kind in turn, up to the first with a wrong outcome. Returns the count of each
        outcome."""
        counts = Counter()
        for number in range(1, 100_000):
            done = self.done(f"{kind} {number} {how}")
            fault = f"{self.label}: {kind} {number}, {how}"
            if self.room.read("refused") is None:
                check_equal(f"{fault}, which is not met", done, self.sound)
                return counts
            is_sound = done == self.sound
            if not check(fault, is_sound or (kind, how) in FAULTS and self.is_reported(kind, how, *done), done):
                return counts
            counts["unneeded" if is_sound else "reported"] += 1

    def is_reported(self, kind, how, status, output, messages, chip, read_file):
        """Returns whether a failed run reports the failure and each half-written file."""
        refused = Path(self.room.read("refused").decode())
        # (the folder is synced after the chip is in place)
        file = "chip.bin" if refused == self.room.folder.resolve() else refused.name.split(".avrstk-")[0]
        lines = [line.format(file=file) for line in LINES[kind]]
        if how == "onwards" and self.old and chip == self.old:
            # (after an error of the session there is no memory to save the chip either, and that is reported too)
            lines += [f"{line}\navrstk: error: out of memory" for line in lines]
        # (the line is whole, unless a message couldn't be written)
        is_reported = any(is_front_and_line(messages, self.sound[2], line, kind == "write") for line in lines)
        is_chip = chip in (self.old, self.sound[3]) or is_on_its_way(self.old, chip, self.sound[3])
        is_front = read_file is None or (self.sound[4] or b"").startswith(read_file)
        return status == 1 and self.sound[1].startswith(output) and is_reported and is_chip and is_front


class Serving(Sweep):
    """Serves the emulated programmer to a caller that runs a session, and keeps the chip file that is left."""

    def done(self, refused=None):
        self.room.clear()
        self.old = CHIPS["m328p"]
        self.room.put("chip.bin", self.old)
        with Server(self.room, "chip.bin", waits=False, env=os.environ | self.refusing(refused)) as server:
            received = received_from(server)
            status, _, messages = server.end()
        return status, received, messages.replace(str(server.port).encode(), b"PORT"), self.room.read("chip.bin"), None


def received_from(server):
    """Sends the frames of a session, and returns the replies up to the end of the connection."""
    received = b""
    try:
        with caller_of(server) as caller:
            for frame, end in zip(FRAMES, ENDS):
                caller.sendall(frame)
                while len(received) < end:
                    piece = caller.recv(4096)
                    if not piece:
                        return received
                    received += piece
    except OSError:
        pass
    return received


def caller_of(server):
    """Returns a connection to a program that will serve. Fails if the program ends before."""
    while server.started.poll() is None:
        try:
            return server.call()
        except ConnectionRefusedError:
            time.sleep(0.002)
    raise ConnectionRefusedError(f"nobody serves at {server.port}")


def is_front_and_line(messages, sound, line, may_stop):
    """Returns whether these are a prefix of an undisturbed run's messages, then the error line, or part of it if
    `may_stop`."""
    if may_stop and sound.startswith(messages):
        return True
    return any(
        sound.startswith(messages[:end]) and is_front_of_error(messages[end:], line.encode(), may_stop)
        for end in range(len(messages) + 1)
    )


def is_front_of_error(messages, line, may_stop):
    """Returns whether this is the error line, or a prefix of it if `may_stop`."""
    whole = b"avrstk: error: " + line + b"\n"
    return messages == whole or (may_stop and whole.startswith(messages))


class OverNet(Sweep):
    """A run over a link whose reply to frame 255 is late: it takes a second, the timeout of a network port."""

    def done(self, refused=None):
        self.prepare()
        peer = BadLine(self.room, {255: "late answer"})
        self.words = ["-p", "m328p", "-P", f"net:127.0.0.1:{peer.port}", "-V", "-U", "eeprom:w:whole.bin:r"]
        status, _, messages = self.room.run(self.words, self.given, self.refusing(refused))
        return (
            status,
            b"".join(peer.end()),
            messages.replace(str(peer.port).encode(), b"PORT"),
            self.room.read("served.bin"),
            None,
        )

    def is_reported(self, kind, how, status, output, messages, chip, read_file):
        return super().is_reported(kind, how, status, output, messages, None, None) and len(chip or b"") == CHIP_FILE


def is_on_its_way(old, chip, end):
    """Returns whether an interrupted run may leave this chip: it is whole, and each byte is the old one, FF, or that of
    the run's end."""
    if old is None or chip is None or len(chip) != len(old):
        return False
    return all(now in (was, 0xFF, then) for was, now, then in zip(old, chip, end))


ALL = [*FAULTS, *HARMLESS]
# its runs wait a second for a reply
LATE_LINE = "the whole EEPROM over a line with a late answer"


def swept(sweep, ways):
    """Refuses each call of a run, in these ways."""
    for kind, how in ways:
        counts = sweep.through(kind, how)
        print(f"{counts['reported']:6} reported, {counts['unneeded']:5} of no effect: {kind}, {how}", flush=True)


def prepared():
    """Makes a room with the library that refuses calls."""
    room = Room()
    room.put("large.bin", bytes((7 * place + place // 256) % 255 for place in range(262_144)))
    shim = room.folder / "refuse.so"
    subprocess.run(["cc", "-O2", "-shared", "-fPIC", "-o", str(shim), str(TOP / "tests/refuse.c"), "-ldl"], check=True)
    room.given |= {"large.bin", shim.name}
    return room, shim


def every_fault(room, shim, label, run):
    swept(Sweep(room, shim, label, *run), ALL)


def over_late_line(room, shim, label):
    late = OverNet(room, shim, label, [], b"")
    swept(late, [("growth", "fail"), ("growth", "onwards"), ("open", "fail"), ("socket", "fail")])


def while_serving(room, shim, label):
    served = Serving(room, shim, label, [], b"")
    check_equal("the replies of an undisturbed session", served.sound[1], REPLIES)
    swept(served, ALL)


def cases_of(room, shim):
    """Returns the cases by their names."""
    cases = {label: partial(every_fault, room, shim, label, run) for label, run in RUNS.items()}
    for label, case in [(LATE_LINE, over_late_line), ("a session served at a port", while_serving)]:
        cases[label] = partial(case, room, shim, label)
    return cases


def main():
    if not shutil.which("cc"):
        cases = {name: partial(leave_out, name, "there is no C compiler") for name in cases_of(None, None)}
        return run_cases(cases, __doc__)
    return run_cases(cases_of(*prepared()), __doc__, timed=[LATE_LINE])


if __name__ == "__main__":
    sys.exit(main())

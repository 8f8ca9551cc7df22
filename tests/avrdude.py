#!/usr/bin/env python3
"""Runs AVRDUDE 7.1 as a client of the programmer that `avrstk --serve` emulates. AVRDUDE's writes, reads and erases
must have the same results as this program's over `emu:`.

Not proved: No proof covers AVRDUDE, which is not part of this project.

    tests/avrdude.py [CASE ..]    needs a built program (program.py) and AVRDUDE 7.1; without it all is left out

For an ATmega328P, an ATtiny85 and an ATmega2560, each request is made twice with the same options: by AVRDUDE over
`net:` to `--serve`, and by this program over `emu:` to a chip file of its own. Flash and EEPROM are filled with random
bytes, and fuses and the lock are written. All memories are read into files, compared, and erased, with EEPROM kept and
not kept. Some requests must fail. Both programs end with the same outcome; the server ends with status 0 and prints
nothing. The chip files are identical, and so are the files read. (What the server does with the frames of a client that
is killed is a law.)

This tests one version, three parts and these requests. AVRDUDE sends only the bits of an extended fuse that its
configuration has, and 0 for the others: the values here have no others.
"""

import os
import random
import subprocess
import sys
from dataclasses import dataclass

from cases import PATIENCE, attempts, check, check_equal, leave_out, run_cases
from program import Room, Server, has_avrdude


@dataclass
class Part:
    """A part: the sizes of its flash and EEPROM, and values of its fuses."""

    flash: int
    eeprom: int
    fuses: dict

    @property
    def chip(self):
        return self.flash + self.eeprom + 4


PARTS = {
    "m328p": Part(32_768, 1_024, {"lfuse": 0xE2, "hfuse": 0xD9, "efuse": 0x05}),
    "t85": Part(8_192, 512, {"lfuse": 0x62, "hfuse": 0xDF, "efuse": 0x00}),
    "m2560": Part(262_144, 4_096, {"lfuse": 0x5E, "hfuse": 0x99, "efuse": 0x04}),
}
# the bit of the high fuse that keeps the EEPROM if it is 0
KEEPS_EEPROM = 0x08
MEMORIES = ["flash", "eeprom", "lfuse", "hfuse", "efuse", "lock", "signature", "calibration"]


def drawn(name, size):
    """Returns `size` bytes without FF, the same each time."""
    source = random.Random(name)
    return bytes(source.randrange(255) for _ in range(size))


def updates(*texts):
    return [word for text in texts for word in ["-U", text]]


class Beside:
    """Two chips of one part: one served to AVRDUDE, one used by this program over `emu:`. Both are new at first."""

    def __init__(self, name, part=None, parts=None):
        self.name, self.part, self.room = name, part or PARTS[name], Room()
        # a part that isn't built in comes from a part file
        self.front = ["--parts", str(parts)] if parts else []
        self.flash, self.eeprom = drawn(f"{name} flash", self.part.flash), drawn(f"{name} EEPROM", self.part.eeprom)
        self.room.put("flash.bin", self.flash)
        self.room.put("eeprom.bin", self.eeprom)

    def asked(self, port, words):
        """Starts AVRDUDE with these options. Its messages are not this project's, so only its status is checked."""
        command = ["avrdude", "-q", "-c", "stk500v2", "-p", self.name, "-P", f"net:127.0.0.1:{port}", *words]
        # a home folder without a configuration of the user's own
        home = {"HOME": str(self.room.folder), "XDG_CONFIG_HOME": str(self.room.folder)}
        how = {"stdin": subprocess.DEVNULL, "stdout": subprocess.DEVNULL, "stderr": subprocess.PIPE}
        return subprocess.Popen(command, cwd=self.room.folder, env=os.environ | home, **how)

    def by_avrdude(self, words, part=None):
        """Returns AVRDUDE's status and messages, and how the server ended. AVRDUDE waits only a time for
        replies: if a pause was measured, the run is made again over the same chip."""
        chip = self.room.read("served.bin")

        def ran():
            (self.room.folder / "served.bin").unlink(missing_ok=True)
            if chip is not None:
                self.room.put("served.bin", chip)
            with Server(self.room, "served.bin", part or self.name, self.front) as server:
                with self.asked(server.port, words) as client:
                    _, messages = client.communicate(timeout=PATIENCE)
                return client.returncode, messages, server.end()

        return attempts(ran, lambda _: False)[-1]

    def by_this(self, words):
        """Makes the same request over `emu:`."""
        status, _, messages = self.room.run(
            [*self.front, "-c", "stk500v2", "-p", self.name, "-P", "emu:own.bin", "-qq", *words]
        )
        return status, messages

    def chips_are_alike(self, what):
        theirs, own = self.room.read("served.bin"), self.room.read("own.bin")
        sizes = [len(chip or b"") for chip in (theirs, own)]
        differ = [at for at, (a, b) in enumerate(zip(theirs or b"", own or b"")) if a != b]
        good = sizes == [self.part.chip] * 2 and not differ
        check(f"{self.name}: {what}: the chip file", good, f"{sizes} bytes, {len(differ)} differ, at {differ[:8]}")

    def request(self, what, words, status=0):
        """Makes one request by both programs."""
        found, messages, ended = self.by_avrdude(words)
        own, own_messages = self.by_this(words)
        good = (found != 0) == (own != 0) == (status != 0)
        detail = f"{found}, {own}\n{messages.decode()}\n{own_messages.decode()}"
        check(f"{self.name}: {what}: both end alike", good, detail)
        check_equal(f"{self.name}: {what}: the server", ended, (0, b"", b""))
        self.chips_are_alike(what)

    def written(self):
        """Writes flash, EEPROM, fuses and the lock, each in one request; the fuses and the lock after the memories."""
        self.request("flash", updates("flash:w:flash.bin:r"))
        self.holds("flash", 0, self.flash)
        self.request("EEPROM", updates("eeprom:w:eeprom.bin:r"))
        self.holds("EEPROM", self.part.flash, self.eeprom)
        for at, (fuse, value) in enumerate(self.part.fuses.items()):
            self.request(fuse, updates(f"{fuse}:w:{value:#04x}:m"))
            self.holds(fuse, self.part.flash + self.part.eeprom + at, bytes([value]))

    def holds(self, what, at, content):
        chip = self.room.read("served.bin") or b""
        check(f"{self.name}: {what}: is in the chip", chip[at : at + len(content)] == content)

    def read(self):
        """Both programs read each memory into a file; each compares the records that the other wrote."""
        found, messages, _ = self.by_avrdude(updates(*(f"{memory}:r:{memory}.theirs:r" for memory in MEMORIES)))
        own, _ = self.by_this(updates(*(f"{memory}:r:{memory}.own:r" for memory in MEMORIES)))
        check(f"{self.name}: all memories are read", found == own == 0, f"{found}, {own}\n{messages.decode()}")
        for memory in MEMORIES:
            theirs, ours = self.room.read(f"{memory}.theirs"), self.room.read(f"{memory}.own")
            check(
                f"{self.name}: {memory} is read alike", theirs is not None and theirs == ours, f"{theirs}\n{ours}"[:300]
            )
        records = ["flash:{}:read.hex:i", "eeprom:{}:read.srec:s"]
        by_both = [self.by_avrdude, self.by_this]
        for reads, compares in [by_both, by_both[::-1]]:
            found = reads(updates(*(record.format("r") for record in records)))[0]
            again = compares(updates(*(record.format("v") for record in records)))[0]
            check_equal(f"{self.name}: records of one are read by the other, {reads.__name__}", (found, again), (0, 0))
        self.chips_are_alike("after all was read")

    def refused(self):
        """Requests that must fail leave the chip unchanged: a different image compared, a part with another
        signature."""
        self.request("another image", updates("eeprom:v:flash.bin:r", "lfuse:w:0x00:m"), status=1)
        other = next(name for name in PARTS if name != self.name)
        (self.room.folder / "served.bin").rename(self.room.folder / "kept.bin")
        found, _, ended = self.by_avrdude(updates("lfuse:w:0x00:m"), part=other)
        check_equal(f"{self.name}: another part", (found != 0, ended), (True, (0, b"", b"")))
        blank = b"\xff" * PARTS[other].chip
        check(f"{self.name}: another part's chip file", self.room.read("served.bin") == blank)
        (self.room.folder / "kept.bin").rename(self.room.folder / "served.bin")

    def erased(self):
        """Erases a locked chip, with the EEPROM kept, and then not kept."""
        high = self.part.fuses["hfuse"]
        self.request("the fuse that keeps the EEPROM", updates(f"hfuse:w:{high & ~KEEPS_EEPROM:#04x}:m"))
        self.request("the lock", updates("lock:w:0xFC:m"))
        self.request("an erase that keeps the EEPROM", ["-e"])
        self.holds("an erase that keeps the EEPROM", self.part.flash, self.eeprom)
        self.request("the fuse that lets it go", updates(f"hfuse:w:{high:#04x}:m"))
        self.request("an erase", ["-e"])
        self.holds("an erase", 0, b"\xff" * (self.part.flash + self.part.eeprom))


def all_of(name):
    """Runs AVRDUDE's requests to a part one after another, most of them over the chip that the one before left."""
    if not has_avrdude():
        return leave_out(f"AVRDUDE as the client of --serve, {name}", "AVRDUDE 7.1 is not installed")
    beside = Beside(name)
    beside.written()
    beside.read()
    beside.refused()
    beside.erased()


CASES = {name: lambda name=name: all_of(name) for name in PARTS}

if __name__ == "__main__":
    sys.exit(run_cases(CASES, __doc__, timed=CASES))

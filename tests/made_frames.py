#!/usr/bin/env python3
"""Makes runs that the promise doesn't cover, such as runs over a link that forges a frame, and some to compare with.
The link loses, changes and repeats nothing, but pauses once inside a reply. That reply carries bytes of the chip that
look like replies to the retried commands. The verified run ends with status 0, but the chip has another byte than the
image. A second link damages one byte, the size of a frame: the programmer takes the following bytes as the rest of that
frame, and the run ends with an error. A third one brings a reply of an earlier run, and a chip has less flash than its
part is said to have.

Not proved: The promise says nothing about most of these runs.

    tests/made_frames.py       needs a built program (program.py)
"""

import sys
import time

from cases import check, check_equal, named, run_cases
from line import Link, frames_of
from program import Room, Server, frame, lines, xor
from records import hex_of

room = Room()

SIGNATURE = "device signature = 1E 93 0B"
# an ATtiny85's bytes of flash, and of EEPROM, fuses and lock together
FLASH, REST = 8_192, 512 + 4
# the place of the low fuse in a chip file
LFUSE = FLASH + 512
# the most seconds that a paused link waits for the caller to send again; a caller does after its timeout of a second
PAUSE = 30
# the byte that the image has at address 0
WANTED = 0x55


class Line(Link):
    """An ordered link to the served programmer of an ATtiny85 with this chip. `spoil` changes a frame by its number. If
    `pauses` has the prefix of a reply, the link pauses in it: eleven bytes later, until the caller has sent again."""

    def __init__(self, chip, spoil=lambda number, request: request, pauses=b""):
        self.spoil, self.pauses, self.came, self.paused = spoil, pauses, b"", False
        room.clear()
        room.put("chip.bin", chip)
        room.put("image.hex", hex_of([(0, bytes([WANTED]))]))
        super().__init__(Server(room, "chip.bin", "t85"))

    def there(self, caller, programmer):
        for request in frames_of(caller):
            self.received.append(request)
            programmer.sendall(self.spoil(request[1], request))

    def back(self, programmer, caller):
        given = 0
        while piece := programmer.recv(4096):
            self.came += piece
            place = self.came.find(self.pauses) if self.pauses and not self.paused else -1
            cut = place + len(self.pauses) + 11
            if place >= 0 and len(self.came) >= cut:
                sent, end = len(self.received), time.monotonic() + PAUSE
                caller.sendall(self.came[given:cut])
                given, self.paused = cut, True
                while len(self.received) == sent and time.monotonic() < end:
                    time.sleep(0.02)
            caller.sendall(self.came[given:])
            given = len(self.came)

    def run(self, *words):
        """Returns the status and messages of a run over this link, and the chip after it."""
        status, _, messages = room.run(["-p", "t85", "-P", f"net:127.0.0.1:{self.port}", *words])
        self.end()
        return (status, messages), room.read("chip.bin") or b""


def chip_of(block):
    return bytes(block) + b"\xff" * (FLASH - len(block) + REST)


def made_contents(first, read):
    """Returns the first 256 bytes of flash, with `first` at address 0. The reply number `read` to a read of them has,
    after its 12th byte, what looks like two replies: to the address of the next attempt, and to its read. The second
    has WANTED at address 0. Its remaining bytes and its XOR come from the rest of this reply and from later replies;
    one byte of the block is free to make the XOR right."""
    again, place = read + 1, 20
    block = bytearray(b"\xff" * 256)
    block[0], block[place - 10] = first, 0
    block[place - 9 : place - 1] = frame(again, b"\x06\x00")
    block[place : place + 8] = bytes([0x1B, read + 2, 1, 3, 0x0E, 0x14, 0x00, WANTED])
    # the bytes from which the host cuts a frame of 265 bytes
    for free in set(range(256)) - {0x1B}:
        block[place - 1] = free
        answered = frame(read, b"\x14\x00", bytes(block), b"\x00")
        received = bytes(block[place:]) + answered[-2:] + frame(again, b"\x06\x00")
        received += frame(read + 2, b"\x14\x00", bytes(block), b"\x00")
        if xor(received[:265]) == 0 and received[263] == 0:
            return block
    raise SystemExit("no contents have this XOR")


def reply_to_read(number):
    """Returns the beginning of the reply to a read of 256 bytes."""
    return bytes([0x1B, number, 1, 3, 0x0E, 0x14, 0x00])


def a_verified_run_is_wrong():
    """With a pause in a made reply a run ends with status 0 although the chip has another byte than the image or the
    file. An image is compared; one is written to flash that isn't erased and so can't take the byte; a file is read."""
    for name, first, read, words, messages in [
        ("compared", 0xAA, 7, ["-U", "flash:v:image.hex:i"], ["flash: 1 bytes verified"]),
        (
            "written",
            0x50,
            9,
            ["-D", "-U", "flash:w:image.hex:i"],
            ["flash: 1 bytes written", "flash: 1 bytes verified"],
        ),
        ("read", 0xAA, 7, ["-A", "-U", "flash:r:out.bin:r"], [f"flash: {FLASH} bytes read"]),
    ]:
        line = Line(chip_of(made_contents(first, read)), pauses=reply_to_read(read))
        found, chip = line.run(*words)
        check(
            f"{name} over a pause: status 0", line.paused and found == (0, lines(SIGNATURE, *messages, "done")), found
        )
        check(f"{name}: the chip has another byte", chip[0] == first, chip[:1])
    file = room.read("out.bin")
    others = sum(one != other for one, other in zip(file, chip))
    check("the file isn't the chip", len(file) == FLASH and 0 < others < 256, (len(file), others))


def without_a_pause_all_is_seen():
    """Such a run without its pause in a reply reports the wrong byte; a pause in replies with other bytes does no
    harm."""
    line = Line(chip_of(made_contents(0xAA, 7)))
    found, _ = line.run("-U", "flash:v:image.hex:i")
    expected = lines(SIGNATURE, "error: flash: address 00000000: 55 expected, AA found")
    check_equal("without the pause the difference is reported", found, (1, expected))
    line = Line(chip_of(bytes((place * 37 + 11) % 256 for place in range(256))), pauses=reply_to_read(7))
    found, chip = line.run("-A", "-U", "flash:r:out.bin:r")
    expected = lines(SIGNATURE, f"flash: {FLASH} bytes read", "done")
    check("other contents heal over the pause", line.paused and found == (0, expected), found)
    check("and the file is the chip", room.read("out.bin") == chip[:FLASH])


def a_spoiled_size_swallows_frames():
    """If the link damages the size of one LOAD_ADDRESS, the programmer takes the next two frames, and five bytes
    of the third, as its rest."""
    content = bytes((place * 91 + 3) % 256 for place in range(FLASH))
    line = Line(
        content + b"\xff" * REST,
        spoil=lambda number, request: request[:3] + b"\x20" + request[4:] if number == 8 else request,
    )
    room.put("image.bin", content)
    found, chip = line.run("-U", "flash:v:image.bin:r")
    check_equal("a spoiled size: `no answer`, status 1", found, (1, lines(SIGNATURE, "error: no answer")))
    check("the refusal of it came late", frame(8, b"\xb0\xc1") in line.came)
    check("and the chip is as it was", chip[:FLASH] == content)


# an ATtiny85 with twice its flash
TWICE = """[parts.t85]
signature = "1E930B"
flash_size = 16384
flash_page = 64
eeprom_size = 512
eeprom_page = 4
eesave_bit = 3
"""


def with_lfuse(value):
    """Returns an erased ATtiny85 with this low fuse."""
    return b"\xff" * LFUSE + bytes([value]) + b"\xff" * (FLASH + REST - LFUSE - 1)


class Keeps(Line):
    """A link that keeps the reply to frame 6. Given one of an earlier run, it loses frame 6 and brings that instead."""

    def __init__(self, chip, earlier=None):
        self.kept, self.earlier = None, earlier
        super().__init__(chip)

    def serve(self, caller):
        with self.server.call() as programmer:
            replies = frames_of(programmer)
            for request in frames_of(caller):
                if request[1] == 6 and self.earlier:
                    caller.sendall(self.earlier)
                    continue
                programmer.sendall(request)
                reply = next(replies)
                if request[1] == 6:
                    self.kept = reply
                else:
                    caller.sendall(reply)


def a_reply_of_an_earlier_run_is_taken():
    """A late reply of a first run is taken in the second one. Frame 6 reads the fuse; the reply says 62."""
    expected = lines(SIGNATURE, "lfuse: 1 bytes verified", "done")
    first = Keeps(with_lfuse(0x62))
    found, chip = first.run("-U", "lfuse:v:0x62:m")
    check_equal("the first run reads the fuse again", (found, chip[LFUSE]), ((0, expected), 0x62))
    found, chip = Keeps(with_lfuse(0xE2), first.kept).run("-U", "lfuse:v:0x62:m")
    check_equal(
        "the second one takes the old reply: status 0, and another fuse", (found, chip[LFUSE]), ((0, expected), 0xE2)
    )


def a_part_with_too_much_flash():
    """If a part file gives an ATtiny85 twice its flash, a verified write of two equal halves ends with status 0. The
    wrong size goes unnoticed."""
    flash = bytes((place * 37 + 11) % 256 for place in range(FLASH))
    room.clear()
    room.put("image.bin", flash + flash)
    room.put("part.toml", TWICE.encode())
    server = Server(room, "chip.bin", "t85")
    words = ["--parts", "part.toml", "-p", "t85", "-P", f"net:127.0.0.1:{server.port}", "-U", "flash:w:image.bin:r"]
    status, _, messages = room.run(words)
    server.end()
    expected = lines(
        SIGNATURE, "chip erased", f"flash: {2 * FLASH} bytes written", f"flash: {2 * FLASH} bytes verified", "done"
    )
    check("twice the flash: status 0 and `verified`", (status, messages) == (0, expected), (status, messages))
    check("and the chip has half of the image", (room.read("chip.bin") or b"")[:FLASH] == flash)


CASES = named(
    *(a_verified_run_is_wrong, without_a_pause_all_is_seen, a_spoiled_size_swallows_frames),
    *(a_reply_of_an_earlier_run_is_taken, a_part_with_too_much_flash),
)


if __name__ == "__main__":
    sys.exit(run_cases(CASES, __doc__, timed=CASES))

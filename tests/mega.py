#!/usr/bin/env python3
"""Tests a programmer that is not this project's own: the Arduino Mega 2560's bootloader from Debian's package, on an
ATmega2560 simulated by simavr (mega.c), behind `net:`.

Not proved: No proof covers the bootloader and the simulator, which are programs of others.

    tests/mega.py [CASE ..]    needs a built program (program.py); cc, and the Debian packages
                               libsimavr-dev and arduino-core-avr; without them all is left out

Flash is written and verified with -D, read, and compared with another image and with the simulated chip's own flash.
A byte is lost each way. Each connection resets the simulated chip. Requests that this bootloader doesn't support are
made too. The simulation writes a page as given: it doesn't model that writing an unerased page only clears bits. Nor
does it model locks, fuses or wires.
"""

import itertools
import os
import random
import shutil
import socket
import subprocess
import sys
from pathlib import Path

import serial
from avrdude import drawn, updates
from cases import PATIENCE, check, check_equal, leave_out, named, run_cases
from line import Link, frames_of
from program import PROGRAM, TOP, Room, frame, lines
from records import hex_of, image_of

HEX = Path("/usr/share/arduino/hardware/arduino/avr/bootloaders/stk500v2/stk500boot_v2_mega2560.hex")
HEADER = Path("/usr/include/simavr/sim_avr.h")
FLASH, BOOT, PAGE = 262_144, 0x3E000, 256
SIGNATURE = "device signature = 1E 98 01"


class Board:
    """A simulated board at a port of its own. Its flash outside the boot section has this content."""

    def __init__(self, content=b""):
        self.room = Room()
        self.room.put("flash.bin", content + b"\xff" * (FLASH - len(content)))
        built = self.room.folder / "mega"
        subprocess.run(["cc", "-O2", "-o", built, TOP / "tests/mega.c", "-lsimavr"], check=True)
        how = {"stdout": subprocess.PIPE, "stderr": subprocess.DEVNULL, "cwd": self.room.folder}
        self.started = subprocess.Popen([built, HEX, "flash.bin"], **how)
        self.port = int(self.started.stdout.readline())

    def __enter__(self):
        return self

    def __exit__(self, *_):
        self.started.kill()
        self.started.communicate()

    def run(self, words, port=None):
        """Returns the status and messages of a run over the board, once its flash is saved."""
        words = ["-c", "stk500v2", "-p", "m2560", "-P", f"net:127.0.0.1:{port or self.port}", *words]
        with self.room.start(words) as started:
            _, messages = started.communicate(timeout=PATIENCE)
        self.started.stdout.readline()
        return started.returncode, messages

    def stop(self):
        """(It is no server of a single session, as serial.Board has one.)"""

    end = stop

    def call(self):
        return socket.create_connection(("127.0.0.1", self.port))

    def flash(self):
        return self.room.read("flash.bin")

    def holds(self, what, application):
        """Checks that the flash has this application and is erased up to the boot section, which has the bootloader."""
        flash = self.flash()
        wanted = application + b"\xff" * (BOOT - len(application))
        differ = [at for at in range(BOOT) if flash[at] != wanted[at]]
        check(f"{what}: the chip's flash", not differ, f"{len(differ)} bytes differ, at {differ[:8]}")
        check_equal(f"{what}: the chip's boot section", flash[BOOT:], bootloader())


def bootloader():
    """Returns the boot section from the hex file."""
    image = image_of(HEX.read_bytes())
    return bytes(image.get(at, 0xFF) for at in range(BOOT, FLASH))


class LosingLine(Link):
    """A link to the board that loses one byte: the nth, from 0, on the way up to it or down from it."""

    def __init__(self, board, way, place):
        self.way, self.place, self.lost = way, place, None
        super().__init__(board)

    def there(self, giver, taker):
        self.pass_on(giver, taker, self.place if self.way == "up" else -1)

    def back(self, giver, taker):
        self.pass_on(giver, taker, self.place if self.way == "down" else -1)

    def pass_on(self, giver, taker, place):
        count = 0
        while piece := giver.recv(4096):
            at = place - count
            count += len(piece)
            if 0 <= at < len(piece):
                self.lost = piece[at]
                piece = piece[:at] + piece[at + 1 :]
            taker.sendall(piece)


def written_and_read():
    """Flash across 64 KiB and 128 KiB is written, verified and read correctly."""
    image = drawn("image", 140_000)
    with Board() as board:
        board.room.put("image.bin", image)
        ended = board.run(["-D", *updates("flash:w:image.bin:r")])
        texts = [SIGNATURE, "flash: 140000 bytes written", "flash: 140000 bytes verified", "done"]
        check_equal("written", ended, (0, lines(*texts)))
        board.holds("written", image)
        ended = board.run(updates("flash:r:back.bin:r"))
        wanted = board.flash().rstrip(b"\xff")
        check_equal("read", ended, (0, lines(SIGNATURE, f"flash: {len(wanted)} bytes read", "done")))
        check_equal("what was read", board.room.read("back.bin"), wanted)


def another_image():
    """A failed comparison reports the address, and doesn't change the flash."""
    image = drawn("small", 1_000)
    with Board(image) as board:
        board.room.put("other.bin", image[:700] + bytes([image[700] ^ 1]) + image[701:])
        text = f"error: flash: address {700:08X}: {image[700] ^ 1:02X} expected, {image[700]:02X} found"
        ended = board.run(updates("flash:v:other.bin:r"))
        check_equal("another image", ended, (1, lines(SIGNATURE, text)))
        board.holds("another image", image)


def lost_bytes():
    """Loses a byte of SIGN_ON, of a page or of the reply to either, once in a run; the run repeats the command."""
    image = drawn("small", 1_000)
    for way, place in [("up", 4), ("up", 300), ("down", 3), ("down", 80)]:
        with Board() as board:
            board.room.put("image.bin", image)
            line = LosingLine(board, way, place)
            ended = board.run(["-D", "-V", *updates("flash:w:image.bin:r")], line.port)
            what = f"byte {place} {way} is lost"
            check_equal(what, ended, (0, lines(SIGNATURE, "flash: 1000 bytes written", "done")))
            check(f"{what}: it was", line.lost is not None)
            board.holds(what, image)


def reset_by_the_connection():
    """Each connection resets the simulated chip, which starts the bootloader: three runs in a row end well."""
    with Board() as board:
        for seed in ["first", "second", "third"]:
            image = drawn(seed, 1_024)
            board.room.put("image.bin", image)
            ended = board.run(["-D", "-V", *updates("flash:w:image.bin:r")])
            check_equal(f"reset, {seed}", ended, (0, lines(SIGNATURE, "flash: 1024 bytes written", "done")))
            board.holds(f"reset, {seed}", image)


def erased_from_the_front():
    """With each page write, the bootloader erases the next page from address 0 on, whichever page is written. So an
    image with a higher start erases the bytes at the front, and a retried page erases the page after it."""
    image, old = drawn("small", 1_024), bytes(0x2000)
    with Board(old) as board:
        board.room.put("further.hex", hex_of([(0x1000, image)]))
        ended = board.run(["-D", "-V", *updates("flash:w:further.hex:i")])
        check_equal("an image further on", ended, (0, lines(SIGNATURE, "flash: 1024 bytes written", "done")))
        board.holds("an image further on", b"\xff" * 1_024 + old[1_024:0x1000] + image + old[0x1400:])
    with Board(old) as board:
        board.room.put("image.bin", image)
        line = LosingLine(board, "down", 80)
        ended = board.run(["-D", "-V", *updates("flash:w:image.bin:r")], line.port)
        check_equal("a page sent again", ended, (0, lines(SIGNATURE, "flash: 1024 bytes written", "done")))
        board.holds("a page sent again", image + b"\xff" * PAGE + old[1_024 + PAGE :])


def eeprom():
    """The first 256 bytes of EEPROM can be verified. Above, the bootloader reads the wrong bytes, because it takes a
    byte address as a word address."""
    with Board() as board:
        board.room.put("short.bin", drawn("short", 256))
        ended = board.run(["-D", *updates("eeprom:w:short.bin:r")])
        texts = [SIGNATURE, "eeprom: 256 bytes written", "eeprom: 256 bytes verified", "done"]
        check_equal("EEPROM of 256 bytes", ended, (0, lines(*texts)))
        board.room.put("long.bin", drawn("long", 600))
        status, messages = board.run(["-D", *updates("eeprom:w:long.bin:r")])
        front = lines(SIGNATURE, "eeprom: 600 bytes written") + b"avrstk: error: eeprom: address 00000100: "
        check_equal("EEPROM of 600 bytes", (status, messages[: len(front)]), (1, front))


def refused():
    """A request that this bootloader doesn't support ends the run, and leaves the flash unchanged."""
    image = drawn("small", 1_000)
    asked = {
        "an erase": (["-e"], "12"),
        "flash without -D": (updates("flash:w:image.bin:r"), "12"),
        "a fuse": (["-D", *updates("lfuse:w:0xFF:m")], "17"),
        "the calibration": (updates("calibration:r:-:h"), "1C"),
    }
    with Board(image) as board:
        board.room.put("image.bin", drawn("another", 1_000))
        for what, (words, command) in asked.items():
            text = f"error: command {command} refused with status C0"
            check_equal(what, board.run(words), (1, lines(SIGNATURE, text)))
            board.holds(what, image)


def asked_first():
    """With -c stk500v2 avrstk-serial reads an ATmega2560's calibration before it uses EEPROM above 255, or with -D
    writes flash that this bootloader can't. If the device is this bootloader, the run is refused. Other runs are made
    at once."""
    old, image = drawn("old", 0x2000), drawn("small", 1_024)
    files = {"a.hex": [(0, image)], "late.hex": [(0x1000, image)], "gap.hex": [(0, b"x"), (512, b"x")]}
    for name, runs in files.items():
        serial.room.put(name, hex_of(runs))
    serial.room.put("long.bin", drawn("long", 600))
    front, end = "the device refuses to read the calibration, as a bootloader does: ", "; nothing was written"
    order = "a Mega's bootloader erases pages from 0 on: give one image that begins at 0 and leaves out no page"
    far = "-U {}: a Mega's bootloader reads EEPROM above 255 at other addresses: use a programmer"
    asked = {f"flash:w:{name}.hex:i": order for name in ("late", "gap")}
    for update in "eeprom:w:long.bin:r", "eeprom:r:back.bin:r", "eeprom:v:long.bin:r":
        asked[update] = far.format(update)
    cases = [(["-D", "-V", "-U", update], why) for update, why in asked.items()]
    cases.append((["-q", "-q", "-D", *updates("flash:w:a.hex:i", "flash:w:late.hex:i")], order))
    with Board(old) as board:

        def ran(words, way):
            plug = serial.Board(server=board) if way == "a device" else None
            port = plug.device if plug else f"net:127.0.0.1:{board.port}"
            found = serial.run(["-p", "m2560", "-P", port, *words])
            if plug:
                plug.end()
            board.started.stdout.readline()
            return found

        for (words, why), way in itertools.product(cases, ["net:", "a device"]):
            status, output, printed, own = ran(words, way)
            what = f"{way} {words}"
            check_equal(what, (status, output, printed, len(own)), (1, b"", b"", 1))
            check(f"{what}: why", own[0].startswith(front + why) and own[0].endswith(end), own)
            board.holds(what, old)
        check("nothing was read", not (serial.room.folder / "back.bin").exists())
        status, _, printed, own = ran(["-D", "-V", *updates("flash:w:a.hex:i")], "a device")
        texts = [SIGNATURE, "flash: 1024 bytes written", "done"]
        check_equal("from 0 on", (status, printed, own), (0, lines(*texts), []))
        board.holds("from 0 on", image + old[1_024:])


def lock():
    """This bootloader replies OK to a lock byte of 0xFC, and doesn't write it: it writes only the boot lock bits."""
    with Board() as board:
        texts = [SIGNATURE, "lock: 1 bytes written"]
        ended = board.run(["-D", "-V", *updates("lock:w:0xFC:m")])
        check_equal("the lock, not compared", ended, (0, lines(*texts, "done")))
        status, messages = board.run(["-D", *updates("lock:w:0xFC:m")])
        front = lines(*texts) + b"avrstk: error: lock: address 00000000: FC expected, "
        check_equal("the lock", (status, messages[: len(front)]), (1, front))


def bodies(draw):
    """Yields bodies of commands in their order, each with the bytes of its reply that are compared, if not all: simavr
    doesn't model fuses and locks."""

    def load(word):
        return b"\x06" + (word | 1 << 31).to_bytes(4, "big"), None

    def write(held):
        return b"\x13\1\0" + bytes.fromhex("C10A404C20FFFF") + held, None

    def read(code, count):
        return bytes([code]) + count.to_bytes(2, "big") + b"\x20", None

    yield from [(b"\x01", None), (bytes.fromhex("10C8641920005303AC530000"), None), (b"\x02\x9e\1", None)]
    yield from [(bytes([3, parameter]), None) for parameter in (0x80, 0x81, 0x90, 0x91, 0x92, 0x98)]
    yield from [(bytes([0x1B, 4, 0x30, 0, index, 0]), None) for index in range(4)]
    for first, third in [(0x30, 0), (0x30, 1), (0x30, 2), (0xAC, 0), (0, 0), (0x20, 7)]:
        yield bytes([0x1D, 4, 4, 0, first, 0, third, 0]), None
    yield bytes.fromhex("1D040400500000 00"), slice(0, 5)
    yield bytes.fromhex("180450000000"), slice(0, 2)
    yield bytes.fromhex("1A0458000000"), slice(0, 2)
    yield from [(bytes.fromhex(digits), None) for digits in ("17ACA000E2", "1C0438000000", "77", "120900AC800000")]
    # (each page that is written follows those that are erased, or is empty)
    for word in (0, 0x80, 0x100, 0x7F80, 0x180, 0x10000):
        yield from [load(word), write(draw.randbytes(256) if word < 0x200 else b"\xff" * 256)]
    for word in (0, 0x80, 0x1C0, 0x7F80, 0x10000):
        yield from [load(word), read(0x14, 256), read(0x14, draw.randrange(2, 256, 2))]
    # (the refused erase begins again with the first page)
    yield from [
        (bytes.fromhex("120900AC800000"), None),
        load(0x280),
        write(b"\xff" * 256),
        load(0),
        write(draw.randbytes(256)),
    ]
    yield from [load(0), read(0x14, 256), read(0x14, 256), load(0x280), read(0x14, 256)]
    for at in (0, 3, 250, 1_000):
        held = draw.randbytes(draw.randrange(1, 40))
        yield b"\x06" + at.to_bytes(4, "big"), None
        yield b"\x15" + len(held).to_bytes(2, "big") + bytes.fromhex("C10AC1C2A0FFFF") + held, None
        yield b"\x15" + len(held).to_bytes(2, "big") + bytes.fromhex("C10AC1C2A0FFFF") + held, None
    for at in (0, 128, 250, 256, 500, 1_000, 2_040):
        yield b"\x06" + at.to_bytes(4, "big"), None
        yield from [read(0x16, 256), read(0x16, 7)]
    yield b"\x11\1\1", None


def exchanged(link, number, body, noise=b""):
    """Sends a command, after other bytes, and returns the reply's body."""
    link.sendall(noise + frame(number, body))
    reply = next(frames_of(link))
    check_equal("the reply's number", reply[1], number % 256)
    return reply[5:-1]


def the_double():
    """avrstk-serve --mega gives the replies of this bootloader to most commands, without the values of fuses and lock,
    and leaves the same flash."""
    old = drawn("old", 0x9000) + b"\xff" * (FLASH - 0x9000)
    with Board(old) as board:
        room = board.room
        room.put("double.bin", board_chip(board.flash()))
        words = ["0", "-p", "m2560", "--chip", "double.bin", "--mega"]
        how = {"cwd": room.folder, "env": os.environ | {"AVRSTK": str(PROGRAM)}, "stdout": subprocess.PIPE}
        with subprocess.Popen([TOP / "avrstk-serve", *words], **how) as double:
            port = int(double.stdout.readline().rpartition(b":")[2])
            with board.call() as real, socket.create_connection(("127.0.0.1", port)) as ours:
                spoiled = frame(7, b"\x01")[:-1] + b"\x7f"
                for number, (body, compared) in enumerate(bodies(random.Random(1)), 1):
                    noise = [b"", b"noise", b"\x1b\7\0\1\x0f", spoiled][number % 4]
                    found, wanted = (
                        exchanged(device, number, body, noise)[compared or slice(None)] for device in (ours, real)
                    )
                    check_equal(f"command {number}, {body[:6].hex(' ')}", found, wanted)
            board.started.stdout.readline()
            double.terminate()
        check_equal("the double's status", double.returncode, 0)
        differ = [at for at in range(BOOT) if board.flash()[at] != room.read("double.bin")[at]]
        check("the flash", not differ, differ[:8])
        check("something was written", board.flash()[:BOOT] != old[:BOOT])


def board_chip(flash):
    """Returns the chip file of an ATmega2560 with this flash."""
    return flash + b"\xff" * 4096 + b"\xff\x99\xfd\xff"


CASES = named(
    *(written_and_read, another_image, lost_bytes, reset_by_the_connection),
    *(erased_from_the_front, eeprom, refused, asked_first, lock, the_double),
)


def main():
    missing = [str(path) for path in (HEX, HEADER) if not path.exists()]
    if shutil.which("cc") is None:
        missing.append("cc")
    if missing:
        leave_out("the bootloader of a board on simavr", f"{' and '.join(missing)} is not installed")
        return run_cases({}, __doc__)
    return run_cases(CASES, __doc__, timed=CASES)


if __name__ == "__main__":
    sys.exit(main())

#!/usr/bin/env python3
"""Tests avrstk-serial over boards that speak STK500 version 1: an Uno's bootloader (optiboot), an old Nano's
(ATmegaBOOT) and the sketch ArduinoISP, each on an ATmega328P simulated by simavr (board.c).

Not proved: No proof covers the script that speaks version 1, and bootloaders and the simulator are programs of others.

    tests/boards.py [CASE ..]    needs a built program (program.py), cc, and Debian's libsimavr-dev, libelf-dev,
                                 arduino-core-avr, gcc-avr and avr-libc; ArduinoISP is in Debian's package arduino
    FULL=1 tests/boards.py ..    runs some 1,470 sessions, of which some 1,250 have faults; without it a share

Most cases run in the board's own time, so the machine's load changes nothing: a second passes for the program when the
board has sent nothing for a second of its own. They use the part of avrstk-serial that replies to frames. Two firmwares
are compiled a second time, for higher speeds, for runs with faults over a small part of the flash."""

import collections
import contextlib
import ctypes
import os
import random
import re
import shutil
import signal
import socket
import subprocess
import sys
import threading
import time
from functools import lru_cache, partial
from pathlib import Path

import serial
from cases import PATIENCE, check, check_equal, leave_out, named, put_program, run_cases, sampled
from line import frames_of
from program import PROGRAM, TOP, Room, frame, has_avrdude, lines
from records import hex_of, image_of

sys.path[:0] = [str(TOP / "lib/avrstk")]
from avrstk_common import Frames, is_frame  # noqa: E402
from avrstk_version1 import Version1  # noqa: E402

CORE = Path("/usr/share/arduino/hardware/arduino/avr")
SKETCHES = [TOP / "out/ArduinoISP.ino", Path("/usr/share/doc/arduino/examples/11.ArduinoISP/ArduinoISP/ArduinoISP.ino")]
SKETCH = next((path for path in SKETCHES if path.exists()), None)
FLASH, EEPROM, PAGE = 32_768, 1_024, 128
FUSES = bytes([0x62, 0xD9, 0xFF, 0xFF])
TINY = '[parts.tiny]\nsignature = "1E950F"\nflash_size = 2048\nflash_page = 128\neeprom_size = 64\neeprom_page = 4\n'
TINY += "eesave_bit = 3\n"
# of each kind: where its code starts, and its speed
KINDS = {
    "optiboot": (0x7E00, 115_200),
    "optiboot-fast": (0x7E00, 1_000_000),
    "ATmegaBOOT": (0x7800, 57_600),
    "ArduinoISP": (0, 19_200),
    "ArduinoISP-fast": (0, 250_000),
}
WHATS = ["lost", "twice", *range(8)]
# how often a run is made whose board may be late
MOST_LATE = 5
room = Room()


def compiled(name, *words):
    to = [name] if "avr-objcopy" in words else ["-o", name]
    subprocess.run([*words, *to], check=True, cwd=room.folder, timeout=PATIENCE)
    return room.folder / name


def optiboot(name, baud):
    """Compiles Debian's source. (Its own hex file is longer than 512 bytes; these options make the code fit.)"""
    small = "-fno-split-wide-types -fno-inline-small-functions -fno-tree-scev-cprop -fno-move-loop-invariants -mrelax"
    flags = [*f"-Os -w {small} -mmcu=atmega328p -DF_CPU=16000000L -DLED_START_FLASHES=1 -DBAUD_RATE={baud}L".split()]
    compiled(f"{name}.o", "avr-gcc", *flags, "-c", CORE / "bootloaders/optiboot/optiboot.c")
    places = "-Wl,--section-start=.text=0x7e00 -Wl,--section-start=.version=0x7ffe -Wl,--relax -nostartfiles"
    compiled(f"{name}.elf", "avr-gcc", "-Os", "-mmcu=atmega328p", *places.split(), f"{name}.o")


def sketch(name, baud):
    """Compiles ArduinoISP with the Arduino core, and the prototypes that the Arduino program adds."""
    text = "#include <Arduino.h>\nvoid avrisp();\nuint8_t write_flash_pages(int length);\n"
    text += "uint8_t write_eeprom_chunk(unsigned int start, unsigned int length);\n"
    text += SKETCH.read_text().replace("#define BAUDRATE\t19200", f"#define BAUDRATE {baud}")
    room.put(f"{name}.cpp", text.encode())
    folders = [f"-I{CORE / folder}" for folder in ("cores/arduino", "variants/standard", "libraries/SPI/src")]
    flags = ["-Os", "-w", "-mmcu=atmega328p", "-DF_CPU=16000000L", "-DARDUINO=10819", "-DDECIMAL_DIG=17", *folders]
    flags += ["-ffunction-sections", "-fdata-sections", "-DARDUINO_AVR_UNO", "-DARDUINO_ARCH_AVR"]
    plus = [*flags, "-std=gnu++11", "-fpermissive", "-fno-exceptions", "-fno-threadsafe-statics"]
    known = [file for file in (CORE / "cores/arduino").iterdir() if file.suffix in (".c", ".cpp", ".S")]
    files = [*known, *(CORE / "libraries/SPI/src").glob("*.cpp"), room.folder / f"{name}.cpp"]
    for at, file in enumerate(files):
        how = {".c": ["avr-gcc", *flags], ".S": ["avr-gcc", *flags, "-x", "assembler-with-cpp"]}.get(
            file.suffix, ["avr-g++", *plus]
        )
        compiled(f"{name}.{at}.o", *how, "-c", file)
    compiled(
        f"{name}.elf",
        "avr-gcc",
        "-Os",
        "-mmcu=atmega328p",
        "-Wl,--gc-sections",
        *(f"{name}.{at}.o" for at in range(len(files))),
        "-lm",
    )


@lru_cache
def firmware(kind):
    """Returns the hex file of a kind of board."""
    file = CORE / "bootloaders/atmega/ATmegaBOOT_168_atmega328.hex"
    if kind != "ATmegaBOOT":
        (sketch if kind.startswith("ArduinoISP") else optiboot)(kind, KINDS[kind][1])
        file = compiled(f"{kind}.all.hex", "avr-objcopy", "-O", "ihex", "-R", ".eeprom", f"{kind}.elf")
    # (simavr's reader takes only records of data)
    rows = [row for row in file.read_text().split() if row[7:9] in ("00", "01")]
    room.put(f"{kind}.hex", "\n".join([*rows, ""]).encode())
    return room.folder / f"{kind}.hex"


@lru_cache
def library():
    """Returns the file of the simulated board as a library."""
    return compiled("board.so", "cc", "-O3", "-shared", "-fPIC", TOP / "tests/board.c", "-lsimavr", "-lelf")


@lru_cache
def silence():
    return compiled("silence.so", "cc", "-O2", "-shared", "-fPIC", TOP / "tests/silence.c", "-ldl")


class Fates:
    """What becomes of each byte of a way: faults at places, or by chance of about one byte in `every`."""

    def __init__(self, faults=(), every=0, seed=0):
        self.faults, self.every, self.draw, self.at, self.struck = dict(faults), every, random.Random(seed), -1, 0

    def __call__(self, held):
        return b"".join(map(self.one, held))

    def one(self, byte):
        self.at += 1
        by_chance = self.every and self.draw.randrange(self.every) == 0
        what = self.draw.choice(WHATS) if by_chance else self.faults.get(self.at)
        self.struck += what is not None
        if what is None or isinstance(what, str):
            return bytes([byte] * {None: 1, "lost": 0, "twice": 2}[what])
        return bytes([byte ^ 1 << what])


class Board:
    """A simulated board that has just started, in its own time. As `avrstk_version1.Line` it has bytes to send and to
    receive. `up` and `down` say what becomes of them."""

    def __init__(self, kind, flash=b"", up=Fates(), down=Fates()):
        self.kind, self.is_sketch, self.up, self.down = kind, kind.startswith("ArduinoISP"), up, down
        self.time, self.held, self.sent, self.got = 0.0, b"", 0, 0
        # when the first byte was sent to the board, and when the last one came
        self.begun = self.ended = None
        self.lib = ctypes.CDLL(str(library()))
        self.lib.board_run.restype, self.lib.board_run.argtypes = ctypes.c_double, [ctypes.c_double, ctypes.c_uint]
        for memory in ("board_flash", "target_flash", "target_eeprom", "target_fuses"):
            getattr(self.lib, memory).restype = ctypes.POINTER(ctypes.c_uint8)
        flash = flash.ljust(FLASH, b"\xff")
        assert self.lib.board_new(bytes(firmware(kind)), *KINDS[kind], flash) == 0, kind
        if self.is_sketch:
            ctypes.memmove(self.lib.target_flash(), flash, FLASH)
        self.taken = (ctypes.c_uint8 * (1 << 16))()
        self.lib.board_reset()
        # (the sketch has been running for a while)
        self.pause(1.0 if self.is_sketch else 0.06)

    def take(self):
        """Returns what the board has sent."""
        held = self.down(bytes(self.taken[: self.lib.board_take(self.taken)]))
        self.got, self.ended = self.got + len(held), self.time if held else self.ended
        return held

    def run(self, seconds, wanted=1):
        passed = self.lib.board_run(seconds * 1e6, wanted) / 1e6
        self.time += passed
        return passed

    def set_speed(self, _):
        """(In its own time a board takes each byte.)"""

    def send(self, held):
        self.sent, self.begun = self.sent + len(held), self.begun or (self.time if held else None)
        held = self.up(held)
        self.lib.board_put(held, len(held))

    def receive(self, count, silence=0.5):
        waited = 0.0
        while len(self.held) < count and waited < silence - 1e-5:
            waited += self.run(min(silence - waited, 0.05))
            more = self.take()
            self.held, waited = self.held + more, 0.0 if more else waited
        found, self.held = self.held[:count], self.held[count:]
        return found

    def reset(self):
        self.lib.board_reset()
        self.held = b""
        self.pause(0.3)

    def pause(self, seconds):
        ends = self.time + seconds
        while self.time < ends:
            self.run(max(ends - self.time, 1e-5), 1 << 20)

    def flash(self):
        """Returns the flash of the chip that is programmed, below a bootloader."""
        held = self.lib.target_flash() if self.is_sketch else self.lib.board_flash()
        return bytes(held[: KINDS[self.kind][0] or FLASH])

    def rest(self):
        """Returns EEPROM, fuses and lock of ArduinoISP's chip."""
        return bytes(self.lib.target_eeprom()[:EEPROM]), bytes(self.lib.target_fuses()[:4])


def serve(caller, programmer):
    """Replies to a run's frames; a zero byte by itself stands for no reply."""
    frames = Frames()
    with caller, contextlib.suppress(ConnectionError):
        while piece := caller.recv(65_536):
            for request in filter(is_frame, frames.pieces(piece)):
                body = programmer.reply(request[5:-1])
                caller.sendall(frame(request[1], body) if body else b"\0")


def over(board, words, programmer=None):
    """Runs the program over a board. Returns its status and messages."""
    with socket.create_server(("127.0.0.1", 0)) as server:
        server.settimeout(PATIENCE)
        more = {"LD_PRELOAD": str(silence()), "ASAN_OPTIONS": "verify_asan_link_order=0"}
        words = ["-P", f"net:127.0.0.1:{server.getsockname()[1]}", *words]
        with room.start(words, env={**os.environ, **more}) as tool:
            caller, _ = server.accept()
            caller.setsockopt(socket.IPPROTO_TCP, socket.TCP_NODELAY, 1)
            serve(caller, programmer or Version1(board, [0], not board.is_sketch))
            _, messages = tool.communicate(timeout=PATIENCE)
            return tool.returncode, messages


def clean():
    """Each kind of board is written, verified and read without faults. ArduinoISP's chip is also erased, and gets a
    fuse and EEPROM; no instruction comes before the chip is ready."""
    image = random.Random(77).randbytes(5_000)
    room.put("image.bin", image)
    for kind in ("optiboot-fast", "ATmegaBOOT", *["ArduinoISP-fast"] * bool(SKETCH)):
        old = random.Random(9).randbytes(FLASH)
        board = Board(kind, old)
        more = ["-U", "lfuse:w:0xE2:m", "-U", "eeprom:w:data.bin:r"] if board.is_sketch else ["-D"]
        room.put("data.bin", image[:64])
        ended = over(board, ["-p", "m328p", *more, "-U", "flash:w:image.bin:r", "-U", "flash:r:back.bin:r"])
        texts = ["lfuse: 1 bytes {}", "eeprom: 64 bytes {}"] * board.is_sketch + ["flash: 5000 bytes {}"]
        expected = [text.format(what) for text in texts for what in ("written", "verified")]
        front = ["device signature = 1E 95 0F", *["chip erased"] * board.is_sketch]
        found = ended[1].decode().splitlines()
        check_equal(
            f"{kind}: its status and lines", (ended[0], found[:-2]), (0, lines(*front, *expected).decode().splitlines())
        )
        flash = board.flash()
        wanted = (image + b"\xff" * FLASH if board.is_sketch else image + b"\xff" * 120 + old[5_120:])[: len(flash)]
        check_equal(f"{kind}: its flash", flash, wanted)
        check_equal(f"{kind}: what was read", room.read("back.bin").ljust(len(flash), b"\xff")[: len(flash)], flash)
        if board.is_sketch:
            check_equal(f"{kind}: EEPROM and fuses", board.rest(), (image[:64] + b"\xff" * 960, b"\xe2\xd9\xff\xff"))
            check_equal(f"{kind}: instructions that came too early", board.lib.target_ignored(), 0)


def refused():
    """avrstk-serial sends a bootloader no byte of an erase, of EEPROM, fuses, lock or calibration, but refuses them."""
    bodies = ["1200008000AC0000", "15000400C1C2FFFFFF0000000000", "16000100A0", "17AC A0 00 62", "1804500000 00"]
    for body in [*bodies, "19ACE00000", "1A0458000000", "1C0438000000"]:
        board = Board("optiboot")
        programmer = Version1(board, [0], True)
        check_equal("a reply to SIGN_ON", programmer.reply(b"\1"), b"\1\0\x08STK500_2")
        sent = board.sent
        check_equal(f"the reply to {body}", programmer.reply(bytes.fromhex(body)), bytes.fromhex(body)[:1] + b"\xc0")
        check_equal(f"bytes sent for {body}", board.sent - sent, 0)


def keeps_no_clock():
    """No firmware keeps the ISP clock that `-B` of AVRDUDE sets (parameter 0x89): optiboot stops, ATmegaBOOT replies OK
    and reads 0, ArduinoISP refuses it and reads 0."""
    in_sync = b"\x14\x10"
    wanted = {"optiboot": (b"", b""), "ATmegaBOOT": (in_sync, b"\x14\0\x10")}
    wanted |= {"ArduinoISP": (b"\x15\x15\x15", b"\x14\0\x10")} if SKETCH else {}
    for kind, replies in wanted.items():
        board, found = Board(kind), []
        for command in (b"0 ", b"0 ", b"@\x89\x20 ", b"A\x89 "):
            board.send(command)
            found.append(board.receive(8, 0.3))
        check_equal(f"{kind}: replies to -B", tuple(found), (in_sync, in_sync, *replies))


def session(kind, size, words, fates, old=b""):
    """Returns the status of a run with faults, whether the image is there, whether all else is as it should be, and the
    number of faults."""
    image = random.Random(77).randbytes(size)
    board = Board(kind, old, *fates)
    status, _ = over(board, ["--parts", "tiny.toml", "-p", "tiny", *words, "-U", f"flash:w:image{size}.bin:r"])
    flash, pages = board.flash(), -(-size // PAGE) * PAGE
    beside = b"\xff" * FLASH if board.is_sketch else old.ljust(FLASH, b"\xff")
    is_whole = flash[pages:] == beside[pages : len(flash)]
    return status, flash[:size] == image, is_whole, sum(fate.struck for fate in fates)


def apart(work):
    """Calls this in a process of its own, since a process has one simulated board, and returns the result."""
    reader, writer = os.pipe()
    child = os.fork()
    if not child:
        try:
            os.write(writer, repr(work()).encode())
        finally:
            os._exit(0)
    os.close(writer)
    with open(reader, "rb") as pipe:
        found = pipe.read()
    os.waitpid(child, 0)
    return eval(found.decode() or "None")


def share(what, few, many, given):
    """Returns `few` of the given sessions in `./test`, `many` without SAMPLE, and with FULL=1 all of them."""
    if os.environ.get("FULL") == "1" or os.environ.get("SAMPLE"):
        return sampled(what, few, given)
    given = list(given)
    return given[:: -(-len(given) // many)]


def prepare(kind, size):
    """Makes all that sessions need."""
    room.put("tiny.toml", TINY.encode())
    room.put(f"image{size}.bin", random.Random(77).randbytes(size))
    (firmware(kind), library(), silence())


def sessions(what, kind, size, words, fates, old=b""):
    """Runs a session with each of these fates. None may end with status 0 and a wrong image."""
    prepare(kind, size)
    found = [apart(partial(session, kind, size, words, pair, old)) for pair in fates]
    totals = collections.Counter("none" if outcome is None else outcome[:2] for outcome in found)
    wrong = [at for at, outcome in enumerate(found) if outcome is None or outcome[0] == 0 and not outcome[1]]
    check(f"{what}: status 0 has the image", not wrong, f"not in sessions {wrong[:20]}: {totals}")
    check(f"{what}: faults struck", sum(outcome[3] for outcome in found if outcome) > len(found) // 6, str(totals))
    struck = sum(bool(outcome and outcome[3]) for outcome in found)
    print(f"{what}: {len(found)} sessions, {struck} with faults, {dict(totals)}", flush=True)
    return found


def each_byte():
    """One byte on the way to an Uno is lost, doubled or has one bit flipped: each byte of a short run with FULL=1, else
    a share."""
    places = share("each_byte", 12, 172, range(516))
    fates = [(Fates({place: WHATS[place % len(WHATS)]}), Fates()) for place in places]
    sessions("a fault to the board", "optiboot-fast", 300, ["-D"], fates, random.Random(9).randbytes(FLASH))


def lossy():
    """About one byte of 2,000 is lost, doubled or changed, both ways."""
    kinds = [("optiboot-fast", 1_000, ["-D"]), ("ATmegaBOOT", 600, ["-D"]), ("ArduinoISP-fast", 200, [])]
    for kind, size, words in kinds:
        if kind.startswith("ArduinoISP") and not SKETCH:
            continue
        drawn = share(f"lossy {kind}", 4, 60, range(300))
        fates = [tuple(Fates(every=2_000, seed=f"{number}{way}") for way in ("up", "down")) for number in drawn]
        sessions(f"losses, {kind}", kind, size, words, fates, random.Random(9).randbytes(FLASH))


def damaged_erases():
    """A bit of a chip erase's instruction is flipped on its way to ArduinoISP: each bit with FULL=1, else a share.
    Status 0 also means FF in the rest of the flash."""
    if not SKETCH:
        return leave_out("damaged erases", "ArduinoISP's sketch is not there")
    prepare("ArduinoISP-fast", 200)
    board, sent = Board("ArduinoISP-fast"), []

    def note(held):
        sent.append((board.sent - len(held), held))
        return held

    board.up = note
    over(board, ["--parts", "tiny.toml", "-p", "tiny", "-U", "flash:w:image200.bin:r"])
    at = next(at for at, held in sent if held[:3] == b"V\xac\x80")
    bits = [(at + place, bit) for place in range(1, 5) for bit in range(8)]
    fates = [(Fates({place: bit}), Fates()) for place, bit in share("damaged_erases", 4, 11, bits)]
    found = sessions("a damaged erase", "ArduinoISP-fast", 200, [], fates, random.Random(9).randbytes(2_048))
    check(
        "status 0: nothing is left beside the image",
        not any(outcome[0] == 0 and not outcome[2] for outcome in found),
        str(found),
    )


def lost_end():
    """A byte of the reply to the last command of a session with an Uno is lost, doubled or changed. The command is
    repeated, and the status is 0."""
    words, size, old = ["-D"], 300, random.Random(9).randbytes(FLASH)
    prepare("optiboot-fast", size)

    def received():
        fates = Fates(), Fates()
        session("optiboot-fast", size, words, fates, old)
        return fates[1].at

    last = apart(received)
    drawn = share("lost_end", 4, 20, [(place, what) for place in (last - 1, last) for what in WHATS])
    found = sessions(
        "a lost end", "optiboot-fast", size, words, [(Fates(), Fates(dict([fault]))) for fault in drawn], old
    )
    check("a lost end: all end with status 0", all(outcome[:2] == (0, True) for outcome in found), str(found))


class Terminal:
    """A board in real time behind a pseudo terminal. Opening the terminal resets a board with a bootloader, and so does
    SIGUSR1, in place of DTR. A byte at another speed than the board's arrives as another byte."""

    def __init__(self, kind, flash):
        self.kind, self.board, self.wants_reset = kind, Board(kind, flash), False
        self.line, self.device = serial.terminal()
        os.set_blocking(self.line, False)
        signal.signal(signal.SIGUSR1, lambda *_: setattr(self, "wants_reset", True))
        self.ends = threading.Event()
        self.thread = threading.Thread(target=self.live, daemon=True)
        self.thread.start()

    def change(self, held):
        return held if serial.speed(self.line)[0] == KINDS[self.kind][1] else bytes(byte ^ 0xA5 for byte in held)

    def live(self):
        was_open, begun = False, time.monotonic() - self.board.time
        while not self.ends.is_set():
            opened = serial.is_open(self.line)
            if self.wants_reset or opened and not was_open:
                self.wants_reset, was_open = False, opened
                if not self.board.is_sketch:
                    self.board.reset()
                begun = time.monotonic() - self.board.time
            was_open = opened
            with contextlib.suppress(OSError):
                self.board.send(self.change(os.read(self.line, 4_096)))
            self.board.run(0.001, 1 << 20)
            with contextlib.suppress(OSError):
                os.write(self.line, self.change(self.board.take()))
            time.sleep(max(0.0, begun + self.board.time - time.monotonic()))

    def end(self):
        self.ends.set()
        self.thread.join(PATIENCE)
        os.close(self.line)
        return self.board


# what Arduino IDE and PlatformIO type, and users
TYPED = {
    "Arduino IDE, Uno": (
        "optiboot",
        "-C/etc/avrdude.conf -v -patmega328p -carduino -P{} -b115200 -D -Uflash:w:image.hex:i",
    ),
    "PlatformIO, Uno": (
        "optiboot",
        "-v -p atmega328p -C /etc/avrdude.conf -c arduino -b 115200 -D -P {} -U flash:w:image.hex:i",
    ),
    "Arduino IDE, old Nano": (
        "ATmegaBOOT",
        "-C/etc/avrdude.conf -v -patmega328p -carduino -P{} -b57600 -D -Uflash:w:image.hex:i",
    ),
    "an old Nano, no speed": ("ATmegaBOOT", "-p auto -c arduino -P {} -D -U flash:w:image.hex"),
    "Arduino IDE, ArduinoISP": (
        "ArduinoISP",
        "-C/etc/avrdude.conf -v -patmega328p -cstk500v1 -P{} -b19200 -Uflash:w:image.hex:i",
    ),
}
FUSES_TYPED = (
    "-v -patmega328p -carduino_as_isp -P{} -e -Ulock:w:0x3F:m -Uefuse:w:0xFD:m -Uhfuse:w:0xDE:m -Ulfuse:w:0xFF:m"
)
STAND_IN = """import os, signal, sys
sys.path[:1], sys.dont_write_bytecode, sys.argv[0] = [{lib!r}], True, {script!r}
import avrstk_serial
from avrstk_common import run
avrstk_serial.Device.pulse = lambda self: os.kill({pid}, signal.SIGUSR1)
run(avrstk_serial.main, "", needs_lines=True)
"""


def typed():
    """The options that Arduino IDE gives AVRDUDE, and for an Uno those of PlatformIO, do what they ask at these boards,
    over a terminal, in real time."""
    image = random.Random(5).randbytes(700)
    room.put("image.hex", hex_of([(0, image)]))
    cases = TYPED | {"Arduino IDE, burn bootloader": ("ArduinoISP", FUSES_TYPED)}
    for what, (kind, words) in cases.items():
        if kind == "ArduinoISP" and not SKETCH:
            continue
        at = Terminal(kind, random.Random(9).randbytes(FLASH))
        status, messages = run_script(words.format(at.device).split())
        board = at.end()
        check_equal(f"{what}: status", (status, messages.splitlines()[-1:]), (0, ["avrstk: done"]))
        name = re.search(r"-c ?(\S+)", words)[1]
        note = f"avrstk-serial: -c {name} speaks STK500 version 1: such runs are tested, not proved"
        check_equal(f"{what}: is not called proved", messages.splitlines().count(note), 1)
        if words == FUSES_TYPED:
            check_equal(f"{what}: fuses and lock", board.rest()[1], b"\xff\xde\xfd\xff")
            check_equal(f"{what}: flash", board.flash(), b"\xff" * FLASH)
        else:
            check_equal(f"{what}: the image", board.flash()[:700], image)


def restores_nothing():
    """A restore at an Uno's or an old Nano's own bootloader, with -c for a programmer, is refused before a write."""
    room.put("chip.bin", random.Random(8).randbytes(FLASH) + b"\xff" * EEPROM + b"\xe2\xd9\xff\xff")
    # (a jump to itself: other firmware could reach the code that writes)
    old = b"\xff\xcf" + random.Random(9).randbytes(FLASH - 2)
    check_equal("a backup", run_script(["-p", "m328p", "-P", "emu:chip.bin", "--backup", "backup"])[0], 0)
    for kind, programmer in [("optiboot", "stk500v1"), ("ATmegaBOOT", "avrisp")]:
        # (with a programmer's -c a board is reset only at the start. A late one runs its firmware, and is silent)
        for _ in range(MOST_LATE):
            at = Terminal(kind, old)
            words = f"-p m328p -c {programmer} -b {KINDS[kind][1]} -P {at.device} --restore backup"
            status, messages = run_script(words.split())
            check_equal(f"{kind}: the status, and its flash", (status, at.end().flash()), (1, old[: KINDS[kind][0]]))
            if "no answer" not in messages:
                break
        check(f"{kind}: the line", "read as 00, as from a bootloader" in messages, messages)
    shutil.rmtree(room.folder / "backup")


def avrdude_beside():
    """AVRDUDE 7.1 writes EEPROM to wrong addresses over ArduinoISP, and over the firmware of an Uno; avrstk-serial does
    neither. Over ArduinoISP its status is 0 then. At an Uno avrstk-serial refuses EEPROM."""
    if not has_avrdude():
        return leave_out("AVRDUDE over these boards", "AVRDUDE 7.1 is not installed")
    data, old = bytes(range(1, 65)), random.Random(9).randbytes(FLASH)
    room.put("data.bin", data)
    if SKETCH:
        at = Terminal("ArduinoISP", old)
        words = "-p m328p -c stk500v1 -P {} -b 19200 -D -q -q -U eeprom:w:data.bin:r"
        command = ["avrdude", *words.format(at.device).split()]
        ran = subprocess.run(command, cwd=room.folder, capture_output=True, timeout=PATIENCE)
        held, _ = at.end().rest()
        check_equal("avrdude, EEPROM over ArduinoISP: its status", ran.returncode, 0)
        wanted = data[:4] + b"\xff" * 4 + data[4:8] + b"\xff" * 4 + data[8:12]
        check_equal("avrdude, EEPROM over ArduinoISP: the bytes", held[:20], wanted)
        at = Terminal("ArduinoISP", old)
        status, messages = run_script(words.format(at.device).split())
        held, _ = at.end().rest()
        check_equal("avrstk-serial, EEPROM over ArduinoISP", (status, held[:64]), (0, data))
    at = Terminal("optiboot", old)
    words = "-p m328p -c arduino -P {} -b 115200 -D -q -q -U eeprom:w:data.bin:r"
    command = ["avrdude", *words.format(at.device).split()]
    ran = subprocess.run(command, cwd=room.folder, capture_output=True, timeout=PATIENCE)
    flash = at.end().flash()
    check(
        "avrdude, eeprom:w at an Uno: its firmware is another", flash[:128] != old[:128], (ran.returncode, ran.stderr)
    )
    at = Terminal("optiboot", old)
    status, messages = run_script(words.format(at.device).split())
    check_equal("avrstk-serial, eeprom:w at an Uno", (status, at.end().flash()), (1, old[: KINDS["optiboot"][0]]))


# runs that docs/BOARDS gives the time of: a kind of board, AVRDUDE's name of it, and what is written
RUNS = {
    "an Uno, 228 bytes": ("optiboot", "arduino", "-D -U flash:w:blink.hex:i"),
    "an Uno, 5,000 bytes": ("optiboot", "arduino", "-D -U flash:w:image5000.bin:r"),
    "an Uno, 30,000 bytes": ("optiboot", "arduino", "-D -U flash:w:image30000.bin:r"),
    "an old Nano, 5,000 bytes": ("ATmegaBOOT", "arduino", "-D -U flash:w:image5000.bin:r"),
    "Arduino as ISP, 228 bytes and an erase": ("ArduinoISP", "stk500v1", "-U flash:w:blink.hex:i"),
    "Arduino as ISP, 64 bytes of EEPROM": ("ArduinoISP", "stk500v1", "-D -U eeprom:w:data.bin:r"),
}


def run_measured(name, is_avrdude):
    """Makes such a run. Returns what docs/BOARDS has of it: status and chip, bytes, and seconds."""
    kind, programmer, words = RUNS[name]
    old, words = random.Random(9).randbytes(FLASH), words.split()
    if is_avrdude:
        at = Terminal(kind, old)
        front = ["-qq", "-p", "m328p", "-c", programmer, "-P", at.device, "-b", str(KINDS[kind][1])]
        with room.start([*front, *words], program=["avrdude"]) as tool:
            tool.communicate(timeout=PATIENCE)
        status, board = tool.returncode, at.end()
    else:
        board = Board(kind, old)
        status, _ = over(board, ["-p", "m328p", *words])
    memory, _, file, form = words[-1].split(":")
    image = room.read(file) if form == "r" else bytes(image_of(room.read(file)).values())
    held = board.rest()[0] if memory == "eeprom" else board.flash()
    chip = "right" if held[: len(image)] == image else "wrong"
    return f"{status}, {chip}", f"{board.sent:,}, {board.got:,}", f"{board.ended - board.begun:.1f}"


def measured():
    """With FULL=1 all runs of docs/BOARDS, else one, have its status and chip; avrstk-serial's also have its bytes and
    about its time. With FULL=1 these are all runs, and AVRDUDE's; else one."""
    is_full = os.environ.get("FULL") == "1"
    table = (TOP / "docs/BOARDS.md").read_text()
    rows = [[cell.strip() for cell in line.strip("| ").split("|")] for line in table.splitlines() if line[:1] == "|"]
    for size in 5_000, 30_000:
        room.put(f"image{size}.bin", random.Random(77).randbytes(size))
    room.put("data.bin", bytes(range(1, 65)))
    for name, (kind, _, _) in list(RUNS.items())[: None if is_full else 1]:
        for is_avrdude in (False, True) if is_full and has_avrdude() else (False,):
            if kind == "ArduinoISP" and not SKETCH:
                continue
            (firmware(kind), library(), silence())
            found = apart(lambda: run_measured(name, is_avrdude))
            client = "AVRDUDE 7.1" if is_avrdude else "`avrstk-serial`"
            print("|", " | ".join([name, client, *found]), "|", flush=True)
            row = next((cells[2:] for cells in rows if cells[:2] == [name, client]), ["", "", "0"])
            # (how often AVRDUDE asks for the board depends on the time)
            count = 1 if is_avrdude else 2
            check_equal(f"{name}, {client}", row[:count], list(found[:count]))
            check(f"{name}, {client}: seconds", is_avrdude or abs(float(found[2]) - float(row[2])) < 0.5, (found, row))


class LosesInPage:
    """Loses a byte of the first page on its way to a board."""

    def __init__(self):
        self.passed, self.has_lost = b"", False

    def __call__(self, held):
        kept = b""
        for byte in held:
            self.passed += bytes([byte])
            if not self.has_lost and self.passed[-14:-10] == b"d\0\x80F":
                self.has_lost = True
            else:
                kept += bytes([byte])
        return kept


def lost_byte_of_a_page():
    """A byte of a page is lost on the way to an Uno: avrstk-serial resets the board and ends with the right chip.
    AVRDUDE 7.1 hasn't ended after 80 seconds (with FULL=1; else 20)."""
    image, old = random.Random(5).randbytes(700), random.Random(9).randbytes(FLASH)
    room.put("image.hex", hex_of([(0, image)]))
    (firmware("optiboot"), library(), silence())

    def ours():
        board = Board("optiboot", old, LosesInPage())
        status, _ = over(board, "-p m328p -D -U flash:w:image.hex:i".split())
        return status, board.up.has_lost, board.flash()[:700] == image, round(board.ended - board.begun)

    found = apart(ours)
    check_equal("a lost byte: avrstk-serial", found[:3], (0, True, True))
    check("a lost byte: its seconds", found[3] in (5, 6, 7), found)
    if not has_avrdude():
        return leave_out("a lost byte: AVRDUDE", "AVRDUDE 7.1 is not installed")
    at = Terminal("optiboot", old)
    at.board.up, has_ended = LosesInPage(), True
    words = ["-p", "m328p", "-c", "arduino", "-b", "115200", "-D", "-U", "flash:w:image.hex:i", "-P", at.device]
    with room.start(words, program=["avrdude"]) as tool:
        try:
            tool.communicate(timeout=80 if os.environ.get("FULL") == "1" else 20)
        except subprocess.TimeoutExpired:
            has_ended = tool.kill()
    board = at.end()
    check_equal(
        "a lost byte: AVRDUDE", (has_ended, board.up.has_lost, board.flash()[:700] == image), (None, True, False)
    )


class Leaving(serial.Bootloader):
    """A bootloader of version 2 that has ended once it got LEAVE. Its reply is lost. A reset by DTR starts it again."""

    def __init__(self, flash):
        super().__init__(flash)
        self.has_left, self.count = False, 0
        signal.signal(signal.SIGUSR1, lambda *_: setattr(self, "has_left", False))

    def live(self, caller):
        self.address = self.erased = 0
        with caller:
            for request in frames_of(caller):
                self.count += request[5] == 0x11
                if not self.has_left and self.count != 1:
                    caller.sendall(frame(request[1], request[5:6] + self.reply(request[5], request[6:-1])))
                self.has_left |= request[5] == 0x11


def lost_end_of_wiring():
    """With -c wiring a lost reply to LEAVE doesn't fail a run whose image is there: a reset starts the bootloader
    again."""
    board = Leaving(b"\xff" * FLASH)
    at = serial.Board(server=board)
    room.put("image.hex", hex_of([(0, bytes(256))]))
    words = ["-p", "m328p", "-c", "wiring", "-D", "-U", "flash:w:image.hex", "-P", at.device]
    status, messages = run_script(words)
    at.end()
    check_equal("a lost end over -c wiring", (status, messages.splitlines()[-1]), (0, "avrstk: done"))
    check_equal("LEAVE was repeated, and the image is there", (board.count, board.flash[:256]), (2, bytes(256)))


def run_script(words):
    """Runs avrstk-serial with SIGUSR1 to this process in place of DTR. Returns its status and messages."""
    text = STAND_IN.format(lib=str(TOP / "lib/avrstk"), script=str(TOP / "avrstk-serial"), pid=os.getpid())
    room.put("stand-in.py", text.encode())
    command = [sys.executable, "stand-in.py"]
    with room.start(words, program=command, env=os.environ | {"AVRSTK": str(PROGRAM)}) as started:
        _, messages = started.communicate(timeout=PATIENCE)
    return started.returncode, messages.decode()


def leaves_to_another():
    """With AVRSTK_ELSE another program gets options with an unknown programmer or part, or port usb, unless there are
    several boards or `--` options. A link to avrstk-serial with its name is passed over."""
    folder = room.folder / "else"
    folder.mkdir()
    put_program(room.folder / "else/avrdude", '#!/bin/sh\necho "other: $*"\n')
    (room.folder / "avrdude").symlink_to(TOP / "avrstk-serial")
    environment = {
        "AVRSTK": str(PROGRAM),
        "AVRSTK_ELSE": "avrdude",
        "PATH": f"{room.folder}:{folder}:{os.environ['PATH']}",
    }
    cases = {
        "-c usbasp -p m328p -U lfuse:r:-:h": True,
        "-p m328p -P usb": True,
        "-p m8 -P /dev/ttyUSB0": True,
        "-p m328p -P /dev/nosuch": False,
        "-c usbasp -p m328p --wait 1": False,
        "--unproved -c usbasp -p m328p": False,
        "-p m8 --parts parts.toml -P /dev/nosuch": False,
    }
    for words, is_left in cases.items():
        how = {"env": os.environ | environment, "program": [sys.executable, room.folder / "avrdude"]}
        with room.start(words.split(), **how) as started:
            output, messages = started.communicate(timeout=PATIENCE)
        check_equal(f"{words}: another program runs", output.decode(), f"other: {words}\n" if is_left else "")
        check(f"{words}: a line says so", (b"/avrdude in place of avrstk" in messages) == is_left, messages)
    how["env"] = how["env"] | {"AVRSTK_ELSE": "nosuch"}
    with room.start("-c usbasp -p m328p".split(), **how) as started:
        _, messages = started.communicate(timeout=PATIENCE)
    absent = b"avrstk-serial: AVRSTK_ELSE=nosuch: no other program of this name can be run\n"
    check("a program that isn't there", messages.startswith(absent) and messages.count(b"\n") == 2, messages)
    # (an empty name in PATH is this folder, which has no such program)
    (folder / "avrdude").rename(folder / "other")
    how["env"] = how["env"] | {"AVRSTK_ELSE": "other", "PATH": f":{folder}:{os.environ['PATH']}"}
    with room.start("-c usbasp -p m328p".split(), **how) as started:
        output, messages = started.communicate(timeout=PATIENCE)
    found = f"avrstk-serial: -c usbasp is not known here: starting {folder}/other in place of avrstk\n"
    check_equal("PATH with an empty name", (output, messages.decode()), (b"other: -c usbasp -p m328p\n", found))
    (room.folder / "avrdude").unlink()
    shutil.rmtree(folder)


CASES = named(
    *(clean, refused, keeps_no_clock, each_byte, lossy, damaged_erases, lost_end),
    *(typed, restores_nothing, avrdude_beside, lost_end_of_wiring, leaves_to_another),
    *(measured, lost_byte_of_a_page),
)


def missing():
    """Returns what isn't installed of what all boards need, in words; none if all is."""
    needed = [CORE, Path("/usr/include/simavr/sim_avr.h"), Path("/usr/include/libelf.h")]
    found = [str(path) for path in needed if not path.exists()]
    found += [tool for tool in ("cc", "avr-gcc", "avr-g++", "avr-objcopy") if shutil.which(tool) is None]
    return " and ".join(found)


def main():
    if missing():
        leave_out("boards that speak version 1", f"{missing()} is not installed")
        return run_cases({}, __doc__)
    if not SKETCH:
        leave_out("ArduinoISP", f"{' and '.join(map(str, SKETCHES))} is not there")
    return run_cases(CASES, __doc__, timed=["typed", "restores_nothing", "avrdude_beside", "lost_byte_of_a_page"])


if __name__ == "__main__":
    sys.exit(main())

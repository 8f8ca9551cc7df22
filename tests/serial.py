#!/usr/bin/env python3
"""Tests avrstk-serial over pseudo terminals with an emulated programmer behind them. Covers each AVRDUDE option that it
takes, ignores or refuses, and each hint after a failed run. Covers boards that are deaf after a reset, disappear, don't
reply or send other data, and signals. Runs the recipes of docs/USAGE for a serial link as they are printed there
(recipes.py has those with a `$`).

Not proved: No proof covers avrstk-serial, which is Python, and serial devices.

    tests/serial.py [CASE ..]      needs a built program (program.py); recipes with socat or ser2net
                                   are left out if these are not installed
"""

import array
import ast
import bz2
import fcntl
import gzip
import hashlib
import io
import itertools
import json
import lzma
import os
import pty
import random
import re
import resource
import select
import shlex
import shutil
import signal
import socket
import struct
import subprocess
import sys
import tarfile
import tempfile
import termios
import threading
import time
import tty
import zipfile
from concurrent.futures import ThreadPoolExecutor
from functools import lru_cache
from pathlib import Path

from cases import PATIENCE, attempts, bytes_of, leave_out, named, own_environment, put_program
from cases import check, check_equal, run_cases, sampled, table, wait_until
from line import frames_in, frames_of
from program import CHIP_FILE, PROGRAM, SESSION, SIGNATURE, TOP, Room, Server, forks, frame
from program import end_of, has_avrdude, kept_port, lines, listens_at, port_of, read_whole
from records import hex_of, image_of

SCRIPT, SHARED = TOP / "avrstk-serial", TOP / "lib"
PYTHON = shutil.which("python3", path="/usr/bin:/bin") or sys.executable
FIRMWARE = [SIGNATURE, "chip erased", "flash: 228 bytes written", "flash: 228 bytes verified", "done"]
FLASH = ["-p", "m328p", "-U", "flash:w:blink.hex:i"]
NO_CHIP = ["-p", "m328p", "-P", "emu:no.bin"]
CLASSIC = ["--parts", str(TOP / "parts/classic.toml")]
CALL = "avrstk -p m328p -P net:127.0.0.1:5000 -U flash:w:firmware.hex:i"
# how nobody is started, if this is root, who may do everything
ANYONE = {"user": 65534, "group": 65534, "extra_groups": []} if os.geteuid() == 0 else {}
room = Room()
boards = itertools.count()


def elf_with(code, name=b".text", address=0):
    """Returns an ELF file with one section of bytes, of this name and address."""
    names = b"\0" + name + b"\0.shstrtab\0"
    begin = struct.pack("<16s2H5I6H", b"\x7fELF\1\1\1", 2, 83, 1, 0, 0, 52 + len(code + names), 0, 52, 32, 0, 40, 3, 2)
    sections = [
        (0,) * 10,
        (1, 1, 6, address, 52, len(code), 0, 0, 1, 0),
        (len(name) + 2, 3, 0, 0, 52 + len(code), len(names), 0, 0, 1, 0),
    ]
    return begin + code + names + b"".join(struct.pack("<10I", *section) for section in sections)


room.keep("small.elf", elf_with(b"\x0c\x94\x34\x00"))


def is_open(line):
    """Returns whether the other end of a pseudo terminal is open."""
    look = select.poll()
    look.register(line)
    return not any(what & select.POLLHUP for _, what in look.poll(0))


class Board:
    """An emulated programmer behind a pseudo terminal, like a board that resets when its device is opened. It ignores
    the bytes of its first `deaf` seconds, and all later ones if none came until second `gone`. It prints dots in its
    first `noise` seconds, and then forgets what has come. With `talk` it has no programmer and sends this text all the
    time. The device disappears after `vanish` replies. `answer` changes the bytes of each reply. With `stopped`
    somebody else says that no run will open the device any more."""

    def __init__(self, deaf=0.0, gone=None, part="m328p", talk=None, vanish=None, answer=None, words=(), **more):
        chip, server, ends, stopped = (more.get(name) for name in ("chip", "server", "ends", "stopped"))
        self.deaf, self.gone, self.talk, self.vanish, self.answer = deaf, gone, talk, vanish, answer
        self.noise = more.get("noise", 0)
        self.opened, self.received, self.chip = 0, b"", chip or f"served{next(boards)}.bin"
        self.server = None if talk else server or Server(room, self.chip, part, words)
        self.line, self.device = ends or terminal()
        self.stopped = stopped or threading.Event()
        self.thread = threading.Thread(target=self.live, daemon=True)
        self.thread.start()

    def live(self):
        while not is_open(self.line):
            if self.stopped.wait(0.005):
                return
        self.opened, begun = 1, time.monotonic()
        while time.monotonic() < begun + self.noise:
            os.write(self.line, b".")
            if select.select([self.line], [], [], 0.2)[0]:
                os.read(self.line, 4096)
        if self.talk:
            self.talks()
        else:
            self.answers()

    def talks(self):
        while is_open(self.line) and not self.stopped.wait(0.05):
            os.write(self.line, self.talk)

    def answers(self):
        begun, called, count = time.monotonic(), False, 0
        with self.server.call() as programmer:
            while True:
                ready, _, _ = select.select([self.line, programmer], [], [])
                if self.line in ready:
                    try:
                        received = os.read(self.line, 4096)
                    except OSError:
                        return
                    age = time.monotonic() - begun
                    self.received += received
                    called = called or age >= self.deaf and (self.gone is None or age < self.gone)
                    if called:
                        programmer.sendall(received)
                if programmer in ready:
                    answer = programmer.recv(4096)
                    if count == self.vanish or not answer:
                        os.close(self.line)
                        return
                    count += 1
                    os.write(self.line, self.answer(answer) if self.answer else answer)

    def end(self):
        """Waits until the device is closed, which must be soon, and returns the chip."""
        if not self.opened:
            self.stopped.set()
        self.thread.join(PATIENCE)
        if self.thread.is_alive():
            raise SystemExit("the device stays open after the run")
        if self.server and not self.opened:
            self.server.stop()
        elif self.server:
            self.server.end()
        if self.vanish is None:
            os.close(self.line)
        return room.read(self.chip)


class Bootloader:
    """A bootloader as docs/BOARDS describes it, on an ATmega328P. It refuses an erase and fuses, and the lock unless it
    `takes_lock`, which it doesn't do. For each page that is written it erases one, from address 0 on."""

    def __init__(self, flash, takes_lock=False):
        self.flash, self.takes_lock = bytearray(flash), takes_lock
        # where the next block begins, and how much is erased, since the last call
        self.address = self.erased = 0

    def call(self):
        ours, caller = socket.socketpair()
        threading.Thread(target=self.live, args=(ours,), daemon=True).start()
        return caller

    def live(self, caller):
        self.address = self.erased = 0
        with caller:
            for request in frames_of(caller):
                caller.sendall(frame(request[1], request[5:6] + self.reply(request[5], request[6:-1])))

    def reply(self, command, body):
        count = int.from_bytes(body[:2], "big")
        if command in (0x13, 0x14):
            at, self.address = self.address, self.address + count
        if command == 0x13:
            self.flash[self.erased : self.erased + 128] = b"\xff" * 128
            self.erased += 128
            self.flash[at : at + count] = bytes(old & new for old, new in zip(self.flash[at:], body[9 : 9 + count]))
        if command == 0x06:
            self.address = 2 * (int.from_bytes(body[:4], "big") & 0x7FFFFFFF)
        replies = {0x01: b"\0\x08AVRISP_2", 0x14: b"\0" + self.flash[self.address - count : self.address] + b"\0"}
        replies[0x1B] = bytes([0, (0x1E, 0x95, 0x0F)[body[3] % 3] if command == 0x1B else 0, 0])
        replies[0x1A] = b"\0\xff\0"
        if self.takes_lock:
            replies[0x19] = b"\0\0"
        return bytes(replies.get(command, b"\0" if command in (0x06, 0x10, 0x11, 0x13) else b"\xc0"))

    def stop(self):
        """(It has no server to stop.)"""

    end = stop


class Version1:
    """A programmer that speaks version 1, without a chip: it refuses ENTER."""

    def call(self):
        ours, caller = socket.socketpair()
        threading.Thread(target=self.live, args=(ours,), daemon=True).start()
        return caller

    def live(self, caller):
        held, replies = b"", {b"0 ": b"\x14\x10", b"A\x81 ": b"\x14\2\x10", b"P ": b"\x14\x13", b"Q ": b"\x14\x10"}
        with caller:
            while piece := caller.recv(4096):
                held += piece
                for command in [word + b" " for word in held.split(b" ")[:-1]]:
                    held = held[len(command) :]
                    caller.sendall(replies.get(command, b"\x15"))

    def stop(self):
        """(It has no server to stop.)"""

    end = stop


def start(words, closed="", **more):
    """Starts avrstk-serial with these options, in the room. `closed` has shell redirections."""
    environment = os.environ | {"AVRSTK": str(PROGRAM)} | more.pop("env", {})
    program = [*more.pop("by", []), sys.executable, *more.pop("front", []), SCRIPT]
    return room.start(words, closed=closed, program=program, env=environment, **more)


def run(words, begun=lambda started: None, **more):
    """Returns its status, output, the lines of avrstk, and its own lines."""
    started = start(words, **more)
    begun(started)
    output, printed = started.communicate(timeout=PATIENCE)
    own = [line[15:] for line in printed.decode().splitlines() if line.startswith("avrstk-serial: ")]
    others = b"".join(line for line in printed.splitlines(True) if not line.startswith(b"avrstk-serial: "))
    return started.returncode, output, others, own


def speed(line):
    """Returns both speeds of a pseudo terminal, whose ends share one set of flags (TCGETS2 has any speed)."""
    held = array.array("I", bytes(44))
    fcntl.ioctl(line, 0x802C542A, held)
    return held[9], held[10]


def over(words, board=None, **more):
    """Runs these options over a board. Returns what `run` does, and the chip. The run's report must fit its schema."""
    programmer, name = Board(**(board or {})), f"report{next(boards)}.json"
    found = *run([*words, "-P", programmer.device, "--json", name], **more), programmer.end()
    if programmer.opened:
        check_equal(f"{words}: the status in its report", report_of(name)["status"], found[0])
    return found


def report_of(name):
    """Returns a report, which has to fit its schema (if jsonschema is installed)."""
    report = json.loads(room.read(name))
    try:
        import jsonschema
    except ModuleNotFoundError:
        return report
    try:
        jsonschema.validate(report, json.loads((TOP / "docs/report.schema.json").read_text()))
    except jsonschema.ValidationError as fault:
        check(f"{name}: its fields", False, fault.message)
    return report


def run_as_anyone(words, program, output=subprocess.PIPE):
    """Runs the script as nobody if this is root. (PYTHON must not be one that only root can run.)"""
    with tempfile.TemporaryDirectory(dir="/tmp") as folder:
        os.chmod(folder, 0o755)
        shutil.copytree(SHARED, f"{folder}/lib")
        how = ANYONE | {"stdin": subprocess.DEVNULL, "stdout": output, "stderr": subprocess.PIPE}
        how |= {"cwd": "/", "timeout": PATIENCE}
        return subprocess.run(
            [PYTHON, shutil.copy(SCRIPT, folder), *words], env=os.environ | {"AVRSTK": str(program)}, **how
        )


def terminal():
    """Returns a pseudo terminal that passes each byte: its file descriptor, and the name of its device."""
    with forks:
        line, slave = pty.openpty()
        tty.setraw(slave)
        device = os.ttyname(slave)
        os.close(slave)
    return line, device


def stand_in(text, folder=None):
    """Writes a Python program to run in place of avrstk; the script's port is its `port`. Returns the environment for
    it."""
    file = (folder or room.folder) / "stand-in"
    begin = f"#!{PYTHON}\nimport os, socket, sys, time\n"
    port = "port = int(sys.argv[sys.argv.index('-P') + 1].rpartition(':')[2])\n"
    put_program(file, begin + port + text)
    return {"AVRSTK": str(file)}


@lru_cache
def emulated(*words, part="m328p"):
    """Returns the chip that these options leave over `emu:`."""
    room.clear()
    room.run(["-p", part, "-P", "emu:wanted.bin", "-qq", *words])
    return room.read("wanted.bin")


def flashed():
    return emulated(*FLASH[2:])


def side_by_side(call, given):
    """Returns the outcome of each call. Several run at once, because they wait for timeouts."""
    with ThreadPoolExecutor(8) as lanes:
        return list(lanes.map(call, given))


def unpaused(call):
    """Returns a call that is made again if a pause was measured meanwhile, because a board replies only for a time."""
    return lambda case: attempts(lambda: call(case), lambda _: False)[-1]


def flashes(words, **board):
    """Runs these options, with a board's device after -P. Returns the status, the lines of avrstk, whether the chip has
    the firmware, and the script's own lines."""
    programmer = Board(**board)
    status, _, printed, own = run([word.replace("DEVICE", programmer.device) for word in words])
    return status, printed, programmer.end() == flashed(), own


def words_of_avrdude():
    """Tests options in AVRDUDE's forms."""
    flashed()
    room.put("blink.HEX", room.read("blink.hex"))
    cases = [(words.split(), list(filter(None, [own]))) for words, own in table("accepted")]
    for (words, own), found in zip(cases, side_by_side(unpaused(lambda case: flashes(case[0])), cases)):
        texts = [text for text in FIRMWARE if text != "chip erased" or "-D" not in words]
        check_equal(" ".join(words), found, (0, lines(*texts), True, own))


def reads():
    """For the file `-` a read goes to standard output, and a write takes standard input."""
    status, output, _, own, _ = over(["-p", "m328p", "-U", "lfuse:r:-:h"])
    check_equal("a fuse is read", (status, output, own), (0, b"0xff\n", []))
    with open(TOP / "examples/blink.hex", "rb") as given:
        status, _, _, own, chip = over(["-p", "m328p", "-U", "flash:w:-:i"], stdin=given)
    check("flash of standard input", (status, own, chip == flashed()) == (0, [], True), (status, own))


def boards_that_reset():
    """Tests a board that ignores input right after a reset, and soon starts its application."""
    flashed()
    longer = ["--wait", "1.5", *FLASH, "-P", "DEVICE"]
    for words, deaf, gone in [([*FLASH, "-P", "DEVICE"], 0.25, 1.2), (longer, 1.4, 3.5)]:
        found = flashes(words, deaf=deaf, gone=gone)
        check_equal(f"deaf for {deaf} s", found, (0, lines(*FIRMWARE), True, []))
    # (avrstk sends SIGN_ON again a second later, after the ten seconds in which a board may send other bytes)
    found = flashes([*FLASH, "-P", "DEVICE"], noise=9.8)
    check_equal("a valid reply after ten seconds of noise", found, (0, lines(*FIRMWARE), True, []))


def parts():
    """Tests the part file that comes with avrstk-serial."""
    wanted = emulated("-e", part="t85")
    status, _, _, own, chip = over(["-p", "attiny85", "-e"], {"part": "t85"})
    check("attiny85", (status, own, chip == wanted) == (0, [], True), own)
    check_equal("m32u4", over(["-p", "m32u4", "-e"], board_of("part m32u4"))[::3][:2], (0, []))
    status, _, printed, own, _ = over(["--parts", "parts.toml", "-p", "atmega32u4", "-e"])
    check(
        "a given part file counts alone",
        (status, b"no part atmega32u4" in printed, own[0][-len(UNOPENED) :]) == (1, True, UNOPENED),
        printed,
    )
    status, output, printed, own = run(["-p", "?"])
    rows = output.decode().splitlines()
    check("-p ? lists the parts", (status, printed, own, len(rows)) == (0, b"", [], 74), (status, rows))
    check("in the order of their names", rows == sorted(rows), rows)
    check("each with its names and signature", "  t85      = ATtiny85      1E 93 0B" in rows, rows)
    if not has_avrdude():
        return leave_out("the names of AVRDUDE's parts", "AVRDUDE 7.1 is not installed")
    theirs = subprocess.run(["avrdude", "-c", "stk500v2", "-p", "?"], capture_output=True, text=True).stderr
    theirs = {tuple(row.split()[:3]) for row in theirs.splitlines()}
    others = [row for row in rows if tuple(row.split()[:3]) not in theirs]
    check_equal("AVRDUDE has each under the same names", others, [])


UNOPENED = "nothing was sent, and the device was not opened"
LIKE_TEXT = "looks like text: give :r only to use its bytes as they are"
LISTED = "no such serial device (-P '?' lists devices)"

# texts that are no firmware, and updates of images without a byte
TEXTS = {
    "m.c": b"int main(void)\n{\n}\n",
    "fw.txt": b"# a note\n" + (TOP / "examples/blink.hex").read_bytes(),
    "latin": "// Größe\n".encode("latin-1"),
    "wide": ":100000000C945C000C946E\n".encode("utf-16"),
    "marked": b"\xef\xbb\xbf:100000000C945C000C946E\n",
    "indented": b" :100000000C945C000C946E\n",
    "coloured.txt": b"main.c:1: \x1b[31merror:\x1b[0m no such file\n",
    "build.log": b"make: all is made\n\0make: nothing else is to be made\n",
    "japanese": "\u30a8\u30e9\u30fc\n".encode(),
}


def archive(opened):
    """Returns the bytes of a tar or zip archive with a file."""
    held = io.BytesIO()
    with opened(held) as packed:
        if isinstance(packed, zipfile.ZipFile):
            packed.writestr("main.hex", "")
        else:
            packed.addfile(tarfile.TarInfo("main.hex"))
    return held.getvalue()


# other files that are no firmware, and what they are
PACKED = {
    "lib.a": (b"!<arch>\nmain.o/         0           0     0     644     4         `\n\0\1\2\3", "ar"),
    "main.zip": (archive(lambda file: zipfile.ZipFile(file, "w")), "zip"),
    "main.tar": (archive(lambda file: tarfile.open(None, "w", file)), "tar"),
    "main.hex.gz": (gzip.compress(b"firmware"), "gzip"),
    "main.hex.xz": (lzma.compress(b"firmware"), "xz"),
    "main.hex.bz2": (bz2.compress(b"firmware"), "bzip2"),
    "none.zip": (b"PK\5\6" + bytes(18), "zip"),
    "main.7z": (b"7z\xbc\xaf\x27\x1c\0\4" + bytes(24), "7z"),
    "main.rar": (b"Rar!\x1a\7\1\0" + bytes(20), "rar"),
    "new.cpio": (b"070701" + b"0000000A" * 13 + b"main.hex\0\0", "cpio"),
    "old.cpio": (struct.pack("<13H", 0o70707, 1, 2, 0o100644, *bytes(6), 9, 0, 2) + b"main.hex\0\0", "cpio"),
    "main.hex.lz4": (b"\x04\x22\x4d\x18\x64\x40\xa7" + bytes(9), "lz4"),
    "404": (b"<html>404 Not Found</html>\n", "HTML"),
    "html": ("<html>\n<p>Größe</p>\n".encode(), "HTML"),
    "page.php": ("\n <!doctype HTML>\n<p>\u30a8\u30e9\u30fc</p>\n".encode(), "HTML"),
}
EMPTY = {
    "end.hex": b":00000001FF\n",
    "end.srec": b"S0030000FC\nS5030000FC\nS9030000FC\n",
    "note_after.hex": b":00000001FF\n# built by :me\n",
    "blank.hex": b" \r\n\n",
    "empty.hex": b"",
    "empty.bin": b"",
}
# (as cat joins files)
JOINED = {
    "joined.hex": 2 * b":0400000001020304F2\r\n:00000001ff\r\n",
    "joined.srec": b"S1050000ABCD82\nS9030000FC\nS0030000FC\nS1057E00010279\nS9030000FC\n",
}


def refused():
    """A run that is refused for its options or files opens no device, and reports why."""
    room.put("an x.elf", b"\x7fELF\x01\x01\x01")
    room.put("note.hex", b"# a note\n" + room.read("blink.hex"))
    room.put("page.hex", b"<!DOCTYPE html>\n<p>no such firmware</p>\n")
    room.put("big.hex", hex_of([(32_768, b"x")]))
    room.put("257.hex", hex_of([(250, b"1234567")]))
    room.put("257.bin", bytes(257))
    # (the byte at 256 comes after more than 64 kB)
    room.put("late257.hex", hex_of([(0, b"x")]).splitlines(True)[0] * 6000 + hex_of([(256, b"x")]))
    room.put("colon.bin", b":\1\2\3")
    room.put("mark.hex", b"\xef\xbb\xbf" + room.read("blink.hex"))
    room.put("bare.hex", room.read("blink.hex")[1:])
    room.put("mixed.hex", room.read("blink.hex").replace(b"\n", b"\nS9030000FC\n", 1))
    room.put("zeros.bin", bytes(2000))
    room.put("wide.hex", TEXTS["wide"])
    room.put("indented.hex", TEXTS["indented"])
    room.put("above.hex", hex_of([(0x810000, b"x")]))
    room.put("arm.hex", hex_of([(0x8000000, b"x")]))
    room.put("long.txt", room.read("blink.hex").replace(b"\n", b"0" * 600, 1))
    room.put("lfuse.txt", b"0xe2\n")
    room.put("long x.elf", b"\x7fELF" + b"x" * 600 + b"\n")
    (room.folder / "gone.hex").symlink_to("nowhere")
    (room.folder / "loop").symlink_to("loop")
    cases = [(shlex.split(words), wanted) for words, wanted in table("refused")]

    def ran(words):
        # (a device without a programmer)
        board = Board(talk=b".")
        part = [] if words[:1] == ["-e"] else ["-p", "m328p"]
        device = [] if "-P" in words else ["-P", board.device]
        status, output, _, own = run([*part, *device, *words])
        own = [row for row in own if not row.endswith("is read as Intel HEX (:i)")]
        opened = board.opened
        board.end()
        return (status, output, len(own), opened), own

    for (words, wanted), (found, own) in zip(cases, side_by_side(lambda case: ran(case[0]), cases)):
        check(" ".join(words), found == (1, b"", 1, 0) and own[0].startswith(wanted), (found, own))


def piped(words, content, **more):
    """Runs these options with this content on standard input, by a pipe."""
    reader, writer = os.pipe()
    with forks:
        threading.Thread(target=lambda: (os.write(writer, content), os.close(writer)), daemon=True).start()
    try:
        return run(words, stdin=reader, **more)
    finally:
        os.close(reader)


def texts_and_firmware():
    """A text from a pipe is refused for flash. EEPROM may hold one, and firmware may have strings."""
    # (a log whose end or beginning was never written; EEPROM may hold a text that a NUL ends)
    for raw in [b"make: all is made\n" + bytes(4000), bytes(500) + b"make: all is made\n", b"SN00042\0"]:
        found = piped([*NO_CHIP, "-U", "flash:w:-"], raw)
        check_equal(
            f"{raw[:20]}: flash",
            found,
            (
                1,
                b"",
                b"",
                [f"- {LIKE_TEXT}: {UNOPENED}"],
            ),
        )
    found = piped([*NO_CHIP, "-U", "eeprom:w:-"], raw)
    check_equal("a text in EEPROM", (found[0], room.read("no.bin")[32_768:][: len(raw)]), (0, raw))
    noted = room.read("blink.hex") + b"S1 is the button that resets the board\n"
    check_equal("a note after the end record", piped([*NO_CHIP, "-U", "flash:w:-"], noted)[0], 0)
    check_equal("a fuse as one raw byte", piped([*NO_CHIP, "-U", "lfuse:w:-"], b"\xe2")[0], 0)
    status, *_ = run([*NO_CHIP, "-U", "eeprom:w:m.c:r"])
    check_equal("a text as raw bytes", (status, room.read("no.bin")[32_768:][: len(TEXTS["m.c"])]), (0, TEXTS["m.c"]))
    # (vectors, and strings right behind them)
    tiny = (
        bytes.fromhex("0EC028C027C026C025C024C023C022C021C020C01FC01EC01DC01CC01BC0") + b"Temperature too high\r\n" * 60
    )
    for name, raw in [("tiny.bin", tiny), ("jumps.bin", bytes.fromhex("0C945C00") * 26 + tiny[30:])]:
        found = piped([*NO_CHIP, "-U", "flash:w:-"], raw)
        check(f"{name} is firmware", (found[0], room.read("no.bin")[: len(raw)]) == (0, raw), found)


def no_firmware():
    """Without :r a text without records, an archive and an HTML page are refused, also from a pipe, and an empty image
    always is. (EEPROM takes a text that a NUL ends.) A text as raw bytes (:r) is not."""
    why = {
        **dict.fromkeys(TEXTS, LIKE_TEXT),
        **dict.fromkeys(EMPTY, "has no data"),
        **dict.fromkeys(JOINED, "has data after its end record"),
    }
    why.update({name: LIKE_TEXT.replace("text", what) for name, (_, what) in PACKED.items()})
    why.update({"lib.elf": why["lib.a"], "a.out": "is not ELF", "note.ELF": "is not ELF: give :i"})
    # (these are no such files without their names)
    others = {"lib.elf": PACKED["lib.a"][0], "note.ELF": room.read("blink.hex"), "a.out": b"\x0c\x94\0\0"}
    others["blank.hex"] = EMPTY["blank.hex"]
    contents = {**TEXTS, **EMPTY, **JOINED, **others, **{name: held for name, (held, _) in PACKED.items()}}
    for name, content in contents.items():
        room.put(name, content)
    updates = [f"{prefix}{name}" for name in why for prefix in ("flash:w:", "eeprom:v:")]
    updates += [f"flash:w:{name}:{'i' if name in EMPTY else 'a'}" for name in why]
    cases = [(["-U", update], b"", update.split(":")[2], update.split(":")[2]) for update in updates]
    # (a pipe has no name that could say what it has)
    ways = zip(itertools.cycle(["-", "/dev/stdin", "-:a", "/dev/fd/0"]), set(why) - set(others))
    cases += [(["-U", f"flash:w:{way}"], contents[name], way.split(":")[0], name) for way, name in ways]
    for (words, given, shown, name), found in zip(
        cases, side_by_side(lambda case: piped([*NO_CHIP, *case[0]], case[1]), cases)
    ):
        check_equal(f"{words} {name}", found, (1, b"", b"", [f"{shown} {why[name]}: {UNOPENED}"]))
    texts_and_firmware()
    check_equal("a missing file is not read as a format", run([*NO_CHIP, "-U", "flash:w:nosuch.hex"])[3], [])
    wanted = [f"/dev/zero has more than 67,108,864 bytes: {UNOPENED}"]
    check_equal("what never ends", run([*NO_CHIP, "-U", "flash:w:/dev/zero:r"]), (1, b"", b"", wanted))


def ports_of_avrstk():
    """A run over `net:` or `emu:` goes to avrstk, with the script's options adapted. Option -c ? lists the
    programmers."""
    wanted = flashed()
    words = ["-C", "x.conf", "-c", "stk500", "-b", "9600", "-p", "atmega328p", "-U", "blink.hex"]
    notes = ["ignored: -C x.conf", "blink.hex is read as Intel HEX (:i)"]
    status, _, printed, own = run([*words, "-P", "emu:chip.bin"])
    check_equal("emu:", (status, printed, own, room.read("chip.bin") == wanted), (0, lines(*FIRMWARE), notes, True))
    with Server(room) as server:
        status, _, printed, own = run([*words, "-P", f"net:127.0.0.1:{server.port}"])
        server.end()
    check_equal("net:", (status, printed, own, room.read("served.bin") == wanted), (0, lines(*FIRMWARE), notes, True))
    started = start(["-p", "m328p", "-P", "stdio:"], stdin=subprocess.PIPE)
    check("its first frame", started.stdout.read(7))
    started.send_signal(signal.SIGTERM)
    # (avrstk has ended, too: else its output stays open)
    check_equal("a signal", (started.stdout.read(), started.wait(PATIENCE)), (b"", 1))
    status, output, printed, own = run(["-c", "?"])
    names = b"avrispv2 stk500 stk500v2 wiring arduino arduino_as_isp stk500v1 avrisp".split()
    check_equal("-c ?", (status, printed, own, output.split()), (0, b"", [], names))


def devices():
    """Tests devices that don't exist, or can't be used."""
    line, device = terminal()
    here = str(room.folder)
    for words, wanted in [
        (["-P", "/dev/no such device"], f"/dev/no such device: {LISTED}"),
        (["-P", os.path.basename("/dev/null")], f"null: {LISTED}"),
        (["-P", here], f"{here}: {LISTED}"),
        (["-P", "/dev/null"], "/dev/null: cannot be set to 115200 baud"),
        ([], "no device given (-P): -P '?' lists devices"),
    ]:
        status, _, _, own = run([*FLASH, *words])
        check(f"device {words}", (status, len(own)) == (1, 1) and own[0].startswith(wanted), own)
    os.chmod(device, 0)
    # (group 5 is `tty`, the owner of terminals, in every Linux)
    for mode, group, name in [(0o660, 5, "tty"), (0o600, 5, "tty"), (0o660, 0, "root"), (0o660, 54_321, "54321")]:
        if os.geteuid() == 0:
            os.chown(device, 0, group)
        os.chmod(device, mode if os.geteuid() == 0 else 0)
        ran = run_as_anyone([*FLASH, "-P", device], shutil.which("true"))
        rights = f"(its group is {name}, its mode {mode:o})" if os.geteuid() == 0 else "(its group is "
        wanted = f"{device}: you may not read and write it {rights}"
        check(f"no right to it, of group {group}, mode {mode:o}", wanted.encode() in ran.stderr, ran.stderr)
    os.chmod(device, 0o666)
    with tempfile.TemporaryDirectory(dir="/tmp") as folder:
        ran = run_as_anyone([*FLASH, "-P", f"{folder}/x"], shutil.which("true"))
        wanted = "Permission denied" if os.geteuid() == 0 else LISTED
        check("a device in a closed folder", f"{folder}/x: {wanted}".encode() in ran.stderr, ran.stderr)
    with tempfile.TemporaryDirectory(dir="/tmp") as folder:
        os.chmod(folder, 0o755)
        closed = Path(folder, "closed.hex")
        closed.write_bytes(b"x")
        closed.chmod(0)
        error = f"sys.stderr.write('avrstk: error: {closed}: cannot be opened\\n')\nsys.exit(1)\n"
        program = stand_in(error, Path(folder))["AVRSTK"]
        ran = run_as_anyone(["-p", "m328p", "-P", device, "-U", f"flash:w:{closed}:i"], program)
        check(
            "no right to a file",
            b"avrstk-serial: check its name and permissions; nothing was sent" in ran.stderr,
            ran.stderr,
        )
        closed = Path(folder, "closed", "folder")
        closed.mkdir(parents=True)
        closed.parent.chmod(0)
        ran = run_as_anyone(["-p", "m328p", "-P", device, "-U", f"flash:r:{closed}/x.hex"], program)
        reached = f"{closed}/x.hex cannot be written: nothing was sent"
        check("no way to a folder", reached.encode() in ran.stderr, ran.stderr)
        closed.parent.chmod(0o700)
    os.close(line)


def what_is_missing():
    """avrstk-serial reports if the program, its own modules or its part file are missing. If no program is named, it
    runs the one beside it. (tests/build.py has that of a clone.)"""
    needed = "is missing, or can't be run"
    line, device = terminal()
    check_equal(
        "no avrstk", run([*FLASH, "-P", device], env={"AVRSTK": "/nowhere/it"})[::3], (1, [f"/nowhere/it {needed}"])
    )
    # (the system's fault is of no file)
    fails = (
        "import runpy, socket, sys\nsys.argv[:1] = []\ndef fail(*_):\n    raise OSError(24, 'Too many open files')\n"
    )
    fails += "socket.create_server = fail\nrunpy.run_path(sys.argv[0], run_name='__main__')\n"
    check_equal("no socket", run([*FLASH, "-P", device], front=["-c", fails])[::3], (1, ["Too many open files"]))
    os.close(line)
    with tempfile.TemporaryDirectory() as folder:
        front, link = Path(folder, "bin/avrstk"), Path(folder, "a link")
        front.parent.mkdir()
        shutil.copy(SCRIPT, front.parent)
        # (a link to the script finds all, too)
        link.symlink_to("bin/avrstk-serial")

        def ran(*words, part="m328p", device="emu:x"):
            command = [sys.executable, str(link), *words, "-p", part, "-P", device]
            finished = subprocess.run(command, capture_output=True, text=True, env=own_environment(), timeout=PATIENCE)
            return finished.returncode, finished.stdout, finished.stderr

        modules = "Python finds no module {}: check Python and lib/avrstk\n"
        check_equal("no modules", ran(), (1, "", f"avrstk-serial: {modules.format('avrstk_serial')}"))
        shutil.copytree(SHARED, Path(folder, "lib"), ignore=shutil.ignore_patterns("__pycache__"))
        Path(folder, "sitecustomize.py").write_text("import sys\nsys.modules['json'] = None\n")
        for script in ("avrstk-serial", "avrstk-serve"):
            command, environment = [sys.executable, str(TOP / script), "-p", "m328p"], own_environment(
                PYTHONPATH=folder
            )
            finished = subprocess.run(command, capture_output=True, text=True, env=environment, timeout=PATIENCE)
            check_equal(f"{script}: no json", finished.stderr, f"{script}: {modules.format('json')}")
        check_equal("no program", ran(), (1, "", f"avrstk-serial: {front} {needed}\n"))
        put_program(front, "#!/bin/sh\necho $0 $1\n")
        check_equal("the one beside it", ran(), (0, f"{front} -P\n", ""))
        check_equal("--unproved", ran("--unproved"), (0, f"{front} --unproved\n", ""))
        no_file = "classic.toml is missing, or has no parts"
        check_equal("no part file", ran(part="atmega328p"), (1, "", f"avrstk-serial: atmega328p: {no_file}\n"))
        line, device = terminal()
        for file in [None, "[parts.atmega328p]\n"]:
            if file is not None:
                Path(folder, "share/avrstk").mkdir(parents=True)
                Path(folder, "share/avrstk/classic.toml").write_text(file)
            check_equal("no part file to list", ran(part="?"), (1, "", f"avrstk-serial: {no_file}\n"))
            check_equal("nor for -p auto", ran(part="auto", device=device), (1, "", f"avrstk-serial: {no_file}\n"))
        os.close(line)
        check_equal("no file is written", [*Path(folder).rglob("*.pyc")], [])
    # (2: Python keeps no docstrings)
    for words, level in [([], "0"), (["--help"], "0"), (["-h"], "0"), (["-?"], "0"), (["--help"], "2")]:
        status, output, printed, own = run(words, env={"PYTHONOPTIMIZE": level})
        begins = output.startswith(b"avrstk for boards on a serial device")
        check_equal(f"{words}, {level}", (status, printed, own, begins), (0, b"", [], True))


def patched(text, words):
    """Runs the script with `ioctl` replaced by this text. Returns the status, the output and the last line."""
    begin = "import fcntl, runpy, sys, termios, time\nsys.argv[:1] = []\ndo = fcntl.ioctl\n"
    end = "fcntl.ioctl = ioctl\nrunpy.run_path(sys.argv[0], run_name='__main__')\n"
    how = {"env": os.environ | {"AVRSTK": str(PROGRAM)}, "capture_output": True, "text": True, "timeout": PATIENCE}
    command = [sys.executable, "-c", f"{begin}def ioctl(device, request, *given):\n{text}\n{end}", str(SCRIPT), *words]
    ran = subprocess.run(command, cwd=room.folder, **how)
    return ran.returncode, ran.stdout, ran.stderr.splitlines()[-1]


def speeds_that_a_device_has_not():
    """A device that keeps a speed far from the given one is refused, here 9600 for 115200; 9600 for 9500 is taken. One
    that is a little off is not."""
    slow = "    found = do(device, request, *given)\n"
    slow += "    return found[:40] + (9600).to_bytes(4, sys.byteorder) if request == 0x802C542A else found"
    for baud, end in [
        ("115200", "avrstk-serial: {}: cannot be set to 115200 baud: it takes 9600"),
        ("9500", "avrstk: done"),
    ]:
        board = Board()
        found = patched(slow, ["-p", "m328p", "-P", board.device, "-b", baud])
        check_equal(f"{baud} at 9600", found, (int(baud != "9500"), "", end.format(board.device)))
        board.end()
    # (it has the first speed of two, and is silent)
    board = Board(deaf=1000)
    words = ["-p", "m328p", "-c", "arduino", "-D", "-U", "flash:w:blink.hex", "-P", board.device]
    _, _, hint = patched(slow.replace("(9600)", "(115200)"), words)
    check(
        "a device without the second speed",
        hint.startswith("avrstk-serial: no valid reply to SIGN_ON in time; the chip is"),
        hint,
    )
    board.end()


def lines_of_a_board():
    """With -c wiring DTR and RTS are released, and after 50 ms asserted, as AVRDUDE does. Others are not reset."""
    noted = "    if request in (termios.TIOCMBIC, termios.TIOCMBIS):\n"
    noted += "        print(request == termios.TIOCMBIS, given[0][0], time.monotonic(), flush=True)\n"
    noted += "        raise OSError({fault}, '')\n    return do(device, request, *given)"
    both = termios.TIOCM_DTR | termios.TIOCM_RTS
    for words, fault, wanted in [
        (["-c", "wiring"], 25, 2),
        (["-cWiring"], 22, 2),
        ([], 25, 0),
        (["-c", "stk500"], 25, 0),
    ]:
        board = Board()
        status, output, _ = patched(noted.format(fault=fault), ["-p", "m328p", "-P", board.device, *words])
        board.end()
        pulses = [row.split() for row in output.splitlines()]
        check_equal(f"{words}: the status", status, 0)
        check_equal(
            f"{words}: the lines", [row[:2] for row in pulses], [["False", f"{both}"], ["True", f"{both}"]][:wanted]
        )
        check(f"{words}: 50 ms", wanted < 2 or float(pulses[1][2]) - float(pulses[0][2]) >= 0.05, pulses)


def bits_that_do_not_exist():
    """Without --parts, if a value has 0 in bits that read as 1, the script gives avrstk 1 there and prints the new
    value."""
    note = "atmega328p lacks bits of"
    recipe = ["-e", "-Ulock:w:0x3F:m", "-Uefuse:w: 0X05,:m", "-Uhfuse:w:0xDE:m", "-Ulfuse:w:255:m"]
    shown = [f"{note} lock: lock:w:0x3F:m becomes lock:w:0xFF:m"]
    shown.append(f"{note} efuse: efuse:w: 0X05,:m becomes efuse:w:0xFD:m")
    status, _, _, own, chip = over(["-patmega328p", *recipe])
    check_equal("a recipe of the Arduino IDE", (status, own, chip[-4:].hex()), (0, shown, "ffdefdff"))
    status, _, _, own = run(["-patmega328p", "-P", "emu:chip.bin", *recipe, "-Uefuse:v:0B101:m"])
    shown.append(f"{note} efuse: efuse:v:0B101:m becomes efuse:v:0xFD:m")
    check_equal("the same over emu:", (status, own, room.read("chip.bin")[-4:].hex()), (0, shown, "ffdefdff"))
    room.put("mine.toml", (TOP / "parts/classic.toml").read_bytes())
    status, _, _, own = run(["--parts", "mine.toml", "-pm328p", "-P", "emu:own.bin", *recipe])
    check_equal("a part file of one's own", (status, own, room.read("own.bin")[-4:].hex()), (0, [], "ffde053f"))
    words = ["-p", "atmega16u4", "-P", "emu:u4.bin", "-U", "lock:w:0x3F:m", "-U", "lfuse:w:0x1FF:m"]
    check_equal("bits that are read as 0", run(words)[3], [])


def lists():
    """Tests the list of devices that -P ? prints. (tests/serve.py has --version.)"""
    here = sorted(str(path) for kind in ("ACM", "USB") for path in Path("/dev").glob(f"tty{kind}*"))
    status, output, *printed = run(["-P", "?"])
    check_equal(
        "-P ?",
        (status, [row.split()[0] for row in output.decode().splitlines()], printed),
        (0, here or ["no"], [b"", []]),
    )


class Boards:
    """One chip behind one device, named `device` in the room: a board for each time that it is opened. Each has a
    pseudo terminal of its own, so that it sees the end of its run even if the next one opens the device at once."""

    def __init__(self, *each, chip=None):
        self.chip, self.each = chip or f"served{next(boards)}.bin", each
        self.device = room.folder / f"device{next(boards)}"
        self.over, self.ends = threading.Event(), None
        self.renew()
        self.thread = threading.Thread(target=self.live, daemon=True)
        self.thread.start()

    def renew(self):
        """Gives the name to a new pseudo terminal, in one step."""
        self.ends, link = terminal(), room.folder / f"{self.device.name}.next"
        link.symlink_to(self.ends[1])
        link.replace(self.device)

    def live(self):
        for number, board in enumerate(self.each, 1):
            programmer = Board(chip=self.chip, ends=self.ends, stopped=self.over, **board)
            while not programmer.opened and programmer.thread.is_alive():
                time.sleep(0.005)
            goes, is_last = programmer.vanish is not None, number == len(self.each)
            if goes:
                self.device.unlink()
            elif not is_last:
                self.renew()
            programmer.end()
            if goes and not is_last:
                time.sleep(0.5)
                self.renew()

    def end(self):
        """Waits until the boards are closed, and returns the chip. A board that isn't opened by now is left out."""
        self.over.set()
        self.thread.join(PATIENCE)
        self.device.unlink(missing_ok=True)
        return room.read(self.chip)


def silent(command):
    return {"answer": lambda answer: b"" if answer[5] == command else answer}


def retries():
    """With --retry the script runs the same command again after no answer, a lost link or a mismatch."""
    wanted = flashed()

    def ran(case):
        programmer = Boards(*(board_of(each.strip()) for each in case[0].split(",")))
        status, _, _, own = run([*FLASH, "--retry", "2", "-P", str(programmer.device)])
        return status, own, programmer.end() == wanted

    cases = table("attempts")
    for (each, count, error, hint), (status, own, is_flashed) in zip(cases, side_by_side(unpaused(ran), cases)):
        again = [f"{error}: trying again, {attempt} of 2" for attempt in range(1, int(count) + 1)]
        # (whichever byte differs first)
        found = (status, [re.sub(r"address .*? expected", "address 00000000: 0C expected", line) for line in own])
        check_equal(f"{each}: {hint}", found, (int(hint != ""), again + [hint] * (hint != "")))
        check(f"{each}: the chip", is_flashed == (hint == ""), own)

    line, device = terminal()
    error = "sys.stderr.write('avrstk: error: link x: cannot be created\\n')\nsys.exit(1)\n"
    *_, own = run([*FLASH, "--retry", "1", "-P", device], env=stand_in(error))
    os.close(line)
    check_equal("a file whose name begins as the error of a link", len(own), 1)
    wrong = board_of("reply 18 1800E100")
    programmer = Boards(wrong, wrong)
    *_, own = run(["-p", "m328p", "-U", "lfuse:w:0xE2:m", "--retry", "1", "-P", str(programmer.device)])
    programmer.end()
    # (it is refused for some commands that erase)
    check("an erase without --retry", ", the lock last, without --retry. The erase clears" in own[-1], own)

    def spoiled(reply):
        room.put("counter", b"x\n")
        return reply

    room.put("counter", b"7\n")
    programmer = Boards({"vanish": 8, "answer": spoiled}, {})
    words = [*FLASH, "--each", "eeprom@0={n}", "--counter", "counter", "--retry", "1"]
    *_, own = run([*words, "-P", str(programmer.device)])
    programmer.end()
    state = "; the chip may be erased or partly written, and may be in programming mode"
    is_right = own[-1].startswith("--counter counter: not a number from 0 to ") and own[-1].endswith(state)
    check("no number for the second attempt", is_right, own)
    room.put("counter", b"7\n")
    programmer = Boards({"vanish": 8})
    started = start([*words, "-P", str(programmer.device)])
    next(line for line in iter(started.stderr.readline, b"") if b"trying again" in line)
    started.send_signal(signal.SIGINT)
    own = started.communicate(timeout=PATIENCE)[1].decode().splitlines()
    programmer.end()
    check_equal("a signal between attempts", (len(own), room.read("counter")), (1, b"8\n"))
    check("a signal between attempts: its line", " ended by SIGINT: the chip may be erased or partly" in own[0], own)


def retries_that_are_refused():
    """--retry is refused at the beginning for many commands that a second run may not repair."""
    room.put("late.hex", hex_of([(0x4000, b"late")]))
    line, device = terminal()
    fails = stand_in("sys.exit(1)\n")

    def ran(*words):
        status, _, _, own = run(["-p", "m328p", "-P", device, "--retry", "1", *words], env=fails)
        named = own[0].partition("--retry takes no ")[2]
        why = "a second run (may not repair this, or may hide or undo what the first one found or did"
        why += "|would write there once more)"
        return status, re.sub(f": {why}$", "", named.removeprefix("-U "))

    two = ["-U", "flash:w:blink.hex:i", "-U", "flash:w:late.hex:i"]
    check_equal("--retry without avrstk_session", ran(*two), (1, "flash:w:late.hex:i"))
    # (what prints the pages of a plan is beside avrstk)
    (room.folder / "avrstk_session").symlink_to(SESSION)
    for words, why in table("retries"):
        words = shlex.split(words)
        check_equal(f"--retry {words}", ran(*words), (1, why))
    check_equal("--retry 007", run([*FLASH, "-P", device, "--retry=007"], env=fails)[3], [UNOPENED])
    for text in ["-1", "x", "100", "\u0663"]:
        status, _, _, own = run([*FLASH, "-P", device, f"--retry={text}"])
        check_equal(f"--retry {text}", (status, own), (1, [f"--retry {text}: give a number from 0 to 99"]))
    os.close(line)


def the_part_of_the_chip():
    """-p auto reads the signature first, and takes the part if only one has it."""
    wanted = flashed()
    words = ["-p", "auto", "-U", "flash:w:blink.hex:i", "-U", "lock:w:0x3F:m"]
    programmer = Boards(silent(0x1B), {}, {})
    status, _, printed, own = run([*words, "--retry", "1", "-P", str(programmer.device)])
    note, again = "m328p lacks bits of lock: lock:w:0x3F:m becomes lock:w:0xFF:m", "no answer: trying again, 1 of 1"
    check_equal("its lines", (status, own), (0, [again, "-p auto takes m328p", note]))
    check("the run's own lines alone", printed.startswith(lines(SIGNATURE, "chip erased")), printed)
    check_equal("the chip", programmer.end(), wanted)
    _, _, _, own, _ = over(["-p", "auto", "-U", "flash:w:gone.hex:i"], {})
    sent = "the chip is unchanged"
    check_equal(
        "what its session sent is known",
        own,
        ["-p auto takes m328p", f"check its name and permissions; {sent}"],
    )
    for board, hint in table("auto"):
        status, _, printed, own, chip = over(words, board_of(board))
        check(hint, (status, len(own)) == (1, 1) and own[0].startswith(hint), (status, printed, own))
        check(f"{hint}: the chip", set(chip) == {0xFF}, chip[-4:])
    _, _, printed, _, _ = over(words, {"part": "m2560", **silent(0x11)})
    check_equal(
        "another part than the session asks for", printed, lines("device signature = 1E 98 01", "error: no answer")
    )
    for more, why in [
        (["-P", "emu:chip.bin"], "-p auto is for a serial device, not -P emu:chip.bin"),
        ([*CLASSIC, "-P", os.devnull], "-p auto takes no --parts"),
    ]:
        check_equal(f"{more}", run([*words, *more])[::3], (1, [why]))
    each = ["--each", "eeprom@512={n}", "--counter", "untaken", "--from", "5"]
    _, _, _, own, _ = over(["-p", "auto", *each], board_of("part t85"))
    has = "--each: eeprom has no address 0x200: nothing was written"
    check_equal("a text outside the chip's EEPROM", own, ["-p auto takes t85", has])
    room.put("late.hex", hex_of([(0x4000, b"late")]))
    each[1] = "eeprom@0={n}"
    _, _, printed, own, _ = over(["-p", "auto", *each, "-U", "flash:w:late.hex:i"], board_of("part t85"))
    check_equal(
        "an image outside the chip's flash", printed, lines("error: late.hex: line 1: address 00004000 out of range")
    )
    check_equal("its hint", own, ["-p auto takes t85", "check -p and the image; the chip is unchanged"])
    check("no number was taken", not (room.folder / "untaken").exists())


def screen(text):
    """Returns the lines on a terminal after a text."""
    rows, at = [""], 0
    for character in text:
        if character == "\n":
            rows.append("")
        elif character == "\r":
            at = 0
        else:
            rows[-1], at = rows[-1][:at].ljust(at) + character + rows[-1][at + 1 :], at + 1
    return [row.rstrip() for row in rows]


def on_a_terminal(words, answer=None, **more):
    """Returns a terminal's text if it is standard error, the status, and what the board has received."""
    board = Board(answer=answer)
    line, slave = pty.openpty()
    started = start([*words, "-P", board.device], stderr=slave, **more)
    kills = threading.Timer(60, started.kill)
    kills.start()
    os.close(slave)
    got = read_whole(line)
    kills.cancel()
    board.end()
    os.close(line)
    return got.decode(), started.wait(PATIENCE), board.received


def progress():
    """Only a terminal shows progress, and the message lines stay as they are."""
    rows = [line.decode() for line in lines(*FIRMWARE).splitlines()]

    def slow(answer):
        time.sleep(0.3 if answer[5] == 0x13 or answer[5:7] == b"\x14\0" and next(read) < 5 else 0)
        return answer

    read = itertools.count()
    got, status, received = on_a_terminal([*FLASH, "--wait", "0"], slow)
    count = frames_in(received)
    check_equal("the lines that stay", (status, screen(got)), (0, [*rows, ""]))
    # (six frames come before the first page, and two are for each)
    for text, sent in [
        ("writing flash: 128 bytes", 8),
        ("writing flash: 256 bytes", 10),
        ("reading flash: 256 bytes", 12),
    ]:
        check(text, f"\ravrstk-serial: {text}, {100 * sent // count} %" in got, (count, got))
    left = re.search(r"\ravrstk-serial: reading flash: 1,\d+ bytes, \d+ %, (\d+) s left", got)
    check("the time that is left", left and int(left[1]) > 5, got)
    updates = ["flash:r:back.hex:i", "eeprom:w:whole.bin:r", "flash:w:blink.hex", "eeprom:r:back.bin"]
    got, status, _ = on_a_terminal(["-p", "m328p", *(word for update in updates for word in ("-U", update))])
    wanted = ["reading flash", "writing eeprom", "reading eeprom", "reading flash", "writing flash"]
    names = set(re.findall(r"\ravrstk-serial: (\w+ \w+)", got))
    check_equal("each has its name", (status, names), (0, set(wanted)))
    got, status, _ = on_a_terminal([*FLASH, "-q"])
    check_equal("-q", (status, got), (0, ""))
    lost = itertools.count()
    got, status, _ = on_a_terminal(FLASH, lambda answer: b"" if answer[5] == 0x13 and not next(lost) else slow(answer))
    written = [int(count) for count in re.findall(r"\ravrstk-serial: writing flash: (\d+) bytes", got)]
    check_equal("a page that is sent again counts once", (status, written), (0, [128, 256]))


def few_lines():
    """-q twice leaves values that the script changes or warns of. -l also writes a run's messages into a file, also
    over `emu:`."""
    flashed()
    quiet = [
        "-C",
        "x.conf",
        "-q",
        "-q",
        "-p",
        "auto",
        "--retry",
        "1",
        "-U",
        "blink.hex",
        "-U",
        "efuse:w:5:m",
        "-U",
        "lfuse:w:0:m",
    ]
    board = Boards({}, silent(0x13), {})
    status, _, _, own = run([*quiet, "-P", str(board.device)])
    shown = ["m328p lacks bits of efuse: efuse:w:5:m becomes efuse:w:0xFD:m"]
    shown.append("warning: lfuse:w:0:m selects an external clock: then a programmer may not reach the chip")
    check_equal("-q twice", (status, own), (0, shown))
    check("the chip", board.end()[:228] == flashed()[:228])
    board = Board()
    for port in [board.device, "emu:logged.bin"]:
        status, _, printed, own = run([*FLASH, "-l", "x.log", "-C", "x.conf", "-P", port])
        own = b"".join(b"avrstk-serial: " + row.encode() + b"\n" for row in own)
        check_equal(f"-l, {port}", (status, printed, room.read("x.log")), (0, lines(*FIRMWARE), own + printed))
    board.end()


def status_and_lines(words, board):
    """Runs these options over a board. Returns the status, and the script's own lines."""
    return over(["-p", "m328p", *words], board)[::3]


def backups_that_fail():
    """A failed backup leaves no folder. A chip of another part, or a folder with faults, is not restored."""
    loader = "if this is a bootloader, use a programmer; the chip is unchanged; if it fails again, "
    loader += "try another programmer or chip"

    def written(answer):
        check("no write", answer[5] not in (0x12, 0x13, 0x15, 0x17, 0x19))
        return answer

    def refused(answer):
        return frame(answer[1], b"\x1c\xc0") if answer[5] == 0x1C else written(answer)

    only_leaving = "power-cycle the board, and run the same command again"
    fails = [
        ({"answer": refused}, ["--backup", "gone"], f"{loader}; no backup is kept"),
        ({"answer": refused}, ["--restore", "a backup"], loader),
        ({"talk": b"x"}, ["--backup", "gone", "-b", "x"], "-b x: not a speed"),
        (silent(0x16), ["--backup", "gone"], "check the cable, the wires and the power; the chip is unchanged"),
        (silent(0x11), ["--backup", "gone"], f"{only_leaving}; no backup is kept"),
        (
            board_of("part t85"),
            ["-p", "t85", "--restore", "a backup"],
            f"a backup has the signature 1E950F, and t85 1E930B: {UNOPENED}",
        ),
    ]
    sizes = "flash_size = 8192, flash_page = 64, eeprom_size = 512, eeprom_page = 4, eesave_bit = 3"
    # (a part in one line with its table)
    room.put("odd.toml", f'parts = {{ odd = {{ signature = "1E930B", {sizes} }} }}\n'.encode())
    odd = ["--parts", "odd.toml", "-p", "odd", "--restore", "a backup"]
    fails.append(
        ({"part": "t85", "answer": written}, odd, f"a backup has the signature 1E950F, and odd 1E930B: {UNOPENED}")
    )
    # (avrstk refuses this signature)
    room.put("blanks.toml", f'parts = {{ odd = {{ signature = "1E 95 0F", {sizes} }} }}\n'.encode())
    fails.append(({}, ["--parts", "blanks.toml", "-p", "odd", "--restore", "a backup"], UNOPENED))
    room.put("locked.bin", b"\xff" * 33_795 + b"\xfc")
    locked = "the chip reads as locked; no backup is kept"
    fails.append(({"chip": "locked.bin"}, ["--backup", "gone"], locked))
    for board, words, why in fails:
        status, own = status_and_lines(words, board)
        check(f"{words}: {why}", status == 1 and own[-1].startswith(why) and not (room.folder / "gone").exists(), own)
    programmer = Boards({}, board_of("reply 12 12C0"))
    own = run(["-p", "m328p", "-P", str(programmer.device), "--restore", "a backup"])[3]
    programmer.end()
    again = "run the same command again; if it fails again, try another programmer or chip"
    check_equal("a refused erase", own, [f"the chip may be erased or partly written: {again}"])
    cut = hex_of([(0, bytes(512))])
    for file, text, why, words in [
        ("lock.txt", b"0xfc", "none/lock.txt is of a locked chip", []),
        ("lock.txt", b"255", "none/lock.txt isn't as --backup writes it", []),
        ("eeprom.hex", hex_of([(0, b"1")]), "none/eeprom.hex is not the whole EEPROM", []),
        ("eeprom.hex", cut, "none/eeprom.hex is not the whole EEPROM", CLASSIC),
        ("eeprom.hex", cut, "none/eeprom.hex is not the whole EEPROM", ["-p", "auto"]),
        ("flash.hex", b"".join(cut.splitlines(True)[:-1]), "none/flash.hex has no end record", []),
    ]:
        kept = room.read(f"none/{file}")
        room.put(f"none/{file}", text)
        own = status_and_lines([*words, "--restore", "none"], {"talk": b"x"})
        check_equal(why, own, (1, [f"{why}: {UNOPENED}"]))
        room.put(f"none/{file}", kept)


def commands_of_backups():
    """The command that restores a backup has --unproved, and goes to no programmer."""
    put_program(room.folder / "unproved", f'#!/bin/sh\n[ "$1" != --unproved ] || shift\nexec {PROGRAM} "$@"\n')
    words, more = ["-p", "m328p", "-P", "emu:old.bin"], {"env": {"AVRSTK": str(room.folder / "unproved")}}
    output = run(["--unproved", *words, "--backup", "other"], **more)[1].decode()
    check_equal("--unproved", shlex.split(output)[1:], ["--unproved", *words, "--restore=other"])
    shutil.rmtree(room.folder / "other")
    with Server(room) as server, server.call() as line:
        line.setblocking(True)
        *_, own = run(["-p", "m328p", "-P", "stdio:", "--backup", "other"], stdin=line, stdout=line)
    check("stdio:", own[-1:] and own[-1].endswith(" -p m328p -P stdio: --restore=other"), own)
    shutil.rmtree(room.folder / "other")


def backups():
    """--backup reads all memories, and --restore writes and compares the writable ones, whatever the chip's EEPROM and
    lock are. A folder of a run that fails doesn't stay."""
    flash, eeprom = bytes(number % 241 for number in range(700)), bytes(number % 239 for number in range(200))
    old = flash.ljust(32_768, b"\xff") + eeprom.ljust(1024, b"\xff")
    for fuses, name in [("E2D1FDFF", "a backup"), ("62D907FE", "-x")]:
        room.put("old.bin", old + bytes.fromhex(fuses))
        status, output, _, own, _ = over(["-p", "m328p", "--wait", "0.4", "--backup", name], {"chip": "old.bin"})
        words = shlex.split(output.decode())
        check(f"{name}: its command", words[:5] == [str(SCRIPT), "--wait", "0.4", "-p", "m328p"], output)
        check_equal(
            f"{name}: there is none yet",
            status_and_lines(["--backup", name], {}),
            (1, [f"--backup {name}: File exists: {UNOPENED}"]),
        )
        # (this high fuse keeps EEPROM at an erase. This lock forbids all but an erase)
        for chip in [b"\xe1\xd7\xfa\xfc", b"\xff" * 4]:
            room.put("new.bin", bytes(33_792) + chip)
            programmer = Boards({}, {}, chip="new.bin")
            found = run([str(programmer.device) if word.startswith("/dev/") else word for word in words[1:]])
            check_equal(f"{name}: restored", (found[0], programmer.end() == old + bytes.fromhex(fuses)), (0, True))
        programmer = Boards({}, silent(0x15), {}, chip="new.bin")
        words = [str(programmer.device) if word.startswith("/dev/") else word for word in words[1:]]
        found = run([*words, "--retry", "1"])
        check_equal(f"{name}: restored again", (found[0], programmer.end() == old + bytes.fromhex(fuses)), (0, True))
    room.put("old.bin", b"\xff" * 33_796)
    for words in [["--backup", "none"], ["--restore", "none"]]:
        check_equal("an erased chip", run(["-p", "m328p", "-P", "emu:old.bin", *words])[0], 0)
    backups_that_fail()
    commands_of_backups()
    for folder in ["a backup", "none", "-x"]:
        shutil.rmtree(room.folder / folder)


def warnings():
    """Tests warnings of fuses that can make a chip unreachable, and of flash that is erased or hidden."""
    fields = "flash_size = 32768, flash_page = 128, eeprom_size = 1024, eeprom_page = 4, eesave_bit = 3"
    mine = [
        f'{name} = {{ {fields}, signature = "{digits}" }}\n'
        for name, digits in [("m328p", "1e950F"), ("b-chip", "1E9500"), ("'d-chip'", "1E950F")]
    ]
    dotted = "".join(f"g-chip.{field}\n" for field in [*fields.split(", "), "'signature' = '1E950F'"])
    fields = fields.replace(", ", "\n")
    for name, own in [("a-chip", ""), ("'e-chip'", '# signature = "1E9500"\n')]:
        mine.append(f'[parts.{name}]\n{own}signature = "1E950F"\n{fields}\n')
    for part, words, wanted in table("warnings"):
        room.put("mine.toml", ("[parts]\n" + dotted + "".join(mine)).encode())
        room.put("h59.hex", hex_of([(0, b"\x59")]))
        room.put("h59.srec", b"S104000059A2\nS9030000FC\n")
        room.put("h59.bin", b"\x59")
        room.put("gap.hex", hex_of([(0, b"x"), (256, b"x")]))
        room.put("late.hex", hex_of([(0x4000, b"late")]))
        own = run(["-p", part, "-P", "emu:no.bin", *words.split()])[3]
        room.clear()
        check(f"{part} {words}", bool(own) == bool(wanted) and all(line.startswith(wanted) for line in own), own)
    hides, locks, done = "all of flash read as FF", ["-U", "flash:w:blink.hex:i"], set()
    for words, shown in ("", [hides]), ("-A", []), ("-q -q", []):
        check_equal(f"erased {words}", over(["-p", "m328p", *words.split(), "-U", "flash:r:none.hex:i"])[3], shown)

    def hiding(reply):
        done.add(reply[5])
        is_hidden = reply[5] == 0x14 and 0x19 in done
        return frame(reply[1], b"\x14\0" + b"\xff" * (len(reply) - 9) + b"\0") if is_hidden else reply

    def once(reply):
        is_hidden = reply[5] == 0x14
        hidden = frame(reply[1], b"\x14\0" + b"\xff" * (len(reply) - 9) + b"\0") if is_hidden else reply
        return b"" if reply[5] == 0x18 else hidden

    room.put("full.bin", flashed())
    programmer = Boards({"answer": once}, {}, chip="full.bin")
    words = ["-U", "flash:r:none.hex:i", "-U", "lfuse:r:fuse.txt:h", "--retry", "1"]
    own = run(["-p", "m328p", "-P", str(programmer.device), *words])[3]
    programmer.end()
    check_equal("flash that reads as FF before a retry", own, ["no answer: trying again, 1 of 1"])
    locks += ["-U", "lock:w:0xFC:m", "-U", "flash:r:none.hex:i"]
    check_equal("hidden", over(["-p", "m328p", *locks], {"answer": hiding})[3], [hides])


def asked(words, *each):
    """Runs these options over an ATmega2560, with one of these boards for each time that the device is opened. Returns
    status, avrstk's lines, the script's own, the chip, the commands that were done, and the report."""
    done, name = [], f"report{next(boards)}.json"

    def noting(board):
        change = board.get("answer", lambda reply: reply)
        return {"part": "m2560", **board, "answer": lambda reply: done.append(reply[5]) or change(reply)}

    programmer = Boards(*map(noting, each))
    status, _, printed, own = run(["-p", "m2560", "-P", str(programmer.device), *words, "--json", name])
    own = [row.replace(str(programmer.device), "DEVICE") for row in own]
    return status, printed, own, programmer.end(), done, report_of(name)


def asked_and_done():
    """A programmer that was asked makes the run. The question is no part of its lines, its retries and its updates."""
    # (a verification reads all of flash)
    words = {"-D -V -U flash:w:late.hex:i": 2, "-q -q -D -V -U flash:w:blink.hex:i -U flash:w:late.hex:i": 2}
    words.update({"-U eeprom:w:long.bin:r": 2, "-n -U eeprom:r:long.out:r": 2, "-V -U flash:w:late.hex:i": 1})
    words.update({"-D -V -U flash:w:blink.hex:i": 1, "-D -n -V -U flash:w:late.hex:i": 1, "-V -U lock:w:0xFC:m": 1})
    words.update({"-c wiring -D -V -U flash:w:blink.hex:i": 1})
    wanted = [emulated(*without(without(options.split(), "-c"), "wiring"), part="m2560") for options in words]
    found = side_by_side(unpaused(lambda case: asked(case[0].split(), *[{}] * case[1])), words.items())
    for (options, count), chip, (status, printed, own, held, done, report) in zip(words.items(), wanted, found):
        check_equal(
            f"{options}: asked or not", (status, own, done.count(0x11), 0x1C in done), (0, [], count, count > 1)
        )
        check(f"{options}: the run's own lines alone", b"calibration" not in printed, printed)
        check_equal(f"{options}: the chip, and retries", (held == chip, report["retries"]), (True, 0))
    status, printed, own, _, done, report = asked(
        ["-U", "eeprom:r:back.bin:r", "-U", "calibration:r:byte.txt:h"], {}, silent(0x16)
    )
    counts = [update["read"] for update in report["updates"]]
    check_equal("what was asked is no update", (status, counts, done.count(0x1C)), (1, [None, None], 1))

    def counted(reply):
        room.put("counter", b"10\n")
        return reply

    room.put("counter", b"9\n")
    words = ["--each", "eeprom@0x3F0={n}", "--each", "eeprom@0x3F1=x{n}", "--counter", "counter"]
    *_, own, _, _, _ = asked(words, {"answer": counted})
    why = "--each: two texts at eeprom@0x3F1: nothing was written"
    check_equal("a number that another station made longer", own[-1], why)


def asked_over_a_port():
    """A device behind a port is asked, too."""
    how = {"cwd": room.folder, "env": os.environ | {"AVRSTK": str(PROGRAM)}, "stdout": subprocess.PIPE}
    for more, status, wanted in [
        ([], 0, []),
        (["--mega"], 1, ["the device refuses to read the calibration, as a bootloader does: "]),
    ]:
        command = [TOP / "avrstk-serve", "0", "-p", "m2560", "--chip", "net.bin", *more]
        with subprocess.Popen(command, **how) as served:
            port = int(served.stdout.readline().rpartition(b":")[2])
            found = run(["-p", "m2560", "-P", f"net:127.0.0.1:{port}", "-D", "-V", "-U", "flash:w:late.hex:i"])
            served.terminate()
        check(
            f"net: {more}",
            found[0] == status and [line[:49] for line in found[3]] == [line[:49] for line in wanted],
            found,
        )
        check(f"net: {more}: the chip", (room.read("net.bin")[0x4000:0x4004] == b"late") == (status == 0))
        (room.folder / "net.bin").unlink()


def asked_first():
    """Before some runs at an ATmega2560 the script asks whether it is a bootloader: for EEPROM above 255, and with -D
    for images that this would write wrongly. Then it refuses the run, or makes it without a warning. Before other runs
    it doesn't ask."""
    room.keep("late.hex", hex_of([(0x4000, b"late")]))
    room.keep("long.bin", bytes(257))
    room.keep("later.csv", b"a\nA\nABCDEFGHIJ\n")
    room.put("counter", b"7\n")
    cases = [
        ([board_of(board.strip()) for board in each.split(",")], shlex.split(options), *more)
        for each, options, *more in table("asked")
    ]
    for (each, words, kind, wanted), found in zip(
        cases, side_by_side(unpaused(lambda case: asked(case[1], *case[0])), cases)
    ):
        status, printed, own, chip, done, report = found
        check(f"{words}: {wanted}", own[-1].startswith(wanted), (printed, own))
        check_equal(f"{words}: its kind", (status, report["kind"] or "-"), (int(kind != "-"), kind))
        changed = {0x12, 0x13, 0x15, 0x17, 0x19} & set(done)
        check_equal(
            f"{words}: what was changed", (bool(changed), set(chip or b"\xff") == {0xFF}), (kind == "-", kind != "-")
        )
        is_left = kind in ("-", "refused") and done[-1] == 0x11
        check(f"{words}: the chip is left", is_left or kind not in ("-", "refused"), done)
    check_equal(
        "no number was taken, and no file was made", (room.read("counter"), room.read("long.out")), (b"7\n", None)
    )
    asked_and_done()
    asked_over_a_port()


def images_in_pipes():
    """An image is read once from a named pipe, and from a shell's pipe that two updates and two attempts share."""
    wanted, text = flashed(), room.read("blink.hex")
    os.mkfifo(room.folder / "pipe")
    writer = threading.Thread(target=lambda: room.put("pipe", text), daemon=True)
    writer.start()
    got, status, _ = on_a_terminal(["-p", "m328p", "--wait", "0", "-U", "flash:w:pipe:i"])
    rows = [line.decode() for line in lines(*FIRMWARE).splitlines()]
    check_equal("a named pipe", (status, screen(got)), (0, [*rows, ""]))
    check("its progress", "\ravrstk-serial: writing flash: 128 bytes, " in got, got)
    reader, writer = os.pipe()
    os.write(writer, text)
    os.close(writer)
    board = Boards(silent(0x13), {})
    words = ["-p", "m328p", "--retry", "1", "-P", str(board.device), "-U", f"flash:w:/dev/fd/{reader}"]
    status, _, printed, own = run([*words, "-U", f"flash:v:/dev/fd/{reader}:i"], pass_fds=[reader])
    os.close(reader)
    again = ["no answer: trying again, 1 of 1"]
    check_equal("a shell's pipe, twice", (status, own, board.end() == wanted), (0, again, True))


def names_of_images(text):
    """No line names a format of a file that isn't there. A file may have the name of a port."""
    for name in ("no.hex:i", "no.hex"):
        found = run([*NO_CHIP, "-U", f"flash:w:{name}"])[1:]
        check_equal(f"no such file: {name}", found, (b"", lines("error: no.hex: cannot be opened"), []))
    room.put("emu:no.bin", text)
    found = run([*NO_CHIP, "-U", "flash:w:emu:no.bin:i"])[::3]
    check_equal("a file with the name of a port", found, (0, []))


def images_that_are_read_once():
    """An image is read once, also from a pipe, and may be written into several memories. Messages name the user's
    files."""
    images_in_pipes()
    text = room.read("blink.hex")
    (room.folder / "-").mkdir()
    check_equal("beside a folder named -", piped([*NO_CHIP, "-U", "flash:w:-:i"], hex_of([(0, bytes(600))]))[0], 0)
    (room.folder / "-").rmdir()
    status, _, printed, own = piped([*NO_CHIP, "-U", "flash:w:-:i", "-U", "eeprom:w:-:i"], hex_of([(0, bytes(600))]))
    check_equal("two memories", (status, set(room.read("no.bin")[:600] + room.read("no.bin")[32_768:][:600])), (0, {0}))
    for content, wanted in [
        (text[:100], "error: -: line 3: bad length"),
        (text[: text.rindex(b":")], "warning: -: no end record"),
    ]:
        check_equal(wanted, piped([*NO_CHIP, "-U", "flash:w:-"], content)[2].splitlines(True)[0], lines(wanted))
    names_of_images(text)
    why = f"-P stdio: takes no image from standard input: {UNOPENED}"
    check_equal("no image from frames", run(["-p", "m328p", "-P", "stdio:", "-U", "flash:w:-"])[3], [why])
    # (a file that grows no further: what is judged isn't passed on in part)
    limit = {"preexec_fn": lambda: resource.setrlimit(resource.RLIMIT_FSIZE, (2048, 2048))}
    room.put("long.hex", hex_of([(0, bytes(6_000))]))
    status, _, printed, own = run(["-p", "m328p", "-P", "net:127.0.0.1:1", "-U", "flash:w:long.hex:i"], **limit)
    check_equal(
        "a limit of files",
        (status, printed, own),
        (1, b"", [f"long.hex: File too large: {UNOPENED}"]),
    )
    room.put("net:", text)
    line, device = terminal()
    program = (
        "sys.stderr.write('avrstk: error: ' + ' '.join(sys.argv[1:]).replace(str(port), 'PORT') + '\\n')\nsys.exit(1)\n"
    )
    _, _, printed, _ = run(["-p", "m328p", "-P", device, "-U", "net:"], env=stand_in(program))
    os.close(line)
    check_equal("net: elsewhere", printed.split()[2:], b"-P net:127.0.0.1:PORT -c stk500v2 -p m328p -U net:".split())
    for word in ["--wait=\u0663", "-b\u0661\u0662\u0660\u0660"]:
        status, _, printed, own = run([*FLASH, "-P", device, word])
        is_refused = (status, printed) == (1, b"") and re.search(": (not a|give) ", own[0])
        check(f"{word}: other digits", is_refused, (printed, own))


def over_a_bootloader():
    """With -c wiring an erase is refused, and so are writes of flash from several images, from a later address, or with
    a page left out."""
    images = {"a.hex": [(0x100, b"x" * 256)], "b.hex": [(0, b"y" * 256)]}
    images["-gap.hex"] = images["gap.hex"] = [(0, b"x"), (256, b"x")]
    images["twice.hex"] = [(0, b"xy"), (1, b"z"), (256, b"x")]
    room.put("f.elf", elf_with(b"x" * 256, address=0x100))
    for name, runs in images.items():
        room.put(name, hex_of(runs))
    room.put("c d.srec", b"S10402007A7F\nS9030000FC\n")
    room.put("e.bin", bytes(130))
    room.put("0x7F", bytes(130))
    for words, wanted in table("bootloader"):
        words = ["-c", "wiring", *shlex.split(words)]
        board = Board(talk=b".")
        status, _, printed, own = run(["-p", "m328p", "-P", board.device, *words])
        check(f"{words}", (status, board.opened, printed, own[-1][: len(wanted)]) == (1, 0, b"", wanted), (status, own))
        board.end()


def files_of_one_command():
    """An output that is another file of the command is refused before a file is changed; streams and devices such as
    /dev/null may come twice."""
    run([*NO_CHIP, "-q", "--backup", "kept"])
    room.put("-", room.read("blink.hex"))
    os.link(room.folder / "blink.hex", room.folder / "hard.hex")
    for name, end in [("soft.bin", "no.bin"), ("soft.toml", "parts.toml"), ("soon.hex", "later.hex")]:
        (room.folder / name).symlink_to(end)

    def held():
        return {str(path): path.read_bytes() for path in room.folder.rglob("*") if path.is_file()}

    kept = held()
    line, device = terminal()

    def meant(text):
        return text.replace("DEVICE", device).replace("CLASSIC", CLASSIC[1])

    for words, wanted in table("files"):
        status, _, printed, own = run(["-p", "m328p", *shlex.split(meant(words))])
        check_equal(words, (status, printed, own), (1, b"", [f"{meant(wanted)}: {UNOPENED}"]))
        check_equal(f"{words}: the files", held(), kept)
    os.close(line)
    room.put("old.log", b"old")
    run([*NO_CHIP, "-l", "old.log", "-U", "flash:w:no.hex:s", "-B", "1"])
    check_equal("a refused command leaves its log", room.read("old.log"), b"old")
    updates = ["lfuse:r:-:h", "hfuse:r:-:h", "efuse:r:/dev/null:h", "lock:r:/dev/null:h"]
    found = run([*NO_CHIP, "-q", "-q", *(word for update in updates for word in ("-U", update))])
    check_equal("streams take several", found, (0, b"0xff\n0xff\n", b"", []))


def changes(command, body):
    """Returns a function that replaces the body of this command's replies."""

    def change(answer):
        return frame(answer[1], body) if answer[5] == command else answer

    return change


def board_of(cell):
    """Returns the board of a cell of tests/tables/failures.txt, which says what each word means. It may have a part."""
    kind, _, what = cell.partition(" ")
    if kind == "part":
        return {"part": what, "words": CLASSIC}
    if kind == "reply":
        command, body = what.split()
        return {"answer": changes(int(command, 16), bytes_of(body))}
    if kind == "silent":
        return silent(int(what, 16))
    if kind == "spoil":
        return {"answer": lambda reply: reply[:-1] + bytes([reply[-1] ^ 1]) if reply[5] == int(what, 16) else reply}
    known = {"deaf": int, "vanish": int, "talk": bytes_of}
    return {kind: known[kind](what)} if kind else {}


def hints():
    """Tests the hints after the failed runs of tests/tables/failures.txt, and after a closed output."""

    def ran(case):
        _, words, *_, board = case
        programmer, begun = Board(**board_of(board)), time.monotonic()
        status, _, others, own = run([*words.split(), "-P", programmer.device])
        return status, others, own, programmer.end(), time.monotonic() - begun

    cases = table("failures")
    found = side_by_side(unpaused(ran), cases)
    for (name, _, wanted, message, _), (status, others, own, chip, seconds) in zip(cases, found):
        check(f"{name}: it ends by itself soon", seconds < 40, seconds)
        is_right = (status, len(own)) == (1, 1) and wanted in own[0] and message.encode() in others
        check(f"{name}: {wanted}: {message}", is_right, (status, others, own))
        if name == "silent":
            check_equal(f"{name}: the chip", chip, b"\xff" * CHIP_FILE)
    status, _, printed, own, _ = over(["-p", "m328p", "-U", "lfuse:r:-:h"], closed=">&-")
    stays = "the chip is unchanged, and may be in programming mode: power-cycle the board"
    wanted = [f"check the output's name and free space; of a pipe, the reader; {stays}"]
    check_equal("a closed output", (status, b"-: cannot be written" in printed, own), (1, True, wanted))
    (room.folder / "link x").symlink_to("/dev/full")
    *_, own, _ = over(["-p", "m328p", "-U", "lfuse:r:link x:h"])
    check_equal(
        "a file named as an error begins",
        own,
        [f"check the output's name and free space; of a pipe, the reader; {stays}"],
    )


def without(words, *left_out):
    """Leaves an option out of a command."""
    return [word for word in words if word not in left_out]


def other_part(words, part, made):
    """Returns the command for another part, with a firmware that is made for it."""
    at = words.index("-p") + 1
    return [word.replace("blink.hex", made) for word in [*words[:at], part, *words[at + 1 :]]]


def renamed(words, given):
    """Follows a hint by putting the update that it advises in place of the one that names the same file."""
    file = given.split(":")[2]
    return [given if file in word.split(":") else word for word in words]


def another_file(words, case, *_):
    """Follows a hint to build or download the file again, or to make one image from address 0 on."""
    case["again"]()
    return words


def on_a_bootloader(words, case, *_):
    """Follows a hint to give -D and no -e, as for a bootloader."""
    return another_file([*without(without(words, "-e"), "-D"), "-D"], case)


def valued(words, given):
    """Follows a hint by giving the value that it advises in place of the update of the same memory."""
    return [given if word.partition(":")[0] == given.partition(":")[0] else word for word in words]


def each_once(words, *_):
    """Follows a hint to erase and write all again: gives -e and, for each memory, the command's first write to it, the
    lock last."""
    updates = [word for before, word in zip(words, words[1:]) if before == "-U"]
    writes = {word.partition(":")[0]: word for word in reversed(updates) if re.match(r"\w+:w:", word)}
    ordered = sorted(writes.values(), key=lambda word: (word.startswith("lock:"), updates.index(word)))
    rest = [word for before, word in zip(["", *words], words) if "-U" not in (before, word)]
    return [*rest, "-e", *[word for update in ordered for word in ("-U", update)]]


def stays(words, case, found):
    """Decides by the data sheet whether the part can change the bits that differ."""
    memory, _, held, _ = found[1].split(":")
    has = {"efuse": 0x07, "lock": 0x3F}[memory] if "lacks" in case else 0xFF
    given = next(word for word in words if word.startswith(f"{memory}:")).split(":")[2]
    wanted = int(given, 0) if given.startswith("0x") else image_of(room.read(given))[0]
    if not (int(held, 0) ^ wanted) & has:
        return valued(words, found[1])
    return each_once(words) if "give -e" in found[2] else repeated(words, case, found)


# a program for avr-gcc: sections for each memory, the data of flash at another address than in RAM
ELF = """
    .text
main:
    .fill 700, 1, 0x5A
    .data
    .byte 1, 2, 3
    .section .eeprom, "aw"
    .byte 4, 0xFF, 5
    .section .fuse, "aw"
    .byte 0xE2, 0xD1, 0xFD
    .section .lock, "aw"
    .byte 0xFC
    .section .signature, "a"
    .byte 0x0F, 0x95, 0x1E
"""


def linked(name, text, *more):
    """Makes an ELF file, by avr-gcc."""
    made = ["avr-gcc", "-mmcu=atmega328p", "-nostdlib", "-x", "assembler", "-", "-o", name, *more]
    subprocess.run(made, cwd=room.folder, check=True, input=text.encode())


def odd_elf(segments, sections, sizes=(32, 40), length=100):
    """Returns an ELF file with so many equal headers, of these sizes. Each section has the file's last bytes."""
    begin = 52 + 32 * segments * (sizes[0] > 0)
    end = begin + 40 * sections * (sizes[1] > 0)
    head = [b"\x7fELF\1\1\1", 2, 83, 1, 0, 52, begin, 0, 52, sizes[0], segments, sizes[1], sections, sections - 1]
    load = struct.pack("<8I", 1, end, 0, 0, length, length, 5, 1)
    headers = [struct.pack("<10I", 0, kind, 2, 0, end, length, 0, 0, 1, 0) for kind in (1, 3)]
    tables = [load * segments] * (sizes[0] > 0) + [headers[0] * (sections - 1) + headers[1]] * (sizes[1] > 0)
    return struct.pack("<16s2H5I6H", *head) + b"".join(tables) + b".big\0".ljust(max(length, 4_096), b"\0")


def put_odd_elf_files():
    """Puts ELF files into the room that are refused, or are for other chips. main.elf is there."""
    linked("odd.elf", ELF + '.section .odd, "a"\n.byte 1, 2\n', "-Wl,--section-start=.odd=0x850000")
    linked("none.elf", ".text\n.byte 1\n")
    mine = '.section .mine, "a"\n.byte 1\n'
    linked("overlap.elf", ELF + mine, "-Wl,--no-check-sections", "-Wl,--section-start=.mine=0x10")
    linked("tiny.elf", ELF.replace("0x0F, 0x95, 0x1E", "0x0B, 0x93, 0x1E"))
    for name, words in {"moved.elf": ["--change-section-lma", ".eeprom=0"], "mega.elf": []}.items():
        subprocess.run(["avr-objcopy", *words, "main.elf", name], cwd=room.folder, check=True)
    note = struct.pack("<3I4s8I", 4, 45, 1, b"AVR", 0, 262144, 512, 8192, 0, 4096, 8, 1) + b"\0atmega2560\0"
    room.put("note", note)
    noted = ["--add-section", ".note.gnu.avr.deviceinfo=note"]
    subprocess.run(["avr-objcopy", *noted, "-R", ".signature", "main.elf", "mega.elf"], cwd=room.folder, check=True)
    room.put("note", note.replace(b"atmega2560", b"atmega328p"))
    subprocess.run(["avr-objcopy", *noted, "tiny.elf", "both.elf"], cwd=room.folder, check=True)
    linked("none known.elf", ELF.replace("0x0F, 0x95, 0x1E", "1, 0, 0x1E"))
    elf = room.read("main.elf")
    # (without a table of sections, and with one of a kind of its own)
    room.put("bare.elf", elf[:32] + bytes(4) + elf[36:48] + bytes(4) + elf[52:])
    room.put("kind.elf", elf_with(b"\x0c\x94").replace(struct.pack("<3I", 1, 1, 6), struct.pack("<3I", 1, 6, 6)))
    room.put("loop.elf", odd_elf(65_535, 65_535, sizes=(0, 0)))
    room.put("headers.elf", odd_elf(500, 501))
    room.put("sizes.elf", odd_elf(1, 1, sizes=(32, 64)))
    room.put("sum.elf", odd_elf(1, 999, length=8_000))
    linked("main.o", ELF, "-c")
    room.put("cut.elf", room.read("main.elf")[:700])


def elf_files_that_are_refused():
    """Each row of a table is refused soon, and in little memory."""
    for text, why in table("elf"):
        started = start([*NO_CHIP, "-U", text])
        printed = started.stderr.read().decode()
        _, status, used = os.wait4(started.pid, 0)
        started.returncode = os.waitstatus_to_exitcode(status)
        end = ";" if ", not m328p" in why else ":"
        check_equal(text, (started.returncode, printed), (1, f"avrstk-serial: {why}{end} {UNOPENED}\n"))
        check(f"{text}: a second, 100 MB", used.ru_utime < 1 and used.ru_maxrss < 100_000, used)


def elf_files_for_other_chips():
    """An ELF file names its chip. -F takes it for another one, and -p auto doesn't."""
    for text in ["flash:w:tiny.elf", "eeprom:w:mega.elf"]:
        status, _, _, own = run([*NO_CHIP, "-F", "-U", text])
        check(f"{text} -F", (status, own[0].startswith("warning: ")) == (0, True), own)
    status, _, _, own, chip = over(["-p", "auto", "-U", "flash:w:tiny.elf"])
    wanted = (1, {0xFF}, "tiny.elf is for signature 1E930B, not m328p; nothing was written")
    check("-p auto", (status, set(chip), own[-1]) == wanted, own)
    check_equal("its own chip", run(["-p", "attiny85", "-P", "emu:tiny.bin", "-U", "flash:w:tiny.elf"])[0], 0)
    high = run(["-p", "t85", "-P", "emu:tiny.bin", "-U", "flash:w:high.elf"])
    check_equal("too high", high[2], lines("error: high.elf: address 0001FFFF out of range"))


def elf_files():
    """Flash and EEPROM get from an ELF file what avr-objcopy takes from it, and fuses and the lock their bytes."""
    if not shutil.which("avr-gcc"):
        return leave_out("ELF", "avr-gcc is not installed")
    linked("main.elf", ELF)
    others = [word for name in ["eeprom", "fuse", "lock", "signature"] for word in ("-R", f".{name}")]

    def take(*words):
        subprocess.run(["avr-objcopy", "-O", "binary", *words], cwd=room.folder, check=True)

    take(*others, "main.elf", "flash.bin")
    take("-j", ".eeprom", "main.elf", "eeprom.bin")
    flash, eeprom = room.read("flash.bin"), room.read("eeprom.bin")
    check("what avr-objcopy takes", (len(flash) >= 703, eeprom) == (True, b"\4\xff\5"), (flash, eeprom))
    wanted = flash.ljust(32_768, b"\xff") + eeprom.ljust(1024, b"\xff") + bytes.fromhex("E2D1FDFC")
    memories = ["flash", "eeprom", "lfuse", "hfuse", "efuse", "lock"]
    words = [word for memory in memories for word in ("-U", f"{memory}:w:main.elf")]
    board = Boards(silent(0x15), {})
    status, _, printed, own = run(["-p", "m328p", "--retry", "1", "-q", *words, "-P", str(board.device)])
    again = ["no answer: trying again, 1 of 1"]
    check_equal("all, by a second attempt", (status, own, board.end()), (0, again, wanted))
    words = [word for memory in memories for word in ("-U", f"{memory}:v:main.elf:e")]
    room.put("wanted.bin", wanted)
    status, _, printed, own = run(["-p", "m328p", "-P", "emu:wanted.bin", *words])
    check_equal("each is compared", (status, printed.count(b" verified")), (0, 6))
    check_equal("its line", own, ["main.elf is read as ELF (:e)"] * 6)
    linked("high.elf", '.text\n.byte 7\n.section .high, "ax"\n.byte 8, 9\n', "-Wl,--section-start=.high=0x1FFFF")
    status, *_ = run(["-p", "m2560", "-P", "emu:high.bin", "-qq", "-U", "flash:w:high.elf"])
    check_equal("over 64 kB", (status, room.read("high.bin")[0x1FFFE:0x20002]), (0, b"\xff\x08\x09\xff"))
    put_odd_elf_files()
    elf_files_that_are_refused()
    elf_files_for_other_chips()
    room.put("both.hex", b"".join(room.read("blink.hex").splitlines(True)[:-1]) + hex_of([(0x810000, b"eeprom")]))
    for memory, at, held in [("flash", 0, flash), ("eeprom", 32_768, eeprom)]:
        words = ["-p", "m328p", "-U", f"{memory}:w:both.hex"]
        walk(memory, words, lambda chip: chip[:at] + held + chip[at + len(held) :])


def mutated(elf, chance):
    """Returns an ELF file with a few changes: numbers of its headers, bits, bytes lost or doubled."""
    held, odd = bytearray(elf), [
        0,
        1,
        2,
        8,
        40,
        255,
        0xFFFF,
        0x800000,
        0x810000,
        0x820000,
        0x840000,
        1 << 31,
        0xFFFFFFFF,
    ]
    at, count = struct.unpack_from("<I", elf, 32)[0], struct.unpack_from("<H", elf, 48)[0]
    for _ in range(chance.choice([1, 1, 1, 2, 3, 5]) if len(held) > 200 else 0):
        number = chance.choice([*odd, *(chance.randrange(len(elf)) for _ in range(6))])
        section, place = at + 40 * chance.randrange(count), chance.randrange(len(held))
        kind = chance.randrange(6 if chance.randrange(9) else 7)
        if kind < 3:
            field = [28 + 4 * chance.randrange(6), 52 + 4 * chance.randrange(32), section + 4 * chance.randrange(10)][
                kind
            ]
            held[field : field + 4] = number.to_bytes(4, "little")
        elif kind == 3:
            held[place] ^= 1 << chance.randrange(8)
        elif kind == 4:
            held[section : section + 40] = held[at + 40 * chance.randrange(count) :][:40]
        else:
            del held[place : place + (chance.randrange(50) if kind == 5 else len(held))]
            held.extend(bytes(200))
    return b"\x7fELF" + held[4:]


def elf_files_with_faults():
    """Mutated ELF files: each is refused or read at once, and read as avr-objcopy reads it where that finds no
    fault."""
    if not shutil.which("avr-gcc"):
        return leave_out("mutated ELF", "avr-gcc is not installed")
    sys.path[:0], sys.dont_write_bytecode = [str(SHARED / "avrstk")], True
    from avrstk_elf import sections_of

    linked("main.elf", ELF)
    main, chance = room.read("main.elf"), random.Random(os.environ.get("SAMPLE") or 1)
    slowest, read, compared = 0.0, 0, 0
    count = int(os.environ.get("MUTANTS", "300" if os.environ.get("SAMPLE") else "4000"))
    for number in range(count):
        elf, begun = mutated(main, chance), time.process_time()
        try:
            found = {at + offset: byte for _, at, held in sections_of(elf)[0] for offset, byte in enumerate(held)}
        except ValueError:
            found = None
        slowest = max(slowest, time.process_time() - begun)
        if found:
            read += 1
            room.put("mutated.elf", elf)
            command = ["avr-objcopy", "-O", "ihex", "mutated.elf", "mutated.hex"]
            # (it refuses some others, too)
            if not subprocess.run(command, cwd=room.folder, capture_output=True).stderr:
                compared += 1
                wanted = image_of(room.read("mutated.hex"))
                check(f"mutant {number}", found == wanted, sorted(set(found) ^ set(wanted))[:9])
    summary = f"{count} mutants, {read} are read, {compared} compared, the slowest in {slowest:.3f} s"
    check(summary, slowest < 1 and 0 < compared <= read < count)
    print(summary, flush=True)


# advice to run the same command again, with its changes
AGAIN = (
    r"run the same command again(?: (with -D, without -e))?(?:,? without its first (-U|\d+ -U))?"
    r"((?:,? without --each(?:, --\w+)*)?(?:, but at a bootloader with all -U of flash)?(?:, without --retry)?)$"
)


def repeated(words, _, found):
    """Follows a hint to run the same command again, without an erase, the first updates, or other options."""
    again = re.search(AGAIN, found.string)
    count = int(again[2].split()[0].replace("-U", "1")) if again and again[2] else 0
    at = [at for at, word in enumerate(words) if word == "-U"][:count]
    options = re.findall(r"--\w+", again[3]) if again else []
    at += [place for place, word in enumerate(words) if word in options]
    kept = [word for place, word in enumerate(words) if place not in at and place - 1 not in at]
    return [*without(kept, "-e"), "-D"] if again and again[1] else kept


def repeated_with(words, case, found):
    """Follows a hint to run the same command again, with another value."""
    return valued(repeated(words, case, re.search(".*", found[1])), found[2])


def mended(words, case, found):
    """Follows a hint to check wires, power, speed or reset: that ends the board's fault."""
    case["board"] = {}
    return repeated(words, case, found)


def on_this_device(leaves):
    """Follows a hint for a bootloader by the given change of the command, and one for a programmer by running the
    command again."""
    return lambda words, case, found: leaves(words, case) if "loads" in case else repeated(words, case, found)


def changed(before, after):
    """Follows a hint by putting a text into the command."""
    return lambda words, _, found: [re.sub(before, found.expand(after), word) for word in words]


# What a reader does after a hint: the words that he finds in it, and the next command with the files of its case. After
# a hint without a next command the walk ends.
FOLLOWED = [
    (r"build or download the file again|doesn't begin with a record of Intel HEX: ", another_file),
    (
        r" is (?:not )?ELF: give (:[eis])",
        lambda words, _, found: [*words[:-1], re.sub("(:[eis])?$", found[1], words[-1], count=1)],
    ),
    (
        r"give the ELF file itself, as (\w+:w:)NAME.elf",
        lambda words, _, found: [*words[:3], f"{found[1]}main.elf", *words[4:]],
    ),
    (r"give -D, not -e, and for flash give one image that begins at 0", on_this_device(on_a_bootloader)),
    (
        r"^-c wiring is for a board's own bootloader, which can't",
        lambda words, case, _: on_a_bootloader(words, case)
        if "loads" in case
        else without(without(words, "-c"), "wiring"),
    ),
    (r"^if this is a bootloader, use a programmer", on_this_device(lambda *_: None)),
    (r"^a Mega's bootloader erases pages from 0 on: give one image", another_file),
    (
        r"check -p and the (image|values)",
        lambda words, case, _: other_part(words, case["part"], "blink.hex") if "part" in case else None,
    ),
    (
        r"^the signature is that of (?!no part)(\w+).*: check the board, the wires, and that -p",
        lambda words, case, found: other_part(
            without(words, "--parts", "mine.toml", "other.toml"), found[1], case.get("made", "blink.hex")
        ),
    ),
    (r": give (\S+:[ise])[;:] ", lambda words, _, found: renamed(words, found[1])),
    (r"the memories are flash, eeprom, lfuse", changed("^fuse", "lfuse")),
    (
        r"the operations are w \(write\)|the formats are i, s, r, e, a and m to write|no file is named: give MEMORY",
        changed("^flash:.*", "flash:w:blink.hex:i"),
    ),
    (r"check its name and permissions", changed("^flash:.*", "flash:w:blink.hex:i")),
    (r"a format is one letter, such as (:i);", changed(":hex$", r"\1")),
    (r"a value is written as 0xE2", changed(":E2:", ":0xE2:")),
    (
        r"^no option takes \S+ here \((-U) MEMORY:OP:FILE:FORMAT is one word",
        lambda words, _, found: [*words[:-1], found[1], words[-1]],
    ),
    (
        r"a value needs :m after it, as lfuse:w:0xNN:m",
        lambda words, *_: [re.sub("^lfuse:w:(?:0x)?(..)$", r"lfuse:w:0x\1:m", word) for word in words],
    ),
    (r"lfuse is one byte: give its value, as lfuse:w:0xNN:m", changed("^lfuse:.*", "lfuse:w:0xE2:m")),
    (r"^give -p (\w+);", changed("^(m328p-pu|mega328p)$", r"\1")),
    (r"^-p takes a chip's name, such as (m328p)", changed("^(uno|nano|m9)$", r"\1")),
    (r"^with --parts, -p takes a part as that file names it, or (m328p)", changed("^(m9|ATmega328P)$", r"\1")),
    (r"^\w+ differs only in bits that \S+ can't change: give (\S+)", lambda words, _, found: valued(words, found[1])),
    (r"^\w+ differs only in bits that \S+ can't change: (since .*), with (\S+)$", repeated_with),
    (r"^give (\S+) if the part can't change the bits that differ; else (.*)", stays),
    (r"^(since .*)\. If the part can't change the bits that differ, give (\S+);", repeated_with),
    (
        r"(give -e and .*)\. If the part can't change the bits that differ, give (\S+)$",
        lambda words, case, found: stays(each_once(words), case, [found[0], found[2], found[1]]),
    ),
    (
        r"give -e and all that is to be written(?: \(--each takes the next number\))?, each memory once, the lock last",
        each_once,
    ),
    (
        r"^no valid reply to SIGN_ON in time; the chip is unchanged\. Check: .*; the default is stk500v2$",
        lambda words, case, found: [word for before, word in zip(["", *words], words) if "-c" not in (before, word)]
        if "-c" in words
        else mended(words, case, found),
    ),
    (r"^check the output's name", changed(":(/dev/full|-):h", ":read.txt:h")),
    (r"^ended by SIG|^a signature of 00 or FF|^check the (cable|wires|speed)|power-cycle the board", mended),
    (AGAIN, repeated),
    (
        r"reads as something else than [^;]*$|can't change: check -p$|^try another programmer or chip$"
        r"|with another programmer$"
        r"|^the signature is that of no part|is not supported: .* Use avrdude",
        lambda *_: None,
    ),
]

# Runs avrstk-serial, and notes each row of its hints that is chosen: the function or table, the row's line or number,
# and its text
TRACED = """import json, os, re, runpy, sys
sys.argv[:1], sys.path[:0] = [], [LIB]
import avrstk_hints as hints
def note(*row):
    with open(os.environ["TRACE"], "a") as file:
        file.write(json.dumps(row) + "\\n")
def returned(frame, event, value):
    if event == "return" and frame.f_code.co_filename == hints.__file__ and isinstance(value, str):
        note(frame.f_code.co_name, frame.f_lineno, value)
def matched(table, error, words, matched=hints.matched, **fields):
    found = matched(table, error, words, **fields)
    name = next(key for key in vars(hints) if vars(hints)[key] is table)
    at = next((at for at, begin in enumerate(table) if re.match(begin, error)), None)
    note(name, at, found)
    for at, (kind, text) in enumerate(hints.KINDS.items() if name == "REFUSALS" else []):
        note("KINDS", at, text)
    return found
hints.matched = matched
sys.setprofile(returned)
runpy.run_path(sys.argv[0], run_name="__main__")
""".replace(
    "LIB", repr(str(SHARED / "avrstk"))
)
# rows of hints that a walk has followed to its end
seen = set()


def rows_of_hints():
    """Returns the rows of the sources' hints as TRACED notes them, each with its text there: what functions return, and
    the rows of tables."""
    text, found = (SHARED / "avrstk/avrstk_hints.py").read_text(), {}
    for node in ast.parse(text).body:
        if isinstance(node, ast.FunctionDef) and ast.unparse(node.returns) == "str" and node.name != "matched":
            returns = [row for row in ast.walk(node) if isinstance(row, ast.Return)]
            found.update({(node.name, row.lineno): ast.unparse(row.value) for row in returns})
        if isinstance(node, (ast.Assign, ast.AnnAssign)) and isinstance(node.value, ast.Dict):
            name = ast.unparse(node.target if isinstance(node, ast.AnnAssign) else node.targets[0])
            found.update({(name, at): ast.unparse(row) for at, row in enumerate(node.value.keys)})
    return found


def followed(name, words, **case):
    """Follows each hint until a run ends well, or a hint gives no command. Returns the last status, the hints and the
    chip. No hint names a format that takes each text for bytes, or leaves out comparisons. None comes twice, unless it
    says what to do then."""
    hints, chip, trace, chosen = [], f"walk{next(boards)}.bin", room.folder / f"trace{next(boards)}", set()
    if "chip" in case:
        room.put(chip, case["chip"])
    server = case.setdefault("board", {}).get("server")
    for _ in range(6):
        board = {"chip": chip, "part": case.get("has", "m328p"), **case["board"]}
        given = open(room.folder / "small.elf", "rb")
        programmer = Boards(*board.pop("each"), chip=chip) if "each" in board else Board(**board)
        case["board"] = {} if "each" in case["board"] else case["board"]
        begun = case.pop("begun", lambda *_: None)
        more = {"front": ["-c", TRACED], "stdin": given, **case.pop("more", {})}
        more["env"] = {"TRACE": str(trace), **more.get("env", {})}
        status, _, printed, own = run(
            [*words, "-P", str(programmer.device)], lambda started: begun(programmer, started), **more
        )
        programmer.end()
        if status == 0:
            break
        check(f"{name}: no other format", not re.search(r":[ar](?![\w:])|(?<!with) -V", own[-1]), own)
        rows = [json.loads(row) for row in trace.read_text().splitlines()] if trace.exists() else []
        chosen |= {tuple(row[:2]) for row in rows if row[2] and row[2] in own[-1] and row[1] is not None}
        # (what it says of a second time is followed then)
        hint, _, later = own[-1].partition("; if it fails again, ")
        text = [hint, later, ""][hints.count(own[-1])]
        hints.append(own[-1])
        rules = [(begin, act) for begin, act in FOLLOWED if re.search(begin, text)] if text else []
        if not check(f"{name}: the hint can be followed, and is no circle", rules, (words, own, printed, hints)):
            break
        words = rules[0][1](words, case, re.search(rules[0][0], text)) or None
        if words is None:
            break
    else:
        check(f"{name}: it comes to an end", False, hints)
    seen.update(chosen)
    # (a bootloader's chip has a lock that is open)
    found = bytes(server.flash) + b"\xff" if isinstance(server, Bootloader) else room.read(chip) or b""
    return status if words else None, hints, found


def walk(name, words, end, **case):
    """Follows hints until a run ends well or a hint gives no command. The chip must be as `end` has it."""
    status, hints, found = followed(name, words, **case)
    check(f"{name}: it ends well", not status, hints)
    wanted = end(found)
    check(
        f"{name}: the chip",
        found == wanted,
        [at for at, (one, other) in enumerate(zip(found, wanted)) if one != other][:9],
    )
    return hints


def with_flash(held, at=0):
    """Returns a function that puts these bytes into a flash that is erased else."""
    return lambda chip: (b"\xff" * at + held + b"\xff" * 32_768)[:32_768] + chip[32_768:]


def without_bits(answer):
    """A part whose extended fuse and lock lack bits, which read 1."""
    more = {0x18: 0xF8, 0x1A: 0xC0}.get(answer[5])
    return frame(answer[1], bytes([answer[5], 0, answer[7] | more, 0])) if more else answer


OLD = bytes(number % 241 for number in range(32_768)) + bytes(1024) + b"\xe1\xd0"


def interrupted(when):
    """Returns the case of a run that gets SIGINT, at this command or before any (`early`)."""
    reached = threading.Event()

    def held(answer):
        if when != f"{answer[5]:02X}":
            return answer
        reached.set()
        return b""

    halts = {} if when != "early" else stand_in("open('begun', 'w')\ntime.sleep(60)\n")

    def begun(_, started):
        wait_until((room.folder / "begun").exists if halts else reached.is_set)
        started.send_signal(signal.SIGINT)

    return {"board": {"answer": held}, "begun": begun, "more": {"env": halts}}


def kind_of(name):
    """Returns the case of a board by its name, or as board_of has it."""

    def loads(**more):
        return {"loads": 1, "again": lambda: None, "board": {"server": Bootloader(OLD[:32_768], **more)}}

    lacks = {"lacks": 1, "board": {"answer": without_bits}}
    known = {
        "served": lambda: {},
        "written": lambda: {"chip": OLD + b"\xfa\xff"},
        "locked": lambda: {"chip": OLD + b"\xfa\xfc"},
        "locked, lacks bits": lambda: {"chip": OLD + b"\xfa\xfc", **lacks},
        "written, silent 19": lambda: {"chip": OLD + b"\xfa\xff", "board": silent(0x19)},
        "lacks bits": lambda: lacks,
        "loader": loads,
        "mega": lambda: loads(takes_lock=True),
        "another": lambda: {"has": "m2560", "part": "m2560", "made": "mega.hex"},
        "not built in": lambda: {"has": "m32u4", "part": "m32u4", "made": "mega.hex", "board": {"words": CLASSIC}},
        "no erase": lambda: {"chip": OLD + b"\xfa\xff", "board": board_of("reply 12 12C0")},
        "worn": lambda: {
            "board": {
                "answer": lambda reply: frame(reply[1], reply[5:7] + b"\x80" + reply[8:-1])
                if reply[5] in (0x14, 0x16)
                else reply
            }
        },
        "far": lambda: {
            "board": {
                "answer": lambda reply: frame(reply[1], b"\x16\0" + bytes(len(reply) - 8))
                if reply[5:8] == b"\x16\0\xee"
                else reply
            }
        },
        "version 1": lambda: {"board": {"server": Version1()}},
        "full": lambda: {"more": {"closed": ">&-"}},
        "a bare root": lambda: {
            "more": {"by": ["setpriv", "--bounding-set=-dac_override,-dac_read_search"] if ANYONE else []}
        },
    }
    kind, _, when = name.partition(" ")
    if kind == "signal":
        return interrupted(when)
    if name in known:
        return known[name]()
    each = [board_of(board.strip()) for board in name.split(",")]
    return {"board": {"each": [*each, {}]} if len(each) > 1 else each[0]}


def hints_over_each_memory():
    """Following the hints, for six memories and ten kinds of boards, gives the wanted bytes or a failure."""
    image = flashed()[:228]
    room.put("mine.toml", (TOP / "parts/classic.toml").read_bytes())
    room.put("mega.hex", hex_of([(0, bytes(300))]))
    # (the updates, the place in the chip's file, the wanted bytes, and the bits that the part has)
    updates = {
        "flash:w:blink.hex:i": (0, image, 0xFF),
        "eeprom:w:1,2,3:m": (32_768, b"\1\2\3", 0xFF),
        "lfuse:w:0xE2:m": (-4, b"\xe2", 0xFF),
        "lfuse:w:0xFF:m": (-4, b"\xff", 0xFF),
        "hfuse:w:0xD1:m": (-3, b"\xd1", 0xFF),
        "efuse:w:0x05:m": (-2, b"\x05", 0x07),
        "efuse:w:0xFF:m": (-2, b"\xff", 0x07),
        "lock:w:0x3F:m": (-1, b"\x3f", 0x3F),
        "lock:w:0x2C:m": (-1, b"\x2c", 0x3F),
    }
    kinds = [
        "served",
        "written",
        "locked",
        "locked, lacks bits",
        "lacks bits",
        "loader",
        "mega",
        "another",
        "no erase",
        "worn",
    ]

    def right(case):
        update, kind, words = case
        place, wanted, bits = updates[update]
        more = kind_of(kind)
        status, hints, chip = followed(f"{case}", ["-p", "m328p", "-U", update, *words], **more)
        if "made" in more and place >= 0:
            place, wanted = (0, bytes(300)) if place == 0 else (262_144, wanted)
        found = chip[place:][: len(wanted)]
        return status != 0 or [byte & bits for byte in found] == [byte & bits for byte in wanted], (
            status,
            hints,
            found,
        )

    more = {"flash": [["-D"], ["-c", "wiring", "-D"]], "eeprom": []}
    words = {update: [[], *more.get(update.split(":")[0], [["--parts", "mine.toml"]])] for update in updates}
    cases = [(update, kind, options) for update, kind in itertools.product(updates, kinds) for options in words[update]]
    cases = sampled("hints over each memory", 30, cases)
    for case, (is_right, found) in zip(cases, side_by_side(right, cases)):
        check(f"{case}: the chip", is_right, found)


def put_files_of_walks(good):
    """Puts the files into the room that the walks name. `good` is the firmware as Intel HEX."""
    fields = "flash_size = 32768, flash_page = 128, eeprom_size = 1024, eeprom_page = 4, eesave_bit = 3"
    # (the script doesn't read a name with an escape)
    mine = "".join(f'{name} = {{ signature = "1E950F", {fields} }}\n' for name in ["m328p", r'"\u0063-chip"'])
    files = {
        "mine.toml": f"[parts]\n{mine}".encode(),
        "other.toml": f"[parts]\n{mine.replace('950F', '9514')}".encode(),
        "cut.hex": good[:-25],
        "both.hex": good[: good.index(b":00000001FF")] + hex_of([(0x810000, b"123")]),
        "big.hex": hex_of([(32_768, bytes(300))]),
        "elf.hex": room.read("small.elf"),
        "comment.hex": b"; made by x\n" + good,
        "page.hex": b"<!DOCTYPE html>\n<p>no such firmware</p>\n",
        **{"srec.hex": room.read("blink.srec"), "hex.srec": good, "named.elf": good},
        **{"closed.hex": good, "closed.elf": room.read("small.elf")},
        "late.hex": hex_of([(0x1000, b"late")]),
        "other.hex": hex_of([(0x1000, b"\xfe\xdc\xba\x98")]),
        "main.elf": elf_with(b"123", b".eeprom", 0x810000),
        "efuse.hex": hex_of([(0, b"\5")]),
        "mega.hex": hex_of([(0, bytes(300))]),
        "long.bin": bytes(256) + b"\xee" * 100,
    }
    for name, held in files.items():
        room.put(name, held)
    (room.folder / "gone.hex").symlink_to("nowhere")
    for closed in ("closed.hex", "closed.elf"):
        (room.folder / closed).chmod(0)
    with socket.socket(socket.AF_UNIX) as unix:
        unix.bind(str(room.folder / "socket"))


def each_hint():
    """Each row of avrstk_hints is in a walk that ends with the wanted bytes, or with a hint that has no command."""
    firmware, good = flashed(), room.read("blink.hex")
    put_files_of_walks(good)
    held = {"blink": firmware[:228], "elf": b"\x0c\x94\x34\x00", "old": OLD[:228]}
    places = {"flash": 0, "eeprom": 32_768, "lfuse": -4, "hfuse": -3, "efuse": -2, "lock": -1}

    def ran(row):
        name, words, wanted, _ = row
        words = words.split() if " -p " in f" {words}" else ["-p", "m328p", *words.split()]
        case = kind_of(name)
        again = {
            "again": lambda: [
                room.put(file, good) for file in ("cut.hex", "comment.hex", "page.hex") if f"flash:w:{file}" in words
            ]
        }
        status, hints, chip = followed(" | ".join(row[:2]), words, **case, **{} if "again" in case else again)
        memory, _, what = wanted.partition(" ")
        what = held[what] if what in held else bytes.fromhex(what) if what else b""
        at = places.get(memory, 0)
        return status, hints, chip[at:][: len(what)] == what

    cases = sampled("walks by hints", 25, table("walks"))
    for row, (status, hints, is_right) in zip(cases, side_by_side(ran, cases)):
        check(
            f"{row[:2]}: its end", hints and (hints[-1].startswith(row[3]) if row[3] else status == 0), (status, hints)
        )
        check(f"{row[:2]}: the chip", is_right, hints)
    for place, line in rows_of_hints().items() if cases == table("walks") else []:
        check(f"a walk follows {place}: {line}", place in seen)


def hints_that_are_followed():
    """Follows the hints for damaged files, and for a bootloader's images, until a run leaves the wanted chip."""
    firmware, good = flashed(), room.read("blink.hex")
    image = bytes(number % 251 for number in range(700))
    old = bytes(number % 241 for number in range(32_768))
    rows = good.splitlines(True)

    def flash(file, *more):
        return ["-p", "m328p", "-U", f"flash:w:{file}", *more]

    bad = {
        "sum.hex": good.replace(rows[1][9:11], b"00" if rows[1][9:11] != b"00" else b"01", 1),
        "cut.hex": good[:-25],
        "digit.hex": good.replace(b":10", b":1G", 1),
        "comment.hex": b"; made by x\n" + good,
        "mark.hex": b"\xef\xbb\xbf" + good,
        "amid.hex": rows[0] + b"# a note\n" + b"".join(rows[1:]),
        "long.hex": rows[0].strip() + b"0" * 600 + b"\n" + b"".join(rows[1:]),
    }
    walks = []

    def follows(name, words, end=lambda chip: firmware, file=None, text=None, again=good, **case):
        """Adds a walk, with a file of its own if there is a text for it."""
        if file:
            room.put(file, text)
        walks.append((name, words, end, case | {"again": lambda: room.put(file, again)}))

    ways = itertools.product(bad, [[""], [":i"], ["", "-D", "-V"]])
    for number, (name, (form, *words)) in enumerate(sampled("hints of damaged files", 7, ways)):
        follows(name, flash(f"{number}{name}{form}", *words), file=f"{number}{name}", text=bad[name])
    late, merged = hex_of([(0x1000, image)]), b"\xff" * 0x1000 + image

    def wanted(_):
        # (with the lock, as for each bootloader's chip)
        return merged[: 0x1000 + 768].ljust(0x1300, b"\xff") + old[0x1300:] + b"\xff"

    for number, words in enumerate([[], ["-D"], ["-e"], ["-c", "wiring"], ["-c", "wiring", "-D"]]):
        own = {"file": f"late{number}.hex", "text": late, "again": hex_of([(0, merged)])}
        follows(
            f"a bootloader {words}",
            flash(own["file"], *words),
            wanted,
            board={"server": Bootloader(old)},
            loads=1,
            **own,
        )
    follows("-D", flash("late.hex", "-D"), with_flash(image, 0x1000), "late.hex", late, chip=old + b"\xff" * 1028)
    for (name, *_), hints in zip(walks, side_by_side(lambda case: walk(*case[:3], **case[3]), walks)):
        if name in bad:
            check_equal(f"{name}: one hint", len(hints), 1)


def signals():
    """Tests how avrstk-serial ends at a signal."""
    for name, command, wanted in table("signals"):
        number, reached = signal.Signals[name], threading.Event()

        def held(answer):
            if answer[5] != int(command, 16):
                return answer
            reached.set()
            return b""

        board = Board(answer=held)
        started = start([*FLASH, "-P", board.device], start_new_session=True)
        check("it is reached", reached.wait(PATIENCE))
        begun = time.monotonic()
        if number == signal.SIGINT:
            os.killpg(started.pid, number)
        else:
            started.send_signal(number)
        _, printed = started.communicate(timeout=PATIENCE)
        own = [row for row in printed.decode().splitlines() if row.startswith("avrstk-serial: ")]
        check(wanted, started.returncode == 1 and len(own) == 1 and wanted in own[0], printed)
        took = time.monotonic() - begun
        check("it ends at once", took < 5, took)
        board.end()


def report_of_updates():
    """A report has what each update did, on standard output too; -q leaves nothing out of it."""
    held = room.read("blink.hex")
    room.put("open.hex", held[: held.rindex(b":")])
    programmer = Board(answer=lambda reply, lost=iter([b""]): next(lost, reply) if reply[5] == 0x13 else reply)
    output = run(
        ["-p", "m328p", "-P", programmer.device, "-U", "flash:w:blink.hex", "-U", "flash:r:back.hex:i", "--json", "-"]
    )[1]
    programmer.end()
    other = Board()
    for device in "emu:quiet.bin", other.device:
        words = ["-p", "m328p", "-P", device, "-q", "-q", "-U", "flash:w:blink.hex", "--json", "quiet.json"]
        found, report = run(words), report_of("quiet.json")
        quiet = report["chip"], report["signature"], report["updates"][0]["verified"]
        check_equal(f"{device}: -q changes no report", (found, quiet), ((0, b"", b"", []), ("done", "1E 95 0F", 228)))
    other.end()
    found = run(["-p", "m328p", "-P", "emu:quiet.bin", "-q", "-U", "flash:v:open.hex", "--json", "quiet.json"])
    check_equal("-q leaves a warning", found, (0, b"", lines("warning: open.hex: no end record"), []))
    found, (wrote, read) = json.loads(output), json.loads(output)["updates"]
    check_equal("an image", (wrote["bytes"], wrote["written"], wrote["verified"]), (len(held), 228, 228))
    check_equal("its digest", wrote["sha256"], hashlib.sha256(held).hexdigest())
    check_equal("a file", (read["read"], read["sha256"]), (228, hashlib.sha256(room.read("back.hex")).hexdigest()))
    check_equal("one lost reply", (found["repeated"], found["retries"], found["signature"]), (1, 0, "1E 95 0F"))
    check_equal("all commands", found["commands"], frames_in(programmer.received))
    programmer = Board(answer=lambda reply, lost=iter([b""]): next(lost, reply) if reply[5] == 0x14 else reply)
    run(["-p", "m328p", "-P", programmer.device, "-U", "flash:v:blink.hex", "--json", "read.json"])
    programmer.end()
    check_equal("a read is repeated once, though all reads are alike", report_of("read.json")["repeated"], 1)


def report_after_a_signal():
    """A run that a signal ends writes its report."""
    reached = threading.Event()
    programmer = Board(answer=lambda reply: reached.set() or b"" if reply[5] == 0x13 else reply)
    started = start([*FLASH, "-P", programmer.device, "--json", "report.json"])
    check("it is reached", reached.wait(PATIENCE))
    started.send_signal(signal.SIGTERM)
    started.communicate(timeout=PATIENCE)
    programmer.end()
    found = report_of("report.json")
    check_equal("after a signal", (found["kind"], found["chip"]), ("interrupted", "erased or partly written"))


def report_over_a_port():
    """Over a port the script sees no frame: after a command without a good reply the chip counts as changed, if the run
    got as far as its signature, and writes or erases."""
    room.put("eeprom", bytes(2000))
    known, silent = "avrstk: device signature = 1E 95 0F", "avrstk: error: no answer"
    other, unlike = known.replace("0F", "14"), "avrstk: error: signature is 1E 95 14, m328p has 1E 95 0F"
    changed, unchanged = "erased or partly written", "unchanged"
    for printed, words, wanted in [
        ([known, silent], "-e", ("line", changed)),
        ([known], "-e", ("interrupted", changed)),
        ([known, "avrstk: error: command 12 refused with status C0"], "-U flash:w:blink.hex", ("refused", changed)),
        ([known, silent], "-e -n", ("line", unchanged)),
        ([known, silent], "-U lfuse:r:-:h", ("line", unchanged)),
        ([silent], "-e", ("silent", unchanged)),
        ([other, unlike], "-e", ("other part", unchanged)),
        ([], "-e", ("interrupted", unchanged)),
        ([known, "avrstk: error: out of memory"], "-e", ("interrupted", changed)),
        (["avrstk: error: link to.hex: cannot be opened"], "-e", ("file", unchanged)),
        (["avrstk: error: no answer.hex: cannot be opened"], "-e", ("file", unchanged)),
        ([known, "avrstk: error: link to.hex: cannot be created"], "-e", ("file", unchanged)),
        (["avrstk: error: eeprom: address 00000400 out of range"], "-U eeprom:w:eeprom:r", ("file", unchanged)),
        (["avrstk: error: eeprom: address 00000400 out of range"], "-U eeprom:w:1:m", ("arguments", unchanged)),
        (["avrstk: error: a.hex: longer than 4194304 bytes"], "-e", ("file", unchanged)),
    ]:
        text = "".join(f"{line}\n" for line in printed)
        words = ["-p", "m328p", "-P", "net:127.0.0.1:1", *words.split(), "--json", "port.json"]
        run(words, env=stand_in(f"sys.stderr.write({text!r})\nsys.exit(1)\n"))
        found = report_of("port.json")
        check_equal(f"{words}, {printed}", (found["kind"], found["chip"]), wanted)


def report_of_last_run():
    """A report has the counts and the error of the last run. A run without an error was ended by something else."""
    board, lines_of = Board(), ["device signature = 1E 95 0F", "eeprom: 4 bytes written", "eeprom: 4 bytes verified"]
    first, signature = [*lines_of, "error: no answer"], "signature is FF FF FF, m328p has 1E 95 0F"
    whole = [*lines_of, "eeprom: 3 bytes written", "eeprom: 3 bytes verified", "done"]
    room.put("four.bin", b"four")
    room.put("three.bin", b"tri")
    words = ["-p", "m328p", "-P", board.device, "--retry", "1", "--json", "report.json"]
    words += ["-U", "eeprom:w:four.bin:r", "-U", "eeprom:w:three.bin:r"]
    for last, error, kind, counts in [
        (whole, None, None, [4, 3]),
        ([lines_of[0].replace("1E 95 0F", "FF FF FF"), f"error: {signature}"], signature, "no chip", [None, None]),
    ]:
        runs = [("".join(f"avrstk: {row}\n" for row in rows), int("done" not in rows)) for rows in (first, last)]
        (room.folder / "again").unlink(missing_ok=True)
        text = f"runs, again = {runs!r}, os.path.exists('again')\nopen('again', 'w')\n"
        run(words, env=stand_in(f"{text}sys.stderr.write(runs[again][0])\nsys.exit(runs[again][1])\n"))
        found = report_of("report.json")
        check_equal(f"{last}: the error", (found["error"], found["kind"], found["retries"]), (error, kind, 1))
        check_equal(f"{last}: the counts", [update["written"] for update in found["updates"]], counts)
    report_of_retries()
    run([*words[:4], *words[6:]], env=stand_in("sys.stderr.flush()\nos.kill(os.getpid(), 9)\n"))
    check_equal("avrstk was ended", report_of("report.json")["kind"], "interrupted")
    board.end()


def report_of_retries():
    """A session before the run that is made again is a retry. A run without a number, which isn't made, is none."""
    room.put("one.csv", b"serial\n1\n")
    numbers = ["--each", "eeprom@0={n}", "--rows", "one.csv", "--counter", "one.next", "--from", "1"]
    for boards_of_run, words, count in [
        ([silent(1), {}, {}], ["-p", "auto", "-U", "lfuse:w:0xE2:m"], 1),
        ([silent(0x15)], ["-p", "m328p", *numbers], 0),
    ]:
        programmer = Boards(*boards_of_run)
        run([*words, "-P", str(programmer.device), "--retry", "1", "--json", "again.json"])
        programmer.end()
        check_equal(f"{words}: its retries", report_of("again.json")["retries"], count)


def report_of_lost_lines():
    """The status of a report is that of the script: 1 if a message can't be printed, though all was done."""
    words = ["-p", "m328p", "-P", "emu:lost.bin", "-e", "--json", "report.json"]
    for what, options, closed in ("closed", [], "2>&-"), ("full", ["-l", "/dev/full"], ""):
        status = run([*words, *options], closed=closed)[0]
        found = report_of("report.json")
        check_equal(f"{what}: kind", (status, found["status"], found["kind"], found["chip"]), (1, 1, "file", "done"))
    room.put("-", b"a file of this name")
    given = ["-V", "-U", "lfuse:w:0xE2:m", "-U", "lfuse:v:0xE2:m", "-U", "lfuse:r:-:h"]
    run(["-p", "m328p", "-P", "emu:lost.bin", *given, "--json", "report.json"])
    updates = report_of("report.json")["updates"]
    check_equal("-V compares no write", [update["verified"] for update in updates], [None, 1, None])
    check_equal("standard output is no file", [update["bytes"] for update in updates], [None, None, None])


def reports():
    """--json writes what a run did: kinds of failures, the chip, each update; after a signal too, and to the output."""
    try:
        import jsonschema  # noqa: F401
    except ModuleNotFoundError:
        leave_out("the schema of reports", "python3-jsonschema is not installed")
    for board, words, kind, chip, error in table("reports"):
        programmer = Board(**board_of(board.strip("-")))
        device = [] if "-P " in words else ["-P", programmer.device]
        words = ["-p", "m328p", *device, *words.split(), "--json", "report.json"]
        status, *_, own = run(words)
        programmer.end()
        found, what = report_of("report.json"), f"{board}, {words}"
        check_equal(what, (found["status"], found["kind"] or "-", found["chip"]), (status, kind, chip))
        check(
            f"{what}: its error",
            (found["error"] or "").startswith(error) and bool(error) == bool(found["error"]),
            found["error"],
        )
        check(f"{what}: its hint", found["hint"] is None or found["hint"] in own, (found["hint"], own))
    report_of_updates()
    report_over_a_port()
    report_after_a_signal()
    report_of_last_run()
    report_of_lost_lines()
    unread_command_lines()


def unread_command_lines():
    """A command line that can't be read has a report, too, but not in a file that it may name as another one."""
    for words, wanted in [
        (["-p", "m8", "-z", "--json", "unread.json"], ("option -z not recognized", "m8", None)),
        (
            ["--json=unread.json", "-P", "x", "--backup", "y", "-e"],
            ("--backup takes no -e", None, "x"),
        ),
        (["--json", "unread.json", "-Pa", "-Pb", "--wait"], ("option --wait requires argument", None, None)),
    ]:
        room.put("unread.json", b"old")
        check_equal(f"{words}: the line", run(words)[::3], (1, [wanted[0]]))
        found = report_of("unread.json")
        check_equal(f"{words}", tuple(found.get(name) for name in ("error", "part", "device")), wanted)
        check_equal(f"{words}: its kind", (found["status"], found["kind"]), (1, "arguments"))
    room.put("unread.json", b"old")
    run(["--json", "unread.json", "-U", "flash:w:unread.json", "-z"])
    check_equal("it may be an image", room.read("unread.json"), b"old")
    (room.folder / "kept").mkdir()
    room.put("kept/unread.json", b"old")
    for restore in (["--restore", "kept"], ["--restore=kept/"]):
        run([*restore, "--json", "kept/unread.json", "-z"])
        check_equal(f"it may be of a backup: {restore}", room.read("kept/unread.json"), b"old")
    shutil.rmtree(room.folder / "kept")
    check_equal("the output", json.loads(run(["--json", "-", "-z"])[1])["error"], "option -z not recognized")


def places_of_reports():
    """A report goes to a file, also by a link, or into a pipe. If it can't be written, the run's own error is still
    reported, and the status is 1; if that is known before, nothing is sent."""
    absent = f"cannot be written: check {room.folder}/no"
    for name, why in [("no/report.json", absent), (".", "is a folder")]:
        found = run([*FLASH, "-P", "emu:c.bin", "--json", name])
        check_equal(f"--json {name}", found, (1, b"", b"", [f"--json {name} {why}: {UNOPENED}"]))
    check("nothing was done", room.read("c.bin") is None)
    os.symlink("kept.json", room.folder / "link.json")
    os.mkfifo(room.folder / "pipe")
    pipe = os.open(room.folder / "pipe", os.O_RDONLY | os.O_NONBLOCK)
    for name in ["link.json", "pipe"]:
        check_equal(f"--json {name}", run([*FLASH, "-P", "emu:c.bin", "--json", name])[0], 0)
    check_equal("the pipe gets it", json.loads(os.read(pipe, 65_536))["status"], 0)
    os.close(pipe)
    check_equal(
        "the link stays", (os.readlink(room.folder / "link.json"), report_of("kept.json")["status"]), ("kept.json", 0)
    )
    full, differs = "--json /dev/full: No space left on device", "flash reads as something else than whole.bin"
    for words, own in [([], [full]), (["-U", "flash:v:whole.bin"], [full, differs])]:
        board = Board()
        found = run([*FLASH, *words, "-P", board.device, "--json", "/dev/full"])
        board.end()
        check_equal(f"{words}: a full disk", (found[0], found[3][:1], len(found[3])), (1, own[:1], len(own)))
        check(f"{words}: the hint", own[-1] in found[3][-1], found[3])
    unread = run([*FLASH, "-P", "emu:c.bin", "--json", "pipe"])
    check_equal("a pipe that nobody reads", (unread[0], unread[3]), (1, ["--json pipe: No such device or address"]))
    closed = run([*FLASH, "-P", "emu:c.bin", "--json", "-"], preexec_fn=lambda: os.close(1))
    check_equal("a closed output", (closed[0], len(closed[3])), (1, 1))
    # (the file of a standard stream is not opened once more)
    words = [*FLASH, "-U", "lfuse:r:-:h", "-P", "emu:c.bin", "-l", "/dev/stderr", "--json", "/dev/stdout"]
    check_equal("streams that are files", run(words, closed=">all.txt 2>messages.txt")[0], 0)
    value, report = room.read("all.txt").splitlines()
    check_equal("all that was printed", (value, json.loads(report)["status"]), (b"0xff", 0))
    log = room.read("messages.txt").decode().splitlines()
    # (a stream's file isn't replaced, so its folder may be closed)
    with tempfile.TemporaryDirectory(dir="/tmp") as folder, open(f"{folder}/all.txt", "wb") as output:
        os.chmod(folder, 0o755)
        run_as_anyone(["--json", "/dev/stdout", "-z"], shutil.which("true"), output)
        held = Path(folder, "all.txt").read_bytes() or b"{}"
        check_equal("a file in a closed folder", json.loads(held).get("error"), "option -z not recognized")
    check("messages, and the log's lines", len(log) > 4 and len({*log}) * 2 == len(log), log)


def cut_lines():
    """If a signal cuts a line of avrstk, the script ends that line before its own."""
    halts = room.folder / "halts"
    put_program(halts, "#!/bin/sh\nprintf 'avrstk: error: ' >&2\n: >begun\nexec sleep 60\n")
    line, device = terminal()
    started = start([*FLASH, "-P", device], env={"AVRSTK": str(halts)})
    wait_until((room.folder / "begun").exists)
    started.send_signal(signal.SIGHUP)
    _, printed = started.communicate(timeout=PATIENCE)
    wanted = ["avrstk: error: ", "avrstk-serial: ended by SIGHUP: the chip is unchanged"]
    check_equal("a line that is cut", (started.returncode, printed.decode().splitlines()), (1, wanted))
    os.close(line)


# a stand-in that calls, sends a byte, and waits until it receives a byte
CALLS = "line = socket.create_connection(('127.0.0.1', port))\nline.sendall(b'x')\nline.recv(1)\n"


def echo(line):
    """Sends back one byte once the device is opened. The returned list gets its speed and its settings at that time."""
    found = []

    def live():
        wait_until(lambda: is_open(line))
        received = os.read(line, 1)
        found.extend([speed(line), termios.tcgetattr(line)[:4]])
        os.write(line, received)

    threading.Thread(target=live, daemon=True).start()
    return found


def closed_streams():
    """Messages never go to the board. If they can't be printed, the run goes on to its end."""
    wanted = flashed()
    for closed in ["2>&-", "0<&- 2>&-", "1>&- 2>&-", "2>/dev/full"]:
        board = Board()
        status = start([*FLASH, "-P", board.device], closed).wait(PATIENCE)
        check_equal(f"{closed}: the chip and the status", (board.end() == wanted, status), (True, 1))
        check(f"{closed}: no message at the board", board.received and b"avrstk" not in board.received, board.received)
    for words in [["-p", "?"], ["-c", "?"], ["--help"]]:
        with open("/dev/full", "w") as full:
            status, _, printed, own = run(words, stdout=full)
        found = (status, printed, own)
        check_equal(
            f"{words} to a full disk", found, (1, b"", ["standard output cannot be written: No space left on device"])
        )


def messages_that_nobody_reads():
    """If the messages' pipe is closed after the first line, or full, the chip is still written whole."""
    wanted = flashed()
    board = Board()
    started = start([*FLASH, "-P", board.device])
    check_equal("the first line", started.stderr.readline(), lines(SIGNATURE))
    started.stderr.close()
    check_equal("a pipe that is closed", (board.end() == wanted, started.wait(PATIENCE)), (True, 1))
    for name, reads in [("a full pipe that is read late", True), ("a full pipe, and a signal", False)]:
        board = Board()
        reader, writer = os.pipe()
        fcntl.fcntl(writer, fcntl.F_SETPIPE_SZ, 4096)
        os.write(writer, b"x" * 4096)
        started = start([*FLASH, "-P", board.device], stderr=writer)
        os.close(writer)
        wait_until(lambda: board.opened)
        check(f"{name}: the chip", board.end() == wanted)
        if reads:
            with os.fdopen(reader, "rb") as pipe:
                check_equal(name, (pipe.read()[4096:], started.wait(PATIENCE)), (lines(*FIRMWARE), 0))
        else:
            started.send_signal(signal.SIGTERM)
            check_equal(name, started.wait(PATIENCE), 1)
            os.close(reader)


def one_run_at_a_time():
    """While a run uses a device, another run there is refused and doesn't change its settings, also for root. Runs in
    turn are accepted."""
    line, device = terminal()
    fake = stand_in(CALLS)
    first = start([*FLASH, "-P", device, "-b", "57600", "--wait", "0"], env=fake)
    wait_until(lambda: speed(line) == (57_600, 57_600))
    status, _, printed, own = run([*FLASH, "-P", device, "-b", "9600"])
    wanted = f"{device} is busy"
    check("a second run at once", (status, own[-1:]) == (1, [wanted]), (status, printed, own))
    check_equal("the first one's speed", speed(line), (57_600, 57_600))
    if ANYONE:
        os.chown(device, 65534, 65534)
    other = subprocess.run(["sh", "-c", ': <"$0"', device], capture_output=True, text=True, **ANYONE)
    check("a program that doesn't lock", "busy" in other.stderr, other)
    echo(line)
    first.communicate(timeout=PATIENCE)
    check_equal("the first one", first.returncode, 0)
    with tempfile.TemporaryDirectory(dir="/tmp") as folder:
        os.chmod(folder, 0o755)
        program = stand_in(CALLS, Path(folder))["AVRSTK"]
        for count in ["a first", "a second"]:
            echo(line)
            ran = run_as_anyone([*FLASH, "-P", device, "--wait", "0"], program)
            check_equal(
                f"{count} run of an ordinary user over a terminal that stays", (ran.returncode, ran.stderr), (0, b"")
            )
    os.close(line)


def settings_that_are_kept():
    """After a run the device has its old settings."""
    line, device = terminal()
    kept = os.open(device, os.O_RDWR | os.O_NOCTTY)
    settings = termios.tcgetattr(kept)
    settings[2] |= termios.PARENB
    settings[3] |= termios.ECHO | termios.ICANON
    settings[4] = settings[5] = termios.B9600
    termios.tcsetattr(kept, termios.TCSANOW, settings)
    before = termios.tcgetattr(kept)
    during = echo(line)
    status, *_ = run([*FLASH, "-P", device, "-b", "74880", "--wait", "0"], env=stand_in(CALLS))
    (read, written, control, local), size = during[1], termios.CSIZE | termios.PARENB | termios.CSTOPB | termios.CRTSCTS
    check_equal("the speed of a run", during[0], (74_880, 74_880))
    check_equal(
        "it passes each byte as it is, by 8N1",
        (read, written, local, control & size),
        (termios.IGNPAR, 0, 0, termios.CS8),
    )
    check_equal("settings after it", (status, termios.tcgetattr(kept)), (0, before))
    os.close(kept)
    os.close(line)


def devices_that_go():
    """Tests a device that disappears while the script waits for its board."""
    line, device = terminal()
    # (avrstk sends SIGN_ON once a second: not when the wait ends)
    started = start([*FLASH, "-P", device, "-b", "57600", "--wait", "2.5"])
    wait_until(lambda: speed(line) == (57_600, 57_600))
    # (it reads its settings back before it waits)
    time.sleep(1)
    os.close(line)
    _, printed = started.communicate(timeout=PATIENCE)
    printed = printed.decode().splitlines()
    check(
        "two lines",
        started.returncode == 1 and len(printed) == 2 and printed[0] == "avrstk: error: link ended",
        printed,
    )
    wanted = "avrstk-serial: check the cable, the wires and the power; the chip is unchanged"
    check("it is gone", printed[-1].startswith(wanted), printed)


def another_reader():
    """A board of version 1 whose bytes another program reads, such as a serial monitor, isn't called gone."""
    board = Board(server=Version1())
    with subprocess.Popen(["cat", board.device], stdout=subprocess.DEVNULL) as monitor:
        _, _, printed, own = run([*FLASH, "-c", "arduino", "-D", "-P", board.device])
        monitor.kill()
    check("it isn't called gone", own and not any("is gone" in line for line in own), (printed, own))


def strangers():
    """If another program connects to the port that the script opens for avrstk, it receives nothing from the board."""
    wanted = flashed()
    board = Board()
    # (the program that starts avrstk may keep running beside it)
    late = "while not os.path.exists('go'):\n    time.sleep(0.01)\nimport subprocess\n"
    # (an image is an open file of the script)
    late += f"sys.exit(subprocess.call(['{PROGRAM}', *sys.argv[1:]], close_fds=False))\n"
    fake = stand_in("open('port', 'w').write(str(port) + '\\n')\n" + late)
    started = start([*FLASH, "-P", board.device], env=fake)
    wait_until(lambda: (room.read("port") or b"").endswith(b"\n"))
    with socket.create_connection(("127.0.0.1", int(room.read("port"))), PATIENCE) as stranger:
        stranger.sendall(bytes.fromhex("1B0100010E0114"))
        try:
            received = stranger.recv(100)
        except ConnectionResetError:
            received = b""
    check_equal("the stranger receives", received, b"")
    room.put("go", b"")
    _, printed = started.communicate(timeout=PATIENCE)
    line = b"avrstk-serial: refused another program at this run's own TCP port (as far as /proc shows)\n"
    check_equal("the run", (started.returncode, printed, board.end() == wanted), (0, line + lines(*FIRMWARE), True))


# Python loads this at its start: it sends Ctrl-C before a module is loaded
SENDS = b"""import os, signal, sys
class Sends:
    def find_spec(name, *_):
        if name == os.environ.get("SENDS_AT"):
            os.kill(os.getpid(), signal.SIGINT)
sys.meta_path.insert(0, Sends)
"""


def names_and_interrupts():
    """Gives names with control bytes and bytes that are not UTF-8, and Ctrl-C before a run."""
    room.put("sitecustomize.py", SENDS)
    for device, shown in [
        (b"/dev/\xff\xc3\xa9", "/dev/\\xff\u00e9"),
        ("/dev/\x1b[31m\nx\x7f\u009b".encode(), "/dev/\\x1b[31m\\x0ax\\x7f\\xc2\\x9b"),
    ]:
        started = start([*FLASH, "-P", device])
        _, printed = started.communicate(timeout=PATIENCE)
        wanted = f"avrstk-serial: {shown}: {LISTED}\n".encode()
        check_equal(f"the name {device}", (started.returncode, printed), (1, wanted))
    for words, shown in [
        ([b"-U", b"lfuse:r:\xff:h"], "lfuse:r:\\xff:h"),
        (["-P", "emu:other.bin", b"-U", b"lfuse:w:\xff:m"], "lfuse:w:\\xff:m"),
        ([b"--parts", b"\xff"], "\\xff"),
        ([b"--backup", b"\xff"], "\\xff"),
    ]:
        _, _, printed, own = run([*NO_CHIP, *words])
        check_equal(f"{words}", (printed, own), (b"", [f"{shown} is not UTF-8: {UNOPENED}"]))
    board, link = Board(), os.fsencode(room.folder) + b"/\xff"
    os.symlink(board.device, link)
    status, output, _, own = run(["-p", "m328p", b"-P", link, "--backup", "named"])
    check_equal(
        "the name in a command", (status, own, os.fsencode(shlex.quote(os.fsdecode(link))) in output), (0, [], True)
    )
    board.end()
    for name in ["avrstk_serial", "avrstk_common", "glob"]:
        started = start(["-p", "?"], env={"PYTHONPATH": str(room.folder), "SENDS_AT": name})
        check_equal(f"Ctrl-C before {name} is loaded", end_of(started), (-signal.SIGINT, b"", b""))


def recipe(begin):
    """Returns the command of docs/USAGE with this beginning."""
    (found,) = re.findall(rf"^ {{4,}}({re.escape(begin)}.*)$", (TOP / "docs/USAGE.md").read_text(), re.M)
    return found


def typed(command, device, port=0):
    """Starts a command with this device, port and firmware, and with the programs of this repository."""
    here = command.replace("/dev/ttyACM0", device).replace("5000", str(port)).replace("firmware.hex", "blink.hex")
    environment = os.environ | {"PATH": f"{PROGRAM.parent}:{TOP}:{os.environ['PATH']}", "AVRSTK": str(PROGRAM)}
    how = {"cwd": room.folder, "env": environment, "stdin": subprocess.DEVNULL, "stderr": subprocess.PIPE}
    return subprocess.Popen(["bash", "-c", f"exec {here}"], **how)


def without_socat(started):
    """Returns the status and the tool's own messages of a run."""
    status, _, messages = end_of(started)
    return status, b"".join(
        line for line in messages.splitlines(True) if not re.match(rb"\d{4}/\d\d/\d\d .* socat\[", line)
    )


def recipe_of_the_script():
    """Types two commands of docs/USAGE with avrstk-serial."""
    for begin, part, more in [
        ("avrstk-serial -p m328p -P /dev/", "m328p", []),
        ("avrstk-serial -C/etc", "m2560", ["-D"]),
    ]:
        firmware = emulated(*more, *FLASH[2:], part=part)
        board = Board(part=part)
        status, _ = without_socat(typed(recipe(begin), board.device))
        check_equal(begin, (status, board.end() == firmware), (0, True))


def recipe_of_a_plain_bridge():
    """Tests socat in place of avrstk-serial. It opens the device when the tool calls: too late for a board that resets
    then."""
    if not shutil.which("socat"):
        return leave_out("the recipes with socat", "socat is not installed")
    firmware = flashed()
    for board, wanted in [
        ({}, (0, lines(*FIRMWARE), True)),
        ({"deaf": 0.25, "gone": 0.8}, (1, lines("error: no answer"), False)),
    ]:
        programmer = Board(**board)
        kept = kept_port()
        port = port_of(kept)
        bridge = typed(recipe("socat TCP-LISTEN:5000,bind=127.0.0.1,reuseaddr FILE"), programmer.device, port)
        wait_until(lambda: listens_at(port))
        found = without_socat(typed(recipe(CALL), programmer.device, port))
        bridge.communicate(timeout=PATIENCE)
        check_equal("a plain bridge", (*found, programmer.end() == firmware), wanted)
        kept.close()
    programmer = Board()
    found = without_socat(typed(recipe("socat EXEC"), programmer.device))
    check_equal("stdio:", (*found, programmer.end() == firmware), (0, lines(*FIRMWARE), True))


def recipe_of_ser2net():
    """Tests ser2net, with the configuration in docs/USAGE, in place of avrstk-serial."""
    if not shutil.which("ser2net"):
        return leave_out("the recipe with ser2net", "ser2net is not installed")
    firmware = flashed()
    board = Board()
    kept = kept_port()
    port = port_of(kept)
    text = "".join(recipe(begin) + "\n" for begin in ["connection:", "  accepter:", "  connector:"])
    room.put("ser2net.yaml", text.replace("/dev/ttyACM0", board.device).replace("5000", str(port)).encode())
    server = subprocess.Popen(["ser2net", "-n", "-c", room.folder / "ser2net.yaml"], stderr=subprocess.DEVNULL)
    try:
        wait_until(lambda: listens_at(port))
        found = without_socat(typed(recipe(CALL), board.device, port))
        check_equal("ser2net", (*found, board.end() == firmware), (0, lines(*FIRMWARE), True))
    finally:
        server.terminate()
        server.wait()
        kept.close()


CASES = named(
    *(words_of_avrdude, reads, boards_that_reset, parts, refused, no_firmware, devices, what_is_missing),
    *(ports_of_avrstk, speeds_that_a_device_has_not, lines_of_a_board, bits_that_do_not_exist, lists, retries),
    *(
        retries_that_are_refused,
        the_part_of_the_chip,
        hints,
        elf_files,
        elf_files_with_faults,
        each_hint,
        hints_over_each_memory,
    ),
    *(
        hints_that_are_followed,
        progress,
        few_lines,
        backups,
        warnings,
        asked_first,
        images_that_are_read_once,
        over_a_bootloader,
    ),
    *(files_of_one_command, reports, places_of_reports, signals, cut_lines, closed_streams),
    *(messages_that_nobody_reads, one_run_at_a_time, settings_that_are_kept, devices_that_go, another_reader),
    strangers,
    *(names_and_interrupts, recipe_of_the_script, recipe_of_a_plain_bridge, recipe_of_ser2net),
)

# a board that replies for a time, or a signal at a moment
TIMED = [
    "words_of_avrdude",
    "boards_that_reset",
    "hints",
    "retries",
    "the_part_of_the_chip",
    "asked_first",
    "each_hint",
    "hints_over_each_memory",
    "hints_that_are_followed",
]
TIMED += [
    "progress",
    "backups",
    "signals",
    "devices_that_go",
    "names_and_interrupts",
    "recipe_of_a_plain_bridge",
    "recipe_of_ser2net",
    "elf_files",
    "elf_files_with_faults",
]

if __name__ == "__main__":
    sys.exit(
        run_cases(
            {name: lambda case=case: (room.clear(), case()) for name, case in CASES.items()}, __doc__, timed=TIMED
        )
    )

#!/usr/bin/env python3
"""Tests avrstk-serial with several boards in one command, and the numbers of --each. The boards are doubles:
avrstk-serve at pseudo terminals, some with faults.

Not proved: No proof covers Python (avrstk-serial, avrstk-serve), or processes, terminals and signals.

    tests/station.py [CASE ..]        needs a built program (program.py)
"""

import contextlib
import json
import os
import pty
import random
import re
import shlex
import shutil
import signal
import struct
import subprocess
import sys
import tempfile
import termios
import time
from fcntl import LOCK_EX, flock, ioctl
from pathlib import Path

import serial
from cases import PATIENCE, SOMEBODY, check, check_equal, named, put_program, run_cases, table, wait_until
from program import CHIP_FILE, EEPROM, PROGRAM, SESSION, TOP, forks, read_whole
from records import hex_of, image_of
from serial import PYTHON, SCRIPT, SHARED, elf_with

SERVE = TOP / "avrstk-serve"
ENVIRONMENT = os.environ | {"AVRSTK": str(PROGRAM)}
HOW = {"stdin": subprocess.DEVNULL, "stdout": subprocess.PIPE, "stderr": subprocess.PIPE, "env": ENVIRONMENT}
# where the numbers are written, and what is there
PLACE, EACH = 0x3F0, ["--each", "eeprom@0x3F0={n:06}"]
FLASH = ["-p", "m328p", "-U", "flash:w:blink.hex:i"]
DONE = ["device signature = 1E 95 0F", "chip erased", "flash: 228 bytes written", "flash: 228 bytes verified", "done"]
room = serial.room


class Doubles:
    """avrstk-serve at a link for each of these names, with its options."""

    def __init__(self, names, faults=None, prefix=()):
        self.names, faults = list(names), faults or {}
        self.started = {}
        for name in self.names:
            words = ["--pty", name, "-p", "m328p", "--chip", f"{name}.bin", *faults.get(name, [])]
            self.started[name] = subprocess.Popen([*prefix, SERVE, *words], **HOW, cwd=room.folder)

    def __enter__(self):
        for double in self.started.values():
            double.stdout.readline()
        return self

    def __exit__(self, *_):
        for double in self.started.values():
            double.terminate()
        for double in self.started.values():
            double.communicate(timeout=PATIENCE)

    def ports(self):
        return [word for name in self.names for word in ("-P", name)]


def run(words, **more):
    """Returns the status, the output, and the lines of messages."""
    with forks:
        ran = subprocess.Popen([SCRIPT, *words], cwd=room.folder, **{**HOW, **more})
    try:
        output, messages = ran.communicate(timeout=PATIENCE)
    except subprocess.TimeoutExpired:
        ran.kill()
        ran.communicate()
        raise
    return ran.returncode, (output or b"").decode(), (messages or b"").decode().splitlines()


def report():
    """Returns the report, which has to fit its schema."""
    return serial.report_of("report.json")


def chip_of(name):
    return room.read(f"{name}.bin")


def written(number=None):
    """Returns the chip that has the firmware, and a number of six digits."""
    chip = bytearray(b"\xff" * EEPROM + b"\xff" * (CHIP_FILE - EEPROM))
    for at, byte in image_of(room.read("blink.hex")).items():
        chip[at] = byte
    if number is not None:
        chip[EEPROM + PLACE : EEPROM + PLACE + 6] = b"%06d" % number
    return bytes(chip)


def lines_of(name, messages):
    """Returns avrstk's lines of a board."""
    front = f"{name}: avrstk: "
    return [line[len(front) :] for line in messages if line.startswith(front)]


# doubles with faults: their options, the kind of the failure, and its error
FAULTY = {
    "d03": (["--no-chip"], "no chip", "command 10 refused with status C0"),
    "d11": (["--lose", "SIGN_ON"], "silent", "no answer"),
    "d17": (["--bootloader"], "refused", "command 12 refused with status C0"),
}


def twenty_doubles():
    """Twenty doubles in one command, three of them with faults: the others are flashed, each with its own number."""
    names = [f"d{number:02}" for number in range(20)]
    good = [name for name in names if name not in FAULTY]
    with Doubles(names, {name: words for name, (words, *_) in FAULTY.items()}) as doubles:
        words = [*FLASH, *doubles.ports(), *EACH, "--counter", "counter", "--from", "100", "--json", "report.json"]
        status, output, messages = run(words)
    held = report()
    check_equal("the status", (status, output, held["status"]), (1, "", 1))
    check_equal("a report of each, in their order", [board["device"] for board in held["runs"]], names)
    numbers = {board["device"]: board["number"] for board in held["runs"]}
    check_equal("twenty numbers", sorted(numbers.values()), list(range(100, 120)))
    check_equal("the next one", room.read("counter"), b"120\n")
    for name in good:
        check_equal(f"{name}: the lines", lines_of(name, messages), [*DONE[:-1], *EEPROM_LINES, "done"])
        check_equal(f"{name}: the chip", chip_of(name), written(numbers[name]))
    for board in held["runs"]:
        _, kind, error = FAULTY.get(board["device"], ([], None, None))
        check_equal(
            f"{board['device']}: its report",
            (board["status"], board["kind"], board["error"]),
            (int(bool(kind)), kind, error),
        )
    for name in FAULTY:
        check_equal(f"{name}: the chip", chip_of(name) or b"\xff" * CHIP_FILE, b"\xff" * CHIP_FILE)
    rows = [line[15:].split(None, 4) for line in messages if line.startswith("avrstk-serial: ")][-22:]
    check_equal("the table's heads", rows[0], ["board", "number", "time", "result"])
    check_equal(
        "its devices and numbers", {row[0]: row[1] for row in rows[1:-1]}, {name: str(n) for name, n in numbers.items()}
    )
    check_equal("its results", [row[4] == "done" for row in rows[1:-1]], [name in good for name in names])
    for row in rows[1:-1]:
        _, kind, error = FAULTY.get(row[0], ([], "", ""))
        check(f"{row[0]}: its row", f"({kind})" in row[4] and error in row[4] or not kind, row)
    check_equal("its end", " ".join(rows[-1]), "20 boards: 17 done, 3 failed")
    fronts = {line.split(": ")[0] for line in messages}
    check_equal("each line has its device in front", fronts, {*names, "avrstk-serial"})


EEPROM_LINES = ["eeprom: 6 bytes written", "eeprom: 6 bytes verified"]


def one_command():
    """An image from a pipe is read once for all boards, and each board is read into a file of its own. A board that
    isn't there stops none."""
    with Doubles(["one", "two"]) as doubles, open(TOP / "examples/blink.hex", "rb") as given:
        words = ["-p", "m328p", *doubles.ports(), "-P", "three", "-q", "--json", "-"]
        updates = ["flash:w:-:i", "flash:r:{board}.hex:i", "lfuse:r:-:h"]
        reader, writer = os.pipe()
        os.write(writer, given.read())
        os.close(writer)
        status, output, messages = run([*words, *(word for update in updates for word in ("-U", update))], stdin=reader)
        os.close(reader)
    *rows, held = output.splitlines()
    check_equal(
        "a board that isn't there", (status, [board["status"] for board in json.loads(held)["runs"]]), (1, [0, 0, 1])
    )
    check_equal("its kind", [board["kind"] for board in json.loads(held)["runs"]], [None, None, "device"])
    why = "three: no such serial device (-P '?' lists devices)"
    check("its line", f"three: avrstk-serial: {why}" in messages, messages)
    check_equal("lists go to the output", sorted(rows), ["one: 0xff", "two: 0xff"])
    for name in ["one", "two"]:
        check_equal(f"{name}: the chip", chip_of(name), written())
        check_equal(f"{name}: its file", image_of(room.read(f"{name}.hex")), image_of(room.read("blink.hex")))
    status, _, messages = run(["-p", "m328p", "-P", "emu:a.bin", "-P", "emu:b.bin", "-e", "-q", "-q"])
    check_equal("-q twice", (status, messages), (0, []))
    _, _, messages = run(["-p", "m328p", "-P", "emu:a.bin", "-P", "emu:b.bin", "-q", "-e", "-U", "lfuse:v:0:m"])
    rows = [line.split("  ")[-1] for line in messages if "  failed (" in line]
    wanted = "failed (mismatch), chip may be erased or partly written: lfuse: address 00000000: 00 expected, FF found"
    check_equal("-q changes no row of the table", (rows, len(messages)), ([wanted] * 2, 6))
    for part in ["-p", "auto"], ["-p", "t85"]:
        with Doubles(["one", "two"]) as doubles:
            found = run([*part, *doubles.ports(), *FLASH[2:], "--json", "report.json"])
        kinds = {board["kind"] for board in report()["runs"]}
        check_equal(f"{part}", (found[0], kinds), (0, {None}) if part[1] == "auto" else (1, {"other part"}))
    status, output, _ = run(["-p", "m328p", "-P", "emu:a.bin", "-P", "emu:b.bin", "--backup", "kept-{board}"])
    restore = [shlex.split(line.partition(": ")[2]) for line in sorted(output.splitlines())]
    check_equal(
        "backups",
        (status, [command[-1] for command in restore]),
        (0, [f"--restore=kept-emu-{name}.bin" for name in "ab"]),
    )
    for name in "ab":
        shutil.rmtree(room.folder / f"kept-emu-{name}.bin")


def a_full_output():
    """If what a board reads can't be printed, its run counts as failed, in the table and in the report. If a message
    can't be printed, the boards' runs go on, and the report has the script's status."""
    with open("/dev/full", "wb") as full:
        words = ["-p", "m328p", "-P", "emu:a.bin", "-P", "emu:b.bin", "-U", "lfuse:r:-:h", "--json", "report.json"]
        status, _, messages = run([*words, "-e"], stdout=full)
    boards = [(board["status"], board["kind"]) for board in report()["runs"]]
    check_equal("the report", (status, report()["status"], boards), (1, 1, [(1, "file")] * 2))
    failed = "failed (file), chip changed as asked: standard output cannot be written: No space left on device"
    check_equal("the rows", [row.split(" s  ")[1] for row in messages[-3:-1]], [failed] * 2)
    check_equal("the table", messages[-1], "avrstk-serial: 2 boards: 0 done, 2 failed")
    with open("/dev/full", "wb") as full:
        status, *_ = run(["-e", *words[:6], "--json", "report.json"], stderr=full)
    boards = [board["status"] for board in report()["runs"]]
    check_equal("a full standard error", (status, report()["status"], boards), (1, 1, [0, 0]))


OWN_PART = """[parts.own]
signature = "1E950F"
flash_size = 0x8000
flash_page = 128
eeprom_size = 1024
eeprom_page = 4
eesave_bit = 3
"""


def refused():
    """A command that is refused for its options or files opens no device and takes no number; its line comes once."""
    texts = {"counter": "7\n", "bad": "seven\n", "cut": "7", "full": f"{10**15}\n"}
    texts |= {"rows.csv": "serial,mac\nA1,0102\nA2,0304\n", "empty.csv": "serial\n", "odd.csv": "serial,mac\nA1\n"}
    texts |= {"blank.csv": "\n\n", "own.toml": OWN_PART, "gap.csv": "serial,mac\n,0102\n"}
    os.mkfifo(room.folder / "pipe")
    for name, text in texts.items():
        room.put(name, text.encode())
    room.put("one.bin", b"")
    os.link(room.folder / "one.bin", room.folder / "two.bin")

    def ran(words):
        # (a device without a programmer)
        board = serial.Board(talk=b".")
        device = board.device
        status, output, messages = run(["-p", "m328p", *shlex.split(words.replace("DEVICE", device))])
        opened = bool(board.opened)
        board.end()
        texts = [line.replace(device, "DEVICE").replace(os.path.realpath(room.folder), "ROOM") for line in messages]
        own = [line for line in texts if not line.startswith("avrstk: ")]
        return (status, output, len(own), opened), own

    rows = table("station")
    for (words, wanted), (found, own) in zip(rows, serial.side_by_side(lambda row: ran(row[0]), rows)):
        check_equal(f"{words}: its status and lines", found, (1, "", 1, False))
        check(f"{words}: the line", own and own[0].startswith(f"avrstk-serial: {wanted}"), own)
    check_equal("no number is taken", room.read("counter"), b"7\n")
    run(["-p", "m328p", "-P", "all", "--json", "report.json"])
    check_equal("no device: the report", (report()["kind"], report()["runs"]), ("device", []))
    room.put("names.csv", "\u0142\n1\n".encode())
    own = ENVIRONMENT | {"LC_ALL": "C", "PYTHONUTF8": "0", "PYTHONCOERCECLOCALE": "0"}
    words = ["-p", "m328p", "-P", "x", "--counter", "counter", "--rows", "names.csv", "--each", "eeprom@0={x}"]
    line = "avrstk-serial: --each eeprom@0={x}: give flash@ADDRESS=TEXT or eeprom@ADDRESS=TEXT, TEXT with fields as "
    line += "{n}, {n:06}, {n:04X}, {\u0142}"
    check_equal("a name in UTF-8, where Python takes names as ASCII", run(words, env=own)[2], [line])


def all_devices():
    """-P all takes each serial device of USB that is there, once if it has two names, and lists them first, as typed
    in docs/USAGE. The list is in the file of -l, too."""
    patch = "import glob, runpy, sys\nsys.argv[:1] = []\nreal = glob.glob\n"
    patch += "glob.glob = lambda it: [f'{n}.tty' for n in 'cab'] if it == '/dev/ttyACM*' else real(it)\n"
    patch += "runpy.run_path(sys.argv[0], run_name='__main__')\n"
    section = (TOP / "docs/USAGE.md").read_text().split("## Many boards")[1].split("\n## ")[0]
    commands = re.findall(r"^    avrstk-serial (.*)$", section.replace("\\\n", ""), re.M)
    room.put("macs.csv", b"mac\n0A0B\n0C0D\n")
    (room.folder / "c.tty").symlink_to("b.tty")
    check_equal("docs/USAGE has two commands", len(commands), 2)
    for typed in commands:
        words = shlex.split(typed.replace("firmware.hex", "blink.hex"))
        with Doubles(["a.tty", "b.tty"]):
            command = [sys.executable, "-c", patch, SCRIPT, *words, "-l", "all.log"]
            ran = subprocess.run(command, cwd=room.folder, **HOW_TO_WAIT)
        messages = ran.stderr.decode().splitlines()
        check_equal(f"{typed}: the list", (ran.returncode, messages[0]), (0, "avrstk-serial: 2 boards: a.tty, b.tty"))
        check_equal(f"{typed}: the log", room.read("all.log"), ran.stderr)
    chips = [chip_of(name) for name in ("a.tty", "b.tty")]
    check_equal("the rows", sorted(chip[EEPROM : EEPROM + 2] for chip in chips), [b"\x0a\x0b", b"\x0c\x0d"])
    firmware = [chip[:EEPROM] + b"\xff\xff" + chip[EEPROM + 2 :] for chip in chips]
    check_equal("the numbers, and the firmware", sorted(firmware), [written(1000), written(1001)])


HOW_TO_WAIT = {"stdin": subprocess.DEVNULL, "capture_output": True, "env": ENVIRONMENT, "timeout": PATIENCE}

# images, their format, and the bytes that they have
IMAGES = {
    "blink.hex": (None, None),
    "blink.srec": (None, None),
    "far.hex": (hex_of([(0x7EF8, bytes(range(16)))]), None),
    "cr.hex": (hex_of([(0, b"abc"), (0x7F00, b"0123456789")]).replace(b"\n", b"\r\n") + b"no record\n", None),
    "segment.hex": (b":0200000207F005\n:0400000001020304F2\n:00000001FF\n", None),
    "cut.hex": (hex_of([(0x100, b"uncut")])[: -len(":00000001FF\n") - 1], None),
    "count.srec": (b"S1060000414243" b"33\nS5030001FB\nS9030000FC\n", None),
    "raw.bin": (bytes(range(1, 41)), {at: at + 1 for at in range(40)}),
    "long.bin": (b"\x95" * 0x7F80, dict.fromkeys(range(0x7F80), 0x95)),
    "small.elf": (elf_with(b"\x0c\x94\x34\x00"), dict(enumerate(b"\x0c\x94\x34\x00"))),
}


def into_images():
    """A text replaces the bytes of an image at its address, whatever the image's format; the image's other bytes
    stay."""
    for name, (content, held) in IMAGES.items():
        room.put(name, content or (TOP / f"examples/{name}").read_bytes())
        image = dict(image_of(room.read(name).split(b"no record")[0]) if held is None else held)
        for at, text in [(0x7F00, "0x{n:04X}00FF"), (2, "{n:04}")]:
            each = ["--each", f"flash@{at}={text}", "--counter", "counter", "--from", "1000"]
            room.put("counter", b"4660\n")
            status, _, messages = run(["-p", "m328p", "-P", "emu:x.bin", "-U", f"flash:w:{name}", *each])
            wanted = {**image, **dict(enumerate(b"\x12\x34\0\xff" if "x" in text else b"4660", at))}
            chip = room.read("x.bin")
            found = {place: chip[place] for place in range(EEPROM)}
            all_of = {place: wanted.get(place, 0xFF) for place in range(EEPROM)}
            check_equal(f"{name}, {text}", (status, found == all_of), (0, True))
            check(
                f"{name}: a missing end is reported",
                (name == "cut.hex") == ("no end record" in " ".join(messages)),
                messages,
            )
        room.clear()
    status, _, messages = run(["-p", "m328p", "-P", "emu:x.bin", "-U", "lock:w:0xFC:m", *COUNTED])
    memories = [re.match(r"avrstk: (\w+): \d+ bytes written", line) for line in messages]
    check_equal("the lock comes last", (status, [match[1] for match in memories if match]), (0, ["eeprom", "lock"]))
    room.put("rows.csv", '\ufeffserial,mac\r\nA1,0102\r\n"Ü,2",0304\r\n'.encode())
    rows = ["--rows", "rows.csv", "--each", "eeprom@0={serial}", "--each", "eeprom@16=0x{mac}", "--json", "report.json"]
    for number, wanted in [(1, b"A1"), (2, "Ü,2".encode())]:
        status, *_ = run(["-p", "m328p", "-P", f"emu:{number}.bin", *rows, "--counter", "rows", "--from", "1"])
        chip = room.read(f"{number}.bin")[EEPROM:]
        check_equal(f"row {number}", (status, chip[: len(wanted)], chip[16]), (0, wanted, 2 * number - 1))
        check_equal(
            f"row {number}: the report",
            (report()["number"], report()["each"][1]["hex"]),
            (number, f"0{2 * number - 1}0{2 * number}"),
        )
    status, _, messages = run(["-p", "m328p", "-P", "emu:3.bin", *rows, "--counter", "rows"])
    check_equal(
        "no third row",
        (status, messages),
        (1, ["avrstk-serial: --rows rows.csv has no row 3"]),
    )


COUNTED = [*EACH, "--counter", "counter", "--from", "0"]


def retried():
    """A retry takes a number of its own, since another board may be there by then."""
    lost = iter([b""] * 4)
    first = {"answer": lambda reply: next(lost, reply) if reply[5] == 0x15 else reply}
    boards = serial.Boards(first, {})
    status, _, messages = run(["-p", "m328p", "-P", str(boards.device), "--retry", "1", *COUNTED])
    chip = boards.end()
    numbers = [line[15:] for line in messages if "number" in line]
    check_equal("its numbers", numbers, [f"number {n}: eeprom@0x3F0=00000{n}" for n in (0, 1)])
    check_equal("the chip has the last one", (status, chip[EEPROM + PLACE :][:6]), (0, b"000001"))
    room.put("one.csv", b"mac\nA1\n")
    lost, one = iter([b""] * 4), ["--rows", "one.csv", "--each", "eeprom@0={mac}", "--counter", "one", "--from", "1"]
    boards = serial.Boards({"answer": lambda reply: next(lost, reply) if reply[5] == 0x15 else reply}, {})
    status, _, messages = run(["-p", "m328p", "-P", str(boards.device), "--retry", "1", *one])
    boards.end()
    why = "--rows one.csv has no row 2; the chip may be erased or partly written"
    check_equal("no number for a retry", (status, messages[-1]), (1, f"avrstk-serial: {why}"))
    check("it isn't announced", not any("trying again" in line for line in messages), messages)
    with Doubles(["first", "second"], {"second": ["--lose", "PROGRAM_EEPROM"]}) as doubles:
        status, _, messages = run(["-p", "m328p", *doubles.ports(), *EACH, "--counter", "alone", "--from", "1"])
    alone = [
        line
        for line in messages
        if line.endswith(": run the same command again for second alone (one -P) (--each takes the next number)")
    ]
    check_equal("a board that is to be run alone", (status, len(alone)), (1, 1))


# in place of avrstk: it appends its EEPROM image to a file
STAND_IN = """#!/bin/sh
while [ "$1" != -U ]; do shift; done
image=${2#eeprom:w:}
cat "${image%:i}" >>"$NOTED"
"""


def numbers_given_once():
    """Stations that are killed at random moments, two at a time, by two users if this is root, give a thousand numbers
    (in samples a hundred), none twice. (A hundred, where samples are tried.)"""
    count, draw = 100 if "SAMPLE" in os.environ else 1000, random.Random(os.environ.get("SEED", str(time.time())))
    with tempfile.TemporaryDirectory(dir="/tmp") as name:
        folder = Path(name)
        folder.chmod(0o777)
        shutil.copytree(SHARED, folder / "lib")
        shutil.copy(SCRIPT, folder)
        (folder / "avrstk_session").symlink_to(SESSION)
        put_program(folder / "stand-in", STAND_IN)
        ports = [word for number in range(30) for word in ("-P", f"emu:{number}")]
        words = ["-q", "-q", "-p", "m328p", *ports, "--each", "eeprom@0={n:06}", "--counter", "number", "--from", "5"]
        noted = folder / "noted"
        noted.touch()
        noted.chmod(0o666)
        environment = os.environ | {"AVRSTK": str(folder / "stand-in"), "NOTED": str(noted)}
        how = {**HOW, "stdout": subprocess.DEVNULL, "stderr": subprocess.DEVNULL, "cwd": folder, "env": environment}

        def starts(front):
            command = [*front, PYTHON, str(folder / "avrstk-serial"), *words]
            return subprocess.Popen(command, start_new_session=True, umask=0, **how)

        def rows():
            return noted.read_bytes().count(b"\n:00000001FF\n")

        def given():
            return int((folder / "number").read_text()) - 5 if (folder / "number").exists() else 0

        stations = 0
        while given() < count:
            begun, some = rows(), draw.randrange(60)
            pair = [starts([]), starts(SOMEBODY)]
            stations += 2
            while rows() < begun + some and any(station.poll() is None for station in pair):
                time.sleep(0.001)
            for station in pair:
                end_somehow(station, draw)
                station.wait(PATIENCE)
        # (a station's boards may go on after it was killed)
        wait_until(lambda: not running_in(folder), 0.05)
        found = [image_of(image.encode() + b":00000001FF\n") for image in noted.read_text().split(":00000001FF\n")[:-1]]
        numbers = [int(bytes(image[at] for at in range(6))) for image in found]
        last = int((folder / "number").read_text())
    check(f"most are used, by {stations} stations", len(numbers) > count / 4, len(numbers))
    check_equal("none is given twice", len(set(numbers)), len(numbers))
    check("all are of the counter", set(numbers) <= set(range(5, last)), (min(numbers), max(numbers), last))


def end_somehow(station, draw):
    """Kills a station, one of its boards or all of them, or sends it a signal, or lets it end."""
    way, boards = draw.randrange(5), []
    with contextlib.suppress(OSError):
        boards = Path(f"/proc/{station.pid}/task/{station.pid}/children").read_text().split()
    with contextlib.suppress(ProcessLookupError):
        if way == 0:
            os.killpg(station.pid, signal.SIGKILL)
        elif way == 1:
            station.kill()
        elif way == 2 and boards:
            os.kill(int(draw.choice(boards)), signal.SIGKILL)
        elif way == 3:
            station.terminate()


def running_in(folder):
    """Returns the processes that run the script of this folder."""
    found = []
    for process in Path("/proc").glob("[0-9]*/cmdline"):
        with contextlib.suppress(OSError):
            found += [process] if f"{folder}/avrstk-serial".encode() in process.read_bytes() else []
    return found


def signals():
    """SIGINT and SIGTERM end all boards, each with the state of its chip. If one board's process is killed, the others
    go on."""
    names = ["one", "two", "three"]
    slow = {name: ["--late", "PROGRAM_FLASH:0.5"] for name in names}
    for number in (signal.SIGTERM, signal.SIGINT):
        with Doubles(names, slow) as doubles:
            station = busy([*FLASH, *doubles.ports(), "--json", "report.json"], 3)
            station.send_signal(number)
            messages = station.communicate(timeout=PATIENCE)[1].decode().splitlines()
        check_equal(f"{number.name}: the status", station.returncode, 1)
        for name in names:
            state = f"ended by {number.name}: the chip may be erased or partly written, and in programming mode"
            check(
                f"{number.name}: {name}",
                any(row.startswith(f"{name}: avrstk-serial: {state}") for row in messages),
                messages,
            )
        check_equal(f"{number.name}: the report", {board["kind"] for board in report()["runs"]}, {"interrupted"})
    with Doubles(names, slow) as doubles:
        station = busy([*FLASH, *doubles.ports(), "--json", "report.json"], 3)
        boards = Path(f"/proc/{station.pid}/task/{station.pid}/children").read_text().split()
        os.kill(int(boards[1]), signal.SIGKILL)
        station.communicate(timeout=PATIENCE)
    held = [(board["status"], board["kind"], board["chip"]) for board in report()["runs"]]
    killed = (1, "interrupted", "erased or partly written")
    check_equal(
        "a board's process is killed", (station.returncode, held), (1, [(0, None, "done"), killed, (0, None, "done")])
    )

    with Doubles(names, {name: ["--late", "READ_FLASH:0.05"] for name in names}) as doubles:
        station = busy(
            ["-p", "m328p", "-U", "flash:r:{board}.read:r", *doubles.ports(), "--json", "report.json"],
            3,
            b"device signature",
        )
        boards = Path(f"/proc/{station.pid}/task/{station.pid}/children").read_text().split()
        os.kill(int(boards[0]), signal.SIGRTMIN + 1)
        os.kill(int(boards[1]), signal.SIGKILL)
        messages = station.communicate(timeout=PATIENCE)[1].decode().splitlines()
    line = "two: avrstk-serial: its process ended (SIGKILL): the chip is unchanged; power-cycle the board"
    check("a process that only reads is killed", line in messages, messages)
    nameless = line.replace("two", "one", 1).replace("SIGKILL", f"signal {signal.SIGRTMIN + 1}")
    check("a signal without a name", nameless in messages, messages)
    check_equal("its report", [board["chip"] for board in report()["runs"]], ["unchanged"] * 3)
    check("its time", all(board["seconds"] > 0.05 for board in report()["runs"]), report())


def later_rows():
    """A later row that a bootloader can't write is refused before its board gets a command, and takes no number."""
    far = "--each: a Mega's bootloader reads EEPROM above 255 at other addresses: use a programmer"
    gap = "-p m328p -D -U flash:w:one.hex --each flash@0x40={a} --each flash@0x100={b}"
    room.put("one.hex", hex_of([(0, b"x" * 64)]))
    cases = [
        ("-p m328p --each eeprom@250={a}", "a\nA\nABCDEFGHIJ\n", far),
        (gap, f"a,b\n{'y' * 128},z\ny,z\n", "a Mega's bootloader erases pages from 0 on"),
    ]
    for number, (words, rows, why) in enumerate(cases):
        names = [f"a{number}", f"b{number}"]
        room.put("rows.csv", rows.encode())
        with Doubles(names) as doubles:
            each = ["--rows", "rows.csv", "--counter", f"later{number}", "--from", "1", "--json", "report.json"]
            status, _, messages = run([*words.split(), "-c", "wiring", *each, *doubles.ports()])
        held = sorted((board["status"], board["number"] or 0, board["chip"]) for board in report()["runs"])
        check_equal(f"{words}: one board", (status, held), (1, [(0, 1, "done"), (1, 0, "unchanged")]))
        check(f"{words}: the line", any(f"avrstk-serial: {why}" in line for line in messages), messages)
        check_equal(f"{words}: the counter", room.read(f"later{number}"), b"2\n")


def waits_for_a_number():
    """If a signal comes while another program holds the counter's lock, no number is taken. A line describes the
    chip."""
    lock = room.folder / "counter.lock"
    with lock.open("w") as held:
        flock(held, LOCK_EX)
        with forks:
            words = [SCRIPT, "-p", "m328p", "-P", "emu:x.bin", *COUNTED]
            station = subprocess.Popen(words, cwd=room.folder, **HOW)
        wait_until(lambda: lock.resolve() in opened_by(station.pid))
        station.send_signal(signal.SIGINT)
        messages = station.communicate(timeout=PATIENCE)[1].decode().splitlines()
    line = "avrstk-serial: the next number was not used; the chip is unchanged"
    check_equal("its line", (station.returncode, messages, room.read("counter")), (1, [line], None))


def opened_by(process):
    """Returns the files that a process has open."""
    found = []
    for link in Path(f"/proc/{process}/fd").iterdir():
        with contextlib.suppress(OSError):
            found.append(link.resolve())
    return found


def numbers_without_room():
    """A number or a row that can't be written is not taken: its board's line says why, and the chip is unchanged."""
    boards = ["-p", "m328p", "-P", "emu:a.bin", "-P", "emu:b.bin", "--json", "report.json"]
    room.put("counter", b"99\n")
    room.put("rows.csv", b"mac\nA1\n \n0102\n")
    rows = [
        (["--each", "eeprom@0={n:02}", "--counter", "counter"], "100 is too long for {n:02}", b"100\n"),
        (["--each", "eeprom@0=0x{mac}", "--rows", "rows.csv", "--counter", "row"], "0x  is not pairs", b"2\n"),
    ]
    room.put("row", b"1\n")
    for words, why, left in rows:
        status, _, messages = run([*boards, *words])
        own = [line for line in messages if f"avrstk-serial: {words[0]} {words[1]}: {why}" in line]
        check_equal(f"{words}: a line", (status, len(own)), (1, 1))
        check_equal(f"{words}: the next number", room.read(words[-1]), left)
        runs = sorted((board["status"], board["kind"] or "", board["chip"]) for board in report()["runs"])
        check_equal(f"{words}: the report", runs, [(0, "", "done"), (1, "file", "unchanged")])


def with_a_restore():
    """`--restore` takes `--each` for EEPROM. It has values for flash that is FF, and takes no text there. A file beside
    the counter that is the user's stays."""
    board = ["-q", "-p", "m328p", "-P", "emu:chip.bin"]
    check_equal("a backup", run([*board, "--backup", "kept"])[0], 0)
    room.put("counter.new", b"mine")
    restore = [*board, "--restore", "kept", "--counter", "counter", "--from", "7", "--each"]
    end = "nothing was sent, and the device was not opened"
    line = f"avrstk-serial: --each can't write into flash: it is all FF in kept: {end}"
    check_equal("flash", run([*restore, "flash@0={n}"]), (1, "", [line]))
    check_equal(
        "EEPROM", (run([*restore, "eeprom@0={n}"])[0], room.read("chip.bin")[EEPROM : EEPROM + 2]), (0, b"7\xff")
    )
    check_equal("the files", (room.read("counter"), room.read("counter.new")), (b"8\n", b"mine"))
    shutil.rmtree(room.folder / "kept")


def busy(words, count, what=b"chip erased"):
    """Starts the script, and returns it once so many boards have printed this."""
    file = (room.folder / "messages").open("w+b")
    (room.folder / "log").unlink(missing_ok=True)
    station = subprocess.Popen([SCRIPT, *words, "-l", "log"], cwd=room.folder, **HOW)
    file.close()
    wait_until(lambda: (room.read("log") or b"").count(what) == count or station.poll() is not None)
    return station


def progress():
    """On a terminal with room each board has a line, which is redrawn below the messages; the messages and the table
    stay."""
    with Doubles(["one", "two"], {name: ["--late", "READ_FLASH:0.02"] for name in ["one", "two"]}) as doubles:
        with forks:
            mine, theirs = pty.openpty()
        ioctl(theirs, termios.TIOCSWINSZ, struct.pack("4H", 24, 100, 0, 0))
        with forks:
            process = subprocess.Popen([SCRIPT, *FLASH, *doubles.ports()], cwd=room.folder, **{**HOW, "stderr": theirs})
        os.close(theirs)
        got = read_whole(mine).decode()
        status = process.wait(PATIENCE)
    stays, drawn = screen(got)
    check_equal("the messages of a board that stay", (status, lines_of("one", stays)), (0, DONE))
    check("the table is last", stays[-1] == "avrstk-serial: 2 boards: 2 done, 0 failed", stays)
    check("two lines are drawn", all(len(drawing) == 2 for drawing in drawn), drawn)
    check("each with its board", all([row[:4] for row in drawing] == ["one ", "two "] for drawing in drawn), drawn)
    shown = [row for drawing in drawn for row in drawing]
    check("with its progress", any(re.match(r"one reading flash: [\d,]+ bytes, \d+ %", row) for row in shown), shown)


def screen(text):
    """Returns the lines that stay on a terminal, and those of each drawing that was removed."""
    stays, drawn = [], []
    for piece in re.split(r"(\x1b\[\d+A\r\x1b\[J)", text.replace("\r\n", "\n")):
        found = re.match(r"\x1b\[(\d+)A", piece)
        if found:
            drawn.append(stays[-int(found[1]) :])
            del stays[-int(found[1]) :]
        else:
            stays += piece.splitlines()
    return stays, drawn


def ordinary_user():
    """A user who isn't root can keep a counter in a folder of his own. Where he may not write, no number is taken."""
    with tempfile.TemporaryDirectory(dir="/tmp") as name:
        folder = Path(name)
        for path in (folder, folder / "his", folder / "other"):
            path.mkdir(exist_ok=True)
            path.chmod(0o755)
        if SOMEBODY:
            os.chown(folder / "his", 65534, 65534)
        else:
            (folder / "other").chmod(0o555)
        shutil.copytree(SHARED, folder / "lib")
        # (the programs may be in a folder of root's)
        for program in (SCRIPT, PROGRAM, SESSION):
            shutil.copy(program, folder)
        for file, wanted in [("number", 0), ("../other/number", 1)]:
            words = ["-p", "m328p", "-P", "emu:a.bin", "-P", "emu:b.bin", *EACH, "--counter", file, "--from", "3"]
            command = [*SOMEBODY, PYTHON, str(folder / "avrstk-serial"), *words, "-q", "-q"]
            how = HOW_TO_WAIT | {"env": ENVIRONMENT | {"AVRSTK": str(folder / PROGRAM.name)}}
            ran = subprocess.run(command, cwd=folder / "his", **how)
            check_equal(f"{file}: the status", ran.returncode, wanted)
            if wanted:
                check(
                    f"{file}: the error",
                    b"number.lock: Permission denied: the next number was not used" in ran.stderr,
                    ran.stderr,
                )
        check_equal("its number", (folder / "his/number").read_text(), "5\n")


CASES = named(
    *(twenty_doubles, refused, into_images, numbers_given_once, one_command, a_full_output, all_devices),
    *(retried, signals, later_rows, waits_for_a_number, numbers_without_room, with_a_restore),
    *(progress, ordinary_user),
)

# boards that reply for a time, so that a busy machine can end their runs
TIMED = ["twenty_doubles", "one_command", "retried", "signals", "progress"]

if __name__ == "__main__":
    sys.exit(
        run_cases(
            {name: lambda case=case: (room.clear(), case()) for name, case in CASES.items()}, __doc__, timed=TIMED
        )
    )

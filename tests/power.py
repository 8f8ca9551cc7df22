#!/usr/bin/env python3
"""Cuts the power of a disk while runs save chips, and mounts what is left: each chip is whole, and what a run reported
as done is there.

Not proved: The proofs assume what a file system and a disk keep after a sync.

    tests/power.py [CASE ..]    needs root, loop devices, python3-fusepy and mkfs.xfs, or leaves out what it can't make

recorder.py records the writes and flushes of a loop device. At a power cut a disk has all writes before the last flush,
and any of the later ones, whole or in part. File systems are also shut down during a run (FS_IOC_SHUTDOWN), as after an
error of the disk. CUTS=NUMBER tries as many in each case, without a limit of time."""

import ctypes
import fcntl
import os
import random
import shutil
import struct
import subprocess
import sys
import tempfile
import threading
import time
from contextlib import contextmanager
from dataclasses import dataclass
from functools import partial
from pathlib import Path

from cases import TOP, check, check_equal, leave_out, run_cases, wait_until
from program import CHIP_FILE, EEPROM, PROGRAM

# the size of a disk in MB (mkfs.xfs makes no smaller one)
SYSTEMS = {"ext4": 32, "xfs": 300}
PYTHON = "/usr/bin/python3"
# how many cuts are tried in each case, and within how many seconds: of a recorded disk, and by shutting it down
CUTS, RECORDED, SHUT = 50, 15, 5
# how many runs are recorded, and after every how many cuts the next run is tried, too
RUNS, NEXT = 12, 5
WANTED = int(os.environ.get("CUTS", 0))
# the request that shuts a file system down, and how: nothing more is written, also not its log
SHUTDOWN, AT_ONCE = 0x8004587D, struct.pack("I", 2)
MOST = 60


def command(*words):
    """Runs a command, and fails if it does."""
    return subprocess.run([*map(str, words)], check=True, capture_output=True, text=True, timeout=MOST)


def lacking(system):
    """Returns why this machine can't try a file system; an empty text if it can."""
    if os.geteuid() != 0:
        return "this isn't root"
    if not shutil.which(f"mkfs.{system}"):
        return f"mkfs.{system} is not installed"
    with tempfile.TemporaryDirectory() as held:
        disk = Path(held) / "disk"
        make_disk(disk, system)
        try:
            with mounted(disk, Path(held)):
                return ""
        except subprocess.CalledProcessError as fault:
            return f"no loop device can be mounted here: {fault.stderr.strip().splitlines()[-1]}"


def lacking_recorder():
    """Returns why this machine can't record a disk; an empty text if it can."""
    if not os.path.exists("/dev/fuse"):
        return "this machine has no FUSE"
    has_module = subprocess.run([PYTHON, "-c", "import fusepy"], capture_output=True).returncode == 0
    return "" if has_module else "python3-fusepy is not installed"


def make_disk(disk, system):
    command("truncate", "-s", f"{SYSTEMS[system]}M", disk)
    command(f"mkfs.{system}", "-q", disk)


@contextmanager
def mounted(disk, folder):
    """Mounts a file as a disk, and gives the folder where it is."""
    at = folder / "mounted"
    at.mkdir(exist_ok=True)
    command("mount", "-o", "loop", disk, at)
    try:
        yield at
    finally:
        command("umount", at)


def save(folder, name, value):
    """Runs the program: it writes a value into the EEPROM of a chip. Returns whether its status is 0."""
    words = ["-p", "m328p", "-q", "-P", f"emu:{name}", "-U", f"eeprom:w:{value % 256},{value // 256}:m"]
    return subprocess.run([PROGRAM, *words], cwd=folder, stderr=subprocess.DEVNULL, timeout=MOST).returncode == 0


def value_in(path):
    """Returns the value of a chip; None if there is no whole chip."""
    chip = path.read_bytes() if path.is_file() else b""
    return int.from_bytes(chip[EEPROM : EEPROM + 2], "little") if len(chip) == CHIP_FILE else None


@dataclass
class Entry:
    """A write to a disk, a flush, or a mark of what had been done by then."""

    kind: str
    place: int
    content: bytes


def entries(record):
    """Returns the entries of a record."""
    text, head, at, found = record.read_bytes(), struct.Struct("<cQI"), 0, []
    while at < len(text):
        kind, place, length = head.unpack_from(text, at)
        at += head.size + length
        found.append(Entry(kind.decode(), place, text[at - length : at]))
    return found


@contextmanager
def recording(folder, image, record):
    """Gives the folder with a recorded disk over an image, and the file that takes marks."""
    at = folder / "recorded"
    at.mkdir()
    words = [PYTHON, TOP / "tests/recorder.py", at, image, record]
    with subprocess.Popen([*map(str, words)], stdin=subprocess.PIPE, stderr=subprocess.PIPE) as recorder:
        try:
            wait_until(lambda: (at / "disk").exists() or recorder.poll() is not None)
            if recorder.poll() is not None:
                raise OSError(f"recorder.py: {recorder.stderr.read().decode()[-200:]}")
            yield at
        finally:
            subprocess.run(["umount", "-l", at], stderr=subprocess.DEVNULL)
            recorder.kill()


def recorded_runs(folder, image):
    """Saves chips on a recorded disk: one that each run replaces, and a new one for each. Returns the record."""
    with recording(folder, image, folder / "record") as recorded:

        def mark(text):
            (recorded / "mark").write_bytes(text.encode())

        with mounted(recorded / "disk", folder) as disk:
            mark("begun")
            for value in range(1, RUNS + 1):
                for name in ["chip.bin", f"new{value}.bin"]:
                    mark(f"tried {name} {value}")
                    if save(disk, name, value):
                        mark(f"done {name} {value}")
        mark("ended")
    return entries(folder / "record")


def put_cut(image, made, chance):
    """Writes to an image what a power cut may leave after these entries."""
    flushed = max((at for at, entry in enumerate(made) if entry.kind == "F"), default=0)
    how = chance.choice(["all", "some", "none", "torn"])
    with open(image, "r+b") as disk:
        for at, entry in enumerate(made):
            length = len(entry.content)
            if at > flushed and how != "all" and (how == "none" or chance.random() < 0.5):
                length = chance.randrange(length // 512 + 1) * 512 if how == "torn" else 0
            if entry.kind == "W" and length:
                disk.seek(entry.place)
                disk.write(entry.content[:length])
    return how


def is_kept(what, disk, marks, following):
    """Checks the chips of a disk: each that was saved has the value of its last run with status 0, or a later one. If
    there is a `following` value, the next run writes it."""
    done, tried = {}, {}
    for kind, name, value in (mark.split() for mark in marks):
        (done if kind == "done" else tried)[name] = int(value)
    for name, value in done.items():
        found = value_in(disk / name)
        check(f"{what}: {name}", found is not None and value <= found <= tried[name], (found, value, tried[name]))
    if following:
        check(f"{what}: the next run", save(disk, "chip.bin", following) and value_in(disk / "chip.bin") == following)


def until(ends):
    """Counts cuts up to so many, or to this end of a case; there is one at least."""
    for number in range(WANTED or CUTS):
        if number and not WANTED and time.monotonic() > ends:
            return
        yield number


def recorded(system):
    """Records the disk under a file system during runs, cuts the power at moments that are drawn, and mounts each disk
    that is left."""
    why = lacking(system) or lacking_recorder()
    if why:
        return leave_out(f"power cuts of {system}", why)
    chance, ends = random.Random(1), time.monotonic() + RECORDED
    with tempfile.TemporaryDirectory() as held:
        folder, base, image = Path(held), Path(held) / "base", Path(held) / "image"
        make_disk(base, system)
        with mounted(base, folder) as disk:
            check_equal("a first run", save(disk, "chip.bin", 0), True)
        command("cp", "--sparse=always", base, image)
        made = recorded_runs(folder, image)
        first = next(at for at, entry in enumerate(made) if entry.content == b"begun")
        tried = 0
        for tried in until(ends):
            cut = made[: chance.randrange(first, len(made)) + 1]
            command("cp", "--sparse=always", base, image)
            how = put_cut(image, cut, chance)
            marks = [entry.content.decode() for entry in cut if entry.kind == "M"]
            with mounted(image, folder) as disk:
                what = f"{system}, cut {tried} after {len(cut)} entries, {how}"
                is_kept(what, disk, [mark for mark in marks if " " in mark], None if tried % NEXT else RUNS + 1)
        print(f"{system}: {tried + 1} power cuts over {len(made)} entries", flush=True)


def shut(folder):
    held = os.open(folder, os.O_RDONLY)
    fcntl.ioctl(held, SHUTDOWN, AT_ONCE)
    os.close(held)


def shut_down(system):
    """Shuts a file system down during runs, as it does itself after an error of the disk, and mounts it again."""
    if why := lacking(system):
        return leave_out(f"{system} that is shut down", why)
    chance, ends = random.Random(1), time.monotonic() + SHUT
    value, marks, tried = 0, [], 0
    with tempfile.TemporaryDirectory() as held:
        folder, image = Path(held), Path(held) / "image"
        make_disk(image, system)
        for tried in until(ends):
            with mounted(image, folder) as disk:
                timer = threading.Timer(chance.random() * 0.5, shut, [disk])
                timer.start()
                while timer.is_alive():
                    value += 1
                    for name in ["chip.bin", f"new{tried}-{value % 4}.bin"]:
                        marks.append(f"tried {name} {value}")
                        marks += [f"done {name} {value}"] if save(disk, name, value) else []
                timer.join()
                value += 1
                marks.append(f"tried chip.bin {value}")
                check(f"{system}, shut down {tried}: no run ends well then", not save(disk, "chip.bin", value))
            with mounted(image, folder) as disk:
                value += 1
                is_kept(f"{system}, shut down {tried}", disk, marks, value)
                for file in disk.glob("new*"):
                    file.unlink()
            marks = [f"tried chip.bin {value}", f"done chip.bin {value}"]
    print(f"{system}: shut down {tried + 1} times, {value} runs over one chip", flush=True)


CASES = {f"{name}_recorded": partial(recorded, name) for name in SYSTEMS}
CASES |= {f"{name}_shut_down": partial(shut_down, name) for name in SYSTEMS}


def alone():
    """Enters a mount namespace of its own: whatever ends this script, the system unmounts what it has mounted, and
    frees the loop devices."""
    new_namespace = 0x20000
    if os.geteuid() == 0 and ctypes.CDLL(None).unshare(new_namespace) == 0:
        command("mount", "--make-rprivate", "/")


if __name__ == "__main__":
    alone()
    sys.exit(run_cases(CASES, __doc__))

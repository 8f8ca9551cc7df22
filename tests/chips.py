#!/usr/bin/env python3
"""Tests that a chip file stays whole, whatever ends a run, unless a file is mounted there, and that a second run over a
chip in use is refused. The file is the old one or the new one.

Not proved: The proofs assume how the system's calls on files behave, also in a crash of the system.

    tests/chips.py [CASE ..]        needs strace, or leaves out what it does at single calls

strace records the calls of a run, and a model of a disk (disk.py) makes each state that a power cut may leave. Each
call fails, and each ends a run. Runs are started at once with one chip, and beside a run or a served session that holds
it."""

import contextlib
import itertools
import os
import random
import re
import shutil
import signal
import stat
import subprocess
import sys
import tempfile
import time
from collections import Counter
from pathlib import Path

from cases import PATIENCE, check, check_equal, leave_out, named, run_cases, sampled, wait_until
from disk import calls_in, power_cuts
from program import CHIP_FILE, EEPROM, EMULATED, FRAMES, LFUSE, PROGRAM, SIGNATURE, Room, Server
from program import end_of, full_chip, lines, tracing
from records import hex_of

room = Room()
FOLDER = os.path.realpath(room.folder)
CHIP, LOCK_FILE, NEW_FILE = (room.folder / name for name in ["chip.bin", "chip.bin.avrstk-lock", "chip.bin.avrstk-new"])

DONE = (0, lines("done"))
IN_USE = lines("error: chip.bin: in use by another run")
UNWRITABLE = lines("error: chip.bin: cannot be written")

# a chip with a program, data and fuses of its own, which isn't locked; and a chip of which there is no file yet
OLD, FRESH = full_chip(), b"\xff" * CHIP_FILE
UMASK = os.umask(0)
os.umask(UMASK)
NOBODY = 65534
IS_ROOT = os.geteuid() == 0


def fresh_room(mode=0o640):
    """Puts the old chip file into an empty folder."""
    room.clear()
    room.put("chip.bin", OLD)
    CHIP.chmod(mode)


# how a room is made in which a run begins, and its chip; None if there is no file
STARTS = [(fresh_room, OLD), (room.clear, None)]


def with_fuse(chip, value):
    return (chip or FRESH)[:LFUSE] + bytes([value]) + (chip or FRESH)[LFUSE + 1 :]


def writes_fuse(value, name="chip.bin"):
    return ["-p", "m328p", "-P", f"emu:{name}", "-U", f"lfuse:w:{value}:m"]


def beside():
    """Returns the names of the files that runs make beside a chip."""
    return sorted(file.name for file in room.folder.iterdir() if ".avrstk-" in file.name)


def is_good(what, found, chip=None):
    """Checks that a run succeeded, left no file beside the chip, and wrote this chip."""
    check(f"{what}: the run", found[0] == 0, found)
    check_equal(f"{what}: no file is left beside the chip", beside(), [])
    check(f"{what}: the chip is written", chip in (None, room.read("chip.bin")))


def mode_of(path):
    return stat.S_IMODE(path.stat().st_mode)


def traced(prepare, words, how=None, meanwhile=None, when=1):
    """Returns the status of a run under strace, its messages, and its calls for the chip, its folder or a file beside
    it. strace does this at a call. What is done meanwhile begins with that call, the first of its name or a later one,
    which is held for two seconds."""
    prepare()
    inject = ["-e", f"inject={how}" + (f":delay_enter=2000000:when={when}" if meanwhile else "")] if how else []
    started = room.start(words, **tracing("-y", "-s", "50000", "-e", "trace=%file,%desc", *inject))
    if meanwhile:
        wait_until(lambda: len(re.findall(rf"^{how}\(".encode(), room.read("calls") or b"", re.M)) >= when)
        meanwhile(started)
    status, _, messages = end_of(started)
    return status, messages, calls_in((room.read("calls") or b"").decode(), FOLDER)


def number_of(prepare, words, name, text):
    """Returns which call of this name the first one is whose words have this text, in a run of its own."""
    return next(call.number for call in traced(prepare, words)[2] if call.name == name and text in call.words)


def is_safe(what, old, status, calls):
    """Checks what a power cut leaves during a run, and after it."""
    new, found = with_fuse(old, 0x62), room.read("chip.bin")
    seen, last, replayed = power_cuts(calls, old)
    check(f"{what}: the chip is replayed right", replayed == found)
    check(
        f"{what}: each power cut leaves the old chip or the new one",
        seen <= {old, new},
        [len(chip or b"") for chip in seen],
    )
    check(
        f"{what}: status 0 if the new chip is on the disk, else 1", status == 1 or (status, last) == (0, {new}), status
    )


def each_power_cut():
    """In a model of a disk, a power cut after each call on the chip's files leaves the old chip or the new one. After
    status 0 it leaves the new one. This holds too if a call fails, or finds no file or no descriptor. It wouldn't hold
    if one of both syncs were missing."""
    for prepare, old in STARTS:
        new, what = with_fuse(old, 0x62), f"chip {bool(old)}"
        status, _, calls = traced(prepare, writes_fuse(0x62))
        check_equal(f"{what}: the run", status, 0)
        synced = [call.words.split("<")[1].split(">")[0] for call in calls if call.name == "fsync"]
        new_or_chip = os.path.join(FOLDER, "chip.bin" if old else NEW_FILE.name)
        check_equal(f"{what}: what is synced", synced, [os.path.join(FOLDER, NEW_FILE.name), FOLDER, new_or_chip])
        is_safe(what, old, status, calls)
        check(
            "without the file's sync a chip may be torn",
            power_cuts(calls, old, os.path.join(FOLDER, NEW_FILE.name))[0] - {old, new},
        )
        check("without the folder's sync the new chip may be lost", old in power_cuts(calls, old, FOLDER)[1])
        # (the last three are those of a file system without hard links, which does without)
        errors = list(itertools.product(calls, ["EIO", "ENOENT", "EMFILE"]))
        errors += [
            pair for pair in itertools.product(calls, ["EPERM", "EOPNOTSUPP", "EMLINK"]) if pair[0].name == "link"
        ]
        kept = [pair for pair in errors if pair[0].name in ["link", "rename", "fsync"]]
        others = [pair for pair in errors if pair not in kept]
        for call, error in kept + sampled(f"{what}: other failing calls", 20, others):
            status, _, failed = traced(prepare, writes_fuse(0x62), f"{call.name}:error={error}:when={call.number}")
            is_safe(f"{what}: {error} at {call.name} {call.words[:80]}", old, status, failed)
            if status == 1 and call.name in ["link", "rename"] and call.words.endswith('"chip.bin"'):
                check(f"{error} at {call.name}: the new file stays", room.read(NEW_FILE.name) == new)
            if error in ["EPERM", "EOPNOTSUPP", "EMLINK"]:
                check_equal(f"{error} at link: the run", status, 0)


def ended_anywhere():
    """Ends a run at each of its calls on the chip's files in turn: the chip file stays whole. The chip is then the old
    one or the new one with its permissions, and the next run works as usual."""
    for prepare, old in STARTS:
        left = set()
        for call in traced(prepare, writes_fuse(0x62))[2]:
            what = f"chip {bool(old)}: ended at {call.name} {call.number}"
            check_equal(
                what,
                traced(prepare, writes_fuse(0x62), f"{call.name}:signal=KILL:when={call.number}")[0],
                -signal.SIGKILL,
            )
            left.add(room.read("chip.bin"))
            if old:
                check_equal(f"{what}: permissions", mode_of(CHIP), 0o640)
            is_good(f"{what}: the next run", room.run(writes_fuse(0x63)), with_fuse(old, 0x63))
        check(f"chip {bool(old)}: the old one and the new one are seen", left == {old, with_fuse(old, 0x62)}, len(left))


def others_meanwhile():
    """If another program replaces or removes FILE or FILE.avrstk-new before a save checks them for the last time, the
    run fails. What is there stays, and so does a chip that is put where none was, however late. The old chip isn't open
    when it is replaced, because some file systems hide an open file before that."""

    def put(path):
        room.put("put", b"mine")
        (room.folder / "put").rename(path)

    def look(started):
        (run,) = Path(f"/proc/{started.pid}/task/{started.pid}/children").read_text().split()
        opened.extend(os.readlink(link) for link in Path(f"/proc/{run}/fd").iterdir())

    for what, prepare, call, act, chip, left in [
        ("another chip", fresh_room, "fsync", lambda _: put(CHIP), b"mine", []),
        ("a copy into the chip", fresh_room, "fsync", lambda _: CHIP.write_bytes(FRESH), FRESH, []),
        ("no chip", fresh_room, "fsync", lambda _: CHIP.unlink(), None, []),
        ("another new file", fresh_room, "fsync", lambda _: put(NEW_FILE), OLD, []),
        ("no new file", fresh_room, "fsync", lambda _: NEW_FILE.unlink(), OLD, []),
        ("another chip, before the last look", fresh_room, "rename", lambda _: put(CHIP), b"mine", []),
        ("a chip where none was", room.clear, "link", lambda _: put(CHIP), b"mine", [NEW_FILE.name]),
    ]:
        status = traced(prepare, writes_fuse(0x11), call, act)[0]
        check_equal(f"{what}: the run and what is there", (status, room.read("chip.bin"), beside()), (1, chip, left))
    opened = []
    traced(fresh_room, writes_fuse(0x11), "rename", look)
    check("the old chip is not open at the rename", opened and f"{FOLDER}/chip.bin" not in opened, opened)


def reads_on_the_disk():
    """A file that a memory was read into is synced before the read's line is printed; the run fails if the sync fails,
    unless the error is EINVAL. So it does with EROFS, which ext4 answers after an error. A file that can't be synced
    (EINVAL) is no failure."""
    failed = (1, lines(SIGNATURE, "error: out.bin: cannot be written"))
    good = (0, lines(SIGNATURE, "eeprom: 1024 bytes read", "done"))
    for how, wanted in [("error=EIO:when=1", failed), ("error=EROFS:when=1", failed), ("error=EINVAL:when=1", good)]:
        found = traced(fresh_room, [*EMULATED, "-U", "eeprom:r:out.bin:r"], f"fsync:{how}")
        check_equal(f"{how}: the run", found[:2], wanted)
        check(f"{how}: what was read is there", room.read("out.bin") == OLD[EEPROM:LFUSE])
        check(
            f"{how}: the file is synced first",
            re.search(rb"^fsync\(\d+<([^>]*)>", room.read("calls"), re.M)[1].endswith(b"/out.bin"),
        )


# errors of a disk that is full or failed, and the calls that may report them
OF_DISKS = ["ENOSPC", "EDQUOT", "EROFS"]
CHANGES = ["openat", "write", "fsync", "close", "rename", "link", "unlink"]


def any_call_fails():
    """A run writes a fuse and reads the EEPROM into a file, and a call on files fails: status 0 still means the new
    chip and the file. One of its calls on files fails, or this one and all later ones of its name. With status 0 the
    new chip and the file are there. Else the chip is the old one or the new one. After a sync that failed the status is
    1."""
    words, read = [*writes_fuse(0x62), "-U", "eeprom:r:out.bin:r"], re.compile(r"^(\w+)\((.*)\) += -?\d", re.M)
    for prepare, old in STARTS:
        new, counts, calls = with_fuse(old, 0x62), Counter(), []
        check_equal("the run", traced(prepare, words)[0], 0)
        for name, given in read.findall(room.read("calls").decode()):
            counts[name] += 1
            if (calls or '"chip.bin"' in given) and name not in ["execve", "mmap"]:
                calls.append((name, counts[name], given[:80]))
        tried = [(call, "EIO", later) for call in calls for later in ["", "+"]]
        tried += itertools.product([call for call in calls if call[0] in CHANGES], OF_DISKS, ["", "+"])
        for (name, number, given), error, later in sampled(f"chip {bool(old)}: calls that fail", 20, tried):
            what = f"chip {bool(old)}: {error} at {name} {number}{later}, {given}"
            status = traced(prepare, words, f"{name}:error={error}:when={number}{later}")[0]
            chip, is_read = room.read("chip.bin"), room.read("out.bin") == new[EEPROM:LFUSE]
            # (without a chip file the chip is a fresh one, if the run ends before the fuse is written)
            is_whole = chip in [old, old or FRESH, new]
            is_right = (status, is_whole) == (1, True) or (status, chip, is_read) == (0, new, True)
            check(f"{what}: the chip and the file", is_right, (status, len(chip or b""), is_read))
            if name == "fsync":
                check_equal(f"{what}: the status", status, 1)
            is_good(f"{what}: the next run", room.run(writes_fuse(0x63)), with_fuse(chip, 0x63))


def forgiven():
    """Of five calls 15 errors are tried: those that avrstk forgives end no run, the others do. The calls are a folder's
    opening and sync, a hard link, and the two that set the new file's group and owner."""
    may_not = {"EPERM", "EACCES"}
    others = "EINVAL ENOSYS EOPNOTSUPP EMLINK EROFS EIO ENOSPC EDQUOT ENOENT EINTR EBADF ENOMEM ESTALE"
    errors = sorted(may_not | set(others.split()))
    all_tried = []
    for prepare, name, text, which, passed in [
        (fresh_room, "openat", f"<{FOLDER}>", 0, may_not | {"EINTR"}),
        (fresh_room, "fsync", f"<{FOLDER}>", 0, {"EINVAL", "EINTR"}),
        (fresh_room, "fchown", "avrstk-new", 0, may_not | {"EINVAL", "ENOSYS", "EOPNOTSUPP"}),
        (fresh_room, "fchown", "avrstk-new", 1, may_not | {"EINVAL", "ENOSYS", "EOPNOTSUPP"}),
        (room.clear, "link", "avrstk-new", 0, may_not | {"EMLINK", "ENOSYS", "EOPNOTSUPP"}),
    ]:
        # (a folder's descriptor is in the result of its opening, and so is not among the words)
        found = [call for call in traced(prepare, writes_fuse(0x62))[2] if call.name == name]
        found = [call for call in found if text in call.words or (name == "openat" and '"."' in call.words)]
        all_tried += [(prepare, found[which], error, error in passed) for error in errors]
    # (an opening or a sync that a signal interrupts is made again)
    for prepare, call, error, passes in sampled("errors of calls", 40, all_tried):
        status = traced(prepare, writes_fuse(0x62), f"{call.name}:error={error}:when={call.number}")[0]
        check_equal(f"{error} at {call.name} {call.words[:60]}: the run", status, 0 if passes else 1)
        check(f"{error} at {call.name}: the chip", not passes or room.read("chip.bin")[LFUSE] == 0x62)


def whose_lock():
    """A lock counts only while its file has the lock's name. A run whose lock file another run removes, before it is
    locked, is told that the chip is in use. While a run removes its lock file, another one is refused. A pipe that gets
    the lock file's name after the look blocks no run, and what a link that gets the new file's name leads to stays as
    it is."""

    def stale():
        fresh_room()
        LOCK_FILE.touch()

    def put_pipe(started):
        os.mkfifo(room.folder / "pipe")
        (room.folder / "pipe").rename(LOCK_FILE)

    def put_link(started):
        room.put("victim", b"mine")
        NEW_FILE.symlink_to("victim")

    def good(_):
        is_good("a run meanwhile", room.run(writes_fuse(0x22)), with_fuse(OLD, 0x22))

    def refused(_):
        check_equal("a run meanwhile", room.run(writes_fuse(0x22)), (1, b"", IN_USE))

    words, in_use, unwritable = writes_fuse(0x11), (1, IN_USE), (1, UNWRITABLE)
    opening = number_of(stale, words, "openat", "O_RDWR|O_NOCTTY|O_CLOEXEC")
    for what, prepare, call, when, act, wanted in [
        ("locked late", stale, "flock", 1, good, in_use),
        ("unlocked", fresh_room, "unlink", number_of(fresh_room, words, "unlink", "avrstk-lock"), refused, (0, None)),
        ("a pipe", stale, "openat", opening, put_pipe, unwritable),
        ("a link", fresh_room, "openat", number_of(fresh_room, words, "openat", "avrstk-new"), put_link, unwritable),
    ]:
        status, messages, _ = traced(prepare, words, call, act, when)
        last = messages.splitlines(True)[-1] if wanted[1] else None
        check_equal(f"{what}: the run", (status, last), wanted)
        if what == "a link":
            check_equal(f"{what}: what a link leads to", room.read("victim"), b"mine")
        check(f"{what}: the chip is whole", len(room.read("chip.bin")) == CHIP_FILE)


@contextlib.contextmanager
def waiting(words, name="chip.bin", pipe="pipe", last=DONE, then=()):
    """A run that holds the chip and blocks in its session, because no process reads the pipe before this ends. It then
    goes on with these words."""
    os.mkfifo(room.folder / pipe)
    started = room.start(["-p", "m328p", "-P", f"emu:{name}", *words, "-U", f"eeprom:r:{pipe}:r", *then])
    check("a run that waits", SIGNATURE.encode() in started.stderr.readline())
    yield
    (room.folder / pipe).read_bytes()
    status, _, messages = end_of(started)
    check_equal(f"{name}: the run that waited", (status, messages.splitlines(True)[-1]), last)


def held_by_a_run():
    """While a run holds the chip, a second run is refused before any frame, even over a symbolic link to the chip file.
    So is a server. If one serves already, its caller is disconnected."""
    for name, other in [("chip.bin", "chip.bin"), ("chip.bin", "link.bin"), ("far.bin", "link.bin")]:
        fresh_room()
        (room.folder / "link.bin").symlink_to("chip.bin")
        (room.folder / "far.bin").symlink_to(room.folder / "link.bin")
        refused = (1, b"", lines(f"error: {other}: in use by another run"))
        with Server(room, other) as server, waiting(["-U", "lfuse:w:0x11:m"], name):
            check_equal(f"{name}, {other}: a run", room.run(writes_fuse(0x22, other)), refused)
            check_equal(f"{name}, {other}: a server", Server(room, other, waits=False).end(), refused)
            with server.call() as caller:
                check_equal(f"{name}, {other}: what a caller receives", caller.recv(1), b"")
            check_equal(f"{name}, {other}: the server that was there", server.end(), refused)
        check(f"{name}: it writes the chip", room.read("chip.bin") == with_fuse(OLD, 0x11))


def held_by_a_session():
    """A served session locks the chip file; before a client connects, other runs may use it."""
    fresh_room()
    with Server(room, "chip.bin") as server:
        is_good("a run before a caller comes", room.run(writes_fuse(0x62)))
        with server.call() as caller:
            caller.sendall(FRAMES[0])
            check_equal("the session replies", caller.recv(1), FRAMES[0][:1])
            check_equal("a run beside the session", room.run(writes_fuse(0xE2)), (1, b"", IN_USE))
            caller.shutdown(1)
        check_equal("the session", server.end(), (0, b"", b""))
    check("the chip has what was written before it", room.read("chip.bin") == with_fuse(OLD, 0x62))


def without_a_lock():
    """If a waiting run's lock file is removed, a second run can start; then only the first of the two to save ends
    well. The other one fails: what a run with status 0 saved isn't lost."""
    for prepare, old in STARTS:
        prepare()
        with waiting(["-U", "lfuse:w:0x11:m"], last=(1, UNWRITABLE)):
            LOCK_FILE.unlink()
            with waiting(["-U", "lfuse:w:0x22:m"], pipe="pipe2"):
                pass
        check("the chip is the second one's", room.read("chip.bin") == with_fuse(old, 0x22))
        is_good("a run after them", room.run(writes_fuse(0x62)))


def what_is_refused():
    """Files that can be no chip file are refused before a frame is sent or the server waits for a client. They are a
    link to no file or to itself, a pipe, a device, a folder, a name that is too long, and one in a folder that isn't
    there. So is a chip whose lock file isn't regular."""
    for name, make in [
        ("link.bin", lambda path: path.symlink_to("chip.bin")),
        ("loop.bin", lambda path: path.symlink_to("loop.bin")),
        ("pipe", os.mkfifo),
        ("null", lambda path: path.symlink_to("/dev/null")),
        (os.path.basename(FOLDER), lambda path: path.symlink_to(".")),
        ("nowhere/chip.bin", lambda path: None),
        ("c" * 244, lambda path: None),
        ("chip.bin", lambda path: os.mkfifo(LOCK_FILE)),
        ("chip.bin", lambda path: LOCK_FILE.symlink_to("chip.bin")),
    ]:
        room.clear()
        make(room.folder / name)
        before = beside()
        refused = (1, b"", lines(f"error: {name}: cannot be written"))
        check_equal(f"{name}: a run", room.run(writes_fuse(0x62, name)), refused)
        check_equal(f"{name}: --serve", Server(room, name, waits=False).end(), refused)
        check_equal(f"{name}: no file is made", (room.read("chip.bin"), beside()), (None, before))


def read_into_the_chip():
    """A read into the chip's own file, also by a link, is refused before a frame is sent, and the chip stays as it was.
    So is a read into a file that the run makes beside it, and no image is read from there. A link that is made during
    the session is refused when its file would be created. A file of the same name in another folder is another file. A
    name that isn't UTF-8 is as good as any."""
    first = [*EMULATED, "-e", "-U", "lfuse:w:0x62:m"]
    for prepare, old in STARTS:
        for name in ["chip.bin", "./chip.bin", "link.bin", "odd.bin", "name.bin"][: 5 if old else 4]:
            prepare()
            (room.folder / "caf\udce9").symlink_to(".")
            (room.folder / "odd.bin").symlink_to("caf\udce9/chip.bin")
            (room.folder / "link.bin").symlink_to("chip.bin")
            if old:
                (room.folder / "name.bin").hardlink_to(CHIP)
            found = room.run([*first, "-U", f"eeprom:r:{name}:r"])
            check_equal(f"{name}: the run", found, (1, b"", lines(f"error: {name}: cannot be created")))
            check(f"{name}: the chip is as it was", (room.read("chip.bin"), beside()) == (old, []))
        for its in [LOCK_FILE.name, NEW_FILE.name]:
            for name in [its, f"./{its}", "link", "far", f"here/{its}"]:
                prepare()
                (room.folder / "link").symlink_to(its)
                (room.folder / "far").symlink_to(room.folder / "link")
                (room.folder / "here").symlink_to(".")
                found = room.run([*first, "-U", f"eeprom:r:{name}:r"])
                check_equal(f"{name} to {its}: the run", found, (1, b"", lines(f"error: {name}: cannot be created")))
                check(f"{name} to {its}: the chip is as it was", (room.read("chip.bin"), beside()) == (old, []))
                room.put(its, b"mine")
                found = room.run(["-p", "m328p", "-P", "emu:chip.bin", "-U", f"eeprom:w:{name}:r"])
                check_equal(f"{name} to {its}: an image", found, (1, b"", lines(f"error: {name}: cannot be opened")))
                check(f"{name} to {its}: it stays", room.read(its) == b"mine")
    for its in ["chip.bin", LOCK_FILE.name, NEW_FILE.name]:
        fresh_room()
        refused = (1, lines("error: late: cannot be created"))
        with waiting([], last=refused, then=["-U", "lfuse:r:late:h"]):
            (room.folder / "late").symlink_to(its)
        check(f"a link to {its}, made late: the chip is whole", (room.read("chip.bin"), beside()) == (OLD, []))
    with tempfile.TemporaryDirectory() as other:
        fresh_room()
        (room.folder / "odd.bin").symlink_to(f"{other}/caf\udce9.bin")
        is_good(
            "into other files", room.run([*EMULATED, "-U", f"eeprom:r:{other}/chip.bin:r", "-U", "eeprom:r:odd.bin:r"])
        )
        check_equal("what was read", [file.read_bytes() for file in Path(other).iterdir()], [OLD[EEPROM:LFUSE]] * 2)


def a_full_disk():
    """The chip exceeds the file size limit: the old one stays. The system ends the run, unless SIGXFSZ is ignored."""
    for limit, status in [('trap "" XFSZ; ulimit -f 16', 1), ("ulimit -f 16", -signal.SIGXFSZ)]:
        fresh_room()
        found = end_of(room.start(writes_fuse(0x62), front=["sh", "-c", f'{limit}; exec "$0" "$@"']))
        check_equal(f"{limit}: the run", (found[0], found[2].endswith(UNWRITABLE)), (status, status == 1))
        check(f"{limit}: the chip is as it was", room.read("chip.bin") == OLD)
        is_good(f"{limit}: the next run", room.run(writes_fuse(0x62)))


def mounted():
    """A chip file at which a file is mounted can't be replaced: it is written in place, and synced. If that fails, the
    new file beside it stays, which is then the only whole chip."""
    room.clear()
    room.put("real.bin", OLD)
    room.put("chip.bin", b"")
    mount = ["mount", "--bind", "real.bin", "chip.bin"]
    if not IS_ROOT or subprocess.run(mount, cwd=room.folder, capture_output=True).returncode:
        return leave_out("a chip that is mounted", "this may not mount")
    try:
        is_good("a run", room.run(writes_fuse(0x62)))
        check("the file has the chip", room.read("real.bin") == with_fuse(OLD, 0x62))
        if not shutil.which("strace"):
            return leave_out("calls on a chip that is mounted", "strace is not installed")
        status, _, calls = traced(lambda: None, writes_fuse(0x63))
        over = next(at for at, call in enumerate(calls) if call.name == "openat" and "O_TRUNC" in call.words)
        names = [call.name for call in calls[over:] if call.name in ["write", "fsync", "unlink"]]
        check_equal("what is done in place", (status, names), (0, ["write", "fsync", "unlink", "unlink"]))
        write = next(call for call in calls[over:] if call.name == "write")
        status = traced(lambda: None, writes_fuse(0x64), f"write:error=EIO:when={write.number}")[0]
        check_equal(
            "a write in place that fails: the run and the mounted file", (status, room.read("real.bin")), (1, b"")
        )
        check("the new file is the whole chip", room.read(NEW_FILE.name) == with_fuse(OLD, 0x64))
    finally:
        subprocess.run(["umount", "chip.bin"], cwd=room.folder, check=True)


@contextlib.contextmanager
def as_nobody():
    """Gives how to start runs of a copy of the program: as the user nobody if this is root, who may write everything.
    The room and the chip are that user's meanwhile."""
    with tempfile.TemporaryDirectory() as bare:
        copy = shutil.copy(PROGRAM, bare)
        os.chmod(bare, 0o755)
        for path in [room.folder, CHIP, copy] if IS_ROOT else []:
            os.chown(path, NOBODY, NOBODY)
        yield {"executable": copy} | ({"user": NOBODY, "group": NOBODY, "extra_groups": []} if IS_ROOT else {})
    os.chown(room.folder, os.geteuid(), os.getegid())
    room.folder.chmod(0o700)


def what_stays():
    """A run is refused if the chip file may not be written, or its folder, unless this has a lock; a folder that can't
    be read is fine. A chip keeps its permissions, without setuid, setgid and the sticky bit, and its owner and group if
    the system allows it; any other group gets what everyone had. A symbolic link to it stays a link. What an ended run
    of another user's left blocks no run, and what a link of the new file's name leads to stays as it is."""
    # the modes of the chip, of its folder and of the new chip if there is one; the chip's group; who runs
    for mode, folder, kept, group, who in [
        (0o444, 0o755, None, NOBODY, NOBODY),
        (0o644, 0o555, None, NOBODY, NOBODY),
        (0o644, 0o333, 0o644, NOBODY, NOBODY),
        *((mode, 0o755, mode & 0o777, NOBODY, NOBODY) for mode in [0o640, 0o4751, 0o2750, 0o1600, 0o6777]),
        *((mode, 0o755, kept, 0, NOBODY) for mode, kept in [(0o666, 0o666), (0o664, 0o644), (0o660, 0o600)]),
        (0o640, 0o755, 0o640, NOBODY - 1, 0),
    ][: 12 if IS_ROOT else 8]:
        fresh_room()
        room.put("victim", b"mine")
        link = room.folder / "link.bin"
        link.symlink_to("chip.bin")
        if folder == 0o755:
            LOCK_FILE.touch()
            if mode == kept:
                NEW_FILE.symlink_to("victim")
            else:
                room.put(NEW_FILE.name, bytes(100_000))
        with as_nobody() as how:
            if IS_ROOT:
                os.chown(CHIP, NOBODY, group)
            CHIP.chmod(mode)
            room.folder.chmod(folder)
            found = end_of(room.start(writes_fuse(0x62, "link.bin"), **(how if who else {})))
            room.folder.chmod(0o755)
            what = f"chip {mode:o}, folder {folder:o}, group {group}"
            refused = (1, b"", lines("error: link.bin: cannot be written"))
            check(f"{what}: the run", found[0] == 0 if kept else found == refused, found)
            check(f"{what}: the chip", room.read("chip.bin") == (with_fuse(OLD, 0x62) if kept else OLD))
            own = (CHIP.stat().st_uid, CHIP.stat().st_gid, mode_of(CHIP))
            wanted = (NOBODY, group or NOBODY, kept) if kept else (NOBODY, group, mode)
            check_equal(f"{what}: what stays", own, wanted if IS_ROOT else (*own[:2], kept or mode))
            check_equal(
                f"{what}: links",
                (link.is_symlink(), room.read("victim"), beside() if kept else []),
                (True, b"mine", []),
            )
    room.clear()
    is_good("a new chip of a long name", room.run(writes_fuse(0x62, "c" * 243)))
    check_equal("its mode", mode_of(room.folder / ("c" * 243)), 0o666 & ~UMASK)
    if not IS_ROOT:
        leave_out("whose a chip stays", "this isn't root")


# opens the chip and the new file beside it, for as long as there is no file `stop`
WATCH = """echo ready; while [ ! -e stop ]; do for file in chip.bin *.avrstk-new; do
if true <"$file"; then echo "$file"; fi; done; done 2>/dev/null"""


def another_user():
    """Another user can open neither a chip file of mode 600 nor its new file, even if the owner's run has umask 000. A
    lock file of his in a sticky folder blocks no run. A new file of his makes the run fail, and the old chip stays."""
    if not IS_ROOT:
        return leave_out("another user beside a chip", "this isn't root")
    fresh_room()
    with as_nobody() as how:
        CHIP.chmod(0o600)
        room.folder.chmod(0o755)
        other = {"user": 2, "group": 2, "extra_groups": []}
        evil = subprocess.Popen(["sh", "-c", WATCH], stdout=subprocess.PIPE, text=True, cwd=room.folder, **other)
        evil.stdout.readline()
        for value in range(20):
            is_good("a run", end_of(room.start(writes_fuse(value), umask=0, **how)))
        room.put("stop", b"")
        check_equal("what the other user opened", evil.communicate(timeout=PATIENCE)[0], "")
        check_equal("the mode of the chip", mode_of(CHIP), 0o600)
        os.chown(room.folder, 0, 0)
        room.folder.chmod(0o1777)
        for his, status in [(LOCK_FILE, 0), (NEW_FILE, 1)]:
            his.touch()
            os.chown(his, 2, 2)
            check_equal(
                f"a run beside his {his.name}", end_of(room.start(writes_fuse(0x62 + status), **how))[0], status
            )
            check("the chip", room.read("chip.bin") == with_fuse(OLD, 0x62))
            his.unlink()


def stormy():
    """For a while up to six runs at a time are made over one chip, and some are killed. Each run with status 0 is in
    the chip, and each other one was killed or found the chip in use. The chip is whole whenever it is seen."""
    room.clear()
    room.put("chip.bin", FRESH)
    chance, places, ends = random.Random(7), iter(range(1024)), time.monotonic() + 15
    live, written, odd = {}, set(), set()
    while live or time.monotonic() < ends:
        if len(live) < 6 and time.monotonic() < ends and (place := next(places, None)) is not None:
            room.put(f"e{place}", hex_of([(place, bytes([place % 255]))]))
            live[room.start([*EMULATED, "-q", "-D", "-U", f"eeprom:w:e{place}:i"])] = place
        if live and chance.random() < 0.002:
            chance.choice(list(live)).kill()
        if CHIP.stat().st_size != CHIP_FILE:
            odd.add("the chip isn't whole")
        for run in [started for started in live if started.poll() is not None]:
            place, (status, _, messages) = live.pop(run), end_of(run)
            if status == 0:
                written.add(place)
            elif status != -signal.SIGKILL and (status, messages) != (1, IN_USE):
                odd.add((status, messages))
    chip = room.read("chip.bin")
    check("runs succeed", written)
    check_equal("lost", [place for place in sorted(written) if chip[EEPROM + place] != place % 255], [])
    check_equal("what runs shouldn't do", odd, set())


TRACED = named(
    each_power_cut, ended_anywhere, others_meanwhile, reads_on_the_disk, any_call_fails, forgiven, whose_lock
)
if not shutil.which("strace"):
    TRACED = {name: lambda name=name: leave_out(name, "strace is not installed") for name in TRACED}

CASES = TRACED | named(
    *(held_by_a_run, held_by_a_session, without_a_lock, what_is_refused, read_into_the_chip, a_full_disk),
    *(mounted, what_stays, another_user, stormy),
)


if __name__ == "__main__":
    sys.exit(run_cases(CASES, __doc__, timed=["others_meanwhile", "whose_lock"]))

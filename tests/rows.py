#!/usr/bin/env python3
"""Tests avrstk-serial --try-rows over the emulated programmer, over wrong ones, and over simulated boards.

Not proved: No proof covers the script, and bootloaders and the simulator are programs of others.

The emulated programmer is behind avrstk-serve, with each of its faults. Each wrong programmer fails its own row. The
simulated boards are a Mega 2560 with its bootloader, and boards of version 1.

    tests/rows.py [CASE ..]    needs a built program (program.py); a Mega and boards of version 1 need what
                               mega.py and boards.py need, and are left out without it
"""

import contextlib
import itertools
import os
import random
import re
import select
import shutil
import subprocess
import sys
import threading

import boards
import mega
import serial
from cases import PATIENCE, check, check_equal, leave_out, named, run_cases
from line import frames_of
from program import SESSION, TOP, frame, xor
from serial import room

sys.path[:0] = [str(TOP / "lib/avrstk")]
import avrstk_rows  # noqa: E402
import avrstk_version1  # noqa: E402
from avrstk_report import Report  # noqa: E402
from avrstk_words import Words  # noqa: E402

KEPT = ["SIGN_ON", "ENTER", "LEAVE", "damaged frame", "restart"]
READING = [f"reads {memory}" for memory in ("signature", "calibration", "fuses", "lock", "flash", "EEPROM")]
WRITING = ["erases", "writes flash", "writes fuses", "writes lock"]
SAFE, ALL = ["--try-rows"], ["--try-rows=all", "--yes"]
WHOLE, SMALLER = "README's promise", "the smaller promise of docs/BOARDS"
TINY, FLASH, EEPROM = ["--parts", "tiny.toml", "-p", "tiny"], 2_048, 64
room.keep("tiny.toml", boards.TINY.encode())
# (the same sizes in hexadecimal)
room.keep("hexadecimal.toml", re.sub(r"(?<== )\d+", lambda match: hex(int(match[0])), boards.TINY).encode())
# (flash and EEPROM with content of their own, fuses, and an open lock)
CHIP = (
    random.Random(4).randbytes(FLASH - 640) + b"\xff" * 640 + random.Random(5).randbytes(EEPROM) + b"\x62\xd9\xfd\xff"
)


class Plug:
    """A pseudo terminal. Each opening of it gets a connection that `call` makes, as a board's reset does. Once `leaves`
    is set, it goes away when it is closed."""

    def __init__(self, call):
        self.call, self.ends, self.vanishes, self.leaves = call, *(threading.Event() for _ in range(3))
        self.line, name = serial.terminal()
        # (another test may get a terminal of this name once this one is closed, so its device is a link to it)
        self.device = room.folder / f"plug{name.replace('/', '-')}"
        self.device.unlink(missing_ok=True)
        self.device.symlink_to(name)
        self.thread = threading.Thread(target=self.live, daemon=True)
        self.thread.start()

    def live(self):
        while not self.ends.wait(0.002) and not self.vanishes.is_set():
            if serial.is_open(self.line):
                with self.call() as programmer, contextlib.suppress(OSError):
                    self.bring(programmer)
                if self.leaves.is_set():
                    break
        self.device.unlink()
        os.close(self.line)

    def bring(self, programmer):
        """Passes bytes on until the device is closed, and then waits until the programmer has ended."""
        with contextlib.suppress(OSError):
            while serial.is_open(self.line) and not self.vanishes.is_set():
                found, _, _ = select.select([self.line, programmer], [], [], 0.02)
                if self.line in found:
                    programmer.sendall(os.read(self.line, 4_096))
                if programmer in found:
                    os.write(self.line, programmer.recv(4_096))
        programmer.shutdown(1)
        while programmer.recv(4_096):
            pass

    def end(self):
        self.ends.set()
        self.thread.join(PATIENCE)


def babble():
    """Returns a connection over which bytes come without end."""
    ours, caller = serial.socket.socketpair()

    def live():
        with ours, contextlib.suppress(OSError):
            while not select.select([ours], [], [], 0.001)[0] or ours.recv(4_096):
                ours.sendall(b"." * 20)

    threading.Thread(target=live, daemon=True).start()
    return caller


class Wrong:
    """An emulated programmer and chip of which something differs. `act` gets the body of each command, and what asks
    the programmer, and returns the reply's body, or None. It may obey frames with a wrong checksum."""

    def __init__(self, act, obeys_all=False, chip=CHIP):
        self.act, self.obeys_all = act, obeys_all
        room.put("wrong.bin", chip)

    def call(self):
        ours, caller = serial.socket.socketpair()
        threading.Thread(target=self.live, args=(ours,), daemon=True).start()
        return caller

    def live(self, caller):
        inner, outer = serial.socket.socketpair()
        words = [SESSION, "--serve", *TINY, "-P", "emu:wrong.bin"]
        with serial.forks:
            run = subprocess.Popen(words, stdin=inner, stdout=inner, stderr=subprocess.DEVNULL, cwd=room.folder)
        inner.close()
        replies, number = frames_of(outer), 0

        def ask(body):
            nonlocal number
            number = (number + 1) % 256
            outer.sendall(frame(number, body))
            return next(replies)[5:-1]

        with caller, outer:
            with contextlib.suppress(OSError):
                for request in frames_of(caller):
                    is_bad = xor(request) and not self.obeys_all
                    reply = b"\xb0\xc1" if is_bad else self.act(request[5:-1], ask)
                    caller.sendall(frame(request[1], reply) if reply else b"")
            outer.shutdown(1)
            run.wait(PATIENCE)


def rows_of(output):
    """Returns what was printed of each row: how it ended, and the rest."""
    found = {}
    for line in output.decode().splitlines():
        check(
            f"{line}: is a row",
            line[:4] == "row " and line[24:33].strip() in ("meets", "FAILS", "not tried", "unsure"),
            line,
        )
        found[line[4:24].strip()] = line[24:33].strip(), line[34:]
    return found


def tried(what, words, failing=(), left=(), promise=None, status=None):
    """Tries the rows. Checks which fail and which are left out, the status, and the promise that is left."""
    found_status, output, _, own = serial.run(words)
    found = rows_of(output)
    seen(what, found, own, found_status, failing, left, promise, status)
    return found, own


def seen(what, found, own, found_status, failing, left, promise, status=None):
    """Checks what was printed."""
    for hows, wanted in (["FAILS"], failing), (["not tried", "unsure"], left):
        names = {name for name, (outcome, _) in found.items() if outcome in hows}
        check_equal(f"{what}: rows with {' or '.join(hows)}", names, set(wanted))
    check_equal(f"{what}: its status", found_status, int(bool(failing)) if status is None else status)
    if promise:
        check(f"{what}: the promise", f"promised of a programmer that always does so: {promise}" in own, str(own))


def served(words, options=(), chip=CHIP, part=TINY, failing=(), **more):
    """Tries the rows over avrstk-serve. The chip has to be as before."""
    room.put("chip.bin", chip)
    program = [sys.executable, TOP / "avrstk-serve"]
    command = ["--pty", "link", *part, "--chip", "chip.bin", *options]
    with room.start(command, program=program, env=os.environ | {"AVRSTK": str(serial.PROGRAM)}) as server:
        server.stdout.readline()
        found = tried(f"{words} {options}", [*part, "-P", "link", *words], failing, **more)
        server.terminate()
        _, messages = server.communicate(timeout=PATIENCE)
    if "--locked" not in options:
        check_equal(f"{words} {options}: the chip", room.read("chip.bin"), chip)
    return *found, messages.decode()


def emulated():
    """The emulated programmer meets each row, and the chip is as before. All memories were saved first."""
    found, own, _ = served(SAFE, left=WRITING, promise=SMALLER)
    check_equal("the rows", list(found), [*READING[:-1], *KEPT[:4], READING[-1], "writes EEPROM", "restart", *WRITING])
    folder = room.folder / own[0].rpartition(" ")[2]
    files = {file.name: file.read_text() for file in folder.iterdir()}
    check_equal("what was saved", serial.image_of(files["flash.hex"].encode()), dict(enumerate(CHIP[:FLASH])))
    check_equal(
        "the fuses",
        [files[f"{name}.txt"] for name in ("lfuse", "hfuse", "efuse", "lock")],
        ["0x62\n", "0xd9\n", "0xfd\n", "0xff\n"],
    )
    found, own, _ = served(ALL, promise=WHOLE)
    check("all rows", not {row for row in found if row not in (*READING, *KEPT, *WRITING, "writes EEPROM")}, str(found))
    # (the erase keeps this EEPROM)
    served(ALL, chip=CHIP[:-3] + b"\xd1\xfd\xff", promise=WHOLE)
    served(SAFE, part=["-p", "m328p"], chip=serial.os.urandom(33_792) + b"\x62\xd9\xfd\xff", left=WRITING)
    served(SAFE, part=["--parts", "hexadecimal.toml", "-p", "tiny"], left=WRITING)


# how each fault of avrstk-serve shows: faults of the line only make the script repeat commands
LINE = [
    "--lose READ_FUSE#2",
    "--lose-reply PROGRAM_EEPROM#2",
    "--corrupt LEAVE_PROGMODE#1",
    "--corrupt-reply READ_EEPROM#3",
]
LINE += ["--drop READ_LOCK#2 --late READ_FLASH#4:1.2"]


def faults_of_the_line():
    """With each fault of a frame all rows that --try-rows tries without =all are met, and commands were repeated."""
    for options in LINE:
        _, own, messages = served(SAFE, options.split(), left=WRITING, promise=SMALLER)
        check(f"{options}: a command was repeated", not any("repeated attempts: 0" in line for line in own), str(own))
        check(f"{options}: it struck", "selected no command" not in messages, messages)


def faults_of_a_chip():
    """The emulated bootloader, with a firmware, meets the rows of commands that it refuses, and fails row `writes
    flash`, because its first write also erases. Nothing is tried without a chip, or if it is locked."""
    served(ALL, ["--bootloader"], failing=["writes flash"], promise=SMALLER)
    served(SAFE, ["--bootloader"], left=WRITING, promise=SMALLER)
    for option, why in ("--no-chip", "10 C8 64 19 20 00 53 03 AC 53 00 00 was answered 10 C0"), (
        "--locked",
        "the chip reads as locked (FC)",
    ):
        found, own, _ = served(SAFE, [option], status=1)
        check_equal(f"{option}: the rows", (found, own[0]), ({}, f"no further row is tried: {why}"))
    _, own, _ = served(SAFE, ["--lose", "SIGN_ON"], status=1)
    hint = "no valid reply to SIGN_ON in time; the chip is unchanged. Check: the speed (-b 115200)"
    check("silent: the hint", own[1].startswith(hint), own)


def writes_eeprom(ask, at, byte):
    ask(b"\6" + at.to_bytes(4, "big"))
    ask(bytes.fromhex("150001C10AC1C2A0FFFF") + bytes([byte]))


def changing(when):
    """Returns a wrong programmer, which also writes a byte of EEPROM just before each command that `when` selects."""

    def act(body, ask):
        if when(body):
            writes_eeprom(ask, 5, random.randrange(256))
        return ask(body)

    return act


def once(front, number, wrong):
    """Returns a wrong programmer: one of its replies to a command has a wrong byte."""
    count = 0

    def act(body, ask):
        nonlocal count
        reply = ask(body)
        count += body.startswith(front)
        return (
            reply[:2] + bytes([reply[2] ^ wrong]) + reply[3:] if body.startswith(front) and count == number else reply
        )

    return act


def readdressed(code, change):
    """Returns a wrong programmer, which reads at another address."""
    at = 0

    def act(body, ask):
        nonlocal at
        at = int.from_bytes(body[1:], "big") if body[:1] == b"\6" else at
        if body[0] == code:
            ask(b"\6" + change(at).to_bytes(4, "big"))
        return ask(body)

    return act


def stale():
    """Returns a wrong programmer, which reads the beginning of EEPROM in place of its second half after a write."""
    reads, writes = readdressed(0x16, lambda at: at % (EEPROM // 2)), []

    def act(body, ask):
        writes.extend([body] * (body[0] == 0x15))
        return reads(body, ask) if writes else ask(body)

    return act


def before_enter(answers):
    """Returns a wrong programmer, which gives the listed reply to a command outside programming mode, without doing
    it."""

    def act(body, ask):
        reply = ask(body)
        return answers[body[:1]] if reply[1:2] == b"\xc0" and body[:1] in answers else reply

    return act


def instead(front, other):
    """Returns a wrong programmer, which executes another command in place of one."""
    return lambda body, ask: ask(other(body) if body.startswith(front) else body)


def pretends(front, reply):
    """Returns a wrong programmer, which gives this reply to a command without doing it."""
    return lambda body, ask: reply if body.startswith(front) else ask(body)


WRONG = [
    ("SIGN_ON", changing(lambda body: body == b"\1")),
    ("LEAVE", changing(lambda body: body[:1] == b"\x11")),
    ("reads fuses", once(b"\x18\4\x58", 2, 0x20)),
    ("reads lock", once(b"\x1a", 3, 1)),
    ("reads calibration", once(b"\x1c", 2, 8)),
    ("reads flash", readdressed(0x14, lambda at: at & ~0x7F)),
    ("reads EEPROM", readdressed(0x16, lambda at: at * 2 % EEPROM)),
    ("restart", before_enter({b"\x18": b"\x18\0\0\0"})),
    ("restart", before_enter({b"\x15": b"\x15\0"})),
    ("writes EEPROM", instead(b"\x15\0\3", lambda body: b"\x15\0\4" + body[3:] + b"\xff")),
    ("writes EEPROM, restart", pretends(b"\x15", b"\x15\0")),
    ("erases", pretends(b"\x12", b"\x12\0")),
    ("writes flash", instead(b"\x13", lambda body: body[:11] + b"\xff" + body[12:])),
    ("writes fuses", instead(b"\x17\xac\xa0", lambda body: b"\x17\xac\xa8" + body[3:])),
    ("writes lock", pretends(b"\x19", b"\x19\0\0")),
]


def wrong():
    """Each wrong programmer of the list WRONG fails the rows that the list names for it, and no other. The promise is
    the one that the others leave."""
    for number, (row, act) in enumerate(WRONG):
        rows, what = row.split(", "), f"wrong {number}, {row}"
        left = ["damaged frame", "writes EEPROM"] if row == "reads EEPROM" else []
        plug = Plug(Wrong(act).call)
        words = [*TINY, "-P", plug.device, *(ALL if row in WRITING else SAFE)]
        promise = "none" if set(rows) & set(KEPT) else SMALLER
        found, _ = tried(what, words, rows, left + WRITING * (row not in WRITING), promise)
        check(f"{what}: the frames are shown", " was answered " in found[rows[0]][1], found[rows[0]])
        plug.end()
    plug = Plug(Wrong(stale()).call)
    what = "EEPROM that reads otherwise by other blocks after a write"
    words = [*TINY, "-P", plug.device, *SAFE]
    found, _ = tried(what, words, ["reads EEPROM"], ["writes EEPROM", *WRITING], SMALLER)
    check_equal(f"{what}: it was written", found["writes EEPROM"], ("unsure", "no sure reading of eeprom"))
    plug.end()
    plug = Plug(Wrong(lambda body, ask: ask(body), obeys_all=True).call)
    tried("damaged frames are obeyed", [*TINY, "-P", plug.device, *SAFE], ["damaged frame"], WRITING, "none")
    plug.end()
    check_equal("damaged frames are obeyed: the chip", room.read("wrong.bin"), CHIP)


def unseen():
    """A programmer that doesn't write fuses, and replies OK, isn't seen: each fuse is written with its own byte."""
    plug = Plug(Wrong(pretends(b"\x17", b"\x17\0\0")).call)
    tried("fuses aren't written", [*TINY, "-P", plug.device, *ALL], [], [], WHOLE)
    plug.end()


def babbles():
    """A board whose program prints without end isn't waited for."""
    plug = Plug(babble)
    status, output, _, own = serial.run([*TINY, "-P", plug.device, *SAFE])
    plug.end()
    check_equal("a board that prints without end: status and rows", (status, output), (1, b""))
    check("a board that prints without end: why", any("no good reply to 01" in line for line in own), str(own))


def read_along():
    """Bytes that another program has read count as lost, and end no trial."""

    def sent():
        ours, _ = ends = serial.socket.socketpair()
        ours.setblocking(False)
        # (the bytes are there when the script waits for them, and gone when it reads)
        found = iter([{ours}])
        avrstk_rows.ready = lambda *_: next(found, set())
        programmer = avrstk_rows.Programmer(lambda: ours)
        return programmer.send(b"\1"), [end.close() for end in ends]

    check_equal("no reply", boards.apart(sent)[0], None)


def ends_early():
    """If the device goes away or no reply comes while something is changed, and all memories could be read, the last
    line has a command that restores it. After a signal the page is written back."""
    signals = {"Ctrl-C": serial.signal.SIGINT, "Ctrl-C later": serial.signal.SIGINT, "SIGQUIT": serial.signal.SIGQUIT}
    # (a shell's background job ignores it, and so would the script)
    serial.signal.signal(serial.signal.SIGQUIT, serial.signal.SIG_DFL)
    for what, row, words in (
        ("gone", b"\x15", SAFE),
        ("silent", b"\x15", SAFE),
        ("gone", b"\x13", ALL),
        ("gone at a restart", b"\x13", ALL),
        ("Ctrl-C", b"\x15", SAFE),
        ("Ctrl-C later", b"\x15", SAFE),
        ("SIGQUIT", b"\x15", SAFE),
    ):
        pids, done, seen = [], [], []

        def act(body, ask):
            reply = None if done and what == "silent" else ask(body)
            seen.extend([row] * (body[:1] == row))
            # (the second write puts the page back)
            if body[:1] == row and not done and len(seen) > (what == "Ctrl-C later"):
                done.append(True)
                if what in signals:
                    os.kill(pids[0], signals[what])
                elif what == "gone":
                    plug.vanishes.set()
                elif what == "gone at a restart":
                    plug.leaves.set()
            return reply

        plug = Plug(Wrong(act).call)
        status, _, _, own = serial.run(
            [*TINY, "-P", plug.device, *words], begun=lambda started: pids.append(started.pid)
        )
        check_equal(f"{what} at {row}: the status", status, 1)
        plug.end()
        if what in signals:
            check(f"{what}: nothing is to be restored", not any("changed" in line for line in own), str(own))
        else:
            command = serial.shlex.split(own[-1].partition("; to restore it, try: ")[2])
            check(f"{what} at {row}: a command restores it", command[:1] == [str(serial.SCRIPT)], str(own))
            again = Plug(Wrong(lambda body, ask: ask(body), chip=room.read("wrong.bin")).call)
            command[command.index("-P") + 1] = again.device
            check_equal(f"{what} at {row}: what that command does", serial.run(command[1:])[0], 0)
            again.end()
        check_equal(f"{what} at {row}: the chip", room.read("wrong.bin"), CHIP)


def unreadable():
    """If flash can't be read, nothing is erased, and a page of EEPROM can be restored. If the trial can't restore the
    chip, or a first reading was wrong, the last line names the folder."""
    unwritten = ["damaged frame", "writes EEPROM"]
    hidden = [("flash", b"\x14", []), ("eeprom", b"\x16", unwritten)]
    for words, (memory, code, left) in itertools.product([SAFE, ALL], hidden):
        plug, what = Plug(Wrong(pretends(code, code + b"\xc0")).call), f"no {memory} {words}"
        found, own = tried(what, [*TINY, "-P", plug.device, *words], [], WRITING + left, SMALLER)
        plug.end()
        check_equal(f"{what}: why", {found[row][1] for row in WRITING}, {f"no sure reading of {memory}"})
        check(f"{what}: the chip is as before", not any("changed" in line for line in own), str(own))
        check_equal(f"{what}: the chip", room.read("wrong.bin"), CHIP)
    plug = Plug(Wrong(once(b"\x18\4\x50\0", 1, 0x20)).call)
    _, own = tried("a wrong first reading", [*TINY, "-P", plug.device, *SAFE], ["reads fuses", "SIGN_ON"], WRITING)
    plug.end()
    wanted = f"the chip may be changed; the first readings of the chip are in {own[0].rpartition(' ')[2]}"
    check_equal("a wrong first reading: the last line", own[-1], wanted)
    for what, row, code in ("no flash", b"\x15", b"\x14"), ("no calibration", b"\x13", b"\x1c"):
        done = []

        def act(body, ask):
            done.extend([True] * (body[:1] == row))
            return None if done else code + b"\xc0" if body[:1] == code else ask(body)

        plug = Plug(Wrong(act).call)
        status, _, _, own = serial.run([*TINY, "-P", plug.device, *ALL])
        plug.end()
        check_equal(f"{what}, silent at {row}: the status", status, 1)
        command = serial.shlex.split(own[-1].partition("; to restore it, try: ")[2])
        check_equal(
            f"{what}, silent at {row}: the last words",
            own[-1].split()[-1][-8:],
            {"no flash": "om.hex:i", "no calibration": own[0].split()[-1][-8:]}[what],
        )
        check_equal(f"{what}: a command", bool(command), what == "no flash")
        if command:
            again = Plug(Wrong(lambda body, ask: ask(body), chip=room.read("wrong.bin")).call)
            command[command.index("-P") + 1] = again.device
            check_equal(f"{what}: what that command does", serial.run(command[1:])[0], 0)
            again.end()
            check_equal(f"{what}: the chip", room.read("wrong.bin"), CHIP)


def trying(what, act, words, status=1, **more):
    """Tries the rows over a wrong programmer. Checks the status, and returns the rows and the script's own lines."""
    plug = Plug(Wrong(act).call)
    found_status, output, _, own = serial.run([*TINY, "-P", plug.device, *words], **more)
    plug.end()
    check_equal(f"{what}: the status", found_status, status)
    return rows_of(output), own


def corrupt_and_silent(front, count):
    """Returns a wrong programmer, which calls a command corrupt so often, and then gives it no reply."""
    left = [b"\xb0\xc1"] * count
    return lambda body, ask: (left.pop() if left else None) if body.startswith(front) else ask(body)


def no_trial():
    """Nothing is tried without a chip, if the signature can't be read, after four attempts without a good reply, or if
    the memories can't be saved. The line says why."""
    small = {"preexec_fn": lambda: serial.resource.setrlimit(serial.resource.RLIMIT_FSIZE, (0, 0))}
    cases = [
        (
            "a signature of 00 or FF often means that no chip replies: check the wires and the power",
            pretends(b"\x1b", b"\x1b\0\xff\0"),
            {},
        ),
        ("no sure reading of signature", pretends(b"\x1b", b"\x1b\xc0"), {}),
        *(
            (f"no good reply to {shown} in four attempts", act, {})
            for shown, act in (
                ("01", pretends(b"\1", b"\xb0\xc1")),
                ("1A 04 58 00 00 00", pretends(b"\x1a", b"\xb0\xc1")),
                ("1A 04 58 00 00 00", corrupt_and_silent(b"\x1a", 3)),
                ("1A 04 58 00 00 00", corrupt_and_silent(b"\x1a", 0)),
            )
        ),
        ("the memories can't be saved in this folder: File too large", lambda body, ask: ask(body), small),
    ]
    for why, act, more in cases:
        found, own = trying(why, act, SAFE, **more)
        check_equal(why, (found, own[0]), ({}, f"no further row is tried: {why}"))
        check(f"{why}: nothing is changed, and no hint", not any("chang" in line for line in own), str(own))


def not_put_back():
    """If the page of EEPROM isn't put back, a line says so, and the status is 1. So it is if each row is met, or if
    the programmer only replies OK."""
    for what, reply, number in ("refused", b"\x15\xc0", None), ("pretended", b"\x15\0", serial.signal.SIGINT):
        pids, writes = [], []

        def act(body, ask):
            writes.extend([body] * (body[:1] == b"\x15"))
            if body[:1] == b"\x15" and len(writes) > 1:
                return reply
            if writes and body[:1] == b"\x15" and number:
                os.kill(pids[0], number)
            return ask(body)

        found, own = trying(what, act, SAFE, begun=lambda started: pids.append(started.pid))
        check(f"{what}: no row fails", not any(how == "FAILS" for how, _ in found.values()), str(found))
        check(
            f"{what}: the last line",
            own[-1].startswith("the chip may be changed; the first readings of the chip are in "),
            own,
        )
        check(f"{what}: the chip", room.read("wrong.bin") != CHIP)


def unreadable_later():
    """If a memory can no longer be read, no further row is tried. If a fuse can't be read, no fuse is written."""
    reads = []

    def once_unread(body, ask):
        if body[:1] == b"\x15":
            reads.append(0)
            return ask(body[:-1] + bytes([body[-1] ^ 1]))
        reads[-1:] = [count + (body[:1] == b"\x16") for count in reads[-1:]]
        return b"\x16\xc0" if body[:1] == b"\x16" and reads[-1:] == [2] else ask(body)

    _, own = trying("unreadable later", once_unread, SAFE)
    why = "no further row is tried: eeprom can't be read any more: 06 00 00 00 00, 16 00 40 A0 was answered 16 C0"
    check("unreadable later: why", why in own, str(own))
    written = []

    def no_efuse(body, ask):
        written.extend([body] * (body[:1] == b"\x17"))
        return b"\x18\xc0" if body[:4] == b"\x18\4\x50\x08" else ask(body)

    found, _ = trying("no efuse", no_efuse, ALL, 0)
    check_equal("no efuse: the row", found["writes fuses"], ("not tried", "no sure reading of efuse"))
    check_equal("no efuse: what is read", found["reads fuses"][1], "62, D9, 18 04 50 08 00 00 was answered 18 C0")
    check_equal("no efuse: no fuse is written", (written, room.read("wrong.bin")), ([], CHIP))


FIELDS = boards.TINY.partition("\n")[2].splitlines()
BRACES = ", ".join(FIELDS)
OTHER = BRACES.replace("2048", "4096").replace("1E950F", "1E930B")
# how TOML may have a part
FORMS = {
    # (with what an editor or a note may add)
    "a note": "\ufeff"
    + boards.TINY.replace("flash_size", 'kind = "}"\nnote = "[rev. B] \\""\nflash_size').replace("2048", "+2048"),
    "quotes": boards.TINY.replace("parts.tiny", "'parts' . \"tiny\"").replace("flash_size", '"flash_size"'),
    "a text of several lines": boards.TINY.replace("flash_size", 'note = """\nflash_size = 4096\n"""\nflash_size'),
    "a plain one": boards.TINY.replace("flash_size", "note = '''\nflash_size = 4096 # it's\n'''\nflash_size"),
    "arrays": boards.TINY.replace("flash_size", 'pins = [["a", 1], [\n{flash_size = 4096}]]\nflash_size'),
    "a table in braces": boards.TINY.replace(
        "flash_size", "more = { flash_size = 4096 }\nless.flash_page = 1\nflash_size"
    ),
    "dots": "\n".join(
        f"parts.{name}.{field}" for pair in zip(OTHER.split(", "), FIELDS) for name, field in zip(("m8", "tiny"), pair)
    ),
    "a table of tables": f"[parts]\nm8 = {{ {OTHER} }}\ntiny = {{ pins = [1], {BRACES} }}\n",
    "braces in braces": f"parts = {{ m8 = {{ {OTHER} }}, tiny = {{ {BRACES} }} }}\n",
    "another table's parts": "[rev]\nparts.tiny.flash_size = 4096\nparts.tiny.flash_page = 1\n" + boards.TINY,
    "another part's table": boards.TINY.replace("tiny", "tiny-2").replace("2048", "4096") + boards.TINY,
}


def part_files():
    """In some forms of TOML that avrstk takes, --try-rows reads the fields of a part."""
    for what, text in FORMS.items():
        room.put("form.toml", text.encode())
        words = ["--parts", str(room.folder / "form.toml"), "-p", "tiny"]
        shown = serial.subprocess.run(
            [SESSION, "--check", *words, "-P", "emu:form.bin"], stderr=subprocess.PIPE, cwd=room.folder
        )
        check_equal(f"{what}: avrstk takes this file", (shown.returncode, shown.stderr), (0, b""))
        given = Words([*words, "--try-rows"], Report())
        wanted = {"flash_size": FLASH, "flash_page": 128, "eeprom_size": EEPROM, "eeprom_page": 4, "eesave_bit": 3}
        check_equal(f"{what}: its sizes", avrstk_rows.sizes_of(given), wanted)
        check_equal(f"{what}: its signature", given.of_part("signature"), "1E950F")


UNOPENED = "nothing was sent, and the device was not opened"
NAMED = f"-p takes a chip's name, such as m328p: -p '?' lists all; {UNOPENED}"


def refused():
    """What --try-rows doesn't take is refused, with its line."""
    at = "-P /dev/null -p m328p"
    cases = {
        f"{at} --try-rows=all": f"--try-rows=all may erase and lock the chip: add --yes if you can lose it; {UNOPENED}",
        f"{at} --try-rows=some": "--try-rows=some: give --try-rows; --try-rows=all may also erase and lock the chip",
        f"{at} --yes": "--yes is for --try-rows=all",
        f"{at} --try-rows -e": "--try-rows takes no -e",
        f"{at} --try-rows -U lfuse:r:-:h": "--try-rows takes no -U",
        f"{at} --try-rows --json report": "--try-rows takes no --json",
        "-P emu:chip.bin -p m328p --try-rows": "--try-rows is for a serial device, not -P emu:chip.bin",
        "-P /dev/null -p nosuch --try-rows": NAMED,
        "-P /dev/null --try-rows": NAMED,
        "-P /dev/null --parts nosuch.toml -p m328p --try-rows": f"check its name and permissions; {UNOPENED}",
        "-P /dev/null --parts tiny.toml --try-rows": "with --parts, -p takes a part as that file names it, or m328p, ",
        "-P /dev/null --parts less.toml -p tiny --try-rows": UNOPENED,
        "-P /dev/null --parts zero.toml -p tiny --try-rows": UNOPENED,
        "-P /dev/null --parts odd.toml -p tiny --try-rows": "--try-rows can't read tiny's fields in odd.toml: give a "
        f"regular file with lines as in classic.toml: {UNOPENED}",
    }
    room.put("less.toml", boards.TINY.replace("eesave_bit", "bit").encode())
    room.put("zero.toml", boards.TINY.replace("eeprom_page = 4", "eeprom_page = 0").encode())
    room.put("odd.toml", boards.TINY.replace("flash_size", '"flash\\u005fsize"').encode())
    for words, why in cases.items():
        status, output, _, own = serial.run(words.split())
        check_equal(words, (status, output, own[0][: len(why)]), (1, b"", why))


MEGA = """[parts.m2560]
signature = "1E9801"
flash_size = {}
flash_page = 256
eeprom_size = 1024
eeprom_page = 8
eesave_bit = 3
"""


def mega_2560():
    """The bootloader of a Mega 2560 fails the rows that docs/BOARDS names; what it refuses is met."""
    missing = [str(path) for path in (mega.HEX, mega.HEADER) if not path.exists()]
    if missing or not shutil.which("cc"):
        return leave_out("a Mega 2560", f"{' and '.join(missing) or 'cc'} is not installed")
    size = mega.FLASH if os.environ.get("FULL") == "1" else 4_096
    room.put("mega.toml", MEGA.format(size).encode())
    content = b"\xff\xff" + random.Random(3).randbytes(8_190)
    words = ["--parts", "mega.toml", "-p", "m2560", "-c", "wiring"]
    with mega.Board(content) as board:
        plug = Plug(board.call)
        wrong, promise = ["reads EEPROM", "writes flash", "writes lock"], SMALLER
        found, _ = tried("a Mega, all", [*words, "-P", plug.device, *ALL], wrong, ["writes EEPROM"], promise)
        for name, code in ("erases", "12"), ("writes fuses", "17"), ("reads calibration", "1C"):
            check(f"a Mega, {name}: refused", f"{code} C0" in found[name][1], found[name])
        plug.end()
        board.started.stdout.readline()
        board.holds("a Mega", content)


def over_version1(kind, programmer, words):
    """Tries the rows over a simulated board in its own time. Returns the rows, what else is printed, the status, and
    whether the flash is as before."""
    old = random.Random(9).randbytes(boards.FLASH)
    board = boards.Board(kind, old)
    translator = avrstk_version1.Version1(board, [0], not board.is_sketch)

    class Direct(avrstk_rows.Programmer):
        """(Nothing is lost, and no time passes but the board's.)"""

        def send(self, body, is_damaged=False):
            return translator.reply(body)

        def restart(self):
            translator.is_in_step = False
            if board.is_sketch:
                board.pause(0.5)
            else:
                board.reset()

    rows, own = [], []
    avrstk_rows.Programmer, avrstk_rows.show, avrstk_rows.print_line = Direct, rows.append, own.append
    os.chdir(room.folder)
    given = Words([*TINY, "-c", programmer, "-P", "/dev/null", *words], Report())
    status = avrstk_rows.try_rows(given, lambda: open(os.devnull, "rb"))
    is_kept = board.flash()[:FLASH] == old[:FLASH]
    rest = bytes(board.rest()[0][:EEPROM]) + board.rest()[1] if board.is_sketch else b""
    return "\n".join(rows).encode(), own, status, is_kept, rest


def version1():
    """With a bootloader of version 1 only `writes flash` fails; its reads of calibration, fuses, lock and EEPROM are
    refused, and five rows are not tried. Arduino as ISP meets all rows that can be tried."""
    missing = boards.missing()
    if missing:
        return leave_out("boards of version 1", f"{missing} is not installed")
    left = ["damaged frame", "writes EEPROM", "erases", "writes fuses", "writes lock"]
    cases = [(kind, "arduino", ALL, ["writes flash"], left) for kind in ("optiboot-fast", "ATmegaBOOT")]
    if boards.SKETCH:
        cases.append(("ArduinoISP-fast", "arduino_as_isp", ALL, [], ["damaged frame"]))
    else:
        leave_out("ArduinoISP", "its sketch is not there")
    for kind, programmer, words, wrong, left in cases:
        boards.prepare(kind, 0)
        output, own, status, is_kept, rest = boards.apart(lambda: over_version1(kind, programmer, words))
        seen(kind, rows_of(output), own, status, wrong, left, SMALLER)
        check(f"{kind}: the flash is as before", is_kept)
        if kind.startswith("ArduinoISP"):
            check_equal(f"{kind}: EEPROM, fuses and lock", rest, b"\xff" * EEPROM + b"\x62\xd9\xff\xff")


CASES = named(
    *(emulated, faults_of_the_line, faults_of_a_chip, wrong, unseen),
    *(
        babbles,
        read_along,
        ends_early,
        unreadable,
        no_trial,
        not_put_back,
        unreadable_later,
        part_files,
        refused,
        mega_2560,
        version1,
    ),
)


if __name__ == "__main__":
    sys.exit(run_cases(CASES, __doc__))

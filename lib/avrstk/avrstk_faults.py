"""The faults and the log of avrstk-serve: what becomes of the frames between a client and its run."""

from __future__ import annotations

from avrstk_common import READ, Change, Fault, Frames, is_frame, came, print_line, ready, standard

import collections
import errno
import functools
import operator
import os
import random
import re
import time
from pathlib import Path
from typing import Callable, NamedTuple, Sequence

# the names of the commands in a log; all others are UNKNOWN
COMMANDS = {
    **{0x01: "SIGN_ON", 0x02: "SET_PARAMETER", 0x03: "GET_PARAMETER", 0x06: "LOAD_ADDRESS"},
    **{0x10: "ENTER_PROGMODE", 0x11: "LEAVE_PROGMODE", 0x12: "CHIP_ERASE", 0x13: "PROGRAM_FLASH", 0x14: "READ_FLASH"},
    **{0x15: "PROGRAM_EEPROM", 0x16: "READ_EEPROM", 0x17: "PROGRAM_FUSE", 0x18: "READ_FUSE", 0x19: "PROGRAM_LOCK"},
    **{0x1A: "READ_LOCK", 0x1B: "READ_SIGNATURE", 0x1C: "READ_OSCCAL", 0x1D: "SPI_MULTI"},
}
UNKNOWN = "unknown"
NAMES = [*COMMANDS.values(), UNKNOWN]
CHIP_ERASE, PROGRAM_FLASH, SPI_MULTI = 0x12, 0x13, 0x1D

# the options for faults of single commands, and what a log has of them
FAULTS = {
    **{"--lose": "lost", "--lose-reply": "reply lost", "--corrupt": "corrupted", "--corrupt-reply": "reply corrupted"},
    **{"--late": "reply late", "--drop": ""},
}

# the commands that are refused
REFUSED = {"--bootloader": {CHIP_ERASE, 0x17, 0x19, 0x1C}, "--no-chip": {0x10}}


# tells whether a command is meant by a fault: by its number, by its name, and by its number among those of its name
Meant = Callable[[Sequence[str]], bool]


class Planned(NamedTuple):
    """A fault of single commands. `given` is its option and value on the command line."""

    option: str
    is_meant: Meant
    given: str


class Waiting(NamedTuple):
    """A command without a reply so far: its line in the log, or None if it is no client's, and its faults."""

    line: str | None
    faults: list[str]


def seconds(option: str, given: str) -> float:
    """Returns the seconds in an option's value, which are more than 0."""
    form, number = ("7:0.5", given.partition(":")[2]) if option == "--late" else ("0.5", given)
    # (poll takes no more than 24 days)
    if not re.fullmatch(r"(?=\.?[0-9])0*[0-9]{0,6}(\.[0-9]*)?", number) or not float(number):
        raise Fault(f"{option} {given}: give seconds above 0 and below {10**6}, as in {form}")
    return float(number)


def number_of(option: str, given: str, most: int) -> int:
    """Returns the number in an option's value, which has at most so many digits."""
    if not re.fullmatch(f"[0-9]{{1,{most}}}", given):
        raise Fault(f"{option} {given}: give 1 to {most} digits")
    return int(given)


def which(option: str, given: str, chance: Callable[[], float]) -> Meant:
    """Returns which commands are meant by WHICH, the value of a fault's option."""
    share = re.fullmatch(r"((?=\.?[0-9])0*[0-9]{0,3}(?:\.[0-9]*)?)%", given)
    if share and float(share[1]) <= 100:
        percent = float(share[1])
        return lambda names: chance() * 100 < percent
    is_one = re.fullmatch("(?:([A-Za-z_]+)#)?[1-9][0-9]{0,8}", given)
    if given not in NAMES and not (is_one and is_one[1] in (None, *NAMES)):
        before = ", before :SECONDS" * (option == "--late")
        raise Fault(f"{option} {given}: give WHICH, such as CHIP_ERASE, CHIP_ERASE#1, 7 or 2%{before}")
    return lambda names: given in names


def xor(held: bytes) -> int:
    """Returns the checksum of a frame's bytes; 0 for a whole frame that is not damaged."""
    return functools.reduce(operator.xor, held)


def framed(number: int, body: bytes) -> bytes:
    """Returns a frame."""
    whole = bytes([0x1B, number, *divmod(len(body), 256), 0x0E]) + body
    return whole + bytes([xor(whole)])


def spoiled(frame: bytes) -> bytes:
    """Returns a frame with a bit of its body changed. (A damaged one stays as it is: the same bit may mend it.)"""
    return frame if xor(frame) else frame[:-2] + bytes([frame[-2] ^ 1, frame[-1]])


class Log:
    """The file of --log, with at most `limit` bytes (a pipe has no length). A line that it doesn't take at once is
    lost: no pipe stops the server. A message reports the first one, and a line in the log how many."""

    def __init__(self, name: str, limit: int) -> None:
        stream, flags = standard(name), os.O_WRONLY | os.O_APPEND | os.O_CREAT | os.O_NONBLOCK | os.O_NOCTTY
        try:
            self.file = os.dup(stream) if stream else os.open(name, flags, 0o666)
        except OSError as fault:
            is_unread = fault.errno == errno.ENXIO and Path(name).is_fifo()
            raise Fault(f"{name}: {'nobody reads this pipe' if is_unread else fault.strerror}")
        self.limit, self.rest = limit, b""
        # how many lines were lost since the last one, and whether a message has reported one
        self.lost, self.is_reported = 0, False

    def put(self, line: str) -> None:
        """Appends a line. A line that was cut is completed before the next one."""
        held = f"{self.lost} lines are missing\n{line}".encode() if self.lost else line.encode()
        why = "it is full"
        try:
            if self.rest:
                self.rest = self.rest[os.write(self.file, self.rest) :]
            # (another server may append to it, too)
            if os.fstat(self.file).st_size + len(held) <= self.limit and not self.rest:
                self.rest, self.lost = held[os.write(self.file, held) :], 0
                return
        except OSError as fault:
            why = why if isinstance(fault, BlockingIOError) else str(fault.strerror)
        self.lost += 1
        if not self.is_reported:
            print_line(f"--log: lines are missing: {why}")
        self.is_reported = True


class Traffic:
    """The frames between clients and their runs: each command has a line in the log, and faults are made of some."""

    def __init__(self, options: Sequence[tuple[str, str]]) -> None:
        """Takes the options in their order, each with its value."""
        self.last = last = dict(options)
        self.is_bootloader, self.is_strict = "--bootloader" in last, "--strict" in last
        self.is_mega = "--mega" in last
        self.refused = {code for option, codes in REFUSED.items() if option in last for code in codes}
        self.client = self.count = 0
        self.log: Log | None = None
        # how many commands of each name there were, and how many commands the fault of each option has selected
        self.names: collections.Counter[str] = collections.Counter()
        self.struck: collections.Counter[str] = collections.Counter()
        # of this client: whether its session has erased the chip, and the commands without a reply so far
        self.has_erased = False
        self.waiting: collections.deque[Waiting] = collections.deque()
        self.lateness = seconds("--late", last.get("--late", "0:1"))
        self.limit = number_of("--log-limit", last.get("--log-limit", f"{1 << 62}"), 19)
        seed = number_of("--seed", last.get("--seed", str(random.randrange(1_000_000))), 18)
        # (by its digits)
        chance = random.Random(str(seed)).random
        given = [(option, value) for option, value in options if option in FAULTS]
        self.given = [f"{option} {value}" for option, value in given]
        self.faults: list[Planned] = []
        for option, value in given:
            for fault in ["--lose", "--lose-reply"] if option == "--drop" else [option]:
                is_meant = which(option, value.partition(":")[0] if option == "--late" else value, chance)
                self.faults.append(Planned(fault, is_meant, f"{option} {value}"))
        # (a report has it if it was used)
        self.seed = seed if any("%" in value for _, value in given) else None

    def open(self) -> None:
        """Opens the log, if there is one."""
        if "--log" in self.last:
            self.log = Log(self.last["--log"], self.limit)

    def report_seed(self) -> None:
        if self.seed is not None:
            print_line(f"faults are drawn with --seed {self.seed}")

    def begin(self) -> tuple[Change, Change]:
        """Takes the next client. Returns what changes the bytes that it sends, and those that it gets."""
        self.client, self.has_erased = self.client + 1, False
        self.waiting.clear()

        def changed(act: Change) -> Change:
            frames = Frames()
            return lambda more: b"".join(act(piece) if is_frame(piece) else piece for piece in frames.pieces(more))

        return changed(self.command), changed(self.reply)

    def unstruck(self) -> list[str]:
        """Returns the options whose faults selected no command."""
        return [option for option in self.given if option not in self.struck]

    def end(self) -> None:
        """Notes the commands that got no reply."""
        for command in self.waiting:
            self.note(command.line, ["no reply"])

    def note(self, line: str | None, marks: list[str]) -> None:
        if line and self.log:
            self.log.put(f"{line}{': ' if marks else ''}{', '.join(marks)}\n")

    def command(self, frame: bytes) -> bytes:
        """Returns what the run gets for a command."""
        self.count += 1
        body = frame[5:-1]
        name, more = COMMANDS.get(body[0], UNKNOWN), " .." if len(body) > 16 else ""
        when = time.strftime("%Y-%m-%d %H:%M:%S")
        line = f"{when} client {self.client}, {frame[1]}: {name} {body[:16].hex(' ')}{more}"
        self.names[name] += 1
        own = str(self.count), name, f"{name}#{self.names[name]}"
        meant = [fault for fault in self.faults if fault.is_meant(own)]
        faults = [fault.option for fault in meant]
        self.struck.update({fault.given for fault in meant})
        if "--lose" in faults:
            self.note(line, ["lost"])
            return b""
        if self.is_mega and (xor(frame) or "--corrupt" in faults):
            # (the Mega's bootloader gives no reply to a corrupt frame)
            self.note(line, [FAULTS[fault] for fault in faults if fault == "--corrupt"] + ["no reply"])
            return spoiled(frame)
        is_whole = not xor(frame) and "--corrupt" not in faults
        before, frame = self.refusing(frame[1], body) if is_whole else (b"", frame)
        self.waiting.append(Waiting(line, faults))
        return before + (spoiled(frame) if "--corrupt" in faults else frame)

    def refusing(self, number: int, body: bytes) -> tuple[bytes, bytes]:
        """Returns what comes before a command, and what the run gets for it, from a bootloader or without a chip."""
        before = b""
        if body[0] in self.refused:
            # (a command without its fields is refused)
            body = body[:1]
        elif self.is_bootloader and body[0] == SPI_MULTI and body[4:5] == b"\xac":
            # (it does nothing then, and so does this instruction)
            body = body[:4] + bytes(len(body) - 4)
        elif self.is_bootloader and body[0] == PROGRAM_FLASH and not self.has_erased:
            before = framed(number, bytes([CHIP_ERASE, 9, 0, 0xAC, 0x80, 0, 0]))
            self.waiting.append(Waiting(None, []))
        return before, framed(number, body)

    def reply(self, frame: bytes) -> bytes:
        """Returns what the client gets for the reply to the first command that waits for one."""
        line, faults = self.waiting.popleft() if self.waiting else (None, [])
        if line is None:
            # (an erase is refused before ENTER)
            self.has_erased |= frame[5:7] == bytes([CHIP_ERASE, 0])
            return b""
        marks = [FAULTS[fault] for fault in faults]
        if frame[6:7] != b"\0":
            marks.append(f"refused ({frame[5:-1][:2].hex(' ')})")
        self.note(line, marks)
        if "--late" in faults:
            ready({came: READ}, time.monotonic() + self.lateness)
        if "--lose-reply" in faults:
            return b""
        return spoiled(frame) if "--corrupt-reply" in faults else frame

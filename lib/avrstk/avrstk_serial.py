"""avrstk-serial: the command line, and runs of avrstk with a programmer on a serial device."""

from __future__ import annotations

from avrstk_common import BUILT_IN, NO_PARTS, READ, WRITE, Fault, Frames, Source, Way, brief, came, data_file, ended_by
from avrstk_common import build_unproved, compile_unproved, heed_signals, is_frame, messages, parts, print_line, ready
from avrstk_common import reported_session, show, standard, text_of, version, wait
from avrstk_backup import asking, back_up, files_of, restored
from avrstk_each import Each
from avrstk_faults import xor
from avrstk_report import Report, fault_of, write
from avrstk_rows import try_rows
from avrstk_hints import CHANGING, ENTER, LEAVE, LOST_LINK, MAYBE_CHANGED, NO_CHIP, NO_SIGNATURES, ONE_IMAGE, SIGN_ON
from avrstk_hints import UNCHANGED, Outcome, erases, hint, may_erase_kept, may_lock, overwritten, state_of
from avrstk_station import made, station
from avrstk_version1 import SPEEDS, Bridge
from avrstk_words import FORMATS, FUSES, MEMORIES, UNOPENED, UNWRITTEN, Update, Words, is_port, long_name, overlaps
from avrstk_words import parts_of

import contextlib
import copy
import errno
import fcntl
import getopt
import glob
import grp
import os
import re
import shutil
import socket
import stat
import struct
import subprocess
import sys
import termios
import time
from typing import Callable

# options that are refused, and why
REFUSED = {
    **dict.fromkeys(["-B", "-i"], "avrstk sets no programmer's clock"),
    **dict.fromkeys(["-t", "-T"], "avrstk has no terminal mode"),
    **dict.fromkeys(["-y", "-Y"], "avrstk counts no erase cycles"),
    **{"-E": "avrstk drives no parallel port", "-O": "avrstk calibrates no oscillator"},
    "-x": "avrstk sets no parameters of a programmer",
    **dict.fromkeys(["--serve", "--chip"], "avrstk has this option"),
}

# AVRDUDE's names of programmers with these protocols on a serial device
SPEAKING = ["avrispv2", "stk500", "stk500v2", "wiring", *SPEEDS]

# the serial devices of USB that are here
DEVICES = sorted(glob.glob("/dev/ttyACM*") + glob.glob("/dev/ttyUSB*"))
LISTED = "-P '?' lists devices"

# Linux's tcgets2 and tcsets2. Their 44 bytes: four words of flags, a byte, 19 control characters, two speeds
TCGETS2, TCSETS2, BOTHER = 0x802C542A, 0x402C542B, 0x1000

USED = "this command uses that file twice"
FAR = "a Mega's bootloader reads EEPROM above 255 at other addresses: use a programmer"
OWN_PAGES = "two images share a page: give one image"
ONE_WRITE = f"a Mega's bootloader erases pages from 0 on: {ONE_IMAGE}"

# the command that sends their address, and those that carry the bytes of a memory
LOAD_ADDRESS = 0x06
CARRYING = {0x13: "writing flash", 0x14: "reading flash", 0x15: "writing eeprom", 0x16: "reading eeprom"}

# fuses that keep an ISP programmer from the chip, by parts' long names: what a value does, its memory, its bits and
# how these read then (by the parts' data sheets and the headers of avr-libc; of other parts' crystals nothing is sure)
GONE = "then a programmer may not reach the chip"
EXTERNAL, SLOW, CRYSTAL = (f"selects {clock}" for clock in ("an external clock", "a slow clock", "a crystal of 32 kHz"))
RESET, DEBUG = "turns the reset pin off (RSTDISBL)", "turns debugWIRE on (DWEN)"
RISKS = [
    ("", ("has SPIEN off", "hfuse", 0x20, 0x20)),
    ("(?!attiny88)", (EXTERNAL, "lfuse", 0x0F, 0)),
    ("attiny88", (EXTERNAL, "lfuse", 0x03, 0)),
    ("attiny88", (SLOW, "lfuse", 0x03, 3)),
    ("attiny([248][45]|1634)", (SLOW, "lfuse", 0x0F, 4)),
    ("atmega(88|168|328|640|128[01]|256[01])|attiny43u", (SLOW, "lfuse", 0x0F, 3)),
    ("atmega(88|168|328|640|128[01]|256[01]|16u4|32u4)", (CRYSTAL, "lfuse", 0x0E, 4)),
    ("atmega(165|169|325|329|645|649)", (CRYSTAL, "lfuse", 0x0E, 6)),
    ("attiny[248][45](?!1)", (CRYSTAL, "lfuse", 0x0F, 6)),
    ("atmega(165|169|325|329|645|649)", (RESET, "efuse", 0x01, 0)),
    ("at90usb162|atmega(8|16|32)u2", (RESET, "hfuse", 0x40, 0)),
    ("at90usb162|atmega(8|16|32)u2", (DEBUG, "hfuse", 0x80, 0)),
    ("attiny|at90pwm|atmega(88|168|328|32m1|64m1)", (RESET, "hfuse", 0x80, 0)),
    ("attiny|at90pwm|atmega(88|168|328|32m1|64m1)", (DEBUG, "hfuse", 0x40, 0)),
]


def list_devices() -> None:
    """Prints the devices, each with its name that doesn't change at the next plug, which tells what it is."""
    names = {os.path.realpath(link): link for link in glob.glob("/dev/serial/by-id/*")}
    rows = [f"  {device:13} {names.get(device, '')}".rstrip() for device in DEVICES]
    show("\n".join(rows) or "  no /dev/ttyACM* or /dev/ttyUSB* was found")


def list_parts() -> None:
    """Prints the parts as AVRDUDE does, with their signatures."""
    rows = []
    for name, part in sorted(parts().items()):
        if not name.startswith("at"):
            proper = re.sub("^at(mega|tiny|)(.*)", lambda found: f"AT{found[1]}{found[2].upper()}", long_name(name))
            rows.append(f"  {name:8} = {proper:13} {bytes.fromhex(part['signature']).hex(' ').upper()}")
    if not rows:
        raise Fault(NO_PARTS)
    show("\n".join(rows))


def unrepaired(words: Words) -> Update | None:
    """Returns the update for which a second run may not repair the chip, or may lose data; None if there is none.
    (docs/TROUBLESHOOTING has the conditions.)"""
    written: set[str] = set()
    is_dry = "-n" in words.flags
    for update in words.updates:
        if update.is_stream() or update.operation == "v" and update.memory not in written:
            return update
        if update.operation == "w" and not is_dry:
            is_twice = update.memory == "flash" and "flash" in written
            pages = words.plan().pages if is_twice else []
            if "lock" in written or is_twice and (not pages or overlaps(pages)) or is_over_number(words, update):
                return update
            written.add(update.memory)
    return None if is_dry else unkept(words)


def is_over_number(words: Words, update: Update) -> bool:
    """Whether a second run would write another number over the first one, in flash that isn't erased."""
    return has_number(words, update) and update.memory == "flash" and not erases(words) and not words.is_bootloader


def has_number(words: Words, update: Update) -> bool:
    """Whether --each made or changed an update."""
    base = words.each.base if words.each else None
    return base is not None and update not in base


def unkept(words: Words) -> Update | None:
    """Returns the update with which a second run may overwrite a file, erase EEPROM that the first run keeps, or find
    the chip locked; None if there is none."""
    is_used = any(update.memory in ("flash", "eeprom") for update in words.updates)
    for update in words.updates:
        is_lost = update.operation == "r" and update.file in overwritten(words)
        is_erased = update.writes("hfuse") and may_erase_kept(words, [update])
        if is_lost or is_erased or is_used and not erases(words) and may_lock([update]):
            return update
    return None


def judge_device(device: str | None) -> str:
    """Checks a device without opening it: opening can reset a board. Returns its name."""
    if not device:
        raise Fault(f"no device given (-P): {LISTED}")
    state: os.stat_result | None = None
    try:
        with contextlib.suppress(FileNotFoundError):
            state = os.stat(device)
    except OSError as fault:
        # (a folder on the way may be closed)
        raise Fault(text_of(fault))
    if not state or not stat.S_ISCHR(state.st_mode):
        raise Fault(f"{device}: no such serial device ({LISTED})")
    if not os.access(device, os.R_OK | os.W_OK):
        raise Fault(f"{device}: you may not read and write it ({rights(state)})")
    return device


def rights(state: os.stat_result) -> str:
    """Returns who may use a device."""
    group = str(state.st_gid)
    # (a number may have no name)
    with contextlib.suppress(KeyError):
        group = grp.getgrgid(state.st_gid).gr_name
    return f"its group is {group}, its mode {stat.S_IMODE(state.st_mode):o}"


class Device:
    """The serial device, opened for this run alone. At the end it gets its old settings back."""

    def __init__(self, name: str, baud: int, is_bootloader: bool) -> None:
        # (none until the device is opened, and no settings until they are read)
        self.file, self.old, act = -1, b"", "opened"
        try:
            self.file = os.open(name, os.O_RDWR | os.O_NOCTTY | os.O_NONBLOCK)
            # the lock keeps out other runs, root's too; TIOCEXCL keeps out programs that don't lock
            fcntl.flock(self.file, fcntl.LOCK_EX | fcntl.LOCK_NB)
            act = f"set to {baud} baud"
            self.old = fcntl.ioctl(self, TCGETS2, bytes(44))
            fcntl.ioctl(self, termios.TIOCEXCL)
            self.set_speed(baud)
            if is_bootloader:
                self.pulse()
        except OSError as fault:
            self.close()
            is_taken = fault.errno in (errno.EBUSY, errno.EWOULDBLOCK)
            raise Fault(f"{name} is busy" if is_taken else f"{name}: cannot be {act}: {fault.strerror}")

    def set_speed(self, baud: int) -> None:
        """Sets the speed; raises OSError if the device takes another one instead."""
        fcntl.ioctl(self, TCSETS2, settings(self.old, baud))
        (speed,) = struct.unpack_from("=I", fcntl.ioctl(self, TCGETS2, bytes(44)), 40)
        if abs(speed - baud) * 20 > baud:
            raise OSError(errno.EINVAL, f"it takes {speed}")

    def pulse(self) -> None:
        """Resets a board with a bootloader, as AVRDUDE does: releases DTR and RTS, and asserts them again."""
        for request in (termios.TIOCMBIC, termios.TIOCMBIS):
            # (a device may not have these lines)
            with contextlib.suppress(OSError):
                fcntl.ioctl(self, request, struct.pack("=I", termios.TIOCM_DTR | termios.TIOCM_RTS))
            time.sleep(0.05)

    def fileno(self) -> int:
        return self.file

    def close(self) -> None:
        """Restores the device's settings and closes it. If the device is gone, only the close succeeds. Another call
        does nothing."""
        if self.old:
            with contextlib.suppress(OSError):
                fcntl.ioctl(self, termios.TCFLSH, termios.TCIOFLUSH)
            with contextlib.suppress(OSError):
                fcntl.ioctl(self, TCSETS2, self.old)
            with contextlib.suppress(OSError):
                fcntl.ioctl(self, termios.TIOCNXCL)
        if self.file >= 0:
            os.close(self.file)
        self.file, self.old = -1, b""


def opened(words: Words) -> Device | Bridge:
    """Opens the device for frames, and resets a board that has DTR for that."""
    device, wait = Device(words.device or "", words.speeds[0], True), float(words.wait)
    time.sleep(wait)
    fcntl.ioctl(device, termios.TCFLSH, termios.TCIFLUSH)
    return Bridge(device, words.speeds, words.is_bootloader, wait) if words.is_version1 else device


def settings(old: bytes, baud: int) -> bytes:
    """Returns the settings of a device, by its old ones: raw bytes, eight bits, no parity, one stop bit, `baud`."""
    flags = termios.CS8 | termios.CREAD | termios.CLOCAL | termios.HUPCL | BOTHER
    control = bytearray(old[17:36])
    # (a read returns the bytes that are there)
    control[termios.VMIN], control[termios.VTIME] = 1, 0
    return struct.pack("=4IB19s2I", termios.IGNPAR, 0, flags, 0, old[16], bytes(control), baud, baud)


def is_ours(ends: list[tuple[str, int]], mark: str) -> bool | None:
    """Whether a process with this mark has the other end of a connection in this machine; None if that end is gone."""
    both = [f"{int.from_bytes(socket.inet_aton(host), sys.byteorder):08X}:{port:04X}" for host, port in ends]
    with open("/proc/net/tcp", encoding="ascii") as rows:
        inode = next((row.split()[9] for row in rows if row.split()[1:3] == both), None)
    if not inode:
        return None
    for folder in glob.glob("/proc/[0-9]*"):
        # (another user's process, and one that has ended, can't be read)
        with contextlib.suppress(OSError), open(f"{folder}/environ", "rb") as environment:
            has_mark = mark.encode() in environment.read()
            if has_mark and f"socket:[{inode}]" in [os.readlink(link) for link in glob.glob(f"{folder}/fd/*")]:
                return True
    return False


class Progress:
    """Draws on a terminal what is written or read, the share of the run's frames that were sent, and the time left."""

    def __init__(self, words: Words) -> None:
        self.is_wanted = messages.is_drawn and "-q" not in words.flags and not words.has_port
        self.total, self.begun = words.plan().frames if self.is_wanted else 0, time.monotonic()
        # what is written or read, and how many bytes of it were; how many frames were sent, and when that was drawn
        self.what: str | None = None
        self.done, self.sent, self.drawn = 0, 0, 0.0
        # the address that was sent last, and that of the bytes that were counted last
        self.address, self.counted = b"", b""

    def pause(self) -> None:
        """Begins anew after a line of avrstk."""
        self.what, self.drawn = None, 0.0

    def frame(self, body: bytes) -> None:
        """Counts a command that goes to the device. (An address and its bytes that are sent again don't count.)"""
        self.sent += 1
        self.address = body if body[0] == LOAD_ADDRESS else self.address
        what, now = CARRYING.get(body[0]), time.monotonic()
        if not what or not self.is_wanted:
            return
        if what == self.what and self.address == self.counted:
            self.sent -= 2
            return
        self.done = (self.done if what == self.what else 0) + int.from_bytes(body[1:3], "big")
        self.what, self.counted = what, self.address
        if now > self.drawn + 0.1:
            self.drawn = now
            # (another command that is sent again counts)
            share = f", {100 * self.sent // self.total} %" if self.sent <= self.total else ""
            left = round((now - self.begun) * (self.total - self.sent) / self.sent)
            more = f", {left} s left" if share and now > self.begun + 1 and left else ""
            messages.draw(f"avrstk-serial: {what}: {self.done:,} bytes{share}{more}")


class Tool:
    """The process of avrstk, and the lines that it prints. `mark` is in its environment, and its children's."""

    def __init__(self, command: list[str], mark: str, note: Callable[[bytes], None]) -> None:
        self.note, self.kept = note, b""
        # (a shell may have opened an image, as by <(COMMAND))
        environment = {**os.environ, "AVRSTK_SERIAL": mark}
        self.process = subprocess.Popen(command, stderr=subprocess.PIPE, close_fds=False, env=environment)
        assert self.process.stderr
        self.stderr = self.process.stderr
        os.set_blocking(self.stderr.fileno(), False)

    def receive(self) -> bool | None:
        """Notes each complete line. Returns False at the end of the stream, None if nothing is there."""
        try:
            piece = os.read(self.stderr.fileno(), 65_536)
        except BlockingIOError:
            return None
        *whole, self.kept = (self.kept + piece).split(b"\n")
        for line in whole:
            self.note(line)
        return bool(piece)

    def stop(self) -> None:
        """Ends avrstk after a signal."""
        if ended_by() and self.process.poll() is None:
            self.process.terminate()

    def end(self) -> int:
        """Waits until avrstk has ended, notes its last lines, and returns its status."""
        status = self.process.wait()
        while self.receive():
            pass
        if self.kept:
            # avrstk ended in the middle of this line
            messages.put(self.kept + b"\n")
        return status


class Talk:
    """The device of a run, and the frames that pass between it and avrstk."""

    def __init__(self, device: Device, outcome: Outcome, progress: Progress) -> None:
        self.device, self.outcome, self.progress, self.words = device, outcome, progress, outcome.words
        self.wait = float(self.words.wait)
        # what avrstk's frames go to
        self.end: Device | Bridge = device
        if self.words.is_version1:
            self.end = Bridge(device, self.words.speeds, self.words.is_bootloader, self.wait)
        # commands and replies in pieces, and the last two commands without a reply
        self.commands, self.replies = Frames(), Frames()
        self.silent: dict[int, bytes] = {}
        # (a board that starts may send other bytes)
        self.quiet_until = time.monotonic() + self.wait + 10

    def note_commands(self, piece: bytes) -> bytes:
        for frame in filter(is_frame, self.commands.pieces(piece)):
            # (the Mega's bootloader ends with its reply to LEAVE. If the reply was lost, it has to start once more)
            if self.words.is_wiring and frame[5] == LEAVE and LEAVE in self.outcome.commands:
                self.device.pulse()
                time.sleep(self.wait)
            self.count(frame)
            self.outcome.commands.add(frame[5])
            self.outcome.is_held |= frame[5] == ENTER
            self.progress.frame(frame[5:-1])
        return piece

    def count(self, frame: bytes) -> None:
        """Counts a command, which is sent again if it is one of the last two and got no reply."""
        body = frame[5:-1]
        self.outcome.sent += 1
        self.outcome.repeated += body in self.silent.values()
        # (each counts once as repeated; its number stays, since a late reply may still come)
        left = {number: b"" if other == body else other for number, other in self.silent.items()}
        self.silent = {**dict(list(left.items())[-1:]), frame[1]: body}

    def note_replies(self, piece: bytes) -> bytes:
        """Notes at which speed the device replies, and whether it sends bytes after ten seconds, but no valid reply."""
        if isinstance(self.end, Bridge) and len(self.words.speeds) > 1 and self.end.programmer.speed:
            self.words.speeds = (self.end.programmer.speed,)
            self.words.note(f"the device replies at {self.words.baud} baud")
        found = self.replies.pieces(piece)
        # (a piece may end in the middle of a reply)
        is_noise = bool(found) and not any(is_frame(one) and one[1] in self.silent and not xor(one) for one in found)
        for frame in filter(is_frame, found):
            self.silent.pop(frame[1], None)
            if frame[5:7] == bytes([LEAVE, 0]) and not xor(frame):
                self.outcome.is_held = False
        if is_noise and time.monotonic() > self.quiet_until and self.outcome.commands <= {SIGN_ON, LEAVE}:
            self.outcome.is_noisy = True
        return piece


def judged_text(words: Words, line: bytes) -> str:
    """Returns a line of avrstk as a hint judges it. (Several updates may have one file: only the name that avrstk got
    tells which one is faulty.)"""
    is_name = line.endswith(b": cannot be opened")
    return os.fsdecode(words.shown(line) if is_name else line).partition("avrstk: ")[2]


class Run:
    """One run of avrstk. Once avrstk connects, the device is bridged to its port, unless it has a port of its own."""

    def __init__(self, words: Words, outcome: Outcome, put: Callable[[bytes], None]) -> None:
        self.words, self.put, self.outcome, self.progress = words, put, outcome, Progress(words)
        # the files to close, and the ways between avrstk and the device
        self.files: list[socket.socket | Device | Bridge] = []
        self.ways: tuple[Way, ...] = ()
        self.port: socket.socket | None = None
        name = words.device or ""
        if not words.has_port:
            self.port = socket.create_server(("127.0.0.1", 0))
            self.files.append(self.port)
            name = f"net:127.0.0.1:{self.port.getsockname()[1]}"
        self.mark = os.urandom(16).hex()
        self.tool = Tool(words.command(name), self.mark, self.note_line)

    def note_line(self, line: bytes) -> None:
        """Passes on a line of avrstk, and notes the first error."""
        self.progress.pause()
        shown = self.words.shown(line)
        if self.words.is_wanted(line):
            self.put(shown + b"\n")
        self.words.report.note(os.fsdecode(shown).partition("avrstk: ")[2])
        text = judged_text(self.words, line)
        self.outcome.may_change |= text.startswith("device signature = ") and self.words.changes()
        self.outcome.steps += bool(re.match(r"chip erased$|\w+: \d+ bytes (not )?\w+$", text))
        if text.startswith("error: ") and not self.outcome.error:
            self.outcome.left_at_error, self.outcome.error = LEAVE in self.outcome.commands, text[7:]

    def take_call(self, port: socket.socket) -> None:
        """Takes a call, and opens the device if the caller is avrstk, and not another program of this machine."""
        line, peer = port.accept()
        is_avrstk = is_ours([peer, line.getsockname()], self.mark)
        if is_avrstk:
            self.open(line)
            return
        line.close()
        if is_avrstk is False:
            print_line("refused another program at this run's own TCP port (as far as /proc shows)")

    def open(self, line: socket.socket) -> None:
        """Opens the device and waits for the board. Only the last SIGN_ON that avrstk sends meanwhile is passed on."""
        self.close()
        self.files = [line]
        line.setsockopt(socket.IPPROTO_TCP, socket.TCP_NODELAY, 1)
        line.setblocking(False)
        device = Device(self.words.device or "", self.words.speeds[0], self.words.is_bootloader)
        talk = Talk(device, self.outcome, self.progress)
        self.files, self.outcome.was_opened = [line, talk.end], True
        there, back = self.ways = Way(line, talk.end, talk.note_commands), Way(talk.end, line, talk.note_replies)
        ends = time.monotonic() + talk.wait
        while ready({line: READ, came: READ}, ends) == {line} and not there.has_ended:
            there.take()
        there.held = there.held[-7:]
        fcntl.ioctl(device, termios.TCFLSH, termios.TCIFLUSH)

    def close(self) -> None:
        """Closes avrstk's connection and the device, or the port."""
        for file in self.files:
            file.close()
        self.files, self.ways, self.port = [], (), None

    def bridge(self) -> None:
        """Passes bytes between avrstk and the device until avrstk has ended or a signal comes."""
        while True:
            watched: dict[Source, int] = {came: READ, self.tool.stderr: READ}
            if self.port:
                watched[self.port] = READ
            if messages.waiting:
                watched[2] = WRITE
            found = wait(self.ways, watched)
            # (avrstk prints an error line before it sends LEAVE, so its lines are read before its frames)
            if came in found or self.tool.receive() is False:
                return
            messages.send()
            try:
                if self.port and self.port in found:
                    self.take_call(self.port)
                for way in self.ways:
                    way.go_on(found)
            except OSError:
                self.close()
            if self.outcome.is_noisy or any(way.has_ended for way in self.ways):
                self.close()

    def end(self) -> None:
        """Ends avrstk and sets the status."""
        self.tool.stop()
        self.close()
        self.outcome.status = 0 if self.tool.end() == 0 and not ended_by() else 1


def other_program() -> str | None:
    """Returns the program that AVRSTK_ELSE names, or None. A link to this script, as one named avrdude, is none."""
    name, own = os.environ.get("AVRSTK_ELSE", ""), os.path.realpath(sys.argv[0])
    folders = [""] if "/" in name else os.environ.get("PATH", os.defpath).split(os.pathsep)
    places = [os.path.join(folder or os.curdir, name) for folder in folders if name]
    return next((place for place in places if shutil.which(place) and os.path.realpath(place) != own), None)


def why_other(words: Words) -> str | None:
    """Returns why these options are for another program; None if they are for avrstk."""
    unknown = {
        "-c": words.programmer.lower() not in SPEAKING,
        "-P": re.match(r"usb(:|$)", words.device or ""),
        "-p": words.parts_file is None and (words.part or "").lower() not in {*BUILT_IN, *parts(), "auto", "?", ""},
    }
    return next((f"{option} {words.last[option]} is not known here" for option in unknown if unknown[option]), None)


def leave_to_other(words: Words) -> None:
    """Runs the program that AVRSTK_ELSE names with the same options, if programmer, port or part are not avrstk's."""
    why = why_other(words)
    other = other_program() if why else None
    if why and not other and os.environ.get("AVRSTK_ELSE"):
        print_line(f"AVRSTK_ELSE={os.environ['AVRSTK_ELSE']}: no other program of this name can be run")
    # (it doesn't know the script's own options, and takes one port)
    has_own = words.unproved or any(option.startswith("--") for option in words.last)
    if other and not words.is_station and not has_own:
        print_line(f"{why}: starting {other} in place of avrstk")
        messages.finish()
        environment = {name: value for name, value in os.environ.items() if name != "AVRSTK_ELSE"}
        os.execve(other, [other, *sys.argv[1:]], environment)


def judge(words: Words) -> None:
    """Refuses what can be refused without avrstk."""
    leave_to_other(words)
    judge_options(words)
    words.report.stage = "file"
    for update in words.updates:
        is_read = update.is_image and not update.is_folder()
        update.judge(words.content(update.file) if is_read else None)
    judge_texts(words)
    if words.each or words.is_station or words.trial:
        check(words)
    if words.each:
        words.each.judge(words)
        check(words)
    words.report.stage = "arguments"
    far = why_far(words) if words.is_wiring else None
    if far:
        raise Fault(f"{far}: {UNOPENED}")
    words.report.stage = "device"
    if not words.has_port and not words.is_station:
        judge_device(words.device)
    words.report.stage = "arguments"
    if words.is_bootloader:
        judge_bootloader(words)
    if words.part != "auto":
        judge_part(words, UNOPENED)
    for device in words.devices:
        if re.fullmatch("net:[^:]*", device):
            raise Fault(f"-P {device}: give net:HOST:PORT")
    if not re.fullmatch(r"0{0,98}[0-9]{1,2}", words.retry):
        raise Fault(f"--retry {words.retry}: give a number from 0 to 99")
    if not words.has_port and not os.path.exists("/proc/net"):
        raise Fault("/proc/net is needed, and missing")
    if int(words.retry):
        need_device(words, "--retry")
        unfit = unrepaired(words)
        if unfit:
            why = "a second run may not repair this, or may hide or undo what the first one found or did"
            why = "a second run would write there once more" if unfit.is_stream() else why
            raise Fault(f"--retry takes no {options_of(words, unfit)}: {why}")


def judge_texts(words: Words) -> None:
    """Refuses what avrstk would get and can't take: a text that isn't UTF-8."""
    given = [words.part, words.parts_file, words.backup, *filter(is_port, words.devices)]
    for text in filter(None, [*given, *(update.text for update in words.updates)]):
        try:
            os.fsencode(text).decode()
        except UnicodeDecodeError:
            raise Fault(f"{text} is not UTF-8: {UNOPENED}")


def need_device(words: Words, option: str) -> None:
    """Refuses an option over a port of avrstk's own."""
    if words.has_port:
        raise Fault(f"{option} is for a serial device, not -P {words.device}")


def judge_options(words: Words) -> None:
    """Refuses options that are not avrstk-serial's, or have a value that they don't take."""
    if words.programmer.lower() not in SPEAKING:
        raise Fault(f"{why_other(words)}: -c '?' lists the names, and avrdude has others")
    for option in words.last:
        if option in REFUSED:
            raise Fault(f"{option} is not supported: {REFUSED[option]}")
    if not words.speeds:
        raise Fault(f"-b {words.last.get('-b')}: not a speed")
    if not re.fullmatch(r"(?=\.?[0-9])[0-9]*(\.[0-9]*)?", words.wait) or float(words.wait) > 3:
        raise Fault(f"--wait {words.wait}: give seconds from 0 to 3, such as 0.5")
    if words.is_version1:
        need_device(words, f"-c {words.programmer}")


def check(words: Words, earlier: frozenset[int] = frozenset()) -> None:
    """Lets avrstk_session judge the command line and the images, before several runs begin or a number is taken.
    `earlier` are the commands that were sent before."""
    if words.part == "auto":
        return
    only, quiet = copy.copy(words), subprocess.DEVNULL
    only.updates = [update.unwritten() if update.is_stream() else update for update in words.updates]
    command = [reported_session(), "--outline", *only.options("stdio:")]
    ran = subprocess.run(command, stdin=quiet, stdout=quiet, stderr=subprocess.PIPE, close_fds=False)
    if ran.returncode:
        lines = ran.stderr.splitlines()
        shown = [words.shown(line) for line in lines]
        messages.put(b"".join(line + b"\n" for line in shown))
        for line in shown:
            words.report.note(os.fsdecode(line).partition("avrstk: ")[2])
        texts = [judged_text(words, line) for line in lines]
        error = next((text[7:] for text in texts if text.startswith("error: ")), "")
        raise Fault(hint(Outcome(only, earlier, error=error), None))


def judge_rows(words: Words) -> None:
    """Refuses what --try-rows doesn't take."""
    own = {"--try-rows", "--yes", "--parts", "--wait", "-p", "-P", "-c", "-b", "-l", "-q", "-v", "-C", "-s", "-u"}
    if words.trial is None:
        if "--yes" in words.last:
            raise Fault("--yes is for --try-rows=all")
        return
    if words.trial not in ("safe", "all"):
        raise Fault(f"--try-rows={words.trial}: give --try-rows; --try-rows=all may also erase and lock the chip")
    for option in words.last:
        if option not in own:
            raise Fault(f"--try-rows takes no {option}")
    if words.is_station:
        raise Fault("--try-rows is for one board")
    need_device(words, "--try-rows")
    if words.trial == "all" and "--yes" not in words.last:
        raise Fault(f"--try-rows=all may erase and lock the chip: add --yes if you can lose it; {UNOPENED}")


def judge_files(words: Words, begin: str = "") -> None:
    """Refuses an output that is another file of this command, and the device as an image, before a file is opened. With
    `begin` only the outputs of options that begin so are judged."""
    # (a file may have the name of a port)
    devices = [device for device in words.devices if device != "all" and not is_port(device)]
    for update in words.updates if not begin else []:
        if update.is_image and any(is_one(update.file, device) for device in devices):
            raise Fault(f"-U {update.given}: {USED}: {UNOPENED}")
    ports = [device.partition("emu:")[2] for device in words.devices]
    inputs = {f"{port}{end}" for port in ports for end in ("", ".avrstk-new", ".avrstk-lock") if port}
    inputs |= {update.file for update in words.updates if update.is_image and update.file != "-"}
    inputs |= {words.parts_file or data_file("classic.toml"), *devices, words.last.get("--rows", "")}
    inputs |= set(files_of(words.restore))
    # (without a part file, and without a table)
    inputs -= {os.devnull, ""}
    outputs = [(f"-U {update.given}", update.file) for update in words.updates if update.operation == "r"]
    # (a log or a counter may be a file named `-`)
    outputs = [output for output in outputs if output[1] != "-"]
    given = [(option, words.last.get(option)) for option in ("-l", "--backup", "--counter", "--json")]
    outputs += [(f"{option} {file}", file) for option, file in given if file and (option, file) != ("--json", "-")]
    for number, (word, file) in enumerate(outputs):
        # (a stream takes several outputs)
        is_file = os.path.isfile(file) or not os.path.exists(file)
        others = [*inputs, *(name for _, name in outputs[:number] if is_file)]
        if word.startswith(begin) and any(is_one(file, name) for name in others):
            raise Fault(f"{word}: {USED}: {UNOPENED}")


def is_one(one: str, other: str) -> bool:
    """Whether two names lead to one file, or will."""
    with contextlib.suppress(OSError):
        return os.path.samefile(one, other)
    return os.path.realpath(one) == os.path.realpath(other)


def judge_bootloader(words: Words) -> None:
    """Refuses what a bootloader can't do. One of version 1 returns OK all the same, or writes flash in place of EEPROM;
    that of -c wiring erases pages by a count of its own."""
    if erases(words):
        needs = any(update.writes_flash() for update in words.updates) and "-D" not in words.flags
        give = "leave out -e" if not needs else "give -D" + ", not -e" * ("-e" in words.flags)
        raise Fault(
            f"-c {words.programmer} is for a board's own bootloader, which can't erase the chip: {give}; {UNOPENED}"
        )
    # (avrstk refuses what is no memory)
    for update in words.updates if words.is_version1 else []:
        if update.memory in MEMORIES and update.memory not in ("flash", "signature"):
            takes = f"-c {words.programmer} takes only flash and signature"
            raise Fault(f"{options_of(words, update)}: {takes}; {UNOPENED}")
    judge_pieces(words, UNOPENED)


def options_of(words: Words, update: Update) -> str:
    """Returns the options of an update: --each makes an image of its own, or changes one."""
    changed = " with --each" * has_number(words, update)
    return "--each" if update.file == "--each" else f"-U {update.given}{changed}"


def judge_pieces(words: Words, end: str) -> None:
    """Refuses flash that a bootloader can't write as the command does."""
    why = why_pieces(words)
    if why:
        # (srec_cat takes no faulty image. A session that asked has signed on)
        check(words, frozenset({SIGN_ON} if end != UNOPENED else ()))
        raise Fault(f"{why}; {end}")


def why_pieces(words: Words) -> str | None:
    """Returns why a bootloader can't write flash as the command does; None if it can, as far as is known."""
    writes = [update for update in words.updates if update.writes_flash()]
    if words.is_version1:
        pages = words.flash_pages() if len(writes) > 1 else None
        return OWN_PAGES if pages and overlaps(pages) else None
    return ONE_WRITE if len(writes) > 1 or writes and words.is_whole() is False else None


def unlike(update: Update, part: str | None, own: str) -> str | None:
    """Returns the chip or signature that an ELF file names, if it isn't that of a part with the signature `own`."""
    if update.chip not in (None, long_name(part)) and parts().get(update.chip or "", {}).get("signature") != own:
        return update.chip
    return None if update.signature in (None, own) else f"signature {update.signature}"


def judge_part(words: Words, end: str) -> None:
    """Refuses what the part decides: firmware for another one, and an image that leaves out a bootloader's pages."""
    known = parts() if words.parts_file is None else {}
    own = known.get((words.part or "").lower(), {}).get("signature")
    for update in words.updates if own else []:
        named = unlike(update, words.part, own or "")
        differs = f"{update.file} is for {named}, not {words.part}"
        if named and "-F" not in words.flags:
            raise Fault(f"{differs}; {end}")
        if named:
            words.note(f"warning: {differs}")
    writes = words.is_bootloader and any(update.writes_flash() for update in words.updates)
    # (without that program it isn't known which pages are written)
    if writes and reported_session():
        judge_pieces(words, end)


def is_far(words: Words, update: Update) -> bool:
    """Whether an update is of EEPROM that a bootloader reads at other addresses, as far as is known."""
    size = words.field("eeprom_size") if update.operation == "r" else update.size()
    return update.memory == "eeprom" and (size is None or size > 256)


def why_far(words: Words) -> str | None:
    """Returns why a bootloader can't read EEPROM as the command does; None if it can."""
    far = next((update for update in words.updates if is_far(words, update)), None)
    return f"{options_of(words, far)}: {FAR}" if far else None


def risk_of_loader(words: Words) -> str | None:
    """Returns what would go wrong at a Mega's own bootloader if -c wiring isn't given; None if nothing would, or if it
    can't be one. (It refuses an erase, and so a restore; and the calibration, and so a backup.)"""
    is_other = words.is_wiring or words.is_version1 or re.match("emu:|stdio:", words.device or "")
    if words.chip() != "atmega2560" or is_other or words.restore is not None or words.backup is not None:
        return None
    is_sent = "-D" in words.flags and not {"-e", "-n"} & set(words.flags)
    # (a later number may have a longer text)
    later = f"--each: {FAR}" if words.each and words.each.end_of("eeprom") > 256 else None
    return (why_pieces(words) if is_sent else None) or why_far(words) or later


def warn(words: Words) -> None:
    """Warns of fuses that can make the chip unreachable, even if -q is given twice, and of what isn't proved."""
    if words.is_version1:
        words.note(f"-c {words.programmer} speaks STK500 version 1: such runs are tested, not proved")
    # (of a part that isn't supported nothing is known)
    name = words.chip() if words.signature() or words.part in BUILT_IN else ""
    writes = [update for update in words.updates if update.operation == "w" and update.memory in FUSES]
    values = [(update, update.value()) for update in writes]
    found = [
        f"warning: {update.given} {what}: {GONE}"
        for names, (what, memory, mask, risky) in RISKS
        for update, value in values
        if name and re.match(names, name) and update.memory == memory and value is not None and value & mask == risky
    ]
    for line in found:
        print_line(line)


def ran(words: Words, put: Callable[[bytes], None] = messages.put, earlier: frozenset[int] = frozenset()) -> Outcome:
    """Makes a run, and gives the command again after faults that a second run repairs. Returns the last outcome."""
    count, outcome = int(words.retry), Outcome(words)
    while True:
        words.tries += 1
        words.report.stage = "file"
        if words.each:
            give(words, words.each, earlier, outcome.is_held)
        outcome = Outcome(words, earlier, is_held=outcome.is_held)
        words.report.stage = "device"
        run = Run(words, outcome, put)
        words.report.begin(outcome)
        try:
            run.bridge()
        except BaseException:
            run.tool.process.kill()
            if earlier:
                print_line(state_of(outcome))
            raise
        finally:
            run.end()
        # (if avrstk reported no error, it was ended; after a run only a file or stream can fail)
        words.report.stage = "interrupted" if outcome.status else "file"
        earlier |= outcome.commands
        repairs = re.match(rf"no answer$|{LOST_LINK}|\w+: address \w+: \w+ expected, \w+ found$", outcome.error)
        if words.tries > count or ended_by() or not outcome.status or not repairs:
            return outcome
        if words.each is None or words.each.has_next(words):
            words.note(f"{outcome.error}: trying again, {words.tries} of {count}")
        wait_for(words.device)
        if ended_by():
            # (no number is taken for a run that isn't made)
            return outcome


def judge_numbered(words: Words, end: str) -> None:
    """Refuses what a bootloader can't do with the text of a number, before the number is taken."""
    far = why_far(words) if words.is_wiring else None
    if far:
        raise Fault(f"{far}: {end}")
    if words.is_bootloader:
        judge_pieces(words, end)


def give(words: Words, each: Each, earlier: frozenset[int], is_held: bool) -> None:
    """Takes the number of a run. If that fails after a first run or a signal, the error describes the chip, too."""
    each.end = each.end if words.tries == 1 else "the command is not run again"
    try:
        each.give(words, lambda: judge_numbered(words, each.end))
    except (Fault, OSError) as fault:
        if words.tries == 1 and not ended_by():
            raise
        state = MAYBE_CHANGED if CHANGING & earlier else UNCHANGED
        raise Fault(f"{text_of(fault)}; {state}{', and may be in programming mode' * is_held}")


def wait_for(device: str | None) -> None:
    """Waits until a device is back; for at most ten seconds."""
    ends = time.monotonic() + 10
    while not ended_by() and time.monotonic() < ends:
        with contextlib.suppress(Fault):
            judge_device(device)
            return
        time.sleep(0.1)


def ask(
    words: Words, flags: list[str], updates: list[Update], part: str | None = None, risk: str | None = None
) -> tuple[Outcome, str]:
    """Runs a session before the run. It writes nothing, and prints nothing if all goes well. Returns its outcome and
    its lines. `risk` is the error if the device refuses the calibration, as a bootloader does."""
    session, report = copy.copy(words), words.report
    session.flags, session.updates, session.part, session.each = flags, updates, part or words.part, None
    lines: list[bytes] = []
    before = len(report.lines)
    outcome = ran(session, lines.append)
    outcome.may_change, words.speeds = False, session.speeds
    # (status C1 is that of a frame that arrived corrupt)
    is_loader = risk is not None and bool(re.match("command 1C refused with status (?!C1)", outcome.error))
    if is_loader or not outcome.status:
        # (what the session before the run read or compared is no update of the run)
        report.lines[before:] = [line for line in report.lines[before:] if line.startswith("device signature")]
    if is_loader:
        report.stage = "refused"
        raise Fault(f"the device refuses to read the calibration, as a bootloader does: {risk}; {UNWRITTEN}")
    if outcome.status:
        # (-p auto takes any part to ask)
        messages.put(b"".join(line for line in lines if not line.startswith(b"avrstk: warning: signature is ")))
        if not words.has_port:
            outcome.is_before = True
            raise Fault(hint(outcome, ended_by()))
    return outcome, b"".join(lines).decode()


def ask_first(words: Words, risk: str | None) -> Outcome:
    """Makes the session before a run that a bootloader may do otherwise, and returns its outcome. A bootloader of
    version 1 replies OK to all that a restore sends, but reads each fuse as 00."""
    flags = [flag for flag in words.flags if flag in ("-F", "-q")]
    files = {fuse: os.memfd_create(fuse, 0) for fuse in ("lfuse", "hfuse", "lock") if words.is_version1}
    reads = [Update(f"{fuse}:r:/dev/fd/{file}:r") for fuse, file in files.items()]
    try:
        outcome, _ = ask(words, flags, [*asking(words.restore), *reads], risk=risk)
        found = [os.pread(file, 1, 0) for file in files.values()]
    finally:
        for file in files.values():
            os.close(file)
    if files and set(found) == {b"\0"}:
        words.report.stage = "refused"
        raise Fault(f"{', '.join(files)} read as 00, as from a bootloader; {UNWRITTEN}")
    return outcome


def detect(words: Words) -> set[int]:
    """Takes the part of the chip's signature for -p auto. Returns the commands that were sent."""
    need_device(words, "-p auto")
    if words.parts_file is not None:
        raise Fault("-p auto takes no --parts")
    if not parts():
        raise Fault(NO_PARTS)
    outcome, lines = ask(words, ["-F", "-n"], [], "m328p")
    (signature,) = re.findall(r"^avrstk: device signature = ((?:\w\w ?){3})$", lines, re.M)
    names = parts_of(signature)
    words.report.stage = "no chip" if signature in NO_SIGNATURES else "arguments" if names else "other part"
    if signature in NO_SIGNATURES:
        raise Fault(f"-p auto: {NO_CHIP}; {UNWRITTEN}")
    if len(names) != 1:
        found = " or ".join(names) or "no part of classic.toml"
        raise Fault(f"-p auto: the signature {signature} is that of {found}; {UNWRITTEN}")
    words.note(f"-p auto takes {names[0]}")
    words.part = names[0]
    return outcome.commands


def prepare(words: Words) -> None:
    """Judges the command line, makes the log and the folder that it names, and prints what is understood otherwise."""
    lone = [option for option in ("--from", "--rows", "--counter") if option in words.last and not words.each_given]
    if lone:
        raise Fault(f"{' and '.join(lone)}: only with --each")
    words.report.stage = "file"
    if words.restore is not None:
        try:
            words.updates, words.flags = restored(words, words.restore), [*words.flags, "-e"]
        except (Fault, OSError) as fault:
            raise Fault(f"{text_of(fault)}: {UNOPENED}")
    words.each = Each(words) if words.each_given else None
    judge_files(words)
    words.report.stage = "arguments"
    judge_rows(words)
    judge(words)
    if "-l" in words.last:
        words.report.stage = "file"
        try:
            stream = standard(words.last["-l"])
            messages.log = open(words.last["-l"] if stream is None else os.dup(stream), "wb", 0)
        except OSError as fault:
            raise Fault(f"-l {words.last['-l']}: {fault.strerror}: {UNOPENED}")
        messages.write_log()
    words.report.stage = "arguments"
    if words.left_out:
        words.note(f"ignored: {', '.join(words.left_out)}")
    for update in words.updates if "-q" not in words.flags else []:
        if update.named and update.front:
            print_line(f"{update.file} is read as {FORMATS[update.named]} (:{update.named})")


def reported(words: Words) -> int:
    """Makes the run, and its report if --json asks for one."""
    status = 1
    try:
        status = serve(words)
    except (Fault, OSError) as fault:
        words.report.fault = text_of(fault)
        raise
    finally:
        messages.finish()
        if messages.lost and not status:
            status, words.report.stage, words.report.fault = 1, "file", "a message can't be written"
        if "--json" in words.last and not write(words.last["--json"], words.report.made(words, status, ended_by())):
            status = 1
    return status


def serve(words: Words) -> int:
    prepare(words)
    heed_signals()
    return perform(words)


def perform(words: Words) -> int:
    if words.trial:
        if words.part == "auto":
            detect(words)
        return try_rows(words, lambda: opened(words))
    if words.backup is not None:
        return back_up(words, words.backup, lambda: execute(words))
    return execute(words)


def live(words: Words) -> int:
    """Makes the run of one of several boards, in a process of its own."""
    words.report.stage = "file"
    judge_files(words)
    for update in words.updates:
        if update.operation == "r":
            update.judge(None)
    words.report.stage = "device"
    if not words.has_port:
        judge_device(words.device)
    words.report.stage = "file"
    if words.each:
        # (what is judged later has a number's text)
        words.each.judge(words)
    return perform(words)


def execute(words: Words) -> int:
    """Makes the run, after sessions that only ask. Prints what it changes or warns of even if -q is given twice."""
    sent: set[int] = set()
    if words.part == "auto":
        sent |= detect(words)
        judge_part(words, UNWRITTEN)
        if words.each:
            # (only now the size of a memory is known, and no number is taken yet)
            words.report.stage, words.each.end = "file", UNWRITTEN
            check(words.each.without(words), frozenset(sent))
            words.each.judge(words)
    risk = risk_of_loader(words)
    if risk and not sent:
        # (what avrstk refuses opens no device)
        check(words)
    if risk or words.restore is not None:
        outcome = ask_first(words, risk)
        sent |= outcome.commands
        if words.each:
            words.each.end = UNWRITTEN
        if outcome.status:
            return outcome.status
    # (a backup has the bits as they were read)
    bits = words.bits() if words.parts_file is None and words.restore is None else {}
    for update in words.updates:
        if update.mask(bits):
            print_line(f"{words.part} lacks bits of {update.memory}: {update.given} becomes {update.text}")
    warn(words)
    outcome = ran(words, earlier=frozenset(sent))
    if outcome.status and not words.has_port:
        raise Fault(hint(outcome, ended_by()))
    if not outcome.status and words.backup is None and "flash: 0 bytes read" in words.report.last_lines():
        words.note("all of flash read as FF")
    return outcome.status


def judged() -> Words:
    """Returns the command line. If it can't be read, a report that it asks for has what is found of it."""
    given, report = sys.argv[1:], Report()
    try:
        return Words(given, report)
    except (Fault, getopt.GetoptError) as fault:
        found: list[str] = []
        for word, text in zip(given, [*given[1:], ""]):
            name, value = (word[:2], word[2:] or text) if word[:2] in ("-p", "-P", "-c") else word.partition("=")[::2]
            value = text if word == "--json" else value
            if name in ("-p", "-P", "-c", "--json") and (value == "-" or value[:1] not in ("", "-")):
                found += [name, value]
        words, report.fault = Words(found, report), text_of(fault)
        place = words.last.get("--json", "")
        # (a name that comes twice may be that of another file, and a folder that is named may be a backup)
        folders = {os.path.realpath(word.partition("=")[2] or word) for word in given if word}
        is_other = sum(place in word for word in given) > 1 or os.path.dirname(os.path.realpath(place)) in folders
        if place == "-" or place and not is_other and not fault_of(place):
            write(place, made(words, [], 1, 0.0) if words.is_station else report.made(words, 1, None))
        raise


def main(help_text: str) -> int:
    words = judged()
    messages.is_logged = "-l" in words.last
    if "--help" in words.last:
        show(help_text)
    elif {"-h", "-?"} & set(words.last) or not sys.argv[1:]:
        show(brief(help_text))
    elif "--version" in words.last:
        if words.unproved:
            compile_unproved()
        show(version(words.unproved))
    elif words.device == "?":
        list_devices()
    elif words.part == "?":
        list_parts()
    elif words.programmer == "?":
        show("\n".join(SPEAKING))
    else:
        if words.unproved:
            build_unproved()
        # (a refused command has a report, too, but not in place of its own files)
        judge_files(words, "--json ")
        place = words.last.get("--json", "-")
        fault = fault_of(place)
        if fault:
            raise Fault(f"--json {place or repr('')} {fault}: {UNOPENED}")
        return station(words, DEVICES, prepare, live) if words.is_station else reported(words)
    return 0

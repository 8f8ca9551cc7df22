"""What avrstk-serial and avrstk-serve share."""

from __future__ import annotations

import contextlib
import functools
import getopt
import io
import os
import re
import select
import selectors
import shutil
import signal
import socket
import subprocess
import sys
import time
from pathlib import Path
from typing import Callable, Iterable, Mapping, Protocol, Union

# the folder and the name of the script that loads this module. In a clone, ./avrstk knows the built programs
HERE, NAME = os.path.split(os.path.realpath(sys.argv[0]))
IS_CLONE = os.path.exists(os.path.join(HERE, "crates.txt"))

READ, WRITE = selectors.EVENT_READ, selectors.EVENT_WRITE

# avrstk has these parts without a part file; the others are in one that comes with it
BUILT_IN = {"m328p", "t85", "m2560"}
NO_PARTS = "classic.toml is missing, or has no parts"


class Fault(Exception):
    """Ends the script with an error line."""


class File(Protocol):
    """What has a file descriptor: a file, a socket, a device, or the signals received."""

    def fileno(self) -> int:
        ...


Source = Union[int, File]


def ready(watched: Mapping[Source, int], until: float | None = None) -> set[Source]:
    """Waits until some of these files are ready for their events, and returns them; none if `until` passes."""
    with selectors.PollSelector() as selector:
        for file, events in watched.items():
            selector.register(file, events)
        seconds = None if until is None else max(0, until - time.monotonic())
        return {key.fileobj for key, _ in selector.select(seconds)}


class Signals:
    """The signals that end the script. As a file it is readable once one was received."""

    @functools.cached_property
    def ends(self) -> tuple[socket.socket, socket.socket]:
        received, noted = socket.socketpair()
        noted.setblocking(False)
        return received, noted

    def fileno(self) -> int:
        return self.ends[0].fileno()

    def first(self) -> int:
        """Returns the number of the first signal received. Waits for it."""
        return self.ends[0].recv(1, socket.MSG_PEEK)[0]

    def note(self, number: int) -> None:
        self.ends[1].send(bytes([number]))

    def begin_anew(self) -> None:
        """Forgets the signals received. After a fork those that come next are this process's own."""
        received, noted = socket.socketpair()
        noted.setblocking(False)
        for new, old in zip((received, noted), self.ends):
            os.dup2(new.fileno(), old.fileno(), False)

    def heed(self, number: int) -> None:
        """Notes this signal from now on."""
        signal.set_wakeup_fd(self.ends[1].fileno(), warn_on_full_buffer=False)
        signal.signal(number, lambda *_: None)


ENDING = (signal.SIGINT, signal.SIGTERM, signal.SIGHUP)
came = Signals()


def heed_signals() -> None:
    """Notes signals from now on. (Under nohup, or in a shell's background, some are ignored, and stay so.)"""
    for number in ENDING:
        if signal.getsignal(number) is not signal.SIG_IGN:
            came.heed(number)


def name_of_signal(number: int) -> str:
    """Returns the name of a signal; its number if it has none."""
    try:
        return signal.Signals(number).name
    except ValueError:
        return f"signal {number}"


def ended_by() -> int | None:
    """Returns the number of the first signal received; None if none was."""
    return came.first() if ready({came: READ}, time.monotonic()) else None


class Messages:
    """Standard error, with a progress line below. If it is full, lines wait. `lost`: one could not be printed."""

    def __init__(self) -> None:
        self.waiting, self.lost, self.drawn = b"", False, 0
        # whether -l is given, its file once that is opened, and what it is to have
        self.is_logged = False
        self.log: io.FileIO | None = None
        self.unlogged = b""
        # whether progress is drawn, and what draws it in place of this class
        self.is_drawn = os.isatty(2)
        self.painter: Callable[[str], None] | None = None

    def send(self, piece: bytes = b"", until: float | None = None) -> None:
        """Prints as much as a file takes that is ready, or gets ready by then: at most PIPE_BUF bytes don't block."""
        self.waiting += piece
        try:
            while self.waiting and ready({2: WRITE}, until or time.monotonic()):
                self.waiting = self.waiting[os.write(2, self.waiting[: select.PIPE_BUF]) :]
        except OSError:
            self.waiting, self.lost = b"", True

    def put(self, line: bytes) -> None:
        """Prints a line, also into the file of -l."""
        self.draw("")
        self.send(line)
        if self.is_logged:
            self.write_log(line)

    def write_log(self, line: bytes = b"") -> None:
        """Writes a line into the file of -l. Until that is opened, the lines wait."""
        self.unlogged += line
        try:
            while self.log and self.unlogged:
                self.unlogged = self.unlogged[self.log.write(self.unlogged) :]
        except OSError:
            self.unlogged, self.lost = b"", True

    def draw(self, text: str) -> None:
        """Draws a progress line in place of the one before; an empty text removes that."""
        if self.painter:
            self.painter(text)
        elif text or self.drawn:
            wide = os.get_terminal_size(2).columns if os.isatty(2) else 0
            text = text[: (wide or 80) - 1]
            self.send(f"\r{text.ljust(self.drawn)}".encode() + (b"" if text else b"\r"))
            self.drawn = len(text)

    def finish(self) -> None:
        """Waits until all lines are printed; after a signal, for at most a second."""
        self.draw("")
        ends = time.monotonic() + 1
        while self.waiting and (not ended_by() or time.monotonic() < ends):
            self.send(until=time.monotonic() + 0.02)
        self.lost |= bool(self.waiting)


messages = Messages()


def readable(text: str) -> str:
    """Returns a text that is safe to print: control bytes, and bytes that are not UTF-8, become \\xNN."""

    def shown(character: str) -> str:
        codes = "".join(f"\\x{byte:02x}" for byte in character.encode("utf-8", "surrogateescape"))
        return character if character.isprintable() else codes

    return "".join(map(shown, text))


def print_line(text: str) -> None:
    """Prints a line on standard error."""
    messages.put(f"{NAME}: {readable(text)}\n".encode())


def show(text: str, stream: int = 1) -> None:
    """Prints on standard output, or on standard error (2). (A name may not be UTF-8.)"""
    rest = f"{text}\n".encode("utf-8", "surrogateescape")
    try:
        while rest:
            rest = rest[os.write(stream, rest) :]
    except OSError as fault:
        raise Fault(f"standard {'output' if stream == 1 else 'error'} cannot be written: {fault.strerror}")


def standard(name: str) -> int | None:
    """Returns which standard stream writes into this file, if one does, such as /dev/stdout. (If the file were opened
    once more, one would write over the other.)"""
    for stream in (1, 2):
        with contextlib.suppress(OSError):
            if os.path.isfile(name) and os.path.samestat(os.stat(name), os.fstat(stream)):
                return stream
    return None


def brief(help_text: str) -> str:
    """Returns what -h prints: the part of the help that fits on a screen."""
    return help_text.partition("\n\nIn full:")[0]


def text_of(fault: Exception) -> str:
    """Returns the text of the line that reports a fault."""
    if not isinstance(fault, OSError):
        return str(fault)
    return ("" if fault.filename is None else f"{fault.filename}: ") + (fault.strerror or str(fault))


def set_up() -> None:
    """Prepares the process. No file may be opened before."""
    # (some daemons leave this signal ignored; then the system keeps no status of a program that has ended)
    signal.signal(signal.SIGCHLD, signal.SIG_DFL)
    # (a closed standard stream is opened: else a device gets its number, and messages go there. Its use still fails)
    for stream, mode in [(0, os.O_WRONLY), (1, os.O_RDONLY), (2, os.O_RDONLY)]:
        try:
            os.fstat(stream)
        except OSError:
            os.set_inheritable(os.open("/dev/null", mode), True)


def run(main: Callable[[str], int], help_text: str, needs_lines: bool = False) -> None:
    """Ends the script with the status of its main function; with 1 if a line could not be printed that it needs."""
    set_up()
    try:
        status = main(help_text.strip())
    except (Fault, OSError, getopt.GetoptError) as fault:
        print_line(text_of(fault))
        status = 1
    messages.finish()
    sys.exit(1 if needs_lines and messages.lost else status)


def data_file(name: str) -> str:
    """Returns the path of a file that comes with avrstk: in the repository, or where install.sh puts it."""
    places = [os.path.join(HERE, folder, name) for folder in ("parts", "../share/avrstk")]
    return next((os.path.normpath(place) for place in places if os.path.isfile(place)), os.devnull)


@functools.lru_cache(maxsize=None)
def parts() -> dict[str, dict[str, str]]:
    """Returns the parts of avrstk's part file, each with its fields; none if the file is not there."""
    found = re.findall(r"^([\w-]+) = \{ (.*) \}$", Path(data_file("classic.toml")).read_text("ascii"), re.M)
    return {name: dict(re.findall(r'(\w+) = "?(\w+)', fields)) for name, fields in found}


def part_words(part: str | None, file: str | None) -> list[str]:
    """Returns avrstk's options for a part and a part file; without one, for the file that comes with avrstk."""
    if part is not None and file is None:
        known = parts()
        part = next((name for name in (part, part.lower()) if name in BUILT_IN or name in known), part)
        if part not in BUILT_IN:
            if not known:
                raise Fault(f"{part}: {NO_PARTS}")
            file = data_file("classic.toml")
    given = {"--parts": file, "-p": part}
    return [word for name, value in given.items() if value is not None for word in (name, value)]


def program() -> str:
    """Returns the program that AVRSTK names, or the one beside the script."""
    return runnable(os.environ.get("AVRSTK") or os.path.join(HERE, "avrstk"))


def runnable(file: str) -> str:
    """Returns this path of a program, which has to be there."""
    if not shutil.which(file):
        raise Fault(f"{file} is missing, or can't be run")
    return file


def asked(*command: str, messages_to: int | None = None) -> str:
    """Returns what a program prints on standard output. Its messages go to `messages_to`, or standard error."""
    ran = subprocess.run(command, stdout=subprocess.PIPE, stderr=messages_to)
    return os.fsdecode(ran.stdout).rstrip("\n")


@functools.lru_cache(maxsize=None)
def built(messages_to: int | None = None) -> str:
    """Returns the path of avrstk, without links. In a clone it is a built program, not the script ./avrstk."""
    found = program()
    own = os.path.join(HERE, "avrstk")
    if IS_CLONE and os.path.realpath(shutil.which(found) or found) == os.path.realpath(own):
        # (if no program is built, ./avrstk has reported it)
        return os.path.realpath(asked(found, "--which", messages_to=messages_to) or sys.exit(1))
    return os.path.realpath(shutil.which(found) or found)


def beside(file: str, name: str) -> str | None:
    """Returns the path of a file that comes with avrstk: beside it, or where a build or install.sh puts it."""
    places = [f"{os.path.dirname(file)}/{folder}{name}" for folder in ["", "../lib/avrstk/", f"../../{name}/out/"]]
    return next((os.path.normpath(place) for place in places if os.path.isfile(place)), None)


def session_program(messages_to: int | None = None) -> str:
    """Returns the path of avrstk_session, which serves one client. ./avrstk's messages go to `messages_to`."""
    file = built(messages_to)
    return runnable(beside(file, "avrstk_session") or os.path.join(os.path.dirname(file), "avrstk_session"))


def reported_session() -> str:
    """Returns the path of avrstk_session. ./avrstk prints its messages only if no program is built."""
    try:
        return session_program(subprocess.DEVNULL)
    except SystemExit:
        return session_program()


def build_unproved() -> None:
    """Lets a clone's ./avrstk compile the program without proofs, if no program is built that a run could ask."""
    with contextlib.suppress(SystemExit):
        built(subprocess.DEVNULL)
        return
    compile_unproved()


def compile_unproved() -> None:
    """Lets a clone's ./avrstk compile the program without proofs, if it isn't built from the sources as they are."""
    if subprocess.run([program(), "--unproved"]).returncode:
        sys.exit(1)


def stamp_of(file: str) -> str:
    """Returns the stamp of a built program; an empty text if there is none that can be read."""
    if IS_CLONE:
        return asked(os.path.join(HERE, "avrstk"), "--stamp-of", file)
    with contextlib.suppress(OSError):
        return Path(beside(file, "avrstk.stamp") or os.devnull).read_text("utf-8", "surrogateescape")
    return ""


@functools.lru_cache(maxsize=None)
def version(is_unproved: bool = False) -> str:
    """Returns the version of avrstk, and lines of its build's stamp: whether it is proved, its commit and kit."""
    file, unproved = built(), os.path.join(HERE, "out", "unproved", "avrstk")
    # (a clone may have both programs)
    file = unproved if is_unproved and IS_CLONE and os.access(unproved, os.X_OK) else file
    number = re.search(r"This is avrstk (\S+)\.", " ".join(asked(file, "--help").split()))
    rows = [row for row in stamp_of(file).splitlines() if not row.startswith(("sources: ", "program "))]
    return "\n".join([f"avrstk {number[1] if number else '?'}", *(rows or ["not known whether it is proved"])])


Change = Callable[[bytes], bytes]


def unchanged(piece: bytes) -> bytes:
    return piece


class Way:
    """Passes what `change` makes of bytes from one file to another, piece by piece. Both files are non-blocking."""

    def __init__(self, source: File, sink: File, change: Change = unchanged) -> None:
        self.source, self.sink, self.change, self.held, self.has_ended = source, sink, change, b"", False

    def take(self) -> None:
        """Takes the bytes that are there, or notes the end of the source."""
        piece = os.read(self.source.fileno(), 65_536)
        self.held, self.has_ended = self.held + self.change(piece), not piece

    def go_on(self, found: set[Source]) -> bool:
        """Passes bytes on if a file that is waited for is among the ready ones. Returns whether anything moved."""
        if self.has_ended or (self.sink if self.held else self.source) not in found:
            return False
        try:
            if not self.held:
                self.take()
            if self.held:
                self.held = self.held[os.write(self.sink.fileno(), self.held) :]
            return True
        except BlockingIOError:
            return False


def wait(ways: Iterable[Way], watched: Mapping[Source, int], until: float | None = None) -> set[Source]:
    """Waits as `ready` does, also for the files of these ways."""
    both: dict[Source, int] = dict(watched)
    for way in ways:
        file, events = (way.sink, WRITE) if way.held else (way.source, READ)
        if not way.has_ended:
            both[file] = both.get(file, 0) | events
    return ready(both, until)


def is_frame(piece: bytes) -> bool:
    """Whether a piece of a stream is a frame. (A bad header has five bytes, and noise no start byte.)"""
    return piece[0] == 0x1B and len(piece) > 5


class Frames:
    """Cuts a stream of STK500v2 as the programmer does: docs/PROTOCOL has the rule."""

    def __init__(self) -> None:
        self.held = b""

    def pieces(self, more: bytes) -> list[bytes]:
        """Returns the pieces that these bytes complete: frames, bad headers and noise. What may begin one is kept."""
        held, at = self.held + more, 0
        found: list[bytes] = []
        while at < len(held):
            start = held.find(0x1B, at)
            end = start if start > at else len(held)
            if start == at:
                size = int.from_bytes(held[at + 2 : at + 4], "big")
                end = at + (size + 6 if held[at + 4 : at + 5] == b"\x0e" and 0 < size <= 275 else 5)
            if end > len(held):
                break
            found.append(held[at:end])
            at = end
        self.held = held[at:]
        return found

"""avrstk-serial for several boards: one process for each, side by side. The images are read once, before. A board's
lines have its device in front, and a table comes at the end."""

from __future__ import annotations

from avrstk_common import ENDING, NAME, READ, WRITE, Fault, Source, came, ended_by, heed_signals, messages, ready
from avrstk_common import name_of_signal, print_line, readable, show, text_of, version
from avrstk_hints import MAYBE_CHANGED, POWER_CYCLE, UNCHANGED
from avrstk_report import CHANGED, Report, write
from avrstk_words import MARK, UNOPENED, Update, Words, is_port

import contextlib
import copy
import json
import os
import re
import signal
import time
import traceback
from typing import Any, Callable, NoReturn, Sized

# the most seconds between two drawings of the boards on a terminal
PAUSE = 0.1


class Board:
    """A board of the command: its options, its process, and what was received from it."""

    def __init__(self, words: Words) -> None:
        self.words, self.device, self.number = words, words.device or "", 0
        # the ends of its pipes that are read, each with what takes a line of it
        self.pipes: dict[int, Callable[[bytes], None]] = {}
        self.kept: dict[int, bytes] = {}
        # what is drawn, and what is reported once it has ended
        self.state = "begins"
        self.outcome: dict[str, Any] | None = None
        self.report: dict[str, Any] | None = None
        # why a line of its output could not be printed
        self.fault: str | None = None
        self.begun = time.monotonic()

    def start(self, live: Callable[[Words], int], others: list[Board]) -> None:
        """Starts its process, which gets no signal before it heeds signals."""
        ends = [os.pipe() for _ in range(3)]
        signal.pthread_sigmask(signal.SIG_BLOCK, ENDING)
        self.number = os.fork()
        if not self.number:
            for end in [pipe for board in others for pipe in board.pipes] + [reader for reader, _ in ends]:
                os.close(end)
            become(self.words, live, *(end for _, end in ends))
        signal.pthread_sigmask(signal.SIG_UNBLOCK, ENDING)
        takers = [self.print_output, self.print_message, self.note]
        for (reader, writer), taker in zip(ends, takers):
            os.close(writer)
            self.pipes[reader], self.kept[reader] = taker, b""

    def receive(self, pipe: int) -> None:
        """Takes the bytes that a pipe has, line by line, or its end."""
        piece = os.read(pipe, 65_536)
        *lines, self.kept[pipe] = (self.kept[pipe] + piece).split(b"\n")
        if not piece and self.kept[pipe]:
            lines.append(self.kept[pipe])
        for line in lines:
            self.pipes[pipe](line)
        if not piece:
            os.close(pipe)
            del self.pipes[pipe]

    def front(self, line: bytes) -> bytes:
        return f"{readable(self.device)}: ".encode() + line

    def print_message(self, line: bytes) -> None:
        self.state = re.sub(r"^\S+: ", "", os.fsdecode(line))
        messages.put(self.front(line) + b"\n")

    def print_output(self, line: bytes) -> None:
        """Prints a line of standard output. If that fails, all go on, and this board's run counts as failed."""
        messages.draw("")
        try:
            show(os.fsdecode(self.front(line)))
        except Fault as fault:
            self.fault = str(fault)
            self.print_message(f"{NAME}: {fault}".encode())

    def note(self, line: bytes) -> None:
        """Takes its progress, or at its end what became of it."""
        held = json.loads(line)
        self.state = held.get("progress", self.state)
        self.outcome, self.report = held.get("outcome", self.outcome), held.get("report", self.report)

    def end(self) -> None:
        """Waits for its process, and completes the outcome of one that was killed."""
        _, status = os.waitpid(self.number, 0)
        if self.outcome is None:
            report, changes = Report(), self.words.changes()
            report.begun = self.begun
            how = name_of_signal(os.WTERMSIG(status)) if os.WIFSIGNALED(status) else "too early"
            report.stage, report.fault = "interrupted", f"its process ended ({how})"
            state = MAYBE_CHANGED if changes else UNCHANGED
            state += f"; {POWER_CYCLE}" * (not self.words.has_port)
            self.print_message(f"{NAME}: {report.fault}: {state}".encode())
            self.outcome, self.report = outcome_of(self.words, report, 1)
            for held in (self.outcome, self.report or {}) if changes else ():
                held["chip"] = CHANGED
        if self.fault and self.outcome and not self.outcome["status"]:
            for held in (self.outcome, self.report or {}):
                held.update(status=1, kind="file", error=self.fault)
        self.state = self.result()

    def result(self) -> str:
        """Describes how it ended."""
        outcome: dict[str, Any] = self.outcome or {}
        if not outcome.get("status"):
            return "done"
        error = f": {outcome['error']}" if outcome.get("error") else ""
        # (a chip that may be changed counts as changed. If all was done, what came after the run failed)
        chip = re.sub("^done$", "changed as asked", f"{outcome.get('chip')}".replace("erased", "may be erased"))
        return f"failed ({outcome.get('kind')}), chip {chip}{error}"


def outcome_of(words: Words, report: Report, status: int) -> tuple[dict[str, Any], dict[str, Any] | None]:
    """Returns what the table has of a run, and its report if --json asks for one."""
    whole = report.made(words, status, ended_by()) if "--json" in words.last else None
    return report.outcome(words, status, ended_by()), whole


def become(words: Words, live: Callable[[Words], int], output: int, error: int, news: int) -> NoReturn:
    """Makes this process that of one board, and ends it with the status of its run."""
    status = 1
    try:
        # (a signal of another process, and a message that waits there, are not this one's)
        came.begin_anew()
        messages.waiting, messages.is_logged, messages.painter = b"", False, lambda text: draw(news, text)
        signal.pthread_sigmask(signal.SIG_UNBLOCK, ENDING)
        for file, stream in [(os.open(os.devnull, os.O_RDONLY), 0), (output, 1), (error, 2)]:
            os.dup2(file, stream)
        own = words.report = Report()
        try:
            status = live(words)
        except (Fault, OSError) as fault:
            own.fault = text_of(fault)
            print_line(own.fault)
        except SystemExit:
            # (a program that it needs is not built, which is reported)
            pass
        messages.finish()
        status = 1 if messages.lost else status
        outcome, report = outcome_of(words, own, status)
        os.set_blocking(news, True)
        rest = json.dumps({"outcome": outcome, "report": report}).encode() + b"\n"
        while rest:
            rest = rest[os.write(news, rest) :]
    except BaseException:
        traceback.print_exc()
    finally:
        os._exit(status)


def draw(news: int, text: str) -> None:
    """Sends the progress of a board to the process that draws all; it is lost if that one is slow."""
    if text:
        os.set_blocking(news, False)
        with contextlib.suppress(OSError):
            os.write(news, json.dumps({"progress": text.partition(": ")[2]}).encode() + b"\n")


class Screen:
    """One line for each board, below the messages on a terminal."""

    def __init__(self, boards: list[Board]) -> None:
        self.boards, self.rows, self.drawn = boards, 0, 0.0
        self.is_wanted = messages.is_drawn and "-q" not in boards[0].words.flags

    def clear(self, _: str = "") -> None:
        if self.rows:
            messages.send(f"\x1b[{self.rows}A\r\x1b[J".encode())
            self.rows = 0

    def paint(self) -> None:
        """Draws the boards that still run, and as many others as there is room for."""
        is_recent = self.rows and time.monotonic() < self.drawn + PAUSE
        if not self.is_wanted or is_recent or messages.waiting:
            return
        self.clear()
        size, wide = os.get_terminal_size(2), max(len(board.device) for board in self.boards)
        shown = sorted(self.boards, key=lambda board: not board.pipes)[: max(1, (size.lines or 24) - 2)]
        drawn = [board for board in self.boards if board in shown]
        rows = [f"{board.device:{wide}} {board.state}"[: (size.columns or 80) - 1] for board in drawn]
        messages.send("".join(f"{readable(row)}\n" for row in rows).encode())
        self.rows, self.drawn = len(rows), time.monotonic()


def side_by_side(boards: list[Board], live: Callable[[Words], int]) -> int:
    """Runs all boards. A signal goes on to each of them. Returns the status: 0 if each board has it."""
    screen, number = Screen(boards), None
    messages.painter = screen.clear
    for board in boards:
        board.start(live, boards)
    while any(board.pipes for board in boards):
        watched: dict[Source, int] = {pipe: READ for board in boards for pipe in board.pipes}
        if number is None:
            watched[came] = READ
        if messages.waiting:
            watched[2] = WRITE
        found = ready(watched)
        for board, pipe in [(board, pipe) for board in boards for pipe in board.pipes if pipe in found]:
            board.receive(pipe)
            if not board.pipes:
                board.end()
        if came in found:
            number = came.first()
            for board in boards:
                if board.pipes:
                    os.kill(board.number, number)
        messages.send()
        screen.paint()
    screen.clear()
    messages.painter = None
    return 0 if all(board.outcome and board.outcome["status"] == 0 for board in boards) else 1


def count_of(boards: Sized) -> str:
    return f"{len(boards)} board{'s' * (len(boards) != 1)}"


def table(words: Words, boards: list[Board]) -> None:
    """Prints what became of each board."""
    rows = [["board", *["number"] * bool(words.each), "time", "result"]]
    for board in boards:
        outcome: dict[str, Any] = board.outcome or {}
        number = ["-" if outcome.get("number") is None else str(outcome["number"])] * bool(words.each)
        rows.append([board.device, *number, f"{outcome.get('seconds', 0):.1f} s", board.result()])
    widths = [max(map(len, column)) for column in zip(*rows)]
    for row in rows:
        words.note("  ".join(cell.ljust(wide) for cell, wide in zip(row, widths)).rstrip())
    failed = sum(bool(board.outcome is None or board.outcome["status"]) for board in boards)
    words.note(f"{count_of(boards)}: {len(boards) - failed} done, {failed} failed")


def name_of(device: str) -> str:
    """Returns what MARK becomes for a device."""
    return re.sub(r"[^\w.+-]", "-", os.path.basename(device))


def judge_outputs(words: Words) -> None:
    """Refuses outputs that several boards would write into."""
    reads = [update for update in words.updates if update.operation == "r"]
    names = [update.file for update in reads if update.file not in ("-", os.devnull)]
    names += [] if words.backup is None else [words.backup]
    for name in names:
        if MARK not in name:
            raise Fault(f"{name}: put {MARK} into the name: {UNOPENED}")
    if MARK in (words.restore or ""):
        raise Fault(f"--restore takes no {MARK}: {UNOPENED}")
    for update in reads:
        if update.file == "-" and (update.format or "r") not in "dhob":
            raise Fault(f"-U {update.given}: give :h, or a file with {MARK} in its name: {UNOPENED}")
    boards = [name_of(device) for device in words.devices]
    for board in boards if names else []:
        if boards.count(board) > 1:
            raise Fault(f"{MARK} is {board} for two boards: {UNOPENED}")


def place_of(device: str) -> str:
    """Returns what tells a device or an emulated chip's file from others. It may have several names."""
    path = os.path.realpath(re.sub("^emu:", "", device))
    try:
        found = os.stat(path)
    except OSError:
        return path
    return f"{found.st_dev} {found.st_ino}"


def devices_of(words: Words, here: list[str]) -> list[str]:
    """Returns the devices of a command, `all` replaced by those that are here."""
    if "all" in words.devices and not here:
        words.report.stage = "device"
        raise Fault(f"-P all finds no device: {UNOPENED}")
    # (udev may give a device two names)
    once = {place_of(name): name for name in reversed(here)}
    all_here = sorted(once.values(), key=here.index)
    found = [name for device in words.devices for name in (all_here if device == "all" else [device])]
    places = [place_of(name) for name in found]
    for at, (name, place) in enumerate(zip(found, places)):
        if place in places[:at]:
            raise Fault(f"-P {name} and -P {found[places.index(place)]} are one device: {UNOPENED}")
    if any(name.startswith("stdio:") for name in found):
        raise Fault(f"-P stdio: is for one board: {UNOPENED}")
    return found


def named(text: str, device: str) -> str:
    """Returns a text with the name of a board in place of MARK."""
    return text.replace(MARK, name_of(device))


def boards_of(words: Words, prepare: Callable[[Words], None]) -> list[Board]:
    """Judges the command once, with the files of its first board, and returns all boards."""
    judge_outputs(words)
    # the texts of the reads, whose files are named by the boards
    texts: dict[int, str] = {}
    for at, update in enumerate(words.updates):
        if update.operation == "r":
            words.updates[at] = Update(named(update.given, words.devices[0]))
            texts[id(words.updates[at])] = update.given
    # (what is refused for one of avrstk's own ports is refused for all)
    words.device = next(filter(is_port, words.devices), words.devices[0])
    words.has_port = is_port(words.device)
    prepare(words)
    base = words.updates if words.each is None or words.each.base is None else words.each.base
    boards = []
    for device in words.devices:
        own = copy.copy(words)
        own.device, own.devices, own.has_port = device, [device], is_port(device)
        own.updates = [Update(named(texts[id(update)], device)) if id(update) in texts else update for update in base]
        own.given, own.each = [update.given for update in own.updates], copy.copy(words.each)
        if own.each:
            own.each.base = None
        if words.backup is not None:
            name = own.backup = named(words.backup, device)
            own.last = {**words.last, "--backup": name}
        boards.append(Board(own))
    return boards


def station(words: Words, here: list[str], prepare: Callable[[Words], None], live: Callable[[Words], int]) -> int:
    """Makes the runs of several boards, prints a table, and writes the report if --json asks for one."""
    boards: list[Board] = []
    report, status, begun = words.report, 1, time.monotonic()
    try:
        devices, words.devices = words.devices, devices_of(words, here)
        if "all" in devices:
            words.note(f"{count_of(words.devices)}: {', '.join(words.devices)}")
        boards = boards_of(words, prepare)
        heed_signals()
        if "--json" in words.last:
            # (once for all boards)
            version(words.unproved)
        status = side_by_side(boards, live)
        table(words, boards)
    except (Fault, OSError) as fault:
        report.fault = text_of(fault)
        raise
    finally:
        messages.finish()
        status = 1 if messages.lost else status
        seconds = time.monotonic() - begun
        if "--json" in words.last and not write(words.last["--json"], made(words, boards, status, seconds)):
            status = 1
    return status


def made(words: Words, boards: list[Board], status: int, seconds: float) -> dict[str, Any]:
    """Returns the report of all boards. If the command is refused, it has no runs, but the error."""
    report, is_refused = words.report, not any(board.outcome for board in boards)
    return {
        "report": 1,
        "program": NAME,
        "status": status,
        "seconds": round(seconds, 3),
        "kind": report.kind(words) if is_refused else None,
        "error": report.error() if is_refused else None,
        "runs": [board.report for board in boards if board.report],
    }

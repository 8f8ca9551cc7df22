"""The report of a run as one JSON object (--json). docs/report.schema.json describes its fields, which stay."""

from __future__ import annotations

from avrstk_common import NAME, Fault, print_line, show, standard, version
from avrstk_hints import CHANGING, LEAVE, LOST_LINK, NO_SIGNATURES, SIGN_ON, Outcome
from avrstk_words import MEMORIES, Update, Words

import contextlib
import hashlib
import json
import os
import re
import tempfile
import time

OPERATIONS = {"w": "write", "v": "verify", "r": "read"}
CHANGED = "erased or partly written"

# the error if no reply came
SILENT = "no answer( in 4096 bytes)?$"

# kinds of failures by avrstk's error; the first that fits counts. All others are of the arguments. (A file may have the
# name of an error's beginning)
KINDS = {
    r"signature is (00 00 00|FF FF FF), \S+ has( \w\w){3}$": "no chip",
    r"signature is( \w\w){3}, \S+ has( \w\w){3}$": "other part",
    r"command 10 refused with status (80|81|C0)$": "no chip",
    r"command \w\w refused with status \w\w$": "refused",
    r"\w+: address \w+: \w+ expected, \w+ found$": "mismatch",
    rf"{SILENT}|{LOST_LINK}|command \w\w: bad answer$": "line",
    r"port .*[^:] cannot be opened$": "device",
    r"out of memory$": "interrupted",
    r".*: (cannot be |in use by |not a regular |longer than |line \d+: |\d+ bytes, )": "file",
    r".*: (bad |line too long|no record mark|address )": "file",
}

# the error of values that a memory has no place for
VALUES = rf"({'|'.join(MEMORIES)}): address \w+ out of range$"

# errors after which it isn't known whether a command was done
MAYBE_DONE = rf"$|{SILENT}|{LOST_LINK}|command \w\w(: bad answer| refused .*)$|out of memory$"


class Report:
    """What is known of a run so far. `stage` is the kind of a failure that the script itself finds, and `fault` its
    text."""

    def __init__(self) -> None:
        self.begun = time.monotonic()
        self.lines: list[str] = []
        self.runs: list[Outcome] = []
        # how many lines there were before the last run, and how often --retry ran a command again
        self.before = self.retries = 0
        self.stage = "arguments"
        self.fault: str | None = None

    def note(self, line: str) -> None:
        """Notes a line of avrstk, without the program's name."""
        self.lines.append(line)

    def begin(self, outcome: Outcome) -> None:
        """Notes that a run of avrstk begins."""
        self.runs.append(outcome)
        self.before = len(self.lines)
        self.retries += outcome.words.tries > 1

    def last_lines(self) -> list[str]:
        """Returns the lines of avrstk's last run."""
        return self.lines[self.before :]

    def error(self) -> str | None:
        """Returns the first error of avrstk's last run, or what the script reported."""
        return next((line[7:] for line in self.last_lines() if line.startswith("error: ")), self.fault)

    def signature(self) -> str | None:
        """Returns the chip's signature, as avrstk printed it."""
        return next((line[19:] for line in self.lines if line.startswith("device signature = ")), None)

    def sent(self) -> set[int]:
        return {command for run in self.runs for command in run.commands}

    def kind(self, words: Words) -> str:
        error = self.error()
        if error is None:
            # (another program ended avrstk)
            return "interrupted"
        if error == self.fault:
            return self.stage
        is_silent = bool(re.match(SILENT, error)) or any(run.is_noisy for run in self.runs[-1:])
        if is_silent and self.sent() <= {SIGN_ON, LEAVE} and self.signature() is None:
            return "silent"
        # (an image may have the name of a memory)
        images = {update.file for update in words.updates if update.is_image}
        if re.match(VALUES, error) and error.partition(":")[0] not in images:
            return "arguments"
        return next((kind for begin, kind in KINDS.items() if re.match(begin, error)), "arguments")

    def chip(self, words: Words, status: int) -> str:
        """Returns what the chip holds, as far as commands and lines tell."""
        changes = bool(CHANGING & self.sent())
        if words.has_port:
            changes = any(re.search(r"^chip erased$| bytes written$", line) for line in self.lines)
            # (no frame is seen: a command without a good reply may have been done)
            is_open = status and re.match(MAYBE_DONE, self.error() or "")
            changes |= bool(is_open) and any(run.may_change for run in self.runs)
        if not changes:
            return "unchanged"
        # (over a device it is known whether only the session's end failed, or what came after the run)
        is_done = any(run.status == 0 or run.was_opened and run.is_done() for run in self.runs[-1:])
        return "done" if is_done else CHANGED

    def count(self, words: Words, update: Update, what: str) -> int | None:
        """Returns the bytes in the last run's line about an update, or None. Lines come in the order of the updates."""
        compared = "v" if {"-V", "-n"} & set(words.flags) else "wv"
        makes = {"written": "w", "verified": compared, "read": "r"}[what]
        own = [other for other in words.updates if other.memory == update.memory and other.operation in makes]
        found = (re.fullmatch(rf"{update.memory}: (\d+) bytes {what}", line) for line in self.last_lines())
        counts = [int(line[1]) for line in found if line]
        return next((count for other, count in zip(own, counts) if other is update), None)

    def update(self, words: Words, update: Update) -> dict[str, object]:
        """Returns what became of one -U. The digest is that of the image as it was read, or of the file read into."""
        held = words.contents.get(update.file) if update.is_image else None
        if update.operation == "r" and update.file != "-" and os.path.isfile(update.file):
            with contextlib.suppress(OSError), open(update.file, "rb") as file:
                held = file.read()
        return {
            "memory": update.memory,
            "operation": OPERATIONS.get(update.operation, update.operation),
            "file": update.file,
            "bytes": None if held is None else len(held),
            "sha256": None if held is None else hashlib.sha256(held).hexdigest(),
            **{what: self.count(words, update, what) for what in ("written", "verified", "read")},
        }

    def outcome(self, words: Words, status: int, number: int | None) -> dict[str, object]:
        """Returns how the run ended. `number` is the signal that ended it."""
        has_hint = self.fault is not None and self.fault != self.error()
        return {
            "status": status,
            "seconds": round(time.monotonic() - self.begun, 3),
            "chip": self.chip(words, status),
            "kind": ("interrupted" if number else self.kind(words)) if status else None,
            "error": self.error() if status else None,
            "hint": self.fault if status and has_hint else None,
            **(words.each.reported() if words.each else {}),
        }

    def made(self, words: Words, status: int, number: int | None) -> dict[str, object]:
        """Returns the report."""
        built, signature = build(words.unproved), self.signature()
        return {
            **built,
            "proved": built["proved"] and not words.is_version1 and not words.unproved,
            "device": words.device,
            "programmer": words.programmer,
            "part": words.part,
            "signature": None if signature in NO_SIGNATURES else signature,
            "updates": [self.update(words, update) for update in words.updates],
            "commands": sum(run.sent for run in self.runs),
            "repeated": sum(run.repeated for run in self.runs),
            "retries": self.retries,
            **self.outcome(words, status, number),
        }


def build(is_unproved: bool = False) -> dict[str, object]:
    """Returns the fields of a report about avrstk itself."""
    rows = version(is_unproved).splitlines()
    return {
        "report": 1,
        "program": NAME,
        "version": rows[0].partition(" ")[2],
        "commit": next((row.partition(": ")[2] for row in rows if row.startswith("commit: ")), None),
        "proved": rows[1:2] == ["proved"],
    }


def fault_of(place: str) -> str | None:
    """Returns why no report can be written at a place; None if it can, as far as is known before the run."""
    if place == "-" or standard(place):
        return None
    if not place:
        return "is no file"
    if os.path.isdir(place):
        return "is a folder"
    is_file = not os.path.exists(place) or os.path.isfile(place)
    # (a file is replaced)
    target = os.path.dirname(os.path.realpath(place)) if is_file else place
    return None if os.access(target, os.W_OK) else f"cannot be written: check {target}"


def write(place: str, report: dict[str, object]) -> bool:
    """Writes a report into a file, whole or not at all; `-` is standard output. Returns whether it did. (If not, a line
    reports it, so that the error of the run is still reported.)"""
    # (Python may decode names as another character set than UTF-8. Bytes that aren't UTF-8 become U+FFFD)
    names = json.dumps(report, ensure_ascii=False).encode("utf-8", "surrogateescape")
    text = json.dumps(json.loads(names.decode("utf-8", "replace")), ensure_ascii=True)
    stream = 1 if place == "-" else standard(place)
    try:
        if stream:
            show(text, stream)
        elif os.path.exists(place) and not os.path.isfile(place):
            # (a pipe or a device stays what it is; a pipe that nobody reads is an error)
            file = os.open(place, os.O_WRONLY | os.O_NONBLOCK | os.O_NOCTTY)
            os.set_blocking(file, True)
            with open(file, "w", encoding="ascii") as out:
                out.write(f"{text}\n")
        else:
            replace(os.path.realpath(place), f"{text}\n".encode())
    except (Fault, OSError) as fault:
        print_line(f"--json {place}: {fault.strerror if isinstance(fault, OSError) else fault}")
        return False
    return True


def replace(place: str, text: bytes) -> None:
    """Replaces a file by one with this text."""
    file, spare = tempfile.mkstemp(prefix=".avrstk-report-", dir=os.path.dirname(place))
    try:
        with open(file, "wb") as out:
            out.write(text)
            out.flush()
            os.fsync(out.fileno())
        mask = os.umask(0)
        os.umask(mask)
        os.chmod(spare, 0o666 & ~mask)
        os.replace(spare, place)
    except BaseException:
        with contextlib.suppress(OSError):
            os.unlink(spare)
        raise

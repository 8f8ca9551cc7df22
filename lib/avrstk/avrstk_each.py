"""avrstk-serial --each: a number or a row of a table for each board, written into the image of a memory. No number is
given twice: the counter's file has the next one, and is on the disk before a number is used."""

from __future__ import annotations

from avrstk_common import Fault, ended_by
from avrstk_elf import AREAS, Run, hex_rows
from avrstk_words import MOST_OF_IMAGE, RECORD, UNOPENED, Update, Words

import contextlib
import copy
import csv
import fcntl
import os
import re
import time
from typing import Callable, Iterator

SPEC = re.compile(r"(flash|eeprom)@(0[xX][0-9A-Fa-f]+|[0-9]{1,99})=(.+)", re.S)
FIELD = re.compile(r"\{([^{}:]+)(?::(0?)([0-9]{0,2})([dxX]?))?\}")

# the greatest number, the most seconds to wait for the counter's lock, and more numbers than a command takes
MOST, PATIENCE, LATER = 10**15 - 1, 60, 1000
UNUSED = "the next number was not used"
NO_NUMBER = f"not a number from 0 to {MOST}"

# what begins a record that ends a file: Intel HEX's type 01, and S7 to S9
ENDS = {"i": re.compile(rb"^:[0-9A-Fa-f]{6}01", re.M), "s": re.compile(rb"^S[789]", re.M)}


class Spec:
    """One --each: a memory, an address and a text with fields. After 0x the text is hexadecimal digits of bytes."""

    def __init__(self, given: str, columns: list[str]) -> None:
        found = SPEC.fullmatch(given)
        self.given, self.text = given, found[3] if found else ""
        fields, names = [*FIELD.finditer(self.text)], [name for name in columns if re.fullmatch("[^{}:]+", name)]
        are_known = all(field[1] == "n" or field[0][1:-1] in names for field in fields)
        if not found or not fields or not are_known or re.search("[{}]", FIELD.sub("", self.text)):
            known = ", ".join(f"{{{name}}}" for name in ["n", "n:06", "n:04X", *names])
            raise self.fault(f"give flash@ADDRESS=TEXT or eeprom@ADDRESS=TEXT, TEXT with fields as {known}")
        self.memory, self.address = found[1], int(found[2], 16 if found[2][:2].lower() == "0x" else 10)
        self.is_hex = self.text[:2].lower() == "0x"

    def fault(self, why: str) -> Fault:
        return Fault(f"--each {self.given}: {why}")

    def filled(self, number: int, row: dict[str, str]) -> str:
        """Returns the text for a number and a row."""

        def value(field: re.Match[str]) -> str:
            if field[1] != "n":
                return row[field[1]]
            shown = format(number, (field[2] or "") + (field[3] or "") + (field[4] or ""))
            if field[3] and len(shown) > int(field[3]):
                raise self.fault(f"{number} is too long for {field[0]}")
            return shown

        text = FIELD.sub(value, self.text)
        if not text:
            raise self.fault(f"{self.text} is empty for number {number}")
        return text

    def piece(self, text: str) -> Run:
        """Returns the address and the bytes of a filled text."""
        if self.is_hex and not re.fullmatch("([0-9A-Fa-f]{2})+", text[2:]):
            raise self.fault(f"{text} is not pairs of hexadecimal digits")
        return self.address, bytes.fromhex(text[2:]) if self.is_hex else text.encode("utf-8", "surrogateescape")


def without_waiting(name: str, flags: int) -> int:
    """Opens a file, also a pipe that nobody writes."""
    return os.open(name, flags | os.O_NONBLOCK)


class Counter:
    """A file with the next number, which is replaced whole, by one program at a time."""

    def __init__(self, file: str, least: int | None) -> None:
        # (two links to one file have one lock)
        self.given, self.file, self.least = file, os.path.realpath(file), least

    def next(self) -> int:
        """Returns the next number."""
        try:
            # (a pipe that nobody writes has no number, either)
            with open(self.file, encoding="ascii", errors="replace", opener=without_waiting) as held:
                text = held.read(100)
        except FileNotFoundError:
            # (a folder that is missing, too, is named)
            os.stat(os.path.dirname(self.file))
            if self.least is None:
                raise Fault(f"--counter {self.given} is missing: check its name, or give --from N")
            return self.least
        # (after the greatest number the file has one more)
        if not re.fullmatch("0{0,84}[0-9]{1,15}\n", text):
            raise Fault(f"--counter {self.given}: {NO_NUMBER} and a newline")
        return max(int(text), self.least or 0)

    def take(self, judge: Callable[[int], object]) -> int:
        """Returns the next number, after which the file has a later one, also if the power fails. `judge` refuses a
        number that can't be used."""
        lock = os.open(f"{self.file}.lock", os.O_RDONLY | os.O_CREAT | os.O_CLOEXEC | os.O_NOFOLLOW, 0o666)
        try:
            self.hold(lock)
            number = self.next()
            judge(number)
            self.replace(f"{number + 1}\n".encode())
            return number
        finally:
            os.close(lock)

    def hold(self, lock: int) -> None:
        """Locks the counter. Another program needs it for milliseconds."""
        until = time.monotonic() + PATIENCE
        while True:
            try:
                return fcntl.flock(lock, fcntl.LOCK_EX | fcntl.LOCK_NB)
            except BlockingIOError:
                if ended_by():
                    raise Fault(UNUSED)
                if time.monotonic() > until:
                    raise Fault(f"another process holds {self.file}.lock: {UNUSED}")
                time.sleep(0.005)

    def replace(self, text: bytes) -> None:
        """Replaces the file, and syncs it and its folder."""
        spare = f"{self.file}.avrstk-new"
        flags = os.O_WRONLY | os.O_CREAT | os.O_TRUNC | os.O_CLOEXEC | os.O_NOFOLLOW
        with open(os.open(spare, flags, 0o666), "wb") as file:
            if os.path.exists(self.file):
                os.fchmod(file.fileno(), os.stat(self.file).st_mode & 0o777)
            file.write(text)
            file.flush()
            os.fsync(file.fileno())
        folder = os.open(os.path.dirname(self.file), os.O_RDONLY | os.O_DIRECTORY | os.O_CLOEXEC)
        try:
            os.rename(spare, self.file)
            os.fsync(folder)
        finally:
            os.close(folder)


class Each:
    """What --each, --from, --rows and --counter ask for. `number` is the one that the last run took."""

    def __init__(self, words: Words) -> None:
        least, rows, counter = (words.last.get(option) for option in ("--from", "--rows", "--counter"))
        if counter is None:
            raise Fault("--each needs --counter FILE")
        if least is not None and not re.fullmatch("0{0,84}[0-9]{1,15}", least):
            raise Fault(f"--from {least}: {NO_NUMBER}")
        if "-n" in words.flags:
            raise Fault("--each takes no -n")
        self.names: list[str] = []
        self.rows: list[list[str]] | None = None
        if rows is not None:
            self.names, self.rows = table_of(rows)
        self.file, self.specs = rows, [Spec(given, self.names) for given in words.each_given]
        self.counter = Counter(counter, None if least is None else int(least))
        self.base: list[Update] | None = None
        # what a refusal leaves
        self.end = UNOPENED
        self.number: int | None = None

    def row(self, number: int) -> dict[str, str]:
        return dict(zip(self.names, self.rows[number - 1])) if self.rows is not None else {}

    def judge_number(self, number: int) -> None:
        """Refuses a number without a row."""
        if self.rows is not None and not 0 < number <= len(self.rows):
            raise Fault(f"--rows {self.file} has no row {number}")

    def has_next(self, words: Words) -> bool:
        """Whether a number is left whose texts fit, as far as the counter can be read."""
        with contextlib.suppress(Fault, OSError):
            number = self.counter.next()
            self.judge_number(number)
            self.pieces(words, number)
            return True
        return False

    def advice(self, words: Words) -> str:
        """Says which number a second run takes."""
        why = "can't use the next number: check --each, --counter and --rows"
        return f" (--each {'takes the next number' if self.has_next(words) else why})"

    def end_of(self, memory: str) -> int:
        """Returns where the texts of a memory end, for the next number and those that the command may take later."""
        ends, first = [0], self.counter.next()
        for number in range(first, first + LATER):
            with contextlib.suppress(Fault):
                self.judge_number(number)
                pieces = [spec.piece(text) for spec, text in self.texts(number) if spec.memory == memory]
                ends += [at + len(held) for at, held in pieces]
        return max(ends)

    def judge(self, words: Words) -> None:
        """Puts the next number into the images, so that they can be judged. It isn't taken yet."""
        self.put(words, self.counter.next())

    def give(self, words: Words, judge: Callable[[], None]) -> None:
        """Takes the next number, and puts it into the images, which `judge` may refuse before it is taken."""

        def fits(number: int) -> None:
            self.put(words, number)
            judge()

        try:
            self.number = self.counter.take(fits)
        except OSError as fault:
            # (if only the last sync failed, the file has a later number already)
            raise Fault(f"{fault.filename or self.counter.given}: {fault.strerror}: {UNUSED}")
        filled = "; ".join(f"{spec.memory}@0x{spec.address:X}={text}" for spec, text in self.texts(self.number))
        words.note(f"number {self.number}: {filled}")

    def texts(self, number: int) -> list[tuple[Spec, str]]:
        row = self.row(number)
        return [(spec, spec.filled(number, row)) for spec in self.specs]

    def put(self, words: Words, number: int) -> None:
        """Puts what is for a number into the images of the command; a memory that it doesn't write gets an image."""
        self.judge_number(number)
        self.base = words.updates if self.base is None else self.base
        updates = list(self.base)
        for memory, own in self.pieces(words, number).items():
            writes = [at for at, update in enumerate(updates) if update.writes(memory)]
            if writes:
                last = updates[writes[-1]]
                self.judge_image(words, last)
                updates[writes[-1]] = joined(last, words.contents.get(last.file), own, self.end)
            else:
                # (a locked chip takes nothing more)
                locks = [at for at, update in enumerate(updates) if update.writes("lock")]
                updates.insert(min(locks, default=len(updates)), image_of(memory, own, self.end))
        words.updates, words.given = updates, [update.given for update in updates]

    def without(self, words: Words) -> Words:
        """Returns the command without what is for a number."""
        only = copy.copy(words)
        only.updates = words.updates if self.base is None else self.base
        only.given = [update.given for update in only.updates]
        return only

    def judge_image(self, words: Words, update: Update) -> None:
        """Refuses values. (--restore has one for flash that is all FF.)"""
        if not update.is_image:
            why = f"give a file, not values: -U {update.given}"
            if words.restore is not None:
                why = f"it is all FF in {words.restore}"
            raise Fault(f"--each can't write into {update.memory}: {why}: {self.end}")

    def pieces(self, words: Words, number: int) -> dict[str, list[Run]]:
        """Returns the bytes for a number, by their memories."""
        held = [(spec.memory, spec.piece(text)) for spec, text in self.texts(number)]
        found = {memory: sorted(piece for name, piece in held if name == memory) for memory, _ in held}
        for memory, own in found.items():
            self.judge_pieces(words, memory, own)
        return found

    def judge_pieces(self, words: Words, memory: str, pieces: list[Run]) -> None:
        """Refuses bytes outside a memory, and two texts at one place."""
        ends = [at + len(held) for at, held in pieces]
        if max(ends) > size_of(words, memory):
            raise Fault(f"--each: {memory} has no address 0x{max(ends) - 1:X}: {self.end}")
        for end, (at, _) in zip(ends, pieces[1:]):
            if end > at:
                raise Fault(f"--each: two texts at {memory}@0x{at:X}: {self.end}")

    def reported(self) -> dict[str, object]:
        """Returns the fields of a report."""
        if self.number is None:
            return {"number": None, "each": []}
        rows = [
            {"memory": spec.memory, "address": spec.address, "text": text, "hex": spec.piece(text)[1].hex().upper()}
            for spec, text in self.texts(self.number)
        ]
        return {"number": self.number, "each": rows}


def size_of(words: Words, memory: str) -> int:
    """Returns the size of a memory; if it isn't known here, more than a part has."""
    name = f"{memory}_size"
    with contextlib.suppress(ValueError):
        return int(words.of_part(name) or "", 0)
    return AREAS["flash"][1]


def table_of(file: str) -> tuple[list[str], list[list[str]]]:
    """Returns the names of a table's columns, and its rows."""
    try:
        with open(file, encoding="utf-8-sig", newline="") as held:
            reader = csv.reader(held, strict=True)
            (_, names), *rows = [(reader.line_num, row) for row in reader if row] or [(1, [])]
    except (csv.Error, UnicodeDecodeError) as fault:
        raise Fault(f"--rows {file}: {fault}")
    if not names or len(set(names)) < len(names) or "n" in names:
        raise Fault(f"--rows {file}: give each column a name of its own, other than n")
    for line, row in rows:
        if len(row) != len(names):
            raise Fault(f"--rows {file}: line {line}: give one value for each column")
    return names, [row for _, row in rows]


def image_of(memory: str, pieces: list[Run], end: str) -> Update:
    """Returns the update that writes these bytes alone. `end` says what a refusal leaves."""
    update = Update(f"{memory}:w:--each")
    update.elf = pieces
    return handed(update, b"", end)


def joined(update: Update, content: bytes | None, pieces: list[Run], end: str) -> Update:
    """Returns an update that also writes these bytes, in place of those of its image. `end` says what a refusal
    leaves."""
    if content is None:
        raise Fault(f"{update.file}: cannot be opened: {end}")
    one, whole = copy.copy(update), bytes(content)
    begins = RECORD.match(whole[:1024])
    detected = ("i" if b":" in begins[0] else "s") if begins else "r"
    kind = detected if update.format in (None, "a") else update.format
    if update.elf or kind == "r":
        # (a later byte at an address counts)
        one.elf = [*(update.elf or [(0, whole)]), *pieces]
        return handed(one, whole, end)
    # (of several records with one address the last one before the end record counts)
    last = ENDS[kind].search(whole) if kind and kind in ENDS else None
    at = last.start() if last else len(whole)
    front = whole[:at] + (b"" if whole[:at].endswith(b"\n") else b"\n")
    rows = [*hex_rows([*pieces])][:-1] if kind == "i" else srec_rows(pieces)
    return handed(one, front + "".join(rows).encode() + whole[at:], end)


def handed(update: Update, content: bytes, end: str) -> Update:
    """Gives avrstk the bytes of an update, whose format was printed before. `end` says what a refusal leaves."""
    named = update.named
    update.front = content[:MOST_OF_IMAGE]
    update.hand_on(content, end)
    update.named = named
    return update


def srec_rows(pieces: list[Run]) -> Iterator[str]:
    """Yields records of type S3."""
    for begin, held in pieces:
        for at in range(0, len(held), 16):
            row = held[at : at + 16]
            body = bytes([len(row) + 5]) + (begin + at).to_bytes(4, "big") + row
            yield f"S3{(body + bytes([~sum(body) & 255])).hex().upper()}\n"

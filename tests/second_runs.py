#!/usr/bin/env python3
"""Follows what avrstk-serial advises after a failed run, on a small model of a chip and its programmer. What a hint
says of the chip has to be true of the model. The runs that it advises have to leave the chip and the files as one whole
run does, or the chip as the command asks for if a whole run fails.

Not proved: No proof covers avrstk-serial, which is Python.

    tests/second_runs.py [CASE ..]        needs no built program; SECONDS=N draws for N seconds of CPU; SEED=N
"""

import copy
import functools
import os
import random
import re
import signal
import sys
import tempfile
import time
import types

from cases import TOP, check, named, run_cases

# (the modules look for the part file beside the script)
given, sys.argv[0] = sys.argv[0], str(TOP / "avrstk-serial")
sys.path.insert(0, str(TOP / "lib/avrstk"))
import avrstk_hints as hints  # noqa: E402
import avrstk_words  # noqa: E402
from avrstk_report import Report  # noqa: E402
from avrstk_words import Words  # noqa: E402

sys.argv[0] = given
# (files are read once)
avrstk_words.rows_of = functools.lru_cache(avrstk_words.rows_of)
Words.of_file = functools.lru_cache(Words.of_file)

# the memories, each with its length here, values to write, and the command that writes it (none if it is read-only)
MEMORIES = {
    "flash": (3, [0xFF, 0x5A, 0x50, 0xAA], 0x13),
    "eeprom": (3, [0xFF, 0x11, 0x5A, 0xAA], 0x15),
    "lfuse": (1, [0x62, 0xE2], 0x17),
    "hfuse": (1, [0xD9, 0xD1], 0x17),
    "lock": (1, [0xFF, 0xFE, 0xFC, 0xFD], 0x19),
    "calibration": (1, [0x9A], 0),
}
# the numbers of --each, in turn
NUMBERS = [0x12, 0x24, 0x48, 0x11, 0x22, 0x44, 0x81]
# what a locked chip reads
HIDDEN = 0xAA
# what a hint says of an erase that removes old bits, locks and several values
ERASE = re.compile(
    r"give -e and all that is to be written( \(--each takes the next number\))?, each memory once, the lock last"
)
# a part file of one's own, with which less is known
PARTS = tempfile.NamedTemporaryFile("w", suffix=".toml")
print('[parts]\nm328p = { signature = "1E950F", flash_size = 32768, eesave_bit = 3 }', file=PARTS, flush=True)

# what goes wrong with a command: the error of avrstk, and whether the programmer replies to LEAVE then (None if it is
# not sent). A signal ends the run without an error
FAULTS = [
    ("no answer", True),
    ("no answer", False),
    ("link ended", None),
    ("", None),
    ("command {:02X} refused with status C0", True),
    ("command {:02X} refused with status C1", True),
]


class Stopped(Exception):
    """The run stops, with this error."""


class Chip:
    """A chip and its programmer. Command number `lost` has this fault; then it was done or not, by `is_done`."""

    def __init__(self, draw):
        self.held = {
            memory: [draw.choice(values) for _ in range(size)] for memory, (size, values, _) in MEMORIES.items()
        }
        self.held["lock"] = [draw.choice([0xFF, 0xFF, 0xFE, 0xFC])]
        self.lost, self.is_done, self.fault, self.is_in_mode, self.count = 0, False, FAULTS[0], False, 0
        # why memories may not hold what was written last
        self.why = {}

    def copied(self):
        other = copy.copy(self)
        other.held = dict(self.held)
        return other

    def reply(self, outcome, command, act=lambda: None):
        """Does a command, unless that fails."""
        self.count += 1
        outcome.commands.add(command)
        outcome.is_held |= command == hints.ENTER
        if self.count != self.lost or self.is_done:
            act()
        if self.count == self.lost:
            raise Stopped(self.fault[0].format(command))

    def enter(self):
        self.is_in_mode = True

    def leave(self):
        self.is_in_mode = False

    def keeps(self):
        return self.held["hfuse"][0] & 8 == 0

    def erase(self):
        eeprom = self.held["eeprom"] if self.keeps() else [0xFF] * 3
        self.held.update({"flash": [0xFF] * 3, "lock": [0xFF], "eeprom": eeprom})

    def write(self, memory, at, value):
        lock, old = self.held["lock"][0], self.held[memory][at]
        new = old & value if memory in ("flash", "lock") else value
        if not lock & (2 if memory == "lock" else 1):
            new, self.why[memory] = old, "a lock"
        elif new != value:
            self.why[memory] = "a lock" if memory == "lock" else "old bits"
        self.held[memory] = [*self.held[memory][:at], new, *self.held[memory][at + 1 :]]

    def read(self, memory):
        is_hidden = memory in ("flash", "eeprom") and not self.held["lock"][0] & 2
        if is_hidden:
            self.why[memory] = "a lock"
        return [HIDDEN] * 3 if is_hidden else self.held[memory]

    def compare(self, outcome, update, values):
        """Reads a memory, and compares it with values."""
        self.reply(outcome, 0x14)
        for at, (wanted, held) in enumerate(zip(values, self.read(update.memory))):
            if wanted != held:
                raise Stopped(f"{update.memory}: address {at:08X}: {wanted:02X} expected, {held:02X} found")

    def update(self, outcome, update, files):
        """Does an update."""
        words, memory = outcome.words, update.memory
        values = [] if update.operation == "r" else values_of(update)
        is_dry = update.operation == "w" and "-n" in words.flags
        if update.operation == "r":
            self.reply(outcome, 0x14, lambda: files.update({update.file: self.read(memory)}))
        elif update.operation == "v":
            self.compare(outcome, update, values)
        elif not is_dry:
            for at, value in enumerate(values):
                self.reply(outcome, MEMORIES[memory][2], lambda: self.write(memory, at, value))
            if "-V" not in words.flags:
                outcome.steps += 1
                self.compare(outcome, update, values)
        outcome.steps += 1

    def run(self, words, files):
        """Makes a run. Returns what the script knows of it; the status is 0 if all was done."""
        outcome, is_left = hints.Outcome(words, was_opened=True), True
        self.why = {}
        try:
            self.reply(outcome, hints.SIGN_ON)
            self.reply(outcome, hints.ENTER, self.enter)
            self.reply(outcome, 0x1B)
            if hints.erases(words):
                self.reply(outcome, 0x12, self.erase)
                outcome.steps += 1
            for update in words.updates:
                self.update(outcome, update, files)
            outcome.status = 0
        except Stopped as fault:
            outcome.error = str(fault)
            is_left = self.fault[1] if self.count == self.lost else True
        try:
            if is_left is not None:
                self.reply(outcome, hints.LEAVE, self.leave if is_left else lambda: None)
                outcome.is_held &= not is_left
        except Stopped as fault:
            outcome.error, outcome.left_at_error, outcome.status = str(fault), bool(str(fault)), 1
        return outcome


def values_of(update):
    """Returns the bytes that an update writes or compares. A number of --each comes first."""
    values = [int(value, 0) for value in update.file.split(",")] if update.file != "--each" else [0]
    return [update.number, *values[1:]] if hasattr(update, "number") else values


def drawn(draw):
    """Returns the options of a command with up to four updates, some of them equal."""
    words = [option for option in ("-e", "-D", "-V") if draw.random() < 0.3] + ["-n"] * (draw.random() < 0.05)
    words += draw.choice([[], [], [], ["-c", "arduino_as_isp"], ["--parts", PARTS.name]])
    for number in range(draw.randint(0 if "-e" in words else 1, 4)):
        memory = draw.choice([*MEMORIES, "flash", "eeprom", *["hfuse", "lock"] * 3])
        size, values, command = MEMORIES[memory]
        operation = draw.choice("wwwvr" if command else "vr")
        held = ",".join(f"0x{draw.choice(values):02X}" for _ in range(draw.randint(1, size)))
        words += ["-U", f"{memory}:r:{number}:h" if operation == "r" else f"{memory}:{operation}:{held}:m"]
    if "-n" not in words and draw.random() < 0.2:
        words += ["--each", draw.choice(["flash", "eeprom", "flash eeprom", "eeprom flash"])]
    return words


@functools.lru_cache(64)
def parsed(given, number):
    """Returns the command, in which --each has the memories that get a number, as avrstk_each puts it there."""
    at = given.index("--each") if "--each" in given else len(given)
    words = Words(["-p", "m328p", "-P", "/dev/ttyACM0", *given[:at], *given[at + 2 :]], Report())
    words.each_given = list(given[at + 1 : at + 2])
    base, words.updates = words.updates, list(words.updates)
    for memory in words.each_given[0].split() if words.each_given else []:
        writes = [at for at, update in enumerate(base) if update.writes(memory)]
        own = copy.copy(base[writes[-1]]) if writes else avrstk_words.Update(f"{memory}:w:--each")
        own.number = NUMBERS[number]
        if writes:
            words.updates[words.updates.index(base[writes[-1]])] = own
        else:
            locks = [at for at, update in enumerate(words.updates) if update.writes("lock")]
            words.updates.insert(min(locks, default=len(words.updates)), own)
    words.each = (
        types.SimpleNamespace(base=base, advice=lambda _: " (--each takes the next number)")
        if words.each_given
        else None
    )
    return words


def words_of(given, number=0):
    return parsed(tuple(given), number)


def whole_of(given, old, number):
    """Returns the chip and the files after a whole run; None if that fails."""
    chip, files = old.copied(), {}
    chip.lost = 0
    return None if chip.run(words_of(given, number), files).status else (chip.held, files)


def without_first(given, count):
    """Returns the command without its first updates, so many."""
    at = [at for at, word in enumerate(given) if word == "-U"][:count]
    check(f"{given} has {count} updates", len(at) == count)
    return [word for place, word in enumerate(given) if place not in at and place - 1 not in at]


def each_once(plan):
    """Returns the command that erases, and writes all that a command writes, each memory once and the lock last."""
    merged, flags = {}, without_first(plan, plan.count("-U"))
    words = words_of(plan)
    for update in words.updates if words.each is None else words.each.base:
        if update.operation == "w":
            values = update.file.split(",")
            merged[update.memory] = [*values, *merged.get(update.memory, [])[len(values) :]]
    memories = sorted(merged, key=lambda memory: memory == "lock")
    updates = [f"{memory}:w:{','.join(merged[memory])}:m" for memory in memories]
    return [*flags, "-e", *[word for update in updates for word in ("-U", update)]]


def advised(given, plan, text):
    """Returns the command that a hint advises for a programmer; None if it advises none. `plan` is the whole command,
    which has what was left out, too."""
    changes = "with -D, without -e|without its first (?:\\d+ )?-U|without --each"
    changes += r"|with another programmer|but at a bootloader with all -U of flash|\(--each takes the next number\)"
    again = re.search(f"run the same command again((?:,? (?:{changes}))*)$", text)
    erase = ERASE.search(text)
    if erase:
        check(f"{text}: a second number is named", ("--each" in given) == bool(erase[1]), given)
        return each_once(plan)
    if not again:
        return None
    count = re.search(r"its first (\d+ )?-U", again[1])
    given = without_first(given, int(count[1] or 1) if count else 0)
    if "with -D, without -e" in again[1]:
        given = ["-D", *[word for word in given if word != "-e"]]
    if "without --each" in again[1]:
        at = given.index("--each")
        given = [*given[:at], *given[at + 2 :]]
    check(f"{text}: a second number is named", ("--each" in given) == ("the next number" in again[1]), given)
    return given


def parted(hint):
    """Returns what a hint says to do, and what to do if that fails again."""
    now, _, later = hint.partition("; if it fails again, ")
    return now, later


def untrue(hint, outcome, before, files, chip, whole):
    """Returns what of a hint isn't true of the model; None if all is. `before` is the chip before the run, and `whole`
    the chip and the files after a whole run, None if that fails."""
    words = outcome.words
    lacks, held = re.match(r"(\w+): address (\w+): (\w+) exp", outcome.error), chip.held
    says = {
        "the chip is unchanged": held == before,
        "nothing was written": held == before,
        "nothing was sent": not outcome.commands,
        "the device was not opened": False,
        "everything was done": whole is None or (held, files) == whole,
        "may be erased or partly written": hints.CHANGING & outcome.commands,
        "no valid reply": outcome.commands <= {hints.SIGN_ON, hints.LEAVE},
        "another erase": hints.erases(words) and 0x12 in outcome.commands,
        "with -D, without -e": hints.erases(words) and 0x12 in outcome.commands,
        "only in bits that": False,
        "programming mode": outcome.is_held,
        "can't erase the chip": 0x12 in outcome.commands and outcome.error.startswith("command 12 "),
        "this is a bootloader": bool(re.match("command (12|17|19|1C) ", outcome.error)),
    }
    for text, is_so in says.items():
        if text in hint and not is_so:
            return text
    if chip.is_in_mode and not re.search("programming mode|ower-cycle", hint):
        return "it doesn't say that the chip is in programming mode"
    if not lacks:
        return None
    memory, at = lacks[1], int(lacks[2], 16)
    other = f"{memory} reads as something else than "
    if other in hint and held[memory][at] == int(lacks[3], 16) and "or the lock hides it" not in hint:
        return other
    # (an erase is the cure for a lock, for old bits, and for several values)
    why = chip.why.get(memory)
    return None if other in hint or not why or ERASE.search(hint) else f"it doesn't name the cure of {why}"


def asked(given, number, old, is_warned, held):
    """Whether the chip holds what a command asks for, and else what it held before. If a hint warned that an erase may
    clear EEPROM, either will do."""
    words, wanted = words_of(given, number), old.copied()
    wanted.why = {}
    if hints.erases(words):
        wanted.erase()
    for update in words.updates:
        if update.operation == "w" and "-n" not in words.flags:
            values = values_of(update)
            wanted.held[update.memory] = [*values, *wanted.held[update.memory][len(values) :]]
    either = [wanted.held]
    for eeprom in [[0xFF] * 3, old.held["eeprom"]] if is_warned else []:
        for update in words.updates:
            if update.writes("eeprom"):
                eeprom = [*values_of(update), *eeprom[len(values_of(update)) :]]
        either.append({**wanted.held, "eeprom": eeprom})
    return held in either


def followed(given, old, fault):
    """Makes a run with a fault, and follows the hints. Returns how it ended, and how many hints were judged."""
    chip, files, said, plan, number, is_new = old.copied(), {}, [], given, 0, False
    chip.lost, chip.is_done, chip.fault = fault
    for _ in range(6):
        before = dict(chip.held)
        outcome = chip.run(words_of(given, number), files)
        if not outcome.status:
            break
        hint = hints.hint(outcome, None if outcome.error else signal.SIGINT)
        false = untrue(hint, outcome, before, files, chip, None if is_new else whole_of(plan, old, number))
        if false:
            return f"not true: {false}: {hint}", said
        now, later = parted(hint)
        text, chip.lost = [now, later, ""][min(said.count(hint), 2)], 0
        said.append(hint)
        given = advised(given, plan, text) if text else None
        if given is None:
            return (f"no way on: {said}" if re.search("the same command again", text) or not text else None), said
        if ERASE.search(text):
            # (what is given, its order, and the erase are those of the hint)
            plan, is_new = given, True
        # (each run with --each takes the next number)
        number += "--each" in given
    else:
        return f"no end: {said}", said
    whole = None if is_new else whole_of(plan, old, number)
    if whole is not None:
        return (None if (chip.held, files) == whole else f"{said}: {chip.held}, {files} in place of {whole}"), said
    is_warned = any("and EEPROM unless" in hint for hint in said)
    # (without comparisons nothing shows that a lock protects a memory)
    is_shown = "-V" not in plan and not [word for word in plan if re.match("lock:w", word)][1:]
    is_right = not is_shown or asked(plan, number, old, is_warned, chip.held)
    return (None if is_right else f"{said}: {chip.held} is not what {plan} asks for"), said


def each_fault():
    """Draws commands, and for each run up to twelve faults: one at a command, before or after that command is done."""
    seed, ends = random.randrange(1_000_000), time.process_time() + float(os.environ.get("SECONDS", 3))
    seed = int(os.environ.get("SEED", seed))
    draw, count, kinds = random.Random(seed), 0, set()
    print(f"SEED {seed}", flush=True)
    while time.process_time() < ends:
        given, old = drawn(draw), Chip(draw)
        chip = old.copied()
        chip.run(words_of(given), {})
        cases = [(lost, done, fault) for lost in range(1, chip.count + 1) for done in (False, True) for fault in FAULTS]
        for fault in [*draw.sample(cases, min(len(cases), 12)), (0, False, FAULTS[0])]:
            found, said = followed(given, old, fault)
            check(f"{given} {old.held}, {fault}", not found, found)
            kinds.update(re.sub(r"0x\w+|[-\w]+:[rwv]:\S+|\w+ holds", "X", hint) for hint in said)
            count += len(said)
    check(f"{count} hints of {len(kinds)} kinds", count > 100)


if __name__ == "__main__":
    sys.exit(run_cases(named(each_fault), __doc__))

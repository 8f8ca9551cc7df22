"""What avrstk-serial advises after a failed run. A hint states what is certain, and says what to do or to check."""

from __future__ import annotations

from avrstk_common import name_of_signal, parts
from avrstk_elf import AREAS, SIGNATURE
from avrstk_words import FORMATS, FUSES, MARK, MEMORIES, UNOPENED, Update, Words, form_of, long_name, parts_of, rows_of

import itertools
import os
import re
from dataclasses import dataclass, field
from typing import Callable, Dict, Match, Union

# STK500v2 commands: those that change a chip, and others
CHANGING, SIGN_ON, ENTER, LEAVE = {0x12, 0x13, 0x15, 0x17, 0x19, 0x1D}, 0x01, 0x10, 0x11

# what a programmer without a chip reads as its signature
NO_SIGNATURES = {"00 00 00", "FF FF FF"}

# errors of a lost link. (A file may have the name of an error's beginning, such as "link x: cannot be written")
LOST_LINK = r"link (?:ended|cannot be \w+)$"

NO_CHIP = "a signature of 00 or FF often means that no chip replies: check the wires and the power"
SAME = "run the same command again"
ONE_IMAGE = "give one image that begins at 0 and leaves out no page"
POWER_CYCLE = "power-cycle the board"
UNCHANGED = "the chip is unchanged"
MAYBE_CHANGED = "the chip may be erased or partly written"
DONE = f"everything was done; {POWER_CYCLE}"
OPEN_LOCK = "then -U lock:r:-:b prints 0 as the last digit but one"
OTHER = "if it fails again, try another programmer or chip"
CABLE = "check the cable, the wires and the power; {state}"
DAMAGED = "build or download the file again, and don't edit it"
SILENT = (
    "no valid reply to SIGN_ON in time; {state}. Check: the speed (-b {baud}); that no serial monitor has the port "
    "open; that a bootloader's board resets when the port opens, or press reset right after starting; -c, such as "
    "arduino for an Uno or Nano itself, wiring for a Mega 2560 itself, arduino_as_isp for the sketch ArduinoISP; the "
    "default is stk500v2"
)


@dataclass
class Outcome:
    """What is known of a run: its status, the commands that were sent before it and in it, and its first error."""

    words: Words
    earlier: frozenset[int] = frozenset()
    commands: set[int] = field(default_factory=set)
    # how many commands were sent, and how many of these again
    sent: int = 0
    repeated: int = 0
    status: int = 1
    error: str = ""
    # whether the device was opened, and sent bytes for ten seconds, but no valid reply
    was_opened: bool = False
    is_noisy: bool = False
    # whether all but the end was done before the error
    left_at_error: bool = False
    # whether the session that may change the chip got as far as its signature
    may_change: bool = False
    # whether the chip may be in programming mode: it was at first, or ENTER was sent, and LEAVE got no good reply
    is_held: bool = False
    # whether this is a session before the run, which only asks
    is_before: bool = False
    # how many lines of avrstk reported an erase, or what an update did
    steps: int = 0

    def begun(self) -> list[Update]:
        """Returns the updates that were begun after the erase."""
        return self.words.updates[: self.reached()]

    def reached(self) -> int:
        """Returns how many updates were begun; one more if all were done."""
        is_compared = not {"-V", "-n"} & {*self.words.flags}
        # (a write that is compared has two lines)
        lines = [1 + (update.operation == "w" and is_compared) for update in self.words.updates]
        return sum(end <= self.steps for end in itertools.accumulate([int(erases(self.words)), *lines]))

    def done(self) -> list[Update]:
        """Returns the updates that were done."""
        return self.words.updates[: max(self.reached() - 1, 0)]

    def is_done(self) -> bool:
        """Whether all but the session's end was done."""
        is_left = self.left_at_error or LEAVE in self.commands and not self.error
        # (after a long pause LEAVE may be seen before an error's line; lines of avrstk come in order)
        return not self.is_before and (is_left or self.steps > 0) and self.reached() > len(self.words.updates)


# hints by the beginnings of errors: a text, or a function of the run and of what was found in the error
Table = Dict[str, Union[str, Callable[[Outcome, Match[str]], str]]]


def state_of(run: Outcome) -> str:
    """Describes the state of the chip after a run that stopped early. If it may be changed, says how to go on."""
    if not CHANGING & (run.earlier | run.commands):
        return UNCHANGED + f", and may be in programming mode: {POWER_CYCLE}" * run.is_held
    return MAYBE_CHANGED + ", and in programming mode" * run.is_held + f": {again(run)}"


def again(run: Outcome) -> str:
    """Advises to run the same command again if that repairs the chip, and else to go on without what was done. (A lock
    that may be written lets nothing more be written.)"""
    words, done = run.words, run.done()
    rest = words.updates[len(done) :]
    if may_lock(run.begun()) and any(update.operation == "w" and update.memory != "lock" for update in rest):
        return by_erase(words)
    # (a second run reads what the first one wrote)
    later = [[other.memory for other in run.begun()[at:] if other.operation == "w"] for at in range(len(done))]
    is_other = any(update.operation != "w" and update.memory in after for update, after in zip(done, later))
    if erases(words) and not may_lose(run) and not is_other:
        return same(words) + words.next_number
    # (one number is for all updates that have it)
    own = numbered(words)
    is_each = bool(own) and own[-1] in done
    if not is_each and not words.is_bootloader and any(one.writes_flash() and one in own for one in run.begun()):
        # (flash that isn't erased takes no second number)
        return by_erase(words)
    left = done if is_each else list(itertools.takewhile(lambda update: update not in own, done))
    count = sum(update.file != "--each" for update in left)
    first = "-U" if count == 1 else f"{count} -U"
    changes = ["with -D, without -e"] * erases(words) + [f"without its first {first}"] * bool(count)
    changes += [f"without {', '.join(options_of_each(words))}"] * is_each
    # (a bootloader may erase flash before a session's first page)
    is_split = all(any(update.writes_flash() for update in part) for part in (left, rest))
    changes += ["but at a bootloader with all -U of flash"] * (
        is_split and not erases(words) and not words.is_bootloader
    )
    changes += ["without --retry"] * (bool(changes) and takes_retry(words))
    why = "since another erase may clear EEPROM, " * may_lose(run)
    return f"{why}{same(words)} {', '.join(changes)}".rstrip() + ("" if is_each else words.next_number)


def numbered(words: Words) -> list[Update]:
    """Returns the updates that --each made or changed."""
    base = words.updates if words.each is None or words.each.base is None else words.each.base
    return [update for update in words.updates if update not in base]


def options_of_each(words: Words) -> list[str]:
    """Returns --each and the command's options that need it."""
    return ["--each", *(option for option in ("--counter", "--from", "--rows") if option in words.last)]


def takes_retry(words: Words) -> bool:
    """Whether the command has --retry, which is refused for some commands that hints advise."""
    return int(words.retry) > 0


def by_erase(words: Words) -> str:
    """Advises what ends old bits of flash, a lock, and two values for one memory."""
    number, retry = words.next_number, ", without --retry" * takes_retry(words)
    return (
        f"with a programmer give -e and all that is to be written{number}, each memory once, the lock last{retry}. The "
        "erase clears a lock, flash (a bootloader, too), and EEPROM unless the fuse bit EESAVE is 0"
    )


def same(words: Words) -> str:
    """Advises to run the same command again. With several boards it would change those that are done."""
    mark = f", no {MARK}" * words.has_mark
    return SAME + f" for {words.device} alone (one -P{mark})" * words.is_station


def overwritten(words: Words) -> list[str]:
    """Returns the files into which the command reads a memory that it writes later. (A second run reads new bytes.)"""
    updates = words.updates
    return [
        update.file
        for at, update in enumerate(updates)
        if update.operation == "r" and any(later.writes(update.memory) for later in updates[at:])
    ]


def may_erase_kept(words: Words, updates: list[Update]) -> bool:
    """Whether a second run may erase EEPROM that the first one keeps: the command erases, and one of these updates
    writes a high fuse that doesn't surely keep EEPROM at an erase. (--restore writes all of EEPROM.)"""
    bit = words.field("eesave_bit")
    values = [update.value() for update in updates if update.writes("hfuse")]
    keeps = all(value is not None and bit is not None and not value >> bit & 1 for value in values)
    return erases(words) and not keeps and words.restore is None


def may_lose(run: Outcome) -> bool:
    """Whether another erase may clear EEPROM that the run kept."""
    return may_erase_kept(run.words, run.begun())


def hint(run: Outcome, number: int | None) -> str:
    """Returns what to do after a failed run, judged by its first error. `number` is the signal that ended it."""
    error, words, state = run.error, run.words, state_of(run)
    is_done, is_backup = run.is_done(), run.words.backup is not None
    if number:
        return f"ended by {name_of_signal(number)}: {DONE if is_done and not is_backup else state}"
    if CHANGING & run.earlier and not CHANGING & run.commands:
        return state
    if not run.was_opened:
        end = state if run.earlier else UNOPENED
        why = matched(REFUSALS, error, run)
        return f"{why}; {end}" if why else end
    if is_done:
        return f"{POWER_CYCLE}, and {same(words)}" if is_backup else DONE
    is_silent = run.is_noisy or error == "no answer" and run.commands <= {SIGN_ON, LEAVE}
    if is_silent:
        return SILENT.format(baud=words.baud, state=state)
    return matched(REPLIED, error, run, baud=words.baud, state=state) or state


def matched(table: Table, error: str, run: Outcome, **fields: str) -> str:
    """Returns the hint of the first row whose error begins so; an empty text if there is none."""
    for begin, text in table.items():
        found = re.match(begin, error)
        if found:
            return text.format(**fields) if isinstance(text, str) else text(run, found)
    return ""


def no_part(words: Words, _: Match[str] | None) -> str:
    """Returns why a part isn't there, if it is known."""
    # (a package may follow, as -PU)
    name = re.sub(r"-\w+$", "", long_name(words.part))
    if words.parts_file is not None:
        return "with --parts, -p takes a part as that file names it, or m328p, t85 or m2560"
    for names, reason in rows_of("unsupported.txt"):
        if {name, f"at{name}"} & {*names.lower().split()}:
            return f"{name} is not supported: {reason.partition('. ')[0]}. Use avrdude"
    known = next((other for other in (name, f"at{name}") if other in parts()), None)
    return f"give -p {known}" if known else "-p takes a chip's name, such as m328p: -p '?' lists all"


def unread(run: Outcome, found: Match[str]) -> str:
    """Returns what to do with an image that avrstk refuses. (No other format makes a text firmware.)"""
    words, (name, address) = run.words, found.groups()
    # (a fault of values has the memory's name)
    images = [update for update in words.updates if update.is_image and name in (update.handed, update.file)]
    values = [update for update in words.updates if update.format == "m" and name == update.memory]
    update = next(iter(images + values), None)
    if update and address and update.memory in FUSES:
        return f"{update.memory} is one byte: give its value, as {update.memory}:{update.operation}:0xNN:m"
    form = form_of(update.held(65_536)) if update and update.is_image else None
    if update and form and update.format not in (None, "a", form) and (form != "e" or update.memory in AREAS):
        return f"it has {FORMATS[form]}: give {update.given_as(form)}"
    return too_high(update, int(address, 16)) if update and address else DAMAGED


def too_high(update: Update, address: int) -> str:
    """Returns what to do about an address that the memory doesn't have."""
    if update.memory in AREAS and 0x810000 <= address < SIGNATURE:
        # (the address of EEPROM, a fuse or the lock)
        return f"give the ELF file itself, as {update.memory}:{update.operation}:NAME.elf"
    return f"check -p and {'the values' if update.format == 'm' else 'the image'}"


def unopened(run: Outcome, found: Match[str]) -> str:
    """Returns what to do about a file that can't be opened."""
    file, front = found[1], found[1].rpartition(":")[0]
    own = next((update for update in run.words.updates if update.file == file), None)
    if own:
        update = f"{own.memory}:{own.operation}"
        # (letters alone may be a file's name, but not for a fuse)
        form = r"(0[xb])?[0-9A-Fa-f, \t]+" if own.memory in FUSES else r"(0[xb])?[A-Fa-f, \t]*[0-9][0-9A-Fa-f, \t]*"
        is_bare = own.operation in "wv" and own.given.count(":") == 2
        if is_bare and re.fullmatch(form, file) and not os.path.lexists(file):
            return f"a value needs :m after it, as {update}:0xNN:m"
        if os.path.isfile(front) and not os.path.lexists(file):
            return "a format is one letter, such as :i"
    return "check its name and permissions"


def another_part(run: Outcome, found: Match[str]) -> str:
    """Returns the hint after a wrong signature."""
    names = " or ".join(parts_of(found[1])) or "no part of classic.toml"
    what = "check the board, the wires, and that -p, firmware and fuses are for this chip"
    of = f"the signature is that of {names}: {what}"
    return f"{NO_CHIP if found[1] in NO_SIGNATURES else of}; {state_of(run)}"


def with_value(run: Outcome, update: str) -> str:
    """Advises to give another value. A second run keeps EEPROM that another erase may clear."""
    way = again(run) if may_lose(run) else ""
    if way == by_erase(run.words):
        return way
    return f"{way}, with {update}" if way else f"give {update}"


def differs(run: Outcome, found: Match[str]) -> str:
    """Returns the hint after a failed comparison."""
    words, memory = run.words, found[1]
    wanted, held = (int(number, 16) for number in found.groups()[1:])
    # (the updates before were done)
    update = next(one for one in [*words.updates[len(run.done()) :], *words.updates] if one.memory == memory)
    value = f"{memory}:{update.operation}:0x{held:02X}:m"
    bits = words.bits().get(memory) if words.restore is None else None
    # (ISP doesn't write bit 5 of the high fuse, SPIEN)
    if bits is not None and not (wanted ^ held) & bits & ~(0x20 * (memory == "hfuse")):
        is_wrong = words.parts_file is None and (wanted ^ held) & ~bits
        give = "check -p" if is_wrong else with_value(run, value)
        return f"{memory} differs only in bits that {words.part} can't change: {give}"
    if update.operation == "v":
        is_hidden = memory in ("flash", "eeprom") and not words.is_bootloader
        file = "standard input" if update.file == "-" else update.file
        return f"{memory} reads as something else than {file}" + f", or the lock hides it ({OPEN_LOCK})" * is_hidden
    # (bits of a lock that are 0 need an erase, but some parts read the bits that a lock lacks as 0)
    is_fixed = memory != "lock" or not wanted & ~held or not (wanted ^ held) & 0x3F
    may_lack = bits is None and words.restore is None and memory in FUSES and is_fixed
    rest = unlike(run, memory, wanted, held)
    return unless_lacking(run, value, rest) if may_lack else rest


def unless_lacking(run: Outcome, value: str, rest: str) -> str:
    """Returns the hint if the part may lack the bits that differ. `rest` is the hint if it has them."""
    way = again(run) if may_lose(run) else ""
    if not way:
        return f"give {value} if the part can't change the bits that differ; else {rest}"
    tail = rest[len(way) :].replace(", with another", "; else use another").replace("; if it", "; else if it")
    return f"{way}. If the part can't change the bits that differ, give {value}{tail}"


def unlike(run: Outcome, memory: str, wanted: int, held: int) -> str:
    """Returns the hint if a memory holds another byte than the one that was written."""
    words, once = run.words, sum(update.writes(memory) for update in run.begun()) < 2
    # (a lock that is open protects nothing, and an erase sets no bit of it to 0)
    is_open = memory == "lock" and held & 3 == 3 and not wanted & ~held
    is_other = words.is_bootloader or is_open or erases(words) and once
    way, erase = again(run), by_erase(words)
    if way != erase and is_other and may_lose(run) and memory in FUSES:
        # (without its erase the command would next advise an erase)
        return f"{way}, with another programmer"
    return erase if way == erase else f"{way}; {OTHER if is_other else f'if it fails again, {erase}'}"


def unerased(run: Outcome, _: Match[str]) -> str:
    """Returns the hint after a refused erase. (Before a restore a bootloader refuses the calibration.)"""
    updates, retry = run.words.updates, ", without --retry" * takes_retry(run.words)
    advice = f", which can't erase the chip, give -D, not -e, and for flash {ONE_IMAGE}{retry}"
    if any(update.memory == "calibration" or update.writes(fuse) for update in updates for fuse in FUSES):
        advice = ", use a programmer, whose erase clears the bootloader"
    loader = f"if this is a bootloader{advice}. If it is a programmer, "
    return loader * (run.words.restore is None) + f"{state_of(run)}; {OTHER}"


def erases(words: Words) -> bool:
    """Whether the command erases the chip."""
    writes_flash = any(update.writes_flash() for update in words.updates)
    return "-n" not in words.flags and ("-e" in words.flags or writes_flash and "-D" not in words.flags)


def may_lock(updates: list[Update]) -> bool:
    """Whether these updates write a lock that may protect other memories."""
    values = [update.value() for update in updates if update.writes("lock")]
    return any(value is None or value & 3 != 3 for value in values)


# hints after errors of the Nth -U
KINDS = {
    "no such memory": f"the memories are {', '.join(MEMORIES)}",
    "no such operation": "the operations are w (write), v (compare) and r (read)",
    "no such format here": "the formats are i, s, r, e, a and m to write and compare, i, s, r, h, d, o and b to read",
    "no file named": "no file is named: give MEMORY:OP:FILE:FORMAT, or MEMORY:w:VALUES:m",
}


def unparsed(run: Outcome, found: Match[str]) -> str:
    """Returns the hint for a -U that avrstk can't parse."""
    return f"-U {run.words.given[int(found[1]) - 1]}: {KINDS[found[2]]}"


# hints after errors before the device was opened, by the beginning of the error
REFUSALS: Table = {
    rf"update (\d+): ({'|'.join(KINDS)})$": unparsed,
    ".*: not a number$": "a value is written as 0xE2, 0b11100010, 0342 or 226",
    "(.*): cannot be opened$": unopened,
    r"(.*?): (?:line \d+: )?(?:bad |line too long|no record mark|address (\w{8}) out of range)": unread,
    "no part [^:]*$": lambda run, found: no_part(run.words, found),
}

# and after it was opened. (A file may have the name of an error's beginning.)
REPLIED: Table = {
    ".*: cannot be (created|written)$": "check the output's name and free space; of a pipe, the reader; {state}",
    r"(\w+): address \w+: (\w+) expected, (\w+) found": differs,
    r"signature is (\w\w \w\w \w\w)": another_part,
    rf"no answer$|{LOST_LINK}|command .* C1$": CABLE,
    "no answer in|.*bad answer$": "check the speed (-b {baud}), and that nothing else sends data; {state}",
    r"command 10 .*(80|81|C0)$": "check the wires, the power, the clock and the reset pin; {state}",
    "command 12 ": unerased,
    "command (17|19|1C) ": f"if this is a bootloader, use a programmer; {{state}}; {OTHER}",
    "command ": f"{{state}}; {OTHER}",
}

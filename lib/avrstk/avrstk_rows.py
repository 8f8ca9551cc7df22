"""avrstk-serial --try-rows: tries the rows of docs/BOARDS at a programmer and its chip.

A row is met if its command was done, or not done at all. If its reply is good, it was done, and the data in the reply
are the chip's. Each row is tried at some addresses: that is a test, and proves nothing."""

from avrstk_common import NO_PARTS, READ, Fault, Frames, came, is_frame, parts, print_line, ready, show
from avrstk_backup import FILES, command_again
from avrstk_elf import hex_rows
from avrstk_faults import framed, spoiled, xor
from avrstk_hints import NO_CHIP, NO_SIGNATURES, Outcome, hint
from avrstk_words import UNOPENED, Words

import contextlib
import os
import random
import re
import signal
import tempfile
import time
from typing import Callable, Dict, List, Optional, Protocol, Sequence, Tuple

# what a chip's memories hold; None is a memory that can't be read
Chip = Dict[str, Optional[bytes]]

# bodies of commands (docs/PROTOCOL), and the beginnings of others
SIGN_ON, ENTER, LEAVE = b"\1", bytes.fromhex("10C8641920005303AC530000"), b"\x11\1\1"
ERASE, ERASED, CORRUPT = bytes.fromhex("120900AC800000"), b"\x12\0", b"\xb0\xc1"
READS = {"lfuse": "180450000000", "hfuse": "180458080000", "efuse": "180450080000", "lock": "1A0458000000"}
READS.update({"calibration": "1C0438000000", "signature": "1B043000{:02X}00", "flash": "14{:04X}20"})
READS.update({"eeprom": "16{:04X}A0"})
WRITES = {"lfuse": "17ACA000", "hfuse": "17ACA800", "efuse": "17ACA400", "lock": "19ACE000"}
WRITES.update({"flash": "13{:04X}C10A404C20FFFF", "eeprom": "15{:04X}C10AC1C2A0FFFF"})
FUSES = ("lfuse", "hfuse", "efuse")

# the bytes of a block, and the blocks of flash that are read again after a row, unless all rows are tried
BLOCK, SAMPLE = 256, 16
# a command has no reply if so many bytes or seconds brought none (the slowest command takes some five seconds)
MOST_BYTES, MOST_SECONDS = 4096, 30

# how TOML writes a number that isn't negative
DIGITS = {"0x": "[0-9A-Fa-f]+", "0o": "[0-7]+", "0b": "[01]+", "": "[0-9]+"}
NUMBER = re.compile("0|" + "|".join(f"{base or '(?!0)'}{digit}(_{digit})*" for base, digit in DIGITS.items()))

MEMORIES = {"signature": ("signature",), "calibration": ("calibration",), "fuses": FUSES, "lock": ("lock",)}
MEMORIES.update({"flash": ("flash",), "EEPROM": ("eeprom",)})
KEPT = ("SIGN_ON", "ENTER", "LEAVE", "damaged frame", "restart")
READING = list(MEMORIES)
WRITING = ("erases", "writes flash", "writes fuses", "writes lock")


class Opened(Protocol):
    """A device, or what speaks version 1 to it."""

    def fileno(self) -> int:
        ...

    def close(self) -> None:
        ...


class Ended(Exception):
    """No further row can be tried."""


class Silent(Ended):
    """The programmer has sent no valid reply."""


def hexed(*bodies: bytes) -> str:
    return ", ".join(body[:16].hex(" ").upper() + " .." * (len(body) > 16) for body in bodies)


def exchange(reply: bytes, *step: bytes) -> str:
    """Returns what a row shows of a step and its reply."""
    return f"{hexed(*step)} was answered {hexed(reply)}"


def unsure(*memories: str) -> str:
    """Returns why a row isn't tried that needs these memories."""
    return f"no sure reading of {' and '.join(memories)}"


def shown(held: Optional[bytes]) -> str:
    """Returns what a row shows of a memory."""
    return hexed(held) if held and len(held) < 4 else f"{len(held or b''):,} bytes"


class Programmer:
    """Sends commands. `opens` opens the device, and restarts a board that restarts by DTR."""

    def __init__(self, opens: Callable[[], Opened]) -> None:
        self.opens, self.file, self.number, self.repeated = opens, opens(), 0, 0
        # whether a signal ends the trial, and whether a valid reply has come
        self.heeds, self.has_replied = True, False

    def restart(self) -> None:
        self.file.close()
        time.sleep(0.2)
        self.file = self.opens()

    def send(self, body: bytes, is_damaged: bool = False) -> Optional[bytes]:
        """Sends a frame. Returns the body of its reply; None after a second without a byte, or if other bytes keep
        coming."""
        self.number = (self.number + 1) % 256
        frame, pieces, held = framed(self.number, body), Frames(), 0
        os.write(self.file.fileno(), spoiled(frame) if is_damaged else frame)
        ends = time.monotonic() + MOST_SECONDS
        while held < MOST_BYTES and time.monotonic() < ends:
            found = ready({self.file: READ, **({came: READ} if self.heeds else {})}, time.monotonic() + 1)
            if came in found:
                raise Ended("a signal came")
            if not found:
                break
            try:
                piece = os.read(self.file.fileno(), 4096)
            except BlockingIOError:
                # (another program has read the bytes)
                continue
            if not piece:
                raise Ended("the device is gone: check the cable and the power")
            held += len(piece)
            for reply in filter(is_frame, pieces.pieces(piece)):
                if reply[1] == self.number and not xor(reply):
                    self.has_replied = True
                    return reply[5:-1]
        return None

    def ask(self, *step: bytes) -> bytes:
        """Sends a step at most four times, as avrstk does. Returns the reply, unless it reports a damaged frame."""
        for attempt in range(4):
            self.repeated += attempt > 0
            for body in step:
                reply = self.send(body)
                if reply is None or reply[1:2] != b"\0":
                    break
            if reply is not None and reply != CORRUPT:
                return reply
        raise (Ended if self.has_replied else Silent)(f"no good reply to {hexed(*step)} in four attempts")


def sizes_of(words: Words) -> Dict[str, int]:
    """Returns the sizes of the part, and the bit of EESAVE. (avrstk_session has judged the part, but a form of TOML may
    not be known here.)"""
    if words.parts_file is None and not parts():
        raise Fault(f"{NO_PARTS}: {UNOPENED}")
    names = ("flash_size", "flash_page", "eeprom_size", "eeprom_page", "eesave_bit")
    found = {name: words.of_part(name) or "" for name in names}
    is_there = words.parts_file is None or os.path.isfile(words.parts_file)
    if is_there and words.of_part("signature") and all(map(NUMBER.fullmatch, found.values())):
        return {name: int(value, 0) for name, value in found.items()}
    why = f"can't read {words.part}'s fields in {words.parts_file}: give a regular file with lines as in classic.toml"
    raise Fault(f"--try-rows {why}: {UNOPENED}")


class Rows:
    """The rows, tried one after another. `chip` is what the memories hold, and `saved` what they held at first."""

    def __init__(self, words: Words, opens: Callable[[], Opened]) -> None:
        self.part = part = sizes_of(words)
        self.words, self.is_all, self.sizes = words, words.trial == "all", {"signature": 3, "calibration": 1}
        self.sizes.update(
            {memory: 1 for memory in (*FUSES, "lock")}, flash=part["flash_size"], eeprom=part["eeprom_size"]
        )
        # the pages that are written. (With -c wiring a command restores only the first 256 bytes of EEPROM)
        half = min(part["eeprom_size"], 256 if words.is_wiring else 1 << 16) // 2
        self.cell = half // part["eeprom_page"] * part["eeprom_page"]
        self.page = min(10, part["flash_size"] // part["flash_page"] // 2) * part["flash_page"]
        self.results: Dict[str, Optional[bool]] = {}
        self.chip: Chip = {}
        self.saved: Chip = {}
        # the commands and replies by which memories can't be read
        self.refusals: Dict[str, str] = {}
        # where the copy of the memories is, how to restore what may be changed, and the last reading
        self.folder = self.kept = self.undo = self.asked = ""
        self.programmer = Programmer(opens)

    def row(self, name: str, fault: Optional[str], seen: str = "") -> None:
        """Prints a row that was tried."""
        self.results[name] = not fault
        self.show_row(name, "FAILS" if fault else "meets", fault or seen)

    def leave_out(self, name: str, why: str, how: str = "not tried") -> None:
        self.results[name] = None
        self.show_row(name, how, why)

    def show_row(self, name: str, how: str, what: str) -> None:
        show(f"row {name:19} {how:9} {what}".rstrip())

    def addressed(self, memory: str, at: int) -> List[bytes]:
        """Returns the LOAD_ADDRESS of a command, if it has one."""
        far = 0x80000000 if self.sizes["flash"] > 0x20000 else 0
        address = {"flash": at // 2 | far, "eeprom": at}.get(memory)
        return [] if address is None else [b"\6" + address.to_bytes(4, "big")]

    def read(self, memory: str, at: int, count: int) -> Optional[bytes]:
        """Returns bytes of a memory; None if the reply isn't good."""
        body = bytes.fromhex(READS[memory].format(count if memory in ("flash", "eeprom") else at))
        step = [*self.addressed(memory, at), body]
        reply = self.programmer.ask(*step)
        is_good = reply[:2] == step[-1][:1] + b"\0" and reply[-1:] == b"\0" and len(reply) == count + 3
        self.asked = exchange(reply, *step)
        return reply[2:-1] if is_good else None

    def writing(self, memory: str, at: int, data: bytes) -> List[bytes]:
        return [*self.addressed(memory, at), bytes.fromhex(WRITES[memory].format(len(data))) + data]

    def written(self, memory: str, at: int, data: bytes) -> Chip:
        """Returns what the chip holds after a write: of flash and the lock only bits are cleared."""
        held = self.chip[memory] or b""
        data = bytes(old & new for old, new in zip(held[at:], data)) if memory in ("flash", "lock") else data
        return {**self.chip, memory: held[:at] + data + held[at + len(data) :]}

    def blocks(self, memory: str, shift: int = 0) -> List[Tuple[int, int]]:
        """Returns place and length of the blocks of a memory. With `shift` they begin elsewhere, and a few more are
        drawn."""
        size, step = self.sizes[memory], 2 if memory == "flash" else 1
        if memory not in ("flash", "eeprom"):
            return [(at, 1) for at in range(size)]
        begins = [0, *range(min(shift, size // 4 * 2) or BLOCK, size, BLOCK)]
        found = [(at, end - at) for at, end in zip(begins, [*begins[1:], size])]
        for at in [random.randrange(0, size - step, step) for _ in range(4 if shift else 0)]:
            found.append((at, random.randrange(step, min(BLOCK, size - at) + 1, step)))
        return found

    def whole(self) -> Chip:
        """Reads all memories."""
        chip: Chip = {}
        for memory in self.sizes:
            pieces: List[bytes] = []
            for block in self.blocks(memory):
                piece = self.read(memory, *block)
                if piece is None:
                    self.judge_readable(memory)
                    break
                pieces.append(piece)
            else:
                chip[memory] = b"".join(pieces)
        return {memory: chip.get(memory) for memory in self.sizes}

    def judge_readable(self, memory: str) -> None:
        """Notes why a memory can't be read. Ends if it could be read before."""
        self.refusals[memory] = self.asked
        if self.saved.get(memory) is not None:
            raise self.lost(memory)

    def lost(self, memory: str) -> Ended:
        return Ended(f"{memory} can't be read any more: {self.asked}")

    def difference(self, wanted: Chip, shift: int = 0) -> Optional[str]:
        """Reads all memories, or a sample, and returns where one differs."""
        for memory, held in wanted.items():
            blocks = self.blocks(memory, shift) if held is not None else []
            is_sample = memory == "flash" and not self.is_all and len(blocks) > SAMPLE
            for at, count in sorted(random.sample(blocks, SAMPLE)) if is_sample else blocks:
                found, right = self.read(memory, at, count), (held or b"")[at : at + count]
                if found is None:
                    raise self.lost(memory)
                place = next((index for index in range(count) if found[index] != right[index]), None)
                if place is not None:
                    return f"{memory}: address {at + place:08X}: {right[place]:02X} expected, {found[place]:02X} found"
        return None

    def attempt(self, done: Chip, *step: bytes, enters: bool = False) -> Tuple[Optional[str], str]:
        """Sends a step that makes the chip `done`. If its reply isn't good, the chip may also be as before. Returns the
        fault, and what was seen."""
        reply, code = self.programmer.ask(*step), step[-1][:1]
        if enters:
            self.enter()
        is_good = reply == code + bytes(2 if code in b"\x17\x19" else 1)
        fault, seen = self.difference(done), "done" if done != self.chip else "as before"
        if fault and not is_good and not self.difference(self.chip):
            fault, done, seen = None, self.chip, "not done"
        self.chip = self.whole() if fault else done
        return fault and f"{exchange(reply, *step)}; {fault}", f"{hexed(reply)}: {seen}"

    def write(self, memory: str, at: int, data: bytes, enters: bool = False) -> Tuple[Optional[str], str]:
        return self.attempt(self.written(memory, at, data), *self.writing(memory, at, data), enters=enters)

    def enter(self) -> None:
        reply = self.programmer.ask(ENTER)
        if reply != ENTER[:1] + b"\0":
            raise Ended(exchange(reply, ENTER))

    def begin(self) -> None:
        """Signs on, enters programming mode and saves all memories. Ends if the chip is another one, or locked."""
        self.programmer.ask(SIGN_ON)
        self.enter()
        found, lock = b"".join(self.read("signature", at, 1) or b"" for at in range(3)), self.read("lock", 0, 1)
        if hexed(found) in NO_SIGNATURES:
            raise Ended(NO_CHIP)
        if len(found) < 3:
            raise Ended(unsure("signature"))
        if found.hex() != (self.words.of_part("signature") or "").lower():
            raise Ended(f"the signature is {hexed(found)}: is -p right?")
        if lock and lock[0] & 3 != 3:
            raise Ended(f"the chip reads as locked ({hexed(lock)})")
        self.chip = self.saved = self.whole()
        self.is_all &= not self.obstacles()
        try:
            self.save_all()
        except OSError as fault:
            raise Ended(f"the memories can't be saved in this folder: {fault.strerror}")
        print_line(self.kept)

    def lost_by_erase(self) -> List[str]:
        """Returns the memories that can't be restored after an erase, because they can't be read."""
        return [memory for memory in ("flash", "eeprom", "hfuse") if self.saved[memory] is None]

    def obstacles(self) -> List[str]:
        """Returns the memories because of which only EEPROM is written. (A bootloader restores flash without an
        erase.)"""
        return [memory for memory in self.lost_by_erase() if memory == "flash" or not self.words.is_bootloader]

    def fuses(self) -> Sequence[str]:
        """Returns the fuses. (A part of which nothing is known may have no extended fuse.)"""
        return FUSES if self.words.parts_file is None or self.words.bits() else FUSES[:2]

    def needed(self, name: str) -> List[str]:
        """Returns the memories that a row needs, and that can't be read."""
        needed = {"erases": self.lost_by_erase(), "writes fuses": self.fuses(), "writes lock": ["lock"]}
        return [memory for memory in needed.get(name, []) if self.chip[memory] is None]

    def save_all(self) -> None:
        """Saves all memories, and the pages that are written, in a new folder."""
        self.folder = tempfile.mkdtemp("", "try-rows-", ".")
        self.kept = f"the first readings of the chip are in {self.folder}"
        for memory, held in self.saved.items():
            self.save(f"{memory}.{FILES[memory][:3]}", held)
        self.save("page.hex", (self.saved["eeprom"] or b"")[: self.cell + self.part["eeprom_page"]], self.cell)
        self.save("front.hex", (self.saved["flash"] or b"")[: self.page + self.part["flash_page"]])

    def save(self, name: str, held: Optional[bytes], begin: int = 0) -> None:
        """Writes a file of the form that --backup gives it."""
        if held:
            values = ",".join(f"0x{byte:02x}" for byte in held) + "\n"
            with open(f"{self.folder}/{name}", "w", encoding="ascii") as file:
                file.write(values if name.endswith("txt") else "".join(hex_rows([(begin, held[begin:])])))

    def begin_to_change(self) -> None:
        """Notes how to restore what is changed from now on. (With -c wiring a command takes no whole EEPROM.)"""
        name = "page" if self.words.is_wiring else "eeprom"
        eeprom = ("-U", f"eeprom:w:{self.folder}/{name}.hex:i") if self.saved["eeprom"] else ()
        words, is_whole = eeprom, None not in self.saved.values()
        if self.is_all:
            front = ("-D", "-U", f"flash:w:{self.folder}/front.hex:i", *eeprom)
            words = front if self.words.is_bootloader else (f"--restore={self.folder}",) * is_whole
        self.undo = self.kept + f"; to restore it, try: {command_again(self.words, *words)}" * bool(words)

    def only(self, *memories: str) -> Chip:
        return {memory: self.chip[memory] for memory in memories}

    def reads(self) -> None:
        """Reads memories again, by blocks that begin elsewhere. (If all is well, `eeprom` reads it once more.)"""
        for name in READING:
            here = {memory: held for memory, held in self.only(*MEMORIES[name]).items() if held is not None}
            fault = self.difference({**here}, BLOCK // 2)
            seen = ", ".join(self.refusals.get(memory) or shown(self.chip[memory]) for memory in MEMORIES[name])
            if fault or not here or name != "EEPROM":
                self.row(f"reads {name}", fault and f"{self.asked}; {fault}", seen)

    def keeps(self) -> None:
        """Nothing is changed by SIGN_ON, ENTER and LEAVE."""
        for name, body in ("SIGN_ON", SIGN_ON), ("ENTER", ENTER), ("LEAVE", LEAVE):
            reply = self.programmer.ask(body)
            if body == LEAVE and self.words.is_bootloader:
                # (it has ended)
                self.programmer.restart()
                self.programmer.ask(SIGN_ON)
            self.enter()
            fault = self.difference(self.chip)
            self.row(name, fault and f"{exchange(reply, body)}; {fault}", hexed(reply))
            self.chip = self.whole() if fault else self.chip

    def damaged(self, write: bytes) -> None:
        """A frame with a wrong checksum is not obeyed."""
        if self.words.is_version1:
            return self.leave_out("damaged frame", "version 1 has no checksums")
        self.programmer.ask(*self.addressed("eeprom", self.cell))
        bodies = [write, *[ERASE] * self.is_all]
        replies = [self.programmer.send(body, True) for body in bodies]
        taken = [exchange(reply, body) for body, reply in zip(bodies, replies) if reply and reply[1:2] == b"\0"]
        fault = "; ".join(taken) or self.difference(self.chip)
        self.row("damaged frame", fault, " and ".join(hexed(reply) if reply else "no reply" for reply in replies))
        self.chip = self.whole() if fault else self.chip

    def eeprom(self) -> None:
        """Inverts bits of all but one byte of a page, and puts them back twice. Both ways of reading see the same."""
        held, fault, seen, unlike = self.chip["eeprom"], None, "", None
        if held is None or "reads EEPROM" in self.results:
            self.leave_out("damaged frame", unsure("eeprom"))
            return self.leave_out("writes EEPROM", unsure("eeprom"))
        old = held[self.cell : self.cell + self.part["eeprom_page"]]
        self.begin_to_change()
        self.damaged(self.writing("eeprom", self.cell, bytes(byte ^ 0x5A for byte in old))[-1])
        for data in bytes(byte ^ 0xA5 for byte in old[:-1] or old), old, old:
            wrong, result = self.write("eeprom", self.cell, data)
            fault, seen = fault or wrong, seen or result
            if not unlike:
                unlike = self.difference(self.only("eeprom"), BLOCK // 2)
                unlike = unlike and f"{self.asked}; {unlike}"
        self.is_put_back()
        self.row("reads EEPROM", unlike, f"{len(held):,} bytes")
        if unlike:
            return self.leave_out("writes EEPROM", unsure("eeprom"), "unsure")
        self.row("writes EEPROM", fault, seen)

    def is_put_back(self) -> None:
        if self.chip["eeprom"] == self.saved["eeprom"] and not self.is_all:
            self.undo = ""

    def restart(self) -> None:
        """After a restart each row before the next ENTER is refused, or does what it says."""
        self.programmer.restart()
        self.programmer.ask(SIGN_ON)
        fault, found = None, []
        for memory, held in self.chip.items():
            at, count = random.choice(self.blocks(memory))
            found += [self.read(memory, at, count)] if held is not None else []
            if held and found[-1] not in (None, held[at : at + count]):
                fault = fault or self.asked
        held = self.chip["eeprom"] if self.results["reads EEPROM"] else None
        if held is not None:
            old = held[self.cell : self.cell + self.part["eeprom_page"]]
            self.begin_to_change()
            wrong, _ = self.write("eeprom", self.cell, bytes(byte ^ 0x5A for byte in old), enters=True)
            again, _ = self.write("eeprom", self.cell, old)
            fault = fault or wrong or again
            self.is_put_back()
        self.enter()
        changed, unread = self.difference(self.chip), found.count(None)
        fault, self.chip = fault or changed, self.whole() if changed else self.chip
        seen = f"before ENTER {len(found) - unread} readings were right, {unread} got no good reply; both are allowed"
        self.row("restart", fault, seen)

    def erase(self) -> bool:
        """Returns whether the chip was erased."""
        flash, eeprom, hfuse = self.chip["flash"], self.chip["eeprom"], self.chip["hfuse"]
        if flash is None or eeprom is None or hfuse is None:
            self.leave_out("erases", unsure(*self.lost_by_erase()))
            return False
        takes = hfuse[0] >> self.part["eesave_bit"] & 1
        done: Chip = {**self.chip, "flash": b"\xff" * len(flash), "lock": b"\xff"}
        done["eeprom"] = b"\xff" * len(eeprom) if takes else eeprom
        fault, seen = self.attempt(done, ERASE)
        self.row("erases", fault, seen)
        return self.chip is done

    def changes(self) -> None:
        """Erases, and writes flash, fuses and the lock."""
        self.begin_to_change()
        is_erased = self.erase()
        one, other = os.urandom(self.part["flash_page"]), os.urandom(self.part["flash_page"])
        self.writes("writes flash", [("flash", page) for page in (one, one, other)])
        self.writes("writes fuses", [(fuse, self.chip[fuse]) for fuse in self.fuses()])
        # (a bit of the lock is cleared only if an erase has set it, or a bootloader can't clear it)
        values = [b"\xff", b"\xfe"] if is_erased or self.words.is_bootloader else [b"\xff"]
        self.writes("writes lock", [("lock", value) for value in values])
        self.restore(is_erased)

    def writes(self, name: str, given: Sequence[Tuple[str, Optional[bytes]]]) -> None:
        """Writes these bytes, one after another, up to the first fault."""
        unread = dict.fromkeys(memory for memory, _ in given if self.chip[memory] is None)
        if unread:
            return self.leave_out(name, unsure(*unread))
        fault, seen = None, ""
        for memory, data in given:
            if not fault:
                fault, seen = self.write(memory, self.page if memory == "flash" else 0, data or b"")
        self.row(name, fault, seen)

    def restore(self, is_erased: bool) -> None:
        """Writes what was saved, in two rounds if needed."""
        for _ in range(2):
            self.programmer.restart()
            self.programmer.ask(SIGN_ON)
            self.enter()
            if not self.lost_by_erase():
                self.programmer.ask(ERASE)
            self.chip = self.whole()
            for memory in "flash", "eeprom", "lock":
                page, saved = self.part.get(f"{memory}_page", 1), self.saved[memory] or b""
                places = range(0, len(saved), page)
                wrong = [at for at in places if saved[at : at + page] != (self.chip[memory] or b"")[at : at + page]]
                # (without an erase, a bootloader may erase a page for each one written, from 0 on)
                is_whole = memory == "flash" and wrong and not is_erased
                for at in range(0, wrong[-1] + 1, page) if is_whole else wrong:
                    self.programmer.ask(*self.writing(memory, at, saved[at : at + page]))
            self.chip = self.whole()
            if self.chip == self.saved:
                self.undo = ""
                print_line("the chip reads as before")
                break

    def try_all(self) -> None:
        self.begin()
        self.reads()
        self.keeps()
        self.eeprom()
        self.restart()
        if self.is_all:
            self.changes()
        else:
            for name in WRITING:
                hidden = self.obstacles() or self.needed(name)
                self.leave_out(name, unsure(*hidden) if hidden else "needs --try-rows=all --yes")
        self.programmer.ask(LEAVE)

    def put_back(self) -> None:
        """After an early end, writes a page of EEPROM back if the programmer still replies."""
        self.programmer.heeds = False
        old = self.saved.get("eeprom")
        if self.undo and old and not self.is_all:
            page = old[self.cell : self.cell + self.part["eeprom_page"]]
            self.programmer.ask(ENTER)
            self.programmer.ask(*self.writing("eeprom", self.cell, page))
            if self.read("eeprom", self.cell, len(page)) == page:
                self.undo, self.chip = "", self.written("eeprom", self.cell, page)
        self.programmer.ask(LEAVE)

    def left(self) -> str:
        """Returns the promise that these rows leave."""
        failed = [name for name, meets in self.results.items() if meets is False]
        is_unread = all(f"reads {name}" in failed for name in READING)
        if not self.chip or is_unread or any(name in failed for name in KEPT):
            return "none"
        is_whole = not failed and None not in self.results.values() and not self.words.is_version1
        return "README's promise" if is_whole else "the smaller promise of docs/BOARDS"


def try_rows(words: Words, opens: Callable[[], Opened]) -> int:
    """Tries the rows, and returns the status: 0 if all that were tried are met, and the chip reads as before."""
    # (a page of EEPROM may have to be put back)
    if signal.getsignal(signal.SIGQUIT) is not signal.SIG_IGN:
        came.heed(signal.SIGQUIT)
    rows, why = Rows(words, opens), None
    try:
        rows.try_all()
    except (Ended, Fault, OSError) as fault:
        why = str(fault)
        if isinstance(fault, OSError):
            why = f"{fault.filename or words.device}: {fault.strerror}"
        with contextlib.suppress(Ended, OSError):
            rows.put_back()
        print_line(f"no further row is tried: {why}")
        if isinstance(fault, Silent):
            print_line(hint(Outcome(words, commands={SIGN_ON[0]}, was_opened=True, error="no answer"), None))
    finally:
        rows.programmer.file.close()
    tried, again = [is_met for is_met in rows.results.values() if is_met is not None], rows.programmer.repeated
    print_line(f"{sum(tried)} of {len(tried)} tried rows are met; repeated attempts: {again}")
    if not why:
        print_line(f"promised of a programmer that always does so: {rows.left()}")
    is_as_before = not rows.undo and rows.chip == rows.saved
    if not is_as_before:
        print_line(f"the chip may be changed; {rows.undo or rows.kept}")
    return 0 if all(tried) and not why and is_as_before else 1

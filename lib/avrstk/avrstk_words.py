"""The command line of avrstk-serial: its options, and its updates, which are judged before the device is opened."""

from __future__ import annotations

from avrstk_common import BUILT_IN, READ, Fault, data_file, part_words, parts, print_line, program, ready
from avrstk_common import session_program
from avrstk_elf import AREAS, SIGNATURE, Run, hex_rows, sections_of
from avrstk_version1 import SPEEDS

import codecs
import copy
import functools
import getopt
import os
import re
import shlex
import subprocess
from pathlib import Path
from typing import TYPE_CHECKING, Mapping, NamedTuple, Sequence

if TYPE_CHECKING:
    from avrstk_each import Each
    from avrstk_report import Report

FUSES = ["lfuse", "hfuse", "efuse", "lock"]
MEMORIES = ["flash", "eeprom", *FUSES, "signature", "calibration"]
UNOPENED = "nothing was sent, and the device was not opened"
UNWRITTEN = "nothing was written"

# what a name of a file has where each of several boards' own name is put
MARK = "{board}"

# formats by file name extension
ENDINGS = {".hex": "i", ".ihex": "i", ".eep": "i", ".srec": "s", ".s19": "s", ".mot": "s"}
FORMATS = {"i": "Intel HEX", "s": "S-records", "e": "ELF"}
OF_ELF = (".elf", ".axf", ".out")

# the most bytes of a file that the script reads, of an image that avrstk takes, and of an ELF file's memory
MOST, MOST_OF_IMAGE, MOST_OF_ELF = 1 << 26, 1 << 22, 1 << 20

# a file of records begins so, by avrstk's rule, and a record with data so
COMMENT_OR_TEXT = re.compile(
    r"""#.*|"{3}(?s:\\.|[^\\])*?"{3,5}|'{3}(?s:.*?)'{3,5}|"(?P<text>(?:\\.|[^"\\\n])*)"|'(?P<plain>[^'\n]*)'"""
)
RECORD = re.compile(rb"(?:[ \t\r]*\n)*(?::[0-9A-Fa-f]{10}|S[0-9][0-9A-Fa-f]{8})")
BEGIN = re.compile(rb"(?:[ \t\r]*\n)*[:S]")
DATA = re.compile(rb"^(?::(?!00)..(?:....)00|S1(?!03)|S2(?!04)|S3(?!05))", re.M)
# the beginning of a record after a blank, or after a line that ends in CR alone
MARKED = re.compile(rb"[ \t\r](?::|S[123])")
ENDS = {b":": re.compile(rb"^:00....01", re.M), b"S": re.compile(rb"^S[789]", re.M)}

# how files begin that are neither firmware nor text. (cpio's old form has binary numbers, and a name below 256 bytes)
PACKED = {
    **{"ar": rb"!<(arch|thin)>\n", "zip": rb"PK(\x03\x04|\x05\x06)", "tar": rb"(?s:.{257})ustar"},
    **{"cpio": rb"07070[127][0-9A-Fa-f]{30}|(?s:\xc7\x71.{19}\0)", "7z": rb"7z\xbc\xaf\x27\x1c"},
    **{"rar": rb"Rar!\x1a\x07", "gzip": rb"\x1f\x8b\x08", "xz": rb"\xfd7zXZ\0", "bzip2": rb"BZh[1-9]"},
    **{"zstd": rb"\x28\xb5\x2f\xfd", "lz4": rb"(\x04\x22\x4d|\x02\x21\x4c)\x18"},
    **{"HTML": rb"(?i)(\xef\xbb\xbf)?\s*<(!doctype html|html|head|body)\b"},
}

# options of AVRDUDE and of avrstk
SHORT = "p:c:P:U:b:C:l:B:E:i:x:T:Y:OtysueDVnFAqvh?"
LONG = ["parts=", "serve=", "chip=", "wait=", "retry=", "backup=", "restore=", "json=", "try-rows=", "yes"]
LONG += ["each=", "from=", "rows=", "counter=", "version", "help"]

IGNORED = {"-C", "-s", "-u"}

# options that come without these others
EXCLUDED = {
    "--backup": {"-U", "-e", "-F", "--each", "--restore"},
    "--restore": {"-U", "-e", "-D", "-V", "-n", "-F"},
}

# options without a value that go to avrstk
FLAGS = {"-e", "-D", "-V", "-n", "-F", "-A", "-q", "-v"}


class Plan(NamedTuple):
    """The frames of a run, and place and length of each page of flash that it writes; None if that is not known."""

    frames: int
    pages: list[tuple[int, int]] | None


UNKNOWN = Plan(0, None)


@functools.lru_cache(maxsize=None)
def plan_of(options: tuple[str, ...]) -> Plan:
    """Returns the plan of a run with these options, as avrstk_session prints it."""
    quiet = subprocess.DEVNULL
    try:
        command = [session_program(quiet), "--outline", *options]
        ran = subprocess.run(command, stdin=quiet, stdout=subprocess.PIPE, stderr=quiet, close_fds=False)
    except (Fault, OSError, SystemExit):
        return UNKNOWN
    rows = [] if ran.returncode else [row.split() for row in ran.stdout.decode().splitlines()]
    pages = [(int(at), int(count)) for memory, at, count in rows[1:] if memory == "flash"]
    return Plan(int(rows[0][1]), pages) if rows else UNKNOWN


def is_port(device: str | None) -> bool:
    """Whether this is a port of avrstk's own, which needs no device."""
    return bool(re.match(r"stdio:|emu:|net:", device or ""))


def rows_of(name: str) -> list[tuple[str, str]]:
    """Returns the rows of a data file: words, and a text after them; none if it is not there."""
    rows = [row.partition(": ") for row in Path(data_file(name)).read_text("ascii").splitlines()]
    return [(words, text) for words, _, text in rows if not words.startswith("#")]


def long_name(part: str | None) -> str:
    """Returns AVRDUDE's long name of a part, in small letters."""
    part = (part or "").lower()
    if re.match(r"[mtc]\d", part):
        return {"m": "atmega", "t": "attiny", "c": "at90can"}[part[0]] + part[1:]
    return re.sub(r"^(?=pwm|usb)", "at90", re.sub(r"^(?=\d)", "at90s", part))


def parts_of(signature: str) -> list[str]:
    """Returns the short names of the parts that have this signature."""
    digits = signature.replace(" ", "")
    found = [name for name, part in parts().items() if part["signature"] == digits and not name.startswith("at")]
    return sorted(found, key=lambda name: (len(name), name))


class Words:
    """The command line: the script's own options, and those for avrstk."""

    def __init__(self, given: list[str], report: Report) -> None:
        self.unproved = given[:1] == ["--unproved"]
        # (getopt knows no option whose value may be left out)
        bare = [word for word in given if len(word) > 2 and "--try-rows".startswith(word)]
        given = ["--try-rows=safe" if word in bare else word for word in given[self.unproved :]]
        options, others = getopt.gnu_getopt(given, SHORT, LONG)
        self.last = last = dict(options)
        judge_words(options, others)
        self.part, self.device, self.parts_file = last.get("-p"), last.get("-P"), last.get("--parts")
        self.programmer, baud = last.get("-c", "stk500v2"), last.get("-b")
        self.wait, self.retry = last.get("--wait", "0.3"), last.get("--retry", "0")
        self.backup, self.restore, self.trial = (last.get(option) for option in ("--backup", "--restore", "--try-rows"))
        # all devices of the command. A station has several boards, or all that are there
        self.devices = [value for name, value in options if name == "-P"]
        self.is_station = len(self.devices) > 1 or self.devices == ["all"]
        self.has_port = is_port(self.device)
        self.has_mark = any(MARK in word for word in given)
        # what is written for each board
        self.each: Each | None = None
        self.each_given = [value for name, value in options if name == "--each"]
        self.is_wiring = self.programmer.lower() == "wiring"
        self.is_version1 = self.programmer.lower() in SPEEDS
        # whether the chip's own bootloader is meant, which a reset starts
        self.is_bootloader = self.programmer.lower() in ("arduino", "wiring")
        # the speeds to try, in turn; none if -b is no speed
        known = SPEEDS.get(self.programmer.lower(), (115_200,))
        self.speeds = known if baud is None else (int(baud),) if re.fullmatch(r"0*[1-9][0-9]{0,8}", baud) else ()
        self.given = [value for name, value in options if name == "-U"]
        self.updates = [Update(update) for update in self.given]
        for name in filter(last.__contains__, EXCLUDED):
            found = sorted(EXCLUDED[name] & last.keys()) + [f"-c {self.programmer}"] * self.is_bootloader
            if found:
                raise Fault(f"{name} takes no {' or '.join(found)}")
        self.flags = [name for name, _ in options if name in FLAGS]
        # the images by their names, as far as they were read
        self.contents: dict[str, bytes | None] = {}
        # the report of the run, and how many times avrstk was run
        self.report, self.tries = report, 0
        self.left_out = [f"{name} {value}".rstrip() for name, value in options if name in IGNORED]

    @property
    def baud(self) -> str:
        return " or ".join(map(str, self.speeds))

    def command(self, port: str) -> list[str]:
        return [program(), *["--unproved"] * self.unproved, *self.options(port)]

    def options(self, port: str) -> list[str]:
        updates = [word for update in self.updates for word in ("-U", update.text)]
        # (a hint, a report, and the table of several boards need the lines that -q leaves out)
        flags = [flag for flag in self.flags if flag != "-q"]
        return ["-P", port, "-c", "stk500v2", *part_words(self.part, self.parts_file), *flags, *updates]

    @property
    def next_number(self) -> str:
        """Says which number a second run takes if the command has --each."""
        return self.each.advice(self) if self.each else ""

    def is_wanted(self, line: bytes) -> bool:
        """Whether avrstk prints this line with -q: once it leaves out what it did, twice warnings, too."""
        kind = next(
            (at for at, begin in enumerate((b"error: ", b"warning: ")) if line.startswith(b"avrstk: " + begin)), 2
        )
        return not line.startswith(b"avrstk: ") or kind + min(self.flags.count("-q"), 2) <= 2

    def content(self, file: str) -> bytes | None:
        """Returns the bytes of an image, which are read once; None if it can't be opened, which avrstk reports."""
        if file == "-" and (self.device or "").startswith("stdio:"):
            raise Fault(f"-P stdio: takes no image from standard input: {UNOPENED}")
        if file not in self.contents:
            self.contents[file] = read_whole(file)
        return self.contents[file]

    def shown(self, line: bytes) -> bytes:
        """Returns a line of avrstk with the user's name of a file that the script has handed on."""
        found = re.match(rb"(avrstk: (?:error|warning): )(/dev/fd/[^:]*)(: (?:line \d+: )?)", line)
        for update in self.updates if found else []:
            if found and update.handed.encode() == found[2]:
                # (avrstk's lines of an ELF file are not those of the user's)
                rest = (b": " if update.elf else found[3]) + line[found.end() :]
                return found[1] + os.fsencode(update.file) + rest
        return line

    def note(self, text: str) -> None:
        """Prints a line that is no error, unless -q is given twice."""
        if self.flags.count("-q") < 2:
            print_line(text)

    def chip(self) -> str:
        """Returns the long name of the part; with a part file of one's own, that of a part here with its signature."""
        if self.parts_file is None:
            return long_name(self.part)
        names = parts_of(self.signature())
        return long_name(names[0] if names else self.part if self.part in BUILT_IN else "")

    def signature(self) -> str:
        """Returns the digits of the part's signature, as far as they are known here."""
        if self.parts_file is None:
            return parts().get((self.part or "").lower(), {}).get("signature", "")
        held = (self.of_file("signature") or "").upper()
        return held if re.fullmatch("[0-9A-F]{6}", held) else ""

    def of_file(self, name: str) -> str | None:
        """Returns a field of the part in the part file of one's own."""
        if self.parts_file is None or not os.path.isfile(self.parts_file):
            return None
        with open(self.parts_file, encoding="utf-8-sig", errors="replace") as file:
            return entry_in(bare(file.read(65_536)), self.part or "", name)

    def of_part(self, name: str) -> str | None:
        """Returns a field of the part, wherever it is described."""
        own = self.of_file(name) if self.parts_file is not None else None
        is_here = self.parts_file is None or self.part in BUILT_IN
        return own or (parts().get((self.part or "").lower(), {}).get(name) if is_here else None)

    def field(self, name: str) -> int | None:
        """Returns a number of the part, such as flash_size; None if it is not known here."""
        known = {} if self.parts_file is not None else parts().get((self.part or "").lower(), {})
        return int(known[name]) if name in known else None

    def bits(self) -> dict[str, int]:
        """Returns the bits of each fuse and of the lock that the part has; none if it is not known here."""
        name = self.chip()
        known = (masks for names, masks in rows_of("bits.txt") if name in names.split())
        return {memory: int(mask, 16) for memory, mask in zip(FUSES, next(known, "").split()) if mask != "-"}

    def plan(self) -> Plan:
        """Returns the plan of a run, as far as it is known."""
        if any(update.is_stream() for update in self.updates):
            return UNKNOWN
        try:
            return plan_of(tuple(self.options("stdio:")))
        except Fault:
            return UNKNOWN

    def flash_pages(self) -> list[tuple[int, int]] | None:
        """Returns place and length of each page of flash that is written; None if that is not known."""
        only = copy.copy(self)
        only.updates = [update for update in self.updates if update.writes_flash()]
        return only.plan().pages

    def changes(self) -> bool:
        """Whether the command writes or erases something."""
        writes = any(update.operation == "w" for update in self.updates) or bool(self.each_given)
        return "-n" not in self.flags and (writes or "-e" in self.flags or self.restore is not None)

    def is_whole(self) -> bool | None:
        """Whether the command writes flash from address 0 on, and leaves out no page; None if that is not known."""
        pages = self.flash_pages()
        if not pages:
            return None
        ends = [0, *(at + count for at, count in pages)]
        return [at for at, _ in pages] == ends[:-1]


def bare(text: str) -> str:
    """Returns TOML without comments, quotes, arrays and texts of several lines. (Other texts lose their brackets.)"""
    text = COMMENT_OR_TEXT.sub(lambda found: re.sub(r"[]#={}[]", "", found["text"] or found["plain"] or ""), text)
    count = 1
    while count:
        text, count = re.subn(r"(?<=[=,[])\s*\[[^][]*\]", "0", text)
    return text


def entry_in(text: str, part: str, name: str) -> str | None:
    """Returns a part's field in a part file: in its own table, behind dots, or in braces."""
    more, own = r"(?:[^][{}]|\{[^{}]*\})*?", re.escape(part)
    field = rf"{own}\s*(?:\.\s*|=\s*\{{(?:{more},)?\s*)"
    tables = rf"\[\s*parts\s*(?:\.\s*{own}\s*\]{more}^[ \t]*|\]{more}^[ \t]*{field})"
    # (behind a table's name `parts` is a field of that table)
    front, of_front = re.split(r"(?m)^[ \t]*\[", text)[0], rf"parts\s*(?:\.\s*|=\s*\{{(?:{more},)?\s*){field}"
    places = [(tables, text), (of_front, front)]
    found = (re.search(rf"(?m)^[ \t]*{begin}{name}\s*=\s*\+?(\w+)", place) for begin, place in places)
    return next((one[1] for one in found if one), None)


def overlaps(pages: list[tuple[int, int]]) -> bool:
    """Whether two of these pages overlap, each with its place and length."""
    pages = sorted(pages)
    return any(at + count > later for (at, count), (later, _) in zip(pages, pages[1:]))


def judge_words(options: Sequence[tuple[str, str]], others: Sequence[str]) -> None:
    """Refuses options without a value, and words without an option."""
    for option, value in options:
        if option in ("-p", "-P", "-b", "-c") and re.match("-.", value):
            raise Fault(f"{option} needs a value before {value}")
    if others:
        other = re.sub("^(-.*?)=.*", r"\1", others[0])
        raise Fault(f"no option takes {other} here (-U MEMORY:OP:FILE:FORMAT is one word)")


class Update:
    """One -U, parsed as avrstk parses it. `text` is what avrstk gets."""

    def __init__(self, given: str) -> None:
        self.given = self.text = given
        self.format: str | None = None
        # the name that avrstk gets for an image, and the bytes of the image that avrstk takes
        self.handed, self.front = "", b""
        # what an ELF file has for this memory, and the chip that it names
        self.elf: list[Run] = []
        self.chip: str | None = None
        self.signature: str | None = None
        self.memory, self.operation, self.file = "flash", "w", given
        if ":" in given:
            self.memory, self.operation, self.file = (given.split(":", 2) + ["", ""])[:3]
            if self.file[-2:-1] == ":":
                self.file, self.format = self.file[:-2], self.file[-1]
        self.is_image = self.operation in ("w", "v") and self.format != "m"
        self.named = ENDINGS.get(os.path.splitext(self.file)[1].lower()) if self.is_image and not self.format else None
        if self.named:
            self.format, self.text = self.named, f"{self.memory}:{self.operation}:{self.file}:{self.named}"

    def image(self) -> dict[int, int]:
        """Returns the bytes of an image file by their addresses."""
        if self.elf:
            return {at: byte for begin, held in self.elf for at, byte in enumerate(held, begin)}
        whole = self.held(MOST_OF_IMAGE) if self.is_image else b""
        if self.format in ("i", "s") or self.format != "r" and RECORD.match(whole):
            return records_of(whole)
        return dict(enumerate(whole))

    def size(self) -> int:
        """Returns where an image ends."""
        if self.format == "m":
            return len(re.findall(r"[^ \t,]+", self.file))
        return max(self.image(), default=-1) + 1

    def value(self) -> int | None:
        """Returns the byte of an update of one byte, also from a file, else None."""
        if self.is_image:
            held = self.image() if self.memory in FUSES else {}
            return held[0] if [*held] == [0] else None
        digits = re.fullmatch(r"[ \t,]*(?:0x([0-9A-F]+)|0b([01]+)|0([0-7]+)|([0-9]+))[ \t,]*", self.file, re.I | re.A)
        if self.format != "m" or not digits:
            return None
        found = next(int(text, base) for text, base in zip(digits.groups(), (16, 2, 8, 10)) if text)
        return found if found < 256 else None

    def mask(self, bits: Mapping[str, int]) -> bool:
        """Gives bits that the part's fuse or lock doesn't have as 1, as the part reads them. Returns whether it changes
        the value."""
        value, lacks = self.value(), ~bits.get(self.memory, 0xFF) & 0xFF
        if value is None or not lacks & ~value:
            return False
        self.text = f"{self.memory}:{self.operation}:0x{value | lacks:02X}:m"
        return True

    def judge(self, content: bytes | None) -> None:
        """Refuses what avrstk would notice late, or not at all. Hands avrstk the bytes of an image that is judged."""
        fault = self.fault_of_file() or (self.fault_of_image(content) if self.is_image else None)
        if fault:
            raise Fault(f"{self.file} {fault}: {UNOPENED}")
        if self.is_image and self.file:
            self.hand_on(content)

    def is_folder(self) -> bool:
        """Whether the file is a folder. (`-` is a standard stream.)"""
        return self.file != "-" and os.path.isdir(self.file)

    def fault_of_file(self) -> str | None:
        """Returns why the file can't be read or written; None if it can, as far as is known without opening it."""
        folder, is_target = os.path.dirname(self.file) or ".", self.operation == "r" and self.file != "-"
        if (is_target or self.is_image) and self.is_folder():
            return "is a folder"
        place = self.file if os.path.exists(self.file) else folder
        if is_target and not (os.path.isdir(folder) and os.access(place, os.W_OK)):
            return "cannot be written"
        return None

    def fault_of_image(self, held: bytes | None) -> str | None:
        """Returns why these bytes are no image; None if they are one, perhaps of ELF, which is taken apart."""
        if held is None:
            # (avrstk reports a file that can't be opened)
            return None
        front, self.front = held[:1024], bytes(held[:MOST_OF_IMAGE])
        is_elf, begins, is_detected = front[:4] == b"\x7fELF", RECORD.match(front), self.format in (None, "a")
        if is_elf and (is_detected or self.format == "e"):
            return self.fault_of_elf(held)
        if is_elf:
            return "is ELF: give :e" if self.memory in AREAS else self.fault_of_no_area()
        end = ENDS[begins[0].split()[0][:1]].search(held) if begins and self.format != "r" else None
        # (avrstk reports where records are that it can't read)
        is_marked = DATA.search(held) or MARKED.search(held, 0, end.start() if end else len(held))
        is_blank = self.format in ("i", "s") and not held.strip()
        if not held or is_blank or begins and self.format != "r" and not is_marked:
            return "has no data"
        # (a note may be after the end, too)
        if end and any(RECORD.match(held, found.start()) for found in DATA.finditer(held, end.end())):
            return "has data after its end record"
        if self.format in ("i", "s") and not BEGIN.match(held):
            return f"doesn't begin with a record of {FORMATS[self.format]}"
        if self.format == "e" or is_detected and not packed_as(front) and self.file.lower().endswith(OF_ELF):
            form = form_of(held)
            return f"is not ELF: give :{form}" if form else "is not ELF"
        return self.fault_of_detected(front) if is_detected else None

    def given_as(self, form: str) -> str:
        """Returns this update in another format, as a word of a command."""
        return shlex.quote(f"{self.memory}:{self.operation}:{self.file}:{form}")

    def fault_of_detected(self, front: bytes) -> str | None:
        """Returns why a file whose format is detected is no image, by its first bytes; None if it is one."""
        kind = packed_as(front)
        if not kind and not RECORD.match(front):
            is_like_text = is_text(front, 20) or self.memory == "flash" and is_text(front.strip(b"\0"), 2)
            kind = "text" if is_like_text else None
        return f"looks like {kind}: give :r only to use its bytes as they are" if kind else None

    def fault_of_no_area(self) -> str | None:
        """Returns why ELF isn't taken for this memory; None if there is no such memory, which avrstk reports."""
        return "is ELF, which is for flash, eeprom, fuses and lock" if self.memory in MEMORIES else None

    def fault_of_elf(self, held: bytes) -> str | None:
        """Takes what an ELF file has for this memory, and the chip that it names. Returns why it can't be written."""
        if self.memory not in AREAS:
            return self.fault_of_no_area()
        try:
            sections, self.chip = sections_of(held)
        except ValueError as fault:
            return str(fault)
        signatures = [section.held for section in sections if section.place == SIGNATURE]
        self.signature = bytes(signatures[0][::-1]).hex().upper() if signatures else None
        low, high = AREAS[self.memory]
        runs = [(max(low, at) - low, part[max(low - at, 0) : max(high - at, 0)]) for _, at, part in sections]
        self.elf = [(at, part) for at, part in runs if part]
        size = sum(len(part) for _, part in self.elf)
        if not self.elf:
            return f"has no byte of {self.memory}"
        if size > MOST_OF_ELF:
            return f"has more than {MOST_OF_ELF:,} bytes of {self.memory}"
        return None

    def hand_on(self, content: bytes | None, end: str = UNOPENED) -> None:
        """Gives avrstk an image's bytes in a file without name. If it has none, gives it a name that no file has. `end`
        says what a refusal leaves."""
        self.handed = f"/dev/fd/-{id(self)}"
        if content is not None:
            rest = memoryview("".join(hex_rows(self.elf)).encode() if self.elf else content)
            try:
                file = os.memfd_create("image", 0)
                self.handed = f"/dev/fd/{file}"
                while rest:
                    rest = rest[os.write(file, rest) :]
            except OSError as fault:
                raise Fault(f"{self.file}: {fault.strerror}: {end}")
        if self.elf:
            self.named = "e"
        # (a file that can't be opened has no ELF: avrstk, which doesn't know :e, reports it as Intel HEX)
        form = "i" if self.elf or content is None and self.format == "e" else self.format or "a"
        self.text = f"{self.memory}:{self.operation}:{self.handed}:{form}"

    def held(self, most: int) -> bytes:
        """Returns the first bytes of an image, or of a file that a memory was read into."""
        if self.is_image or not os.path.isfile(self.file) or not os.access(self.file, os.R_OK):
            return self.front[:most]
        with open(self.file, "rb") as file:
            return file.read(most)

    def is_stream(self) -> bool:
        """Whether a memory is read into a file that can only be written once."""
        is_other = self.file == "-" or os.path.exists(self.file) and not os.path.isfile(self.file)
        return self.operation == "r" and is_other

    def unwritten(self) -> Update:
        """Returns this update of a stream as it is judged, with a file that keeps nothing."""
        other = copy.copy(self)
        form = "" if self.format is None else f":{self.format}"
        other.text = f"{self.memory}:{self.operation}:{os.devnull}{form}"
        return other

    def writes(self, memory: str) -> bool:
        return self.operation == "w" and self.memory == memory

    def writes_flash(self) -> bool:
        return self.writes("flash")


def read_whole(file: str) -> bytes | None:
    """Returns the bytes of a file, a pipe or standard input; None if it can't be opened."""
    try:
        stream = open(0 if file == "-" else file, "rb", 0, closefd=file != "-")
    except OSError:
        return None
    held = bytearray()
    try:
        while len(held) <= MOST:
            piece = stream.read(1 << 20)
            if piece == b"":
                return held
            if piece is None:
                # (a stream that doesn't block has nothing yet)
                ready({stream: READ})
            held += piece or b""
    except OSError as fault:
        raise Fault(f"{file}: {fault.strerror}: {UNOPENED}")
    raise Fault(f"{file} has more than {MOST:,} bytes: {UNOPENED}")


def form_of(held: bytes) -> str | None:
    """Returns the letter of the format that a file's first bytes show; None if they show none."""
    if held[:4] == b"\x7fELF":
        return "e"
    return ("i" if held.lstrip()[:1] == b":" else "s") if RECORD.match(held) else None


def packed_as(front: bytes) -> str | None:
    """Returns what a file is by its first bytes if it is neither firmware nor text."""
    return next((name for name, begin in PACKED.items() if re.match(begin, front)), None)


def is_text(held: bytes, rarity: int) -> bool:
    """Whether these bytes are text: at most one in `rarity` is a control character, and they are UTF-8; or there is no
    control character, and most are ASCII. (Firmware begins with jumps, which are no UTF-8.)"""
    held = held.decode("utf-16", "replace").encode() if held[:2] in (b"\xff\xfe", b"\xfe\xff") else held
    controls = len(re.findall(rb"[^\a-\r\x1b -~\x80-\xff]", held))
    try:
        # (the last character may be cut)
        text = codecs.getincrementaldecoder("utf-8")().decode(held)
        return bool(text) and len(held) >= controls * rarity
    except UnicodeDecodeError:
        return not controls and len(re.findall(rb"[\t\n\f\r -~]", held)) * 2 > len(held)


def records_of(held: bytes) -> dict[int, int]:
    """Returns the bytes of Intel HEX or S-records by their addresses."""
    found: dict[int, int] = {}
    base = 0
    for mark, digits in re.findall(rb"^[ \t]*(:|S[123])((?:[0-9A-Fa-f]{2})+)", held, re.M):
        row, size = bytes.fromhex(digits.decode()), 2 if mark == b":" else int(mark[1:]) + 1
        place = int.from_bytes(row[1 : 1 + size], "big")
        if mark == b":" and row[3:4] in (b"\2", b"\4"):
            base = int.from_bytes(row[4:6], "big") << (16 if row[3] == 4 else 4)
        elif mark != b":" or row[3:4] == b"\0":
            found.update(enumerate(row[size + 1 + (mark == b":") : -1], base + place))
    return found

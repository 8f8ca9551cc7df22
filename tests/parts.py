#!/usr/bin/env python3
"""Compares parts/classic.toml with two sources: the configuration of an installed AVRDUDE, and the headers of avr-libc.
The file has exactly the parts that both describe alike and that the program describes fully, each with both its names.
The program loads each name. AVRDUDE writes flash, EEPROM and fuses of a dozen parts by `--serve`; the chip must be the
same as after the program's own run over `emu:`. Holds the two other files of parts/ to their sources: bits.txt to
AVRDUDE's configuration, and unsupported.txt to docs/PARTS.

Not proved: No proof shows that a part file describes real parts.

    tests/parts.py [CASE ..]  needs a built program (program.py); checks that need avrdude, or avr-gcc
                              with avr-libc, are left out without them
    tests/parts.py --write    writes the three files of parts/
"""

import functools
import random
import re
import shutil
import subprocess
import sys
import tomllib
from pathlib import Path

from avrdude import Beside, Part as Sizes, updates
from cases import check, check_equal, leave_out, named, run_cases, sampled, table
from program import TOP, Room

CLASSIC = TOP / "parts/classic.toml"
BITS, UNSUPPORTED = TOP / "parts/bits.txt", TOP / "parts/unsupported.txt"
PAGE = TOP / "docs/PARTS.md"
HEADERS = Path("/usr/lib/avr/include/avr")
FIELDS = ["signature", "flash_size", "flash_page", "eeprom_size", "eeprom_page", "eesave_bit"]
DOZEN = "t25 t45 t85 t841 t1634 m88 m168 m328p m32u4 m1280 m2560 usb1286".split()

HEAD = """\
# Classic AVRs that avrstk describes fully, each with its short and its long name. Made by tests/parts.py --write of
# what the configuration of AVRDUDE 7.1 and the headers of avr-libc 2.0 both have; EESAVE is the headers'. docs/PARTS
# lists which parts are in, and which are not and why.

[parts]
"""

HEAD_OF_BITS = """\
# The bits that the fuses and the lock of the parts in classic.toml have: lfuse, hfuse, efuse, lock. Made by
# tests/parts.py --write: a bit is here if the write instructions in the configuration of AVRDUDE 7.1 have it, or the
# headers of avr-libc 2.0. A part reads its other bits as 1. A dash stands for a memory whose other bits are read as 0.
"""
HEAD_OF_UNSUPPORTED = """\
# Parts that classic.toml doesn't have, with the reason. Made by tests/parts.py --write of docs/PARTS.
"""

# the first bytes of the instructions that the program sends, by AVRDUDE's names for memories and operations
SENT = {(memory, operation): bytes.fromhex(sent) for memory, operation, sent in table("instructions")}


def configured():
    """Returns the ISP parts of AVRDUDE's configuration: name, properties, memories, operations."""
    ran = subprocess.run(["avrdude", "-p", "*/At"], capture_output=True, text=True, errors="replace")
    parts = {}
    for row in ran.stdout.splitlines():
        kind, *cells = row.split("\t")
        if kind == ".pt" and len(cells) >= 3:
            parts.setdefault(cells[0], {"": {}})[""][cells[1]] = cells[2].strip().strip('"')
        elif kind in (".ptop", ".ptmm", ".ptmmop") and len(cells) >= 4:
            parts[cells[0]].setdefault(cells[1], {})[cells[2]] = cells[3]
    return {name: part for name, part in parts.items() if "PM_ISP" in part[""].get("prog_modes", "")}


def bits(text):
    """Returns the 32 letters of an operation."""
    return re.sub(r"[^01xaio]", "", text or "")


def fits(text, sent):
    """Returns whether these first bytes match the operation, except for the bits that it leaves open."""
    wanted = "".join(f"{byte:08b}" for byte in sent)
    letters = bits(text)
    return len(letters) == 32 and all(letter in (bit, "x", "a", "i", "o") for letter, bit in zip(letters, wanted))


def number(part, memory, name):
    """Returns a property of a part's memory; 0 if it has none."""
    return int(part.get(memory, {}).get(name) or "0", 0)


def has_instructions(part):
    is_large = number(part, "flash", "size") > 131_072
    has_all = all(fits(part[memory].get(name), sent) for (memory, name), sent in SENT.items())
    return has_all and (not is_large or fits(part["flash"].get("load_ext_addr"), [0x4D, 0]))


def lacking(part):
    """Returns the first property of a part that the program doesn't support, by AVRDUDE's configuration, or None."""
    has_eeprom_pages = part.get("eeprom", {}).get("writepage", "NULL").strip("NUL")
    reasons = {
        "no flash pages": lambda: part.get("flash", {}).get("paged") != "yes",
        "8,192 bytes of EEPROM": lambda: number(part, "eeprom", "size") > 4096,
        "EEPROM by the byte": lambda: not has_eeprom_pages or number(part, "eeprom", "mode") != 0x41,
        "no extended fuse": lambda: "efuse" not in part or "fuse" in part,
        "another number of calibration bytes": lambda: number(part, "calibration", "size") != 1,
        "another instruction for the lock": lambda: not fits(part["lock"].get("write"), SENT["lock", "write"]),
        "other instructions": lambda: not has_instructions(part),
        "flash without polling": lambda: number(part, "flash", "mode") != 0x41,
        "an erase above 9 ms": lambda: int(part[""]["chip_erase_delay"]) > 9000,
    }
    return next((why for why, holds in reasons.items() if holds()), None)


def by_avrdude(part):
    """Returns a part's fields from the configuration, except the EESAVE bit, which isn't in it."""
    signature = "".join(f"{int(byte, 0):02X}" for byte in part[""]["signature"].split())
    sizes = [number(part, memory, name) for memory in ("flash", "eeprom") for name in ("size", "page_size")]
    return dict(zip(FIELDS, [signature, *sizes]))


def header_rows(name, seen):
    """Yields the lines of a header of avr-libc, with those of the headers that it includes, in order."""
    file = next(iter(HEADERS.glob(name)), None)
    if not file or name in seen:
        return
    seen.add(name)
    for row in file.read_text(errors="replace").splitlines():
        inner = re.match(r'\s*#\s*include\s+[<"](?:avr/)?(io\w+\.h)[>"]', row)
        if inner:
            yield from header_rows(inner[1], seen)
        else:
            yield row


def fuse_bits(name):
    """Returns what a header defines under the headings of fuses: by each name, its fuse (or None) and its bit."""
    fuse, found = None, {}
    for row in header_rows(name, set()):
        low = row.lower()
        if "/*" in low and "fuse" in low and not low.lstrip().startswith("#"):
            marks = [("efuse", ("extended", "efuse")), ("hfuse", ("high", "hfuse")), ("lfuse", ("low", "lfuse"))]
            fuse = next((found for found, words in marks if any(word in low for word in words)), fuse)
        defined = re.match(r"#\s*define\s+FUSE_(\w+)\s.*_BV\((\d)\)", row)
        if defined:
            found.setdefault(defined[1], (fuse, int(defined[2])))
    return found


def by_headers(name):
    """Returns a part's fields from avr-libc; None if avr-libc doesn't know the part."""
    text = "#include <avr/io.h>\n"
    words = ["avr-gcc", f"-mmcu={name.lower()}", "-E", "-dD", "-x", "c", "-"]
    ran = subprocess.run(words, input=text, capture_output=True, text=True)
    if ran.returncode:
        return None
    defined = dict(re.findall(r"^#define (\w+) +(.*)$", ran.stdout, re.M))

    def value(name):
        return int(re.sub(r"[()UuLl]", "", defined[name].split("/*")[0]).strip(), 0)

    included = re.findall(r'^# \d+ "[^"]*/avr/(io[^"/]+\.h)"', ran.stdout, re.M)
    device = next((header for header in included if header != "io.h"), None)
    try:
        signature = "".join(f"{value(f'SIGNATURE_{at}'):02X}" for at in range(3))
        sizes = [value("FLASHEND") + 1, value("SPM_PAGESIZE"), value("E2END") + 1, value("E2PAGESIZE")]
        bit = re.search(r"~\s*_BV\((\d)\)", defined["FUSE_EESAVE"])
        found = dict(zip(FIELDS, [signature, *sizes, int(bit[1])]))
    except (KeyError, TypeError, ValueError):
        return None
    fuses = fuse_bits(device) if device else {}
    found["fuses"] = {(fuse, bit) for fuse, bit in fuses.values() if fuse}
    return found if fuses.get("EESAVE", "")[:1] == ("hfuse",) and value("FUSE_MEMORY_SIZE") == 3 else None


@functools.cache
def sources():
    """Returns the parts that belong in the file, by their short names, and why each of the others doesn't."""
    parts, without = {}, {}
    for name, part in configured().items():
        short = part[""]["id"]
        why = lacking(part)
        if not why:
            here, there = by_avrdude(part), by_headers(name.split()[0])
            if there is None:
                why = "EESAVE not known of two sources"
            elif here != {field: there[field] for field in here}:
                why = "two sources differ"
            else:
                parts[short] = (name.split()[0].lower(), there, part)
        if why:
            without.setdefault(why, []).append(name)
    return parts, without


def row(name, fields):
    """Returns a part's line in the file."""
    described = ", ".join(
        f'{field} = "{fields[field]}"' if field == "signature" else f"{field} = {fields[field]}" for field in FIELDS
    )
    return f"{name} = {{ {described} }}\n"


def made(parts):
    """Returns the file's text."""
    names = sorted((name, fields) for short, (long, fields, _) in parts.items() for name in (short, long))
    return HEAD + "".join(row(*pair) for pair in names)


def mask(name, part, fuses):
    """Returns the bits of a fuse or lock that a write gives, or that a header defines, in hexadecimal digits; a dash if
    another is read as 0."""
    given, read = (bits(part[name][operation])[24:] for operation in ("write", "read"))
    found = {7 - at for at, letter in enumerate(given) if letter == "i"} | {bit for fuse, bit in fuses if fuse == name}
    return "-" if "0" in read else f"{sum(1 << bit for bit in found):02X}"


def made_bits(parts):
    """Returns the text of bits.txt."""
    rows = {}
    for long, fields, part in sorted(parts.values(), key=lambda entry: entry[0]):
        masks = " ".join(mask(memory, part, fields["fuses"]) for memory in ("lfuse", "hfuse", "efuse", "lock"))
        rows.setdefault(masks, []).append(long)
    return HEAD_OF_BITS + "".join(f"{' '.join(names)}: {masks}\n" for masks, names in sorted(rows.items()))


def made_unsupported():
    """Returns the text of unsupported.txt."""
    rows = re.findall(r"^\| (.*) \| \d+ \| (.*) \|$", PAGE.read_text().split("## The others")[1], re.M)
    return HEAD_OF_UNSUPPORTED + "".join(f"{names.replace(',', '')}: {why.replace('`', '')}\n" for why, names in rows)


def files_of_parts():
    """The files of parts/ are what their sources give, and docs/PARTS lists each part, or why it is left out."""
    check_equal("unsupported.txt, of docs/PARTS", UNSUPPORTED.read_text(), made_unsupported())
    if not has_sources():
        return
    parts, without = sources()
    check_equal("classic.toml", CLASSIC.read_text(), made(parts))
    check_equal("bits.txt", BITS.read_text(), made_bits(parts))
    listed, others = PAGE.read_text().split("## The others")
    names = [entry[2][""]["desc"].split()[0] for entry in parts.values()]
    check_equal("docs/PARTS has the parts", set(re.findall(r"\bAT\w+\d\w*", listed)), set(names))
    for name in [entry.split()[0] for names in without.values() for entry in names]:
        check(f"docs/PARTS gives the reason why {name} is not in", re.search(rf"\b{name}\b", others))


def loaded():
    """For each part name in parts/classic.toml the program reads the part's signature from a chip of its sizes. A run
    checks its whole part file, so only two names get the whole file, and the others their own line."""
    room = Room()
    file = tomllib.loads(CLASSIC.read_text())["parts"]
    for name, fields in sampled("names of parts", 40, file.items()):
        room.clear()
        room.put("one.toml", ("[parts]\n" + row(name, fields)).encode())
        given = str(CLASSIC) if name in ("atmega328p", "t88") else "one.toml"
        words = ["--parts", given, "-p", name, "-P", "emu:chip.bin", "-q", "-U", "signature:r:-:h"]
        status, output, messages = room.run(words)
        read = bytes(int(text, 0) for text in re.split(rb"[\s,]+", output.strip())).hex().upper() if output else ""
        check(f"{name} is loaded", (status, read) == (0, fields["signature"]), (status, output, messages))
        length = len(room.read("chip.bin") or b"")
        check(f"{name}: the chip", length == fields["flash_size"] + fields["eeprom_size"] + 4, length)


def values_of(part, drawn, eesave_bit):
    """Returns a value for each fuse. Bits that a part doesn't have are as AVRDUDE writes them, and EESAVE is not
    programmed."""
    found = {}
    for name in ("lfuse", "hfuse", "efuse"):
        letters = bits(part[name]["write"])[24:]
        mask, fixed = (sum(1 << (7 - at) for at, letter in enumerate(letters) if letter == mark) for mark in "i1")
        found[name] = drawn.randrange(256) & mask | fixed | (1 << eesave_bit if name == "hfuse" else 0)
    return found


def has_sources():
    """Returns whether both sources are installed; reports it if not."""
    if shutil.which("avrdude") and shutil.which("avr-gcc") and HEADERS.is_dir():
        return True
    return leave_out("what needs two sources", "avrdude, or avr-gcc with avr-libc, is not installed")


def sessions():
    """AVRDUDE over `--serve` and the program over `emu:` leave the same chip, for each of a dozen parts."""
    if not has_sources():
        return
    parts, _ = sources()
    for short in sampled("parts with AVRDUDE", 4, DOZEN):
        _, fields, part = parts[short]
        fuses = values_of(part, random.Random(short), fields["eesave_bit"])
        beside = Beside(short, Sizes(fields["flash_size"], fields["eeprom_size"], fuses), CLASSIC)
        fuses = [f"{fuse}:w:0x{value:02x}:m" for fuse, value in beside.part.fuses.items()]
        beside.request("all", updates("flash:w:flash.bin:r", "eeprom:w:eeprom.bin:r", *fuses))


def write():
    """Writes the files of parts/, and prints which parts are left out, and why."""
    if not has_sources():
        return 1
    parts, without = sources()
    CLASSIC.write_text(made(parts))
    BITS.write_text(made_bits(parts))
    UNSUPPORTED.write_text(made_unsupported())
    print(f"{len(parts)} parts, {len(CLASSIC.read_text())} bytes")
    for why, names in without.items():
        print(f"{why} ({len(names)}): {', '.join(names)}")
    return 0


if __name__ == "__main__":
    sys.exit(write() if sys.argv[1:] == ["--write"] else run_cases(named(loaded, files_of_parts, sessions), __doc__))

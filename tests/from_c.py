#!/usr/bin/env python3
"""Tests the library for C: runs examples/c and examples/python on files, random images with gaps and damaged files, and
exchanges record files with other programs. These are srec_cat, avr-objcopy and python3-intelhex. Without a C compiler
all is left out. AVR_RECORDS_C may name a folder for the library, which is built there if it has none.

Not proved: No proof covers programs in C and Python, or programs of others.

    tests/from_c.py [CASE ..]

Images are drawn from fixed seeds. This project writes them as Intel HEX and S-records, and each other program reads
them and writes them again for this project. Every byte must be at its address, and there must be no other byte."""

import functools
import importlib.util
import itertools
import os
import re
import shlex
import shutil
import subprocess
import sys
import tempfile
import time
from pathlib import Path

from cases import NUMBER, TOP, VERSION, bytes_of, check, check_equal, leave_out, named, run_cases, table
from records import drawn, hex_of, image_of, runs_of
from vendor import lend

# the distribution's modules, if this python looks elsewhere
sys.path.append("/usr/lib/python3/dist-packages")
try:
    from intelhex import IntelHex
except ImportError:
    IntelHex = None

IMAGES = 60
SECONDS = 20
USAGE = "records FILE SIZE ihex|srec [ROOM]"
# the functions that the header declares, and the faults with a text of their own
CALLS = [f"avr_records_{name}" for name in ("detect", "fault_text", "length", "read", "version", "write")]
FAULTS = [*range(9), 10, 11, 12]


def small_images():
    """Yields the seed, the image, the size and the file of each drawn image for a small memory."""
    for seed in range(IMAGES):
        image, size, text = drawn(seed)
        if size <= 65_537:
            yield seed, image, size, text


def shown(image):
    """Returns what examples/python prints for an image."""
    return [f"{at:08X}: {held.hex()}" for at, held in runs_of(image)]


def build(folder):
    """Builds the library there, in a copy of its crates, because `rt lib` waits while an rt ci is at work on these."""
    copy = folder / "copy"
    shutil.copytree(TOP / "examples/c", copy / "examples/c", dirs_exist_ok=True)
    shutil.copy(TOP / "VERSION", copy)
    run = functools.partial(subprocess.run, check=True, stdout=subprocess.DEVNULL)
    run([TOP / "tools/vendor.sh", "avr_records_c", copy])
    lend(copy)
    run([copy / "examples/c/build.sh", folder])


class Library:
    def __init__(self, folder):
        self.folder = folder
        built = Path(os.environ.get("AVR_RECORDS_C") or folder / "built")
        if not (built / "libavr_records.a").exists():
            build(built)
        shutil.copytree(built, folder, symlinks=True, dirs_exist_ok=True, ignore=shutil.ignore_patterns("copy"))
        self.program = self.compiled(TOP / "examples/c/records.c")

    def compiled(self, source):
        """Compiles a source file and links it with the archive. Returns the program."""
        program = self.folder / source.stem
        words = [os.environ.get("CC", "cc"), "-std=c99", "-Wall", "-Wextra", "-Werror", "-O2", f"-I{TOP / 'include'}"]
        subprocess.run([*words, source, self.folder / "libavr_records.a", "-o", program], check=True)
        return program

    def written(self, file, size, kind, *room):
        words = [self.program, file, str(size), kind, *map(str, room)]
        return subprocess.run(words, capture_output=True, check=True).stdout

    def refused(self, *words):
        done = subprocess.run([self.program, *words], capture_output=True, text=True)
        return done.returncode, done.stdout, done.stderr

    def fault(self, file, size):
        done = subprocess.run([self.program, file, str(size), "ihex"], capture_output=True)
        assert done.returncode == 1 and done.stdout == b"", done
        return done.stderr.decode().strip()

    def printed(self, file, size):
        return self.by_python(file, str(size), check=True).stdout.decode().splitlines()

    def in_python(self):
        """Returns examples/python/records.py as a module, and the library as it loads it."""
        spec = importlib.util.spec_from_file_location("records", TOP / "examples/python/records.py")
        records = importlib.util.module_from_spec(spec)
        spec.loader.exec_module(records)
        os.environ["AVR_RECORDS_LIBRARY"] = str(self.folder / "libavr_records.so")
        return records, records.load()

    def by_python(self, *words, check=False):
        environment = os.environ | {"AVR_RECORDS_LIBRARY": str(self.folder / "libavr_records.so")}
        words = [sys.executable, TOP / "examples/python/records.py", *words]
        return subprocess.run(words, capture_output=True, check=check, env=environment)


def comes_back(library, file, image, size):
    for kind in ("ihex", "srec"):
        text = library.written(file, size, kind)
        check_equal(f"{file} as {kind}", image_of(text), image)
        check_equal(f"{file} as {kind} by Python", library.by_python(file, str(size), kind, check=True).stdout, text)
        again = library.folder / "again"
        again.write_bytes(text)
        check_equal(f"{file} as {kind}, again", library.written(again, size, kind), text)


def files_come_back(library):
    """Example files and one without bytes are read and written by the library, and read back unchanged."""
    for name in ("blink.hex", "blink.srec", "eeprom.hex"):
        file = TOP / "examples" / name
        image = image_of(file.read_bytes())
        comes_back(library, file, image, 32_768)
        check_equal(f"{name} printed", library.printed(file, 32_768), shown(image))
    file = library.folder / "empty"
    file.write_bytes(hex_of([]))
    comes_back(library, file, {}, 8)


def typed_as_shown(library):
    """Types the commands of docs/LIBRARY that use the library for C, with the library in another folder."""
    section = (TOP / "docs/LIBRARY.md").read_text().split("## From C and Python\n")[1].split("\n## ")[0]
    first, *commands = re.findall(r"^    \$ (.*)$", section, re.M)
    check_equal("the first one", first, "examples/c/build.sh out/c")
    commands = [command.replace("out/c", shlex.quote(str(library.folder))) for command in commands]
    printed = [
        subprocess.run(["sh", "-c", command], cwd=TOP, capture_output=True, check=True).stdout for command in commands
    ]
    image = image_of((TOP / "examples/blink.hex").read_bytes())
    check_equal("C's", (printed[0], image_of(printed[1])), (b"", image))
    check_equal("Python's", printed[2].decode().splitlines(), shown(image))
    without = os.environ | {"AVR_RECORDS_LIBRARY": "/nowhere"}
    ran = subprocess.run(
        ["sh", "-c", commands[2].partition(" ")[2]], cwd=TOP, capture_output=True, text=True, env=without
    )
    is_hint = ran.stderr.endswith(": examples/c/build.sh builds the library, and ./install.sh --with-c installs it\n")
    check_equal("without a library", (ran.returncode, ran.stderr.count("\n"), is_hint), (1, 1, True))


def images_come_back(library):
    """Random images with gaps are read and written by the library, and read back unchanged."""
    for seed in range(IMAGES):
        file = library.folder / f"seed {seed}"
        image, size, text = drawn(seed)
        file.write_bytes(text)
        comes_back(library, file, image, size)
        if size <= 4096:
            check_equal(f"seed {seed} printed", library.printed(file, size), shown(image))


def pieces_join(library):
    """The pieces make up the file, even with a buffer of one byte."""
    for seed, _, size, given in small_images():
        file = library.folder / f"pieces {seed}"
        file.write_bytes(given)
        for kind in ("ihex", "srec"):
            text = library.written(file, size, kind, 1 << 20)
            for room in (1, 7, 80, len(text), len(text) + 1):
                check_equal(f"seed {seed} as {kind} by {room}", library.written(file, size, kind, room), text)


def lengths_are_told(library):
    """avr_records_length returns the length of the file that is then written."""
    records, loaded = library.in_python()
    for seed, image, size, _ in small_images():
        data, present = bytearray(size), bytearray((size + 7) // 8)
        for address, byte in image.items():
            data[address] = byte
            present[address // 8] |= 1 << address % 8
        for kind in (1, 2):
            result = loaded.avr_records_length(kind, *records.lent(data), *records.lent(present))
            text = b"".join(records.pieces(loaded, kind, data, present, 80))
            check_equal(f"seed {seed}, the length of {kind}", (result.length, result.fault), (len(text), 0))


def time_is_linear(library):
    """A file of about 10 MB is written twice through small buffers, in less than 20 seconds."""
    size = 4 << 20
    file = library.folder / "large"
    file.write_bytes(hex_of([(0, bytes(size))]))
    for kind in ("ihex", "srec"):
        text = library.written(file, size, kind, 16 << 20)
        begun = time.monotonic()
        check_equal(f"{kind} by 4096", library.written(file, size, kind, 4096) == text, True)
        check_equal(f"{kind} by 80", library.written(file, size, kind, 80) == text, True)
        taken = time.monotonic() - begun
        check_equal(f"{kind} took {taken:.1f} of {SECONDS} s", taken < SECONDS, True)


def cursors_are_judged(library):
    """A cursor that the header calls invalid is refused and stays unchanged. A cursor's fields are where the header has
    them."""
    records, loaded = library.in_python()
    for kind, size, ended, fault in [(1, 5, 0, 0), (1, 0, 2, 11), (2, 5, 0, 11), (2, 4, 1, 0), (2, 3, 2, 11)]:
        lent = [argument for held in (b"\x0a", b"\x01") for argument in records.lent(bytearray(held))]
        cursor, room = records.Cursor(0, 0, 0, size, ended), bytearray(80)
        piece = loaded.avr_records_write(kind, *lent, cursor, *records.lent(room))
        check_equal(f"format {kind}, addresses of {size}, ended {ended}", piece.fault, fault)
        if fault:
            check_equal("and then", (cursor.address_size, cursor.ended), (size, ended))


def faults_are_told(library):
    """Damaged files are refused with the expected fault, from C and from Python."""
    file = library.folder / "damaged"
    for text, size, message in table("damaged"):
        message = message.replace("FILE", str(file))
        file.write_bytes(bytes_of(text))
        check_equal(f"{text} in {size} bytes", library.fault(file, size), message)
        message = message.removeprefix(f"{file}: ")
        by_python = library.by_python(file, size)
        check_equal(
            f"{text} in {size} bytes by Python", (by_python.returncode, by_python.stderr.decode().strip()), (1, message)
        )


def sizes_are_judged(library):
    """The C program refuses sizes that are no numbers or too large."""
    file = TOP / "examples/blink.hex"
    for size in ("", "-1", " 5", "5x", "4294967296", "18446744073709551616"):
        check_equal(f"size '{size}'", library.refused(file, size, "ihex"), (2, "", f"usage: {USAGE}\n"))


def texts_are_put(library):
    """A text of a fault fits any buffer that isn't empty: it ends with a 0, and is cut if the buffer is small."""
    records, loaded = library.in_python()
    unknown = records.fault_text(loaded, 255)
    known = {records.fault_text(loaded, fault) for fault in FAULTS}
    check_equal("each fault has a text of its own", (len(known), unknown in known), (len(FAULTS), False))
    for fault in range(256):
        text = records.fault_text(loaded, fault).split(":")[0].encode()
        check_equal(f"{fault} is a fault", text.decode() != unknown, fault in FAULTS)
        for size in (0, 1, 5, len(text), len(text) + 1, 40):
            room = bytearray(b"\xa5" * size)
            put = (text[: size - 1] + b"\0" if size else b"") + b"\xa5" * max(0, size - len(text) - 1)
            length = loaded.avr_records_fault_text(fault, *records.lent(room))
            check_equal(f"the text of {fault} in {size}", (length, room), (len(text), put))


def versions_agree(library):
    """The header, the library, pkg-config's file and the Python program have the version in VERSION."""
    major, minor, patch = map(int, VERSION.split("."))
    number = 10_000 * major + 100 * minor + patch
    printed = subprocess.run(
        [library.compiled(TOP / "tests/versions.c")], capture_output=True, check=True, text=True
    ).stdout
    check_equal("the header and the archive", printed, f"{VERSION} {VERSION} {number} {number}\n")
    records, loaded = library.in_python()
    check_equal("Python and the shared library", (records.VERSION, loaded.avr_records_version()), (number, number))
    config = (library.folder / "avr_records.pc").read_text()
    check_equal("pkg-config's file", f"\nVersion: {VERSION}\n" in config, True)
    name = f"libavr_records.so.{NUMBER}"
    shared = library.folder / "libavr_records.so"
    check_equal("what the link leads to", os.readlink(shared), name)
    check_equal("the name that Python looks for", records.SONAME, name)
    listed = subprocess.run(["readelf", "-d", shared], capture_output=True, check=True, text=True).stdout
    check_equal("the name in it", f"soname: [{name}]" in listed, True)


def other_names_are_free(library):
    """A program's own functions may have the names of functions that the archive doesn't export."""
    program = library.compiled(TOP / "tests/own_names.c")
    check_equal("the fault of a good file", subprocess.run([program]).returncode, 0)


def only_its_calls_are_seen(library):
    """The archive and the shared library export exactly the functions that the header declares."""
    header = (TOP / "include/avr_records.h").read_text()
    check_equal("what is declared", sorted(re.findall(r"^[a-z].* \**(avr_records_\w+)\(", header, re.MULTILINE)), CALLS)
    for words in (["-g", "libavr_records.a"], ["-D", "libavr_records.so"]):
        words = ["nm", "--defined-only", *words]
        listed = subprocess.run(words, cwd=library.folder, capture_output=True, check=True, text=True).stdout
        exported = [line.split()[-1] for line in listed.splitlines() if len(line.split()) == 3]
        check_equal(f"what {words[-1]} exports", exported, CALLS)


def by_srec_cat(given, kind, to, made):
    """Converts a record file with srec_cat."""
    names = {"ihex": "-intel", "srec": "-motorola"}
    subprocess.run(["srec_cat", given, names[kind], "-o", made, names[to]], check=True, capture_output=True)


def by_objcopy(given, kind, to, made):
    """Converts a record file with avr-objcopy."""
    subprocess.run(["avr-objcopy", "-I", kind, "-O", to, given, made], check=True)


def by_intelhex(given, kind, to, made):
    """Reads a file and writes it again with python3-intelhex."""
    held = IntelHex(str(given))
    held.write_hex_file(str(made), write_start_addr=False)


# whether each other program is installed, how it converts a file, and the formats that it knows
OTHERS = {
    "srec_cat": (shutil.which("srec_cat"), by_srec_cat, ["ihex", "srec"]),
    "avr-objcopy": (shutil.which("avr-objcopy"), by_objcopy, ["ihex", "srec"]),
    "python3-intelhex": (IntelHex, by_intelhex, ["ihex"]),
}


def other_programs(library):
    """Other programs read the files that this project writes, and the other way round."""
    given, made = library.folder / "given.hex", library.folder / "made.hex"
    for name, (_, convert, kinds) in OTHERS.items():
        if not OTHERS[name][0]:
            leave_out(f"record files beside {name}", f"{name} is not installed")
            continue
        for seed, kind, to in itertools.product(range(IMAGES), kinds, kinds):
            image, size, text = drawn(seed)
            given.write_bytes(text)
            given.write_bytes(library.written(given, size, kind))
            convert(given, kind, to, made)
            check(f"seed {seed}: {kind} read by {name}", image_of(made.read_bytes()) == image)
            check(f"seed {seed}: {to} of {name} read here", image_of(library.written(made, size, "ihex")) == image)


LOOKS = named(
    *(typed_as_shown, files_come_back, images_come_back, pieces_join, lengths_are_told, time_is_linear),
    *(
        cursors_are_judged,
        faults_are_told,
        sizes_are_judged,
        texts_are_put,
        versions_agree,
        other_names_are_free,
        only_its_calls_are_seen,
    ),
    other_programs,
)


def main():
    if shutil.which(os.environ.get("CC", "cc")) is None:
        return run_cases({name: lambda name=name: leave_out(name, "there is no C compiler") for name in LOOKS}, __doc__)
    with tempfile.TemporaryDirectory() as folder:
        library = Library(Path(folder))
        return run_cases({name: lambda look=look: look(library) for name, look in LOOKS.items()}, __doc__)


if __name__ == "__main__":
    sys.exit(main())

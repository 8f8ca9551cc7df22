#!/usr/bin/env python3
"""Times only the reader of record files, in the library for C, beside a simple reader in C and python3-intelhex.

    bench/reader.py [ROUNDS]    prints megabytes of text per second, the best of ROUNDS rounds of each file (default
                                50); of python3-intelhex the best of three
    bench/reader.py --count     prints instructions per byte of text (needs valgrind)

examples/c/build.sh builds the library. Without a C compiler nothing is run; other missing tools are reported.
"""

import io
import os
import re
import shutil
import subprocess
import sys
import tempfile
import time
from pathlib import Path

from run import KILO, TOP, ihex, image_of, srec

try:
    from intelhex import IntelHex
except ImportError:
    IntelHex = None

SIZE = 256 * KILO
FILES = {"ihex": ihex, "srec": srec}
NAMES = {"own": "this project's reader", "plain": "a plain reader in C"}


def built(folder):
    """Builds bench/reader.c with the library, and returns the program."""
    subprocess.run([TOP / "examples/c/build.sh", folder], check=True, stdout=subprocess.DEVNULL)
    words = [os.environ.get("CC", "cc"), "-std=c99", "-O2", "-D_POSIX_C_SOURCE=199309L", f"-I{TOP / 'include'}"]
    program = folder / "reader"
    subprocess.run([*words, TOP / "bench/reader.c", folder / "libavr_records.a", "-o", program], check=True)
    return program


def run(program, who, kind, file, rounds, front=()):
    words = [*front, program, who, kind, file, str(SIZE), str(rounds)]
    return subprocess.run(words, check=True, capture_output=True, text=True)


def time_all(program, texts, rounds):
    for kind, (file, length) in texts.items():
        seen = set()
        for who, name in NAMES.items():
            taken, memory = run(program, who, kind, file, rounds).stdout.split()
            seen.add(memory)
            print(f"{length / float(taken):8.1f} MB/s  {kind}: {name}")
        if len(seen) > 1:
            sys.exit(f"{kind}: the readers gave different memories")
    if IntelHex is None:
        print("python3-intelhex is not installed")
        return
    file, length = texts["ihex"]
    times = []
    for _ in range(3):
        begin = time.perf_counter()
        IntelHex(io.StringIO(file.read_text()))
        times.append(time.perf_counter() - begin)
    print(f"{length / min(times) / 1e6:8.1f} MB/s  ihex: python3-intelhex")


def count_all(program, texts):
    """Counts the instructions of a call, with its allocations."""
    if not shutil.which("valgrind"):
        sys.exit("valgrind is not installed")
    front = ["valgrind", "--tool=callgrind", "--callgrind-out-file=/dev/null"]
    for kind, (file, length) in texts.items():
        for who, name in NAMES.items():
            printed = run(program, who, kind, file, 1, [*front, f"--toggle-collect={who}_read"]).stderr
            count = int(re.search(r"Collected : (\d+)", printed)[1])
            print(f"{count / length:8.1f} instructions a byte  {kind}: {name}")


def main():
    if not shutil.which(os.environ.get("CC", "cc")):
        print("there is no C compiler: nothing was timed")
        return
    with tempfile.TemporaryDirectory() as folder:
        folder = Path(folder)
        program = built(folder)
        texts = {}
        for kind, made in FILES.items():
            file = folder / f"256.{kind}"
            file.write_text(made(image_of(SIZE)))
            texts[kind] = (file, file.stat().st_size)
        if "--count" in sys.argv:
            count_all(program, texts)
        else:
            time_all(program, texts, int(sys.argv[1]) if len(sys.argv) > 1 else 50)


if __name__ == "__main__":
    main()

#!/usr/bin/env python3
"""Builds the program with wrong edits of the lines that make the system's calls or judge their names and results, and
checks that a script refuses each.

Not proved: No contract ties these lines to the system, so no proof refuses an edit of them.

    tests/mutants.py                needs `rt`; what its scripts need and isn't there is left out

One unproved program has all edits of tables/mutants.txt, each beside the text that it replaces. The number in a table
of the program chooses one, so one build is enough; it is made in a copy of the sources. Each row names the case that
has to fail, but not by a time limit. Without an edit it has to pass."""

import os
import re
import shutil
import subprocess
import sys
import tempfile
from concurrent.futures import ThreadPoolExecutor
from pathlib import Path

from cases import PATIENCE, TOP, check, ended, leave_out, own_environment, table

# the table that chooses an edit: as many marks as its number. It is long and not uniform, so that no compiler reads it
# beforehand
HEAD, MARK, EMPTY, LENGTH = "edit number ", "#", ".", 1024
CHOSEN = HEAD + EMPTY * (LENGTH - len(HEAD))
MODULE = f"""/// As many marks as the number of the chosen edit.
static CHOSEN: [u8; {LENGTH}] = *b"{CHOSEN}";

/// Returns whether an edit is chosen.
pub fn is_chosen(number: usize) -> bool {{
    CHOSEN.iter().filter(|byte| **byte == b'{MARK}').count() == number
}}
"""
# the most seconds that a script waits for an expected event here
WAIT = "30"
LANES = 2


def edited(text, number, row, path):
    """Returns a source with one more edit, which only its number switches on."""
    _, function, old, new, _ = row
    found = re.findall(rf"^( *)((?:pub )?fn {re.escape(function)}.*?\n)\1\}}\n", text, re.M | re.S)
    assert len(found) == 1, f"row {number}: {path} has {len(found)} functions {function}"
    body = found[0][1]
    assert body.count(old) == 1, f"row {number}: {function} has {body.count(old)} times {old}"
    name = "crate::is_chosen" if path.parts[0] == "avr_desk" else "avr_desk::is_chosen"
    if old.startswith("."):
        # (a method in a chain of calls: the whole chain is chosen)
        chain = re.compile(r"OpenOptions::new\(\).*?\?;", re.S).search(body)
        old, new = chain[0][:-2], chain[0][:-2].replace(old, new)
    return text.replace(body, body.replace(old, f"(if {name}({number}) {{ {new} }} else {{ {old} }})"), 1)


def put_edits(crates, rows):
    """Puts all edits into a copy of the crates."""
    for number, row in enumerate(rows, 1):
        path = crates / row[0]
        path.write_text(edited(path.read_text(), number, row, Path(row[0])))
    (crates / "avr_desk/src/chosen.rt").write_text(MODULE)
    root = crates / "avr_desk/src/lib.rt"
    text = root.read_text().replace("\nmod failing;\n", "\nmod chosen;\nmod failing;\n", 1)
    root.write_text(f"{text}pub use chosen::is_chosen;\n")


def built(folder, rows):
    """Builds the program with all edits in a folder, and returns its bytes; None if it isn't built."""
    left = shutil.ignore_patterns("out", "must-fail", "avrstk_session", "avr_laws")
    shutil.copytree(TOP / "crates", folder / "crates", ignore=left)
    kept = [
        line for line in (TOP / "crates.txt").read_text().splitlines() if not re.match("avrstk_session|avr_laws", line)
    ]
    (folder / "crates.txt").write_text("\n".join(kept) + "\n")
    shutil.copytree(TOP / "tools", folder / "tools")
    shutil.copy(TOP / "avrstk", folder)
    put_edits(folder / "crates", rows)
    how = {"cwd": folder, "capture_output": True, "text": True, "env": own_environment()}
    found = subprocess.run(["./avrstk", "--unproved"], **how)
    log = folder / "out/avrstk.log"
    detail = found.stderr + (log.read_text()[-2000:] if log.exists() else "")
    program = folder / "out/unproved/avrstk"
    return program.read_bytes() if check("the program with all edits is built", found.returncode == 0, detail) else None


def put_program(path, program, number):
    """Writes the program with its edit of this number; 0 is none."""
    place = program.index(CHOSEN.encode()) + len(HEAD)
    path.parent.mkdir()
    path.write_bytes(program[:place] + MARK.encode() * number + program[place + number :])
    path.chmod(0o755)


def end_of(path, case):
    """Returns the status and the output of a script's case over a program, up to the first failure."""
    script, name = case.split()
    environment = os.environ | {"AVRSTK": str(path), "PATIENCE": WAIT, "FIRST_FAILURE": "1", "SAMPLE": "1"}
    command = [sys.executable, TOP / f"tests/{script}.py", name]
    found = subprocess.run(command, capture_output=True, text=True, errors="replace", env=environment, timeout=PATIENCE)
    return found.returncode, found.stdout


def passes(path, case):
    """Returns whether a case passes over the program without an edit."""
    status, output = end_of(path, case)
    lacks = re.search("left out: (.*)", output)
    if lacks:
        leave_out(f"the mutants of {case}", lacks[1])
        return False
    return check(f"{case}: it passes without an edit", status == 0, output[-600:])


def is_refused(folder, program, number, row):
    """Checks that the case of a row fails over the program with its edit."""
    path = folder / f"edit{number}/avrstk"
    put_program(path, program, number)
    status, output = end_of(path, row[4])
    in_vain = re.search("Timeout(?:Error|Expired)", output)
    check(f"{row[4]} sees {row[1]}: {row[2]}", status == 1 and "FAILED: " in output and not in_vain, output[-600:])
    path.unlink()


def try_all(folder, program, rows):
    """Tries each case without an edit, and then each edit whose case passed."""
    put_program(folder / "edit0/avrstk", program, 0)
    cases = list(dict.fromkeys(row[4] for row in rows))
    with ThreadPoolExecutor(LANES) as lanes:
        good = dict(zip(cases, lanes.map(lambda case: passes(folder / "edit0/avrstk", case), cases)))
        numbered = [(number, row) for number, row in enumerate(rows, 1) if good[row[4]]]
        list(lanes.map(lambda pair: is_refused(folder, program, *pair), numbered))


def main():
    if not shutil.which("rt"):
        leave_out("the mutants of calls", "rt is not installed")
        return ended()
    rows = table("mutants")
    with tempfile.TemporaryDirectory() as held:
        program = built(Path(held), rows)
        if program and check("it has the table of numbers once", program.count(CHOSEN.encode()) == 1):
            try_all(Path(held), program, rows)
    return ended()


if __name__ == "__main__":
    sys.exit(main())

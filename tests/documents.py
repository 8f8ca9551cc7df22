#!/usr/bin/env python3
"""Checks that docs/CHECK and CONTRIBUTING quote the sources as they are, and that documents have the checksum of the
kit's logic. Checks that each worked row has its test, and the form of Python.

Not proved: No proof covers documents and scripts.

    tests/documents.py
"""

import re
import shutil
import subprocess
import sys
import tempfile
from pathlib import Path

from cases import TOP, check, check_equal, leave_out, named, run_cases

sys.path.append(str(TOP / "tools"))
from evidence import trusted  # noqa: E402

# the line at the end of a crate's check, as docs/CHECK has it
PROVED = (
    "logic=proved functions=.. sum=.. native=nat,char,string logic-built=trusted libraries-built=trusted"
    " statements=trusted incremental=trusted"
)


def text(name):
    return (TOP / name).read_text()


def words(text):
    """Returns a text with single blanks between its words."""
    return " ".join(text.split())


def what_check_quotes():
    """docs/CHECK quotes a law, mutants, files and lines of code as they are. Its command names the mutant's crate."""
    page = text("docs/CHECK.md")
    module, law = re.search(r"^    \$ rt check --only (\w+)::(\w+)$", page, re.M).groups()
    source = text(f"crates/avr_laws/src/{module}.rt")
    check("the law", re.search(rf"^pub fn {law}\b", source, re.M) and f"avr_laws::{module}::{law}: proved" in page, law)
    files = {path.rstrip(".") for path in re.findall(r"\bcrates/\w+(?:/[\w.-]+)*", page)}
    for file in sorted(files):
        check(f"there is {file}", (TOP / file).exists())
    tried = re.search(r"^    \$ rt must-fail --anew (\w+)$", page, re.M)[1]
    check("the mutant is of that crate", any(file.startswith(f"crates/{tried}/must-fail/") for file in files), files)
    quoted = [row for row in page.splitlines() if row.startswith("    ") and not row.startswith(("    $", "    fn "))]
    # (the drawing quotes nothing)
    drawn = page[page.index("    the chip holds your images") : page.index("    your board")] + "    your board"
    quoted = [row for row in quoted if row not in drawn.splitlines()]
    crates = [
        path
        for name in ("avr_desk", "avr_image")
        for path in (TOP / "crates" / name).rglob("*")
        if path.suffix in (".rt", ".antt", ".edit")
    ]
    known = {words(row) for path in crates for row in path.read_text().splitlines()} | {words(PROVED)}
    for row in quoted:
        check(f"is in the sources: {row.strip()}", words(row) in known)
    # what the tables of the claim read out, but for what `..` stands for
    laws = [
        path
        for name in ("avr_laws", "avr_tool")
        for path in (TOP / "crates" / name).glob("s*/*")
        if path.suffix in (".rt", ".antt")
    ]
    stated = words(" ".join(path.read_text() for path in laws))
    claim = page[page.index("\n## The claim") : page.index("\n## Prove it")]
    cells = [
        cell
        for row in re.findall(r"^\| (.*?) \| ", claim, re.M)
        for cell in re.findall("`([^`]*)`", row)
        if not cell.endswith(":")
    ]
    for part in (part for cell in cells for part in cell.split("..")):
        check(f"is in the sources: {part}", words(part) in stated)
    check("quotes something", len(quoted) > 8 and len(cells) > 20, (quoted, cells))


def known_mistakes():
    """Comments of avr_laws' rows of mistakes name a function and a clause of its contract: the clause is there."""
    rows = "".join(path.read_text() for path in sorted((TOP / "crates/avr_laws/proofs/Rows").glob("*Mistakes.antt")))
    named = set(re.findall(r"\((?:`(\w+)` of )?(\w+?)'s? `(\w+)`\)", rows))
    check("clauses are named", len(named) > 20, len(named))
    for clause, crate, function in sorted(named):
        sources = "".join(path.read_text() for path in (TOP / f"crates/{crate}/src").rglob("*.rt"))
        heads = re.findall(rf"fn {function}\b.*?\n\s*\{{\n", sources, re.S)
        found = any(re.search(rf"ensures {clause}\s*\{{", head) for head in heads)
        check(f"{crate}'s {function} has {clause or 'one clause'}", found)


def the_first_change():
    """CONTRIBUTING's first change can be made, or was made: the text is once in its file, and once in the test's
    table."""
    # (the change may have been made already)
    begun, made = re.search(r"replace `([^`]*)`\s+by `([^`]*)`", words(text("CONTRIBUTING.md"))).groups()
    for file in ("lib/avrstk/avrstk_hints.py", "tests/tables/refused.txt"):
        check_equal(f"{file}: {begun}", [text(file).count(begun), text(file).count(made)] in ([1, 0], [0, 1]), True)


def the_hint():
    """README's hint is a row of tests/tables/refused.txt (tests/serial.py, case refused, prints it)."""
    words, hint = re.search(r"as after `(.*)`:\n\n.*\n    avrstk-serial: (.*)$", text("README.md"), re.M).groups()
    check(f"is a row: {words} | {hint}", f"\n{words} | {hint}\n" in text("tests/tables/refused.txt"))


# the conditions of the promise, as docs/PROOFS has them
CONDITIONS = (
    "every valid frame that arrives was sent by the other side in this run",
    "no command arrives twice or out of order",
    "no reply comes 256 or more frames late",
    "of the part that `-p` names",
    "the command line needs only rows that the chip's data sheet guarantees",
    "the programmer may restart",
)


def the_conditions():
    """README, PROOFS, WHY, TROUBLESHOOTING and each document with the first of the promise's conditions have five of
    them, and that the programmer may restart, in the same words."""
    for page in sorted([TOP / "README.md", *TOP.glob("docs/*.md"), *TOP.glob("crates/*/README.md")]):
        held = words(page.read_text()).lower()
        if (
            CONDITIONS[0] in held
            or page.name in ("PROOFS.md", "TROUBLESHOOTING.md", "WHY.md")
            or page == TOP / "README.md"
        ):
            check_equal(
                f"{page.name} has all conditions",
                [condition for condition in CONDITIONS if condition.lower() not in held],
                [],
            )


def files_of_recipes():
    """Most files that CONTRIBUTING's table of changes names are looked for, those of crates in the crate named before
    them: all exist."""
    rows = re.search(r"^\| Change \| Files \|.*?\n\n", text("CONTRIBUTING.md"), re.M | re.S)[0]
    crates = {folder.name for folder in (TOP / "crates").iterdir()}
    crate = None
    for word in re.findall(r"[\w/.]*\w", rows):
        crate = word if word in crates else crate
        if word.startswith("src/"):
            check(
                f"{crate}/{word}",
                crate and (TOP / "crates" / crate / word).is_file() or word in ("src/messages.rt", "src/lib.rt"),
            )
        elif word.startswith("specs/") and word != "specs/Lines":
            check(f"{crate}/{word}", crate and (TOP / "crates" / crate / f"{word}.antt").is_file())
        elif word.startswith(("tests/", "tools/", "parts/")):
            check(word, (TOP / word).exists())


def the_logic():
    """The checksum of the logic in the documents is that of the installed kit."""
    if not shutil.which("rt"):
        return leave_out("the sum of the logic", "rt is not installed")
    ran = subprocess.run(["rt", "version"], capture_output=True, text=True)
    for page in ("README.md", *(f"docs/{file.name}" for file in sorted(TOP.glob("docs/*.md")))):
        sums = set(re.findall(r"logic\s+([0-9a-f]{16})", text(page)))
        if sums or page in ("README.md", "docs/CHECK.md"):
            check(f"the logic that {page} names", sums and sums <= set(ran.stdout.split()), (sums, ran.stdout))


# the worked rows that were set before the code
ROWS = 84
# what tests in Rattle, in Python and in tables write differently
NOTATION = re.compile(r"""0x|\\x|[\s,"'&_]""")


def bare(written):
    """Returns a text without commas, quotes, blanks and signs of hexadecimal numbers."""
    return NOTATION.sub("", written)


def worked_rows():
    """tests/tables/rows.txt has examples that were set before the code, each with the file of its test. That file has
    the example's bytes and lines."""
    rows = [row.split(" | ", 3) for row in text("tests/tables/rows.txt").splitlines() if not row.startswith("#")]
    check_equal("worked rows", len({row[0] for row in rows}), ROWS)
    for name, _, file, held in rows:
        known = bare(text(file))
        for part in held.split(" ; "):
            check(f"{name}: {file} has {part}", len(bare(part)) > 3 and bare(part) in known)


# crates of the kit that CHECK calls Rattle's standard library
STANDARD = {"core", "io", "std", "std_alloc", "std_collections", "std_heap", "std_io"}


def what_is_trusted():
    """CHECK names each crate outside Rattle's standard library whose statements the program's check trusts, and the
    counts of contracts of C functions, as docs/EVIDENCE has them. Each kind of function is named in docs/EVIDENCE."""
    statements, axioms = trusted()
    section = text("docs/CHECK.md").split("\n## What is trusted\n")[1]
    check_equal("the crates", set(re.findall(r"`(\w+)`", section.split("A check lists")[0])), statements - STANDARD)
    check_equal(
        "the axioms", re.search(r"takes (\d+): (\d+)\s+of crate `(\w+)` and (\d+) of `(\w+)`", section).groups(), axioms
    )


def no_option_is_a_folder():
    """With --help the tools that write into a named folder make none of that name."""
    for tool in ("tools/site.py", "tools/package.sh", "tools/vendor.sh", "install.sh"):
        with tempfile.TemporaryDirectory() as folder:
            ran = subprocess.run([TOP / tool, "--help"], cwd=folder, capture_output=True, text=True)
            check(f"{tool} --help explains itself", ran.stdout + ran.stderr)
            check_equal(f"{tool} --help writes nothing", list(Path(folder).iterdir()), [])


def python():
    """black would lay out no file of Python differently, flake8 finds no fault, and mypy none in what is installed.
    (Their settings are in pyproject.toml and .flake8: mypy checks what is installed.)"""
    for command in (["black", "--check", "."], ["flake8"], ["mypy"]):
        if not shutil.which(command[0]):
            leave_out(" ".join(command), f"{command[0]} is not installed")
            continue
        ran = subprocess.run(command, cwd=TOP, capture_output=True, text=True)
        check(" ".join(command), ran.returncode == 0, ran.stdout + ran.stderr)


CASES = named(
    what_check_quotes,
    known_mistakes,
    what_is_trusted,
    the_first_change,
    the_hint,
    the_conditions,
    files_of_recipes,
    the_logic,
    worked_rows,
    no_option_is_a_folder,
    python,
)

if __name__ == "__main__":
    sys.exit(run_cases(CASES, __doc__))

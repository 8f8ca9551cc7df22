#!/usr/bin/env python3
"""Checks the man pages, and compares them, README and the manual (docs/USAGE and others) with the programs.

Not proved: No proof covers documents and man pages.

    tests/manual.py [CASE ..]  docs/*.1 and *.7 have a man page's sections, and most options of --help;
                               mandoc and groff give no warning; USAGE, the completions and docs/PART name the options
                               and parts of the program's --help; runs over `emu:` print what README and the manual
                               show; USAGE's differences from AVRDUDE are true: needs a built program (program.py)
"""

import os
import re
import shlex
import shutil
import subprocess
import sys
import tempfile
from pathlib import Path

from cases import VERSION, check, check_equal, leave_out, named, run_cases, table as rows_of
from program import PROGRAM, TOP

sys.path.append(str(TOP / "tools"))
from man_pages import HERE_ALONE, MANUAL, PAGES, SECTIONS, blocks_of, cells, escaped  # noqa: E402

USAGE = MANUAL[0]


def of_help():
    """Returns the options of the program's help, each with its value's name, and the whole text."""
    ran = subprocess.run([PROGRAM, "--help"], capture_output=True, text=True)
    if ran.returncode:
        sys.exit(f"--help ends with status {ran.returncode}: {ran.stderr}")
    rows = ran.stdout.split("Options:\n")[1].split("\n\n")[0].splitlines()
    found = [re.match(r" +(?:(-\w)(?:, )?)?(--[\w-]+)?(?:\.\.\.)?(?: <(\w+)>)?  ", row).groups() for row in rows]
    return {(name, value) for short, long, value in found for name in (short, long) if name}, ran.stdout


def of_usage():
    """Returns the options of USAGE's table, each with its value's name."""
    rows = USAGE.read_text().split("| Option |")[1].split("\n\n")[0].splitlines()[2:]
    named = [option for row in rows for option in re.findall(r"`(-[^`]*)`", cells(row)[0])]
    return {(name, value or None) for name, _, value in (option.partition(" ") for option in named)}


def parts():
    """Returns the ids of the built-in parts from their table."""
    table = (TOP / "docs/PART.md").read_text().split("## Built-in parts")[1].split("| Id |")[1].split("\n\n")[0]
    return [cells(row)[0].strip("`") for row in table.splitlines()[2:]]


def shown_runs(file):
    """Runs a document's commands over `emu:` one after another in one folder. Each prints what the document shows."""
    blocks = [rows for kind, rows in blocks_of((TOP / file).read_text()) if kind == "code"]
    with tempfile.TemporaryDirectory() as folder:
        shutil.copytree(TOP / "examples", f"{folder}/examples")
        commands = [command for rows in blocks for command in "\n".join(row[4:] for row in rows).split("$ ")[1:]]
        for row, *shown in map(str.splitlines, commands):
            words = shlex.split(row)
            if words[0] not in ("avrstk", "./avrstk") or "emu:" not in row:
                continue
            words = [word for word in words[1:] if word != "--unproved"]
            how = {"stdout": subprocess.PIPE, "stderr": subprocess.STDOUT, "text": True}
            ran = subprocess.run([PROGRAM, *words], cwd=folder, **how)
            wanted = [line for line in shown if "avrstk: unproved: " not in line]
            printed = ran.stdout.splitlines()
            # (tests/recipes.py runs the commands without shown output)
            if wanted:
                failed = any(line.startswith("avrstk: error: ") for line in wanted)
                check(f"{file}: {row}", ran.returncode == failed and wanted == printed, printed)


def differences_hold():
    """Single runs show avrstk's side of many differences from AVRDUDE that docs/USAGE lists. (tests/lines.py has
    the lines of -C, a device and ELF.)"""
    usage = USAGE.read_text()
    table = re.search(r"^ +\$ cat parts.toml\n((?: +.*\n)+?) +\$ avrstk", usage, re.M)[1]
    byte, end = re.search(r"`(:0100.*?)`\s+and\s+then\s+`(:.*?)`", usage).groups()
    files = {
        "parts.toml": "".join(row.strip() + "\n" for row in table.splitlines()),
        "byte.hex": f"{byte}\n{end}\n",
        "noted.hex": f"# a note\n{byte}\n{end}\n",
        "cut.hex": f"{byte}\n",
        "empty.hex": "",
        "a:b.hex": f"{byte}\n{end}\n",
    }
    with tempfile.TemporaryDirectory() as folder:
        for name, text in files.items():
            Path(folder, name).write_text(text)
        for words, status, message in rows_of("differences"):
            ran = subprocess.run([PROGRAM, *words.split()], cwd=folder, capture_output=True, text=True)
            message = message.replace("LENGTH", str(len(files["noted.hex"])))
            is_told = message in ran.stderr if message else not ran.stderr
            check(words, ran.returncode == int(status) and is_told, ran)
        check_equal(
            "one byte of EEPROM", Path(folder, "read.bin").read_bytes(), b"\xff" * 100 + b"\x2a" + b"\xff" * 923
        )


# the headings of a page, in this order, with others between OPTIONS and ENVIRONMENT; those of a page that is no
# command's
HEADINGS = ["NAME", "SYNOPSIS", "DESCRIPTION", "EXAMPLES", "OPTIONS", "EXIT STATUS", "ENVIRONMENT", "FILES", "SEE ALSO"]
COMMON = ["NAME", "DESCRIPTION", "EXAMPLES", "FILES", "SEE ALSO"]

# the repository's folders and files that are not installed
NOT_INSTALLED = re.compile(
    r"\b(?:docs|examples|crates|tests|tools|parts|bench|completions|include)/|\bpyproject|"
    r"\./|\binstall\.sh|CHANGELOG|README|" + HERE_ALONE.pattern
)


def pages_are_whole():
    """Each page has its headings and the version, and names no folder or script of a clone."""
    for name, file in PAGES.items():
        text = file.read_text()
        title = re.escape(escaped(name.upper()))
        head = rf'\.TH {title} {SECTIONS[name]} \d{{4}}-\d\d-\d\d "avrstk {re.escape(VERSION)}" '
        check(f"{name} has its name, a date and the version", re.match(head, text), text.splitlines()[0])
        headings = [heading for heading in re.findall(r"^\.SH (.*)", text, re.M) if heading in HEADINGS]
        check_equal(f"{name} has its headings", headings, HEADINGS if SECTIONS[name] == 1 else COMMON)
        shown = re.sub(r'^\.\\".*|\\f.|\\(?=-)', "", text, flags=re.M)
        check_equal(f"{name} names what is installed", NOT_INSTALLED.findall(shown), [])
        others = {escaped(page) for page in PAGES if page != name}
        named = set(re.findall(r"^\.BR (\S+) \([17]\)", text.split("\n.SH SEE ALSO\n")[1], re.M))
        check(f"{name} names the other pages", others <= named, named)


def pages_have_the_options():
    """Each option that begins a line of --help is on the page, except for those of a clone alone."""
    scripts = [("avrstk", PROGRAM), ("avrstk-serial", TOP / "avrstk-serial"), ("avrstk-serve", TOP / "avrstk-serve")]
    for name, command in scripts:
        ran = subprocess.run([command, "--help"], capture_output=True, text=True)
        shown = "\n".join(line for line in ran.stdout.splitlines() if not HERE_ALONE.search(line))
        rows = re.findall(r"^ +(-.*?)(?:  |$)", shown, re.M)
        wanted = {option for row in rows for option in re.findall(r"(?<![\w-])--?[\w?][\w-]*", row)}
        tags = re.findall(r"^\.T[PQ]\n(.*)", PAGES[name].read_text(), re.M)
        found = set(re.findall(r"(?<![\w-])--?[\w?][\w-]*", " ".join(tags).replace("\\-", "-").replace("\\fB", " ")))
        check(f"{name} --help names options", not ran.returncode and wanted, ran)
        check_equal(f"{name} has the options of --help", wanted - found, set())


def pages_are_clean():
    """The pages cause no warnings of mandoc and groff, and each shows a command as it is typed."""
    if shutil.which("mandoc"):
        for name, file in PAGES.items():
            ran = subprocess.run(["mandoc", "-T", "lint", file], capture_output=True, text=True)
            check_equal(f"mandoc's findings in {name}", (ran.returncode, ran.stdout), (0, ""))
    else:
        leave_out("the man pages as mandoc takes them", "mandoc is not installed")
    if not shutil.which("groff"):
        return leave_out("the man pages as groff shows them", "groff is not installed")
    for name, file in PAGES.items():
        ran = subprocess.run(["groff", "-ww", "-man", "-Tutf8", "-rLL=100n", file], capture_output=True, text=True)
        check(f"{name} is without warnings", not ran.returncode and not ran.stderr, ran.stderr[:300])
        plain = re.sub(r"\x1b\[[0-9;]*m|.\x08", "", ran.stdout)
        check(f"{name} shows commands as they are typed", re.search(r"\n           avrstk\S* -", plain))
        check(f"{name} shows no mark of the manual", "`" not in plain and "**" not in plain)


def examples_of(name):
    """Yields the commands under EXAMPLES of a page."""
    text = PAGES[name].read_text().split("\n.SH EXAMPLES\n")[1].split("\n.SH ")[0]
    for block in re.findall(r"^\.nf\n(.*?)^\.fi", text, re.M | re.S):
        typed = block.replace("\\-", "-").replace("\\(aq", "'").replace("\\e\n", "")
        yield from (shlex.split(row) for row in typed.splitlines())


def examples_run():
    """The pages' examples over `emu:` work."""
    with tempfile.TemporaryDirectory() as folder:
        shutil.copy(TOP / "examples/blink.hex", f"{folder}/firmware.hex")
        for words in (example for name in PAGES for example in examples_of(name)):
            if not any(word.startswith("emu:") for word in words):
                continue
            words = [str(TOP / "parts/classic.toml") if word.endswith("/classic.toml") else word for word in words]
            ran = subprocess.run([PROGRAM, *words[1:]], cwd=folder, capture_output=True, text=True)
            check(" ".join(words), ran.returncode == 0 and ran.stderr.endswith("avrstk: done\n"), ran)


# where else each option's letter stands, and how
LETTERS = {
    "lib/avrstk/avrstk_words.py": r'(?m)^SHORT = "([^"]*)"',
    "tools/hint.sh": r'getopts "(:[^"]*)"',
    "completions/_avrstk": r"""['"*{]-(\w)[+\[,]""",
    "completions/avrstk.fish": r"""(?:-s | (?=\w:['"\w]))(\w)""",
}


def names_agree():
    """USAGE, docs/PART, bash's completions and --help agree in the names of options or parts; other completions and
    tools/hint.sh have each option's letter."""
    options, shown = of_help()
    completions = (TOP / "completions/avrstk.bash").read_text()
    completed = re.search(r'"(-p [^"]*)"', completions)[1].split()
    check_equal("the options of USAGE are those of --help", of_usage(), options)
    check_equal("the completions are those of --help", set(completed), {name for name, _ in options})
    letters = {name[1] for name, _ in options if len(name) == 2}
    for file, form in LETTERS.items():
        found = {letter for match in re.findall(form, (TOP / file).read_text()) for letter in match}
        check_equal(f"{file} has the letters of --help", letters - found, set())
    check("--help names the built-in parts", ", ".join(parts()[:-1]) in shown and parts()[-1] in shown, parts())
    in_clone, installed = re.findall(r"--parts (\S+\.toml)", shown)
    check("--help names the part file of a clone", (TOP / in_clone).is_file(), in_clone)
    check(
        "--help names the package's part file as its man page does",
        f"\n.I {installed}\n" in PAGES["avrstk"].read_text(),
        installed,
    )
    check("USAGE names the built-in parts", all(f"`{part}` (AT" in USAGE.read_text() for part in parts()), parts())
    check("the completions have the built-in parts", f'"{" ".join(parts())}"' in completions, parts())


def version_agrees():
    """The help and the newest entry of CHANGELOG have the version in VERSION. (tests/from_c.py has that of the header
    for C.)"""
    _, shown = of_help()
    check("--help shows the version", f"This is avrstk {VERSION}." in " ".join(shown.split()), shown[-200:])
    newest = re.search(r"^## ([0-9.]+)|^No version .* will be ([0-9.]+\d)", (TOP / "CHANGELOG.md").read_text(), re.M)
    check_equal("the newest changes are its own", newest[1] or newest[2], VERSION)


def runs_of_readme():
    """README's runs over `emu:` print what README shows of them."""
    shown_runs("README.md")


def runs_of_manual():
    """The manual's runs over `emu:` print what the manual shows of them."""
    for file in MANUAL:
        shown_runs(file.relative_to(TOP))


# what fits on a screen, with the prompt below it
COLUMNS, LINES = 78, 23


def stated_by(text):
    """Yields what the text of --help states: each option or argument with its own text, and each sentence. The second
    text of an option begins with "In full: "."""
    seen = set()
    for block in text.split("\n\n")[2:]:
        if block.startswith("  "):
            for entry in re.split(r"\n(?=  \S)", block):
                name = re.split(" {2,}", entry.strip())[0]
                yield f"In full: {name}" if name in seen else name
                seen.add(name)
        elif block != "In full:":
            yield from re.split(r"(?<=[.:]) (?=[A-Z])", " ".join(block.split()))


def each_word_of_help():
    """-h of the scripts fits a screen, and --help begins with it. Each option and sentence has a row that names the
    case of a test; there is such a case, and no row is left."""
    rows = rows_of("claims")
    for name, needed in [("avrstk-serial", ["-p ", "-P "]), ("avrstk-serve", ["-p ", "--chip "])]:
        brief, whole = (
            subprocess.run([TOP / name, option], capture_output=True, text=True).stdout for option in ("-h", "--help")
        )
        check_equal(
            f"{name} --help has {COLUMNS} columns", [line for line in whole.splitlines() if len(line) > COLUMNS], []
        )
        check(f"{name} -h fits a screen", 10 < len(brief.splitlines()) <= LINES, brief)
        check(f"{name} --help begins with -h", whole.startswith(brief), brief)
        for option in needed:
            check(f"{name} -h says that {option}is needed", re.search(rf"^  {option}.*required", brief, re.M), brief)
        own = [claim.removeprefix(f"{name} ") for claim, _ in rows if claim.startswith(f"{name} ")]
        for statement in stated_by(whole):
            check(f"{name} --help: a row has: {statement}", any(statement.startswith(claim) for claim in own))
        for claim in own:
            check(f"{name} --help has: {claim}", any(statement.startswith(claim) for statement in stated_by(whole)))
    for _, case in rows:
        script, function = case.split()
        text = (TOP / f"tests/{script}.py").read_text()
        check(f"there is the case {case}", re.search(rf"^def {function}\(\):", text, re.M))


# the program that the scripts run
AVRSTK = {"AVRSTK": str(PROGRAM)}
# a value for each option that takes one
VALUES = {"-b": "9600", "-c": "stk500v2", "-p": "m328p", "-P": "emu:chip.bin", "-U": "lfuse:r:-:h", "-l": "log"}
VALUES |= {"-C": "avrdude.conf", "-B": "10", "-E": "reset", "-i": "1", "-T": "erase", "-x": "help", "-Y": "1"}


def letters_of_avrdude():
    """USAGE's table has each option of the installed AVRDUDE, and what avrstk and avrstk-serial do with it."""
    rows = USAGE.read_text().split("| Option of AVRDUDE 7.1 |")[1].split("\n\n")[0].splitlines()[2:]
    described = {letter: cells(row)[1:] for row in rows for letter in re.findall(r"(?<=`)-\S", cells(row)[0])}
    if shutil.which("avrdude"):
        shown = subprocess.run(["avrdude", "-?"], capture_output=True, text=True).stderr
        wanted = set(re.findall(r"^  (-\S) ", shown, re.M))
        check("AVRDUDE has options", len(wanted) > 20, shown)
        check_equal("the options of AVRDUDE that the table lacks", wanted - set(described), set())
    else:
        leave_out("the options of AVRDUDE", "it is not installed")
    with tempfile.TemporaryDirectory() as folder:
        for letter, kinds in described.items():
            for program, kind in zip([PROGRAM, TOP / "avrstk-serial"], kinds):
                own = {"-p": "m328p", "-P": "emu:chip.bin"} | ({letter: VALUES[letter]} if letter in VALUES else {})
                words = [
                    program,
                    *(word for pair in own.items() for word in pair),
                    *([] if letter in own else [letter]),
                ]
                ran = subprocess.run(words, cwd=folder, capture_output=True, text=True, env=os.environ | AVRSTK)
                found = "refused" if ran.returncode else "ignored" if "ignored: " in ran.stderr else "accepted"
                check_equal(f"{program.name} {letter}", found, re.match(r"\w+", kind)[0])


PAGES_HOLD = [pages_are_whole, pages_have_the_options, pages_are_clean, examples_run]
CASES = named(
    *PAGES_HOLD,
    each_word_of_help,
    letters_of_avrdude,
    names_agree,
    version_agrees,
    runs_of_readme,
    runs_of_manual,
    differences_hold,
)


if __name__ == "__main__":
    sys.exit(run_cases(CASES, __doc__))

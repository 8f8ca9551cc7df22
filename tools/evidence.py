#!/usr/bin/env python3
"""Writes docs/EVIDENCE.md from the log of a gate, for readers without the kit.

    ./test --all >LOG; tools/evidence.py LOG     in the clone in which the gate ran; a log of `rt ci` serves, too
    tools/evidence.py EARLIER .. LOG             if `rt ci` kept crates that earlier runs had proved: their logs first
    tools/evidence.py --check                    fails if the page's theorem isn't that of the sources; --write mends it

The page has what the log and the stamp of the proved program say: verdicts, axioms, crates whose statements are
trusted, mutants, the summary and sums. The theorem is taken from the sources."""

import os
import platform
import re
import shutil
import subprocess
import sys
from collections import defaultdict
from datetime import datetime, timezone
from pathlib import Path
from textwrap import wrap

from kept import TOP, kept

PAGE = TOP / "docs/EVIDENCE.md"
LAWS = TOP / "crates/avr_laws"
PROGRAM = "avrstk"
BEGUN, ENDED = "<!-- made: the theorem -->\n", "<!-- end -->\n"

# what `./test --all` puts before each line: the minutes so far
MINUTES = re.compile(r"^ {0,3}\d+\.\d ")
VERDICT = re.compile(r"logic=(?P<verdict>\S+) functions=(?P<functions>\d+)(?: axioms=(?P<axioms>\d+))?")
EMPTY = re.compile(r"empty contracts: (\d+) found; tried (\d+) of (\d+) functions")
# the counts of contracts of C functions that a check takes as written, and with --list-axioms each of these functions
AXIOMS = re.compile(r"axioms (\w+): (?:.*\()?(\d+) of the (\d+) declared")
REACHED = re.compile(r"\W*((\w+)::[\w:]+\w)\b.*\breached$")
STATEMENTS = re.compile(r"statements (\w+):")
CRATE = re.compile(r"== (\w+)$")
REFUSED = re.compile(r"(?:rt: )?must-fail (\w+)/(\w+)\.edit: refused, as it must be(?:: )?(.*)")
# a refusal that says less of the contract, with the reason
LESS = re.compile(r" ?\((only [^,:]*).*?\): (.*)")
PLACE = re.compile(r"(?:note: )?(\S+?:\d+):\d+: (.*)")

KEY = """| In the block | Meaning |
| --- | --- |
| `result ≡ 0` | the status of the program is 0 |
| `link.old.transcript ≡ []` | nothing had passed over standard input and output before |
| `AreWords words` | the system gave these words as the command line |
| `takes avrstk words` | the syntax of the words is right, and they don't ask for help |
| `AsksToServe ..` | the options ask for a service (`--serve`): then there is no plan |
| `AsksFor (matches_of avrstk words) settings` | the options among the words ask for these settings, among them the port |
| `KeepsPlan settings old new more` | the settings, and the files that the run opened, ask for a plan that was kept; those files and then `more` are all that the run opened |
| `T` | any programmer and chip, with what it replies and does |
| `IsKeptByAny .. plan passed old new` | if `T` keeps the rows and [other premises](CHECK.md#over-a-link) hold, the chip and the files that memories were read into have what the plan asks for; it stands for `Kept` |
| `IsKeptInFile file found plan old new` | the same of the chip in the chip file, without a link; `found` is what the file held |
| `passed ≡ []` | nothing passed over standard input and output |
| `At address (Some link)` | `link` has all that passed over the one connection to this address |
| `Served port file` | a service, which the settings of a run never name |"""  # noqa: E501


def equations(text, name):
    """Returns the equations of a definition, without its comment and type."""
    found = re.search(rf"^(?:{name} .*\n(?: .*\n)*)+", text, re.M)[0]
    return found.splitlines()


def theorem():
    """Returns the law of the promise as one block, with its key."""
    law = (LAWS / "src/program.rt").read_text()
    clause = re.search(r"^    ensures plan \{.*?\}$", law, re.M | re.S)[0].splitlines()
    text = (LAWS / "specs/KeptByPort.antt").read_text()
    rows = [line.removeprefix("    ") for line in clause] + equations(text, "KeepsCommandLine")
    rows += equations(text, "KeepsPlanAt")
    return "\n".join([BEGUN, *(f"    {row}" for row in rows), "", KEY, "", ENDED])


def with_theorem(text):
    begin, end = text.index(BEGUN), text.index(ENDED) + len(ENDED)
    return text[:begin] + theorem() + text[end:]


def below(name, crates):
    """Returns the crates that a crate stands on, the lowest first."""
    found = []
    for dependency in crates.get(name, []):
        found += [x for x in (*below(dependency, crates), dependency) if x not in found]
    return found


def axioms():
    """Returns the C functions whose contracts the program's check takes as written, by crate. It checks the program
    once more, over the libraries that the gate has built."""
    lines = [re.sub("#.*", "", line).split() for line in (TOP / "crates.txt").read_text().splitlines()]
    crates = {row[0].rstrip(":"): row[1:] for row in lines if row}
    kit = Path(os.path.realpath(shutil.which("rattle"))).parent.parent
    names = below(PROGRAM, crates)
    built = {crate: f"crates/{crate}/out/rlib/{crate}.rlib" for crate in names if crate in crates}
    if not all((TOP / path).exists() for path in built.values()):
        return {}
    built |= {crate: kit / f"rlibs/{crate}.rlib" for crate in [*names, "std", "core"] if crate not in crates}
    words = ["rattle", "check", "--crate-name", PROGRAM, "src/main.rt", "--list-axioms"]
    for name, place in built.items():
        words += ["--extern", f"{name}={TOP / place}"]
    words += ["-L", f"dependency={kit}/rlibs", "--antt-project", kit / "rattle/logic/antt-project.json"]
    words += ["--logic-built", kit / "logic_built"]
    how = {"stdout": subprocess.PIPE, "stderr": subprocess.STDOUT, "text": True}
    ran = subprocess.run(words, cwd=TOP / "crates" / PROGRAM, **how)
    found = defaultdict(list)
    for match in filter(None, map(REACHED.match, ran.stdout.splitlines())):
        found[match[2]].append(match[1])
    return found


class Crate:
    """What the log says of a crate."""

    def __init__(self):
        self.verdict, self.empty, self.axioms, self.trusted = None, None, {}, []

    def see(self, line):
        if found := VERDICT.match(line):
            self.verdict = found
        elif found := EMPTY.match(line):
            self.empty = found.groups()
        elif found := AXIOMS.match(line):
            self.axioms[found[1]] = found.groups()[1:]
        elif found := STATEMENTS.match(line):
            self.trusted.append(found[1])


def read(log):
    """Returns what the log says of each crate, its refused mutants, its first line with the kit, and its summary."""
    crates, mutants, crate = {}, [], None
    lines = [MINUTES.sub("", line) for line in log.read_text(errors="replace").splitlines()]
    for line in lines:
        if (found := CRATE.match(line)) and (TOP / "crates" / found[1]).is_dir():
            crate = crates.setdefault(found[1], Crate())
        elif line.startswith("== "):
            crate = None
        elif found := REFUSED.match(line):
            mutants.append(found.groups())
        elif crate:
            crate.see(line)
    summary = lines[lines.index("== summary") + 1 :] if "== summary" in lines else []
    return crates, sorted(set(mutants)), next((line for line in lines if " GB free; " in line), ""), summary


def read_all(logs):
    """Returns the same of several logs: the last verdict on each crate, and all else of the last log."""
    verdicts = {}
    for log in logs:
        crates, *others = read(log)
        verdicts |= {name: crate for name, crate in crates.items() if crate.verdict or name not in verdicts}
    return verdicts, *others


def about(log, machine):
    """Yields the rows on the run: when, where, of what."""
    git = subprocess.run(["git", "-C", TOP, "log", "-1", "--format=%H (%cs)"], capture_output=True, text=True)
    model = re.search(r"model name\s*: (.*)", Path("/proc/cpuinfo").read_text())
    kit = subprocess.run(["rt", "version"], capture_output=True, text=True).stdout.strip()
    yield from ["| | |", "| --- | --- |", f"| Commit | `{git.stdout.split()[0]}` |"]
    yield f"| Date | {datetime.fromtimestamp(log.stat().st_mtime, timezone.utc):%Y-%m-%d %H:%M} UTC |"
    yield f"| Kit | `{kit}` |"
    memory = os.sysconf("SC_PAGE_SIZE") * os.sysconf("SC_PHYS_PAGES") / 2**30
    kind = f"{platform.system()} {platform.machine()}, {os.cpu_count()} processors ({model[1] if model else 'unknown'})"
    yield f"| Machine | {kind}, {memory:.0f} GB" + (f"; at the start {machine.split(';')[0]}" if machine else "") + " |"


def verdicts(crates):
    yield from ["| Crate | Verdict | Functions | Axioms | Empty contracts |", "| --- | --- | ---: | ---: | --- |"]
    for name, crate in crates.items():
        empty = f"{crate.empty[0]} found, {crate.empty[1]} of {crate.empty[2]} functions tried" if crate.empty else ""
        verdict = f"`logic={crate.verdict['verdict']}`" if crate.verdict else "none"
        functions, axioms = (crate.verdict["functions"], crate.verdict["axioms"] or 0) if crate.verdict else ("", "")
        yield f"| {name} | {verdict} | {functions} | {axioms} | {empty} |"


def refusals(mutants):
    yield from ["| Mutant | Refused at | What the prover said |", "| --- | --- | --- |"]
    for crate, name, reason in mutants:
        only = LESS.match(reason)
        found = PLACE.match(only[2] if only else reason)
        place, words = (f"`{found[1]}`", found[2]) if found else ("", reason)
        words = "; ".join(filter(None, [only and only[1], words.replace("|", "\\|")]))
        yield f"| {crate}: {name.replace('_', ' ')} | {place} | {words} |"


KEPT = """The gate kept each crate that an earlier run on the same machine had proved, if its files and libraries hadn't
changed since then. The row of such a crate is from that run."""

TEMPLATE = """# Evidence

This page has what `rt ci`, or the whole gate, `./test --all`, printed for one commit, so that the outcome can be seen
without the kit. `tools/evidence.py LOG..` makes it from such logs, the sources, the program's stamp and one more check
of `avrstk`. If there are several logs, some rows are of earlier runs over the same files.
[CHECK](CHECK.md#prove-it) explains a verdict, and [README](../README.md#test-it) says how to run the gate.

{about}

## The theorem

This is law `a_program_with_status_0_kept_its_plan` of avr_laws, as the sources have it: its main clause, the definition
`KeepsCommandLine` that the clause applies, and `KeepsPlanAt`, which has an equation for each port.
[CHECK](CHECK.md#the-claim) explains the law line by line, and has [a key to the notation](CHECK.md#read-a-contract).

{theorem}
## Verdicts

The prover's verdict on each crate. A contract is empty if no arguments meet its premises.

{verdicts}

The whole line of `{program}` is:

    {line}

## Axioms

The check of `{program}` takes the contracts of these C functions as written. The kit has their text.

{axioms}

## Trusted statements

The check of `{program}` uses the statements of these crates of the kit without checking them again:

{trusted}.

## Mutants

Mutants are wrong edits of the code, which the prover has to refuse. [CHECK](CHECK.md#break-it) explains one of them.

{mutants}

## Sums

{sums}

## The gate's summary

{summary}
"""


def as_code(rows, absent):
    """Returns lines as a block of code, or what to say if there are none."""
    return "\n".join(f"    {row}"[:120].rstrip() for row in rows) if rows else absent


def page(logs):
    """Returns the page."""
    crates, mutants, machine, summary = read_all(logs)
    program, named = crates.get(PROGRAM, Crate()), axioms()
    stamp = TOP / "out/proved.stamp"
    taken = []
    for of, (some, declared) in program.axioms.items():
        taken.append(f"- *{of}*, {some} of {declared} declared")
        taken += ["", *wrap(", ".join(named[of]), 110, initial_indent=" " * 6, subsequent_indent=" " * 6), ""] * (
            of in named
        )
    return TEMPLATE.format(
        program=PROGRAM,
        about="\n".join(about(logs[-1], machine)),
        theorem=theorem(),
        verdicts="\n".join([*[KEPT, ""] * (len(logs) > 1), *verdicts(crates)]),
        line=program.verdict.string if program.verdict else "",
        axioms="\n".join(taken),
        trusted=", ".join(f"`{crate}`" for crate in program.trusted if not (TOP / "crates" / crate).is_dir()),
        mutants="\n".join(refusals(mutants)) if mutants else "This log tried no mutants.",
        sums=as_code(stamp.read_text().splitlines() if stamp.exists() else [], "The program of this log has no stamp."),
        summary=as_code(summary, "This log has no summary."),
    )


def trusted():
    """Returns the crates whose statements the page lists; and the sum of axioms, and each number of them with its
    crate."""
    text = PAGE.read_text()
    listed = re.search(r"^## Trusted statements\n\n.*\n\n(.*)\.$", text, re.M)[1]
    found = re.findall(r"^- \*(\w+)\*, (\d+) of", text, re.M)
    each = [cell for of, number in found if number != "0" for cell in (number, of)]
    return set(re.findall(r"`(\w+)`", listed)), (str(sum(int(number) for number in each[::2])), *each)


if __name__ == "__main__":
    if sys.argv[1:] in (["--check"], ["--write"]):
        sys.exit(kept({PAGE: with_theorem(PAGE.read_text())}))
    if len(sys.argv) == 1 or sys.argv[1].startswith("-"):
        sys.exit(__doc__)
    PAGE.write_text(page([Path(log) for log in sys.argv[1:]]))

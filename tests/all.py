#!/usr/bin/env python3
"""Runs the tests side by side, each line of the log with the minutes so far.

    tests/all.py             builds the program without proofs, and runs the quick scripts with it; of long lists of
                             cases they try samples. Their seed is printed, and SAMPLE=SEED draws the same again
    tests/all.py NAME ..     runs these scripts, with the program that AVRSTK names, or the one that is built
    tests/all.py --all       proves everything (rt ci); beside it runs the scripts that need no proved program and, once
                             the program is proved, all scripts with it

A script's output is printed when the script has ended. All steps run even if one fails; the status is then 1. If in a
script only cases failed that measure time, these cases are run once more, alone. Then that run counts, and the summary
names it; at most two scripts are run again. Before that, the script itself has made failed runs again in which it
measured a pause of the machine, each at most five times; its last line counts them. The summary has each step's status,
minutes, processor seconds and last line, the lines that report failures, and how the mutants were refused. It lists
checks that were left out because a tool isn't installed (`./test --tools` installs the tools); with NEED_ALL=1 in the
environment these are failures. --all also prints the processor seconds of each crate's checks, and of the whole as a
ratio to those of stk_frame's first check: this ratio is the same on a slow machine. The last line counts passed and
failed checks of all steps."""

import compileall
import os
import random
import re
import subprocess
import sys
import tempfile
import threading
import time
from collections import Counter, defaultdict
from concurrent.futures import ThreadPoolExecutor
from dataclasses import dataclass
from pathlib import Path

from cases import LATE, TOP

UNPROVED = TOP / "out/unproved/avrstk"
PROVED = TOP / "crates/avrstk/out/avrstk"
# the crates that are programs
PROGRAMS = {source.parent.parent.name: source.parent.parent / "out" for source in TOP.glob("crates/*/src/main.rt")}

# scripts of tools/, which only read
CHECKED = (
    "measure --check",
    "reach --check",
    "site --check",
    "evidence --check",
    *("man_pages", "promises", "tests_page"),
)
# scripts that run no program of this project, or compile it themselves; the longest first
SOURCES = (
    "rattle tests examples refused",
    "build",
    "vendor",
    "rattle names",
    "documents",
    "texts",
    *CHECKED,
)
# scripts over the library for C, which takes minutes to prove and build, so that only --all runs them
LIBRARY = ("from_c",)
# scripts that take seconds
SHORT = ("runs", "lines", "made_frames", "second_runs", "manual")
# scripts that ./test runs with the unproved program; the longest first, the longest of all in two halves
HALVES = tuple(f"{name} {half}" for name in ("serve", "recipes", "serial", "station") for half in ("1/2", "2/2"))
QUICK = (*HALVES, "boards", "bad_lines", "avrdude", "chips", "drawn_runs", "why", "hostile", "parts", *SHORT)
# those that --all runs with both programs: two compilers made what these compare byte for byte
BOTH = ("runs", "lines")
# counts of bench/run.py
BENCH = ("calls", "count")
# scripts that --all runs with the proved program (mutants builds one of its own); the longest first
PROGRAM = ("faults", "mutants", "mega", "rows", "vendor proof", "package", "power", *BENCH, *QUICK)

LANES = len(os.sched_getaffinity(0))
# scripts that no proof waits for give way to rt ci (but not what `rt try` starts, in a session of its own)
LAST = ("nice", "-n", "10")
# the most memory that a check needs, in kB
CHECK = 3_000_000
BEGUN = time.monotonic()

# a script's lines about checks left out, and about passed and failed checks
LEFT_OUT = re.compile(r"\s*(?:left out|skipped): (.*)")
COUNTS = re.compile(r".*?(\d+) passed, (\d+) failed")
# and about failed cases that measure time
LATE_CASES = re.compile("late: (.*)")

# the lines in which a script or rt reports a failure, and how many of them the summary repeats
FAILURE = re.compile(r"(?:rt: )?FAILED: |.*(?:NOT PROVED|NOT REFUSED|BAD EDIT)")
MOST_FAILURES = 20

# rt's line once a crate is proved and built
PROVED_LINE = re.compile(r"rt: (\w+) (?:proved|is kept)\b")

# the crate whose first check is the measure of a machine, and the whole in such checks that --all may take
MEASURE = "stk_frame"
MOST = 54

# how many scripts may be run again, and what their names then end with
AGAIN = " (again, alone)"
MOST_AGAIN = 2

# rt's line for a refused mutant, and the kinds of refusal; the first match counts. rt cuts a line after 160 characters,
# so these words may be incomplete
REFUSED = re.compile(r"(?:rt: )?must-fail \S+: refused, as it must be(.*)")
REFUSALS = {
    "contradicted by values": re.compile(r"; the f"),
    "only by a limit": re.compile(r" \(only by a limit"),
    "first at a written answer": re.compile(r" \(only because a proof file|: (note: )?(\./)?proofs/"),
    "for an unknown reason, because the line of rt is cut": re.compile(r": .{160}$"),
    "because a search found nothing or gave up": re.compile(""),
}


@dataclass
class Done:
    """A finished step: its name, its status, its seconds by the clock and of processors, and its output lines."""

    what: str
    status: int
    seconds: float
    processor: float
    lines: list
    again = None

    def end(self):
        return "ok" if self.status == 0 else f"FAILED ({self.status})"

    def took(self):
        return f"{self.seconds / 60:.1f} minutes, {self.processor:.0f} s of a processor"

    def last(self):
        return self.lines[-1].strip()[:200] if self.lines else ""

    def left_out(self):
        return [f"{self.what}: {found[1]}" for found in map(LEFT_OUT.fullmatch, self.lines) if found]

    def counts(self):
        """Returns the numbers of its passed and failed checks. A step without counts is one check."""
        found = next(filter(None, map(COUNTS.match, reversed(self.lines))), None)
        passed, failed = (int(found[1]), int(found[2])) if found else (int(self.status == 0), 0)
        return passed, failed or int(self.status != 0)


def say(lines):
    """Prints lines with the minutes so far, without lines of other steps between them."""
    minutes = (time.monotonic() - BEGUN) / 60
    sys.stdout.write("".join(f"{minutes:5.1f} {line}\n" for line in lines))
    sys.stdout.flush()


def run(what, command, each=None, **environment):
    """Runs a command. Its output is printed when it has ended, or `each` gets each line as it comes."""
    say([f"== {what}"])
    begun, lines = time.monotonic(), []
    try:
        how = {"cwd": TOP, "stdin": subprocess.DEVNULL, "stdout": subprocess.PIPE, "stderr": subprocess.STDOUT}
        with subprocess.Popen(command, **how, text=True, errors="replace", env=os.environ | environment) as started:
            for line in started.stdout:
                lines.append(line.rstrip())
                if each:
                    each(lines[-1])
            _, ended, used = os.wait4(started.pid, 0)
            started.returncode = status = os.waitstatus_to_exitcode(ended)
        processor = used.ru_utime + used.ru_stime
    except OSError as fault:
        status, processor, lines = 127, 0, [f"cannot be run: {fault}"]
    done = Done(what, status, time.monotonic() - begun, processor, [line for line in lines if line.strip()])
    say([*([] if each else lines), f"== {done.end()}: {what}, {done.took()}"])
    return done


def script(name, kind="", before=(), **environment):
    """Runs a script. The log names it with the `kind` of program that it runs."""
    file, *words = name.split()
    if words and "/" in words[-1]:
        environment["CASES_SHARE"] = words.pop()
    path = TOP / f"{'tools' if name in CHECKED else 'tests'}/{file}.py"
    command = [TOP / "bench/run.py", f"--{file}"] if file in BENCH else [path, *words]
    command = [*before, sys.executable, *command]

    def once(more=(), again=""):
        return run(f"{kind}{name}{again}", [*command, *more], PYTHONUNBUFFERED="1", **environment)

    done = once()
    late = next(filter(None, map(LATE_CASES.fullmatch, done.lines)), None)
    done.again = late and (lambda: once(late[1].split(" | "), f": {late[1]}{AGAIN}"))
    return done


def settled(done):
    """Returns the outcome of all steps. Of the first scripts that failed only at measuring time, those cases are run
    again alone."""
    late = [step for step in done if step.status == LATE and step.again][:MOST_AGAIN]
    for step in late:
        again = step.again()
        again.lines = [*filter(LEFT_OUT.fullmatch, step.lines), *again.lines]
        done[done.index(step)] = again
    return done


def build():
    return run("./avrstk --unproved", ["sh", "-c", "./avrstk --unproved --help >/dev/null"])


# Each check under rt ci is measured by a look at /proc each second.
TICKS = os.sysconf("SC_CLK_TCK")
NAMED = re.compile(rb"/rattle\0(?:build|check)\0.*?--crate-name\0(\w+)\0", re.S)


def look(pid):
    """Returns the crate that a process of rt ci checks, the folder where, and its processor seconds; None for
    others."""
    named = NAMED.search(Path(f"/proc/{pid}/cmdline").read_bytes())
    if not named:
        return None
    fields = Path(f"/proc/{pid}/stat").read_text().rpartition(")")[2].split()
    return named[1].decode(), os.readlink(f"/proc/{pid}/cwd"), (int(fields[11]) + int(fields[12])) / TICKS


class Checks(threading.Thread):
    """The checks so far: the processor seconds of each process, by crate and folder. A crate is proved in its own
    folder, and each mutant in a folder that rt makes for it."""

    def __init__(self):
        super().__init__(daemon=True)
        self.seconds = defaultdict(dict)
        self.ended = threading.Event()

    def run(self):
        while not self.ended.wait(1):
            for pid in filter(str.isdigit, os.listdir("/proc")):
                try:
                    found = look(pid)
                except OSError:
                    continue
                if found:
                    self.seconds[found[:2]][pid] = found[2]

    def of(self, crate):
        """Returns the seconds of a crate's first check, and those of each of its mutants in turn."""
        sums = {folder: sum(each.values()) for (name, folder), each in self.seconds.items() if name == crate}
        mutants = [seconds for folder, seconds in sums.items() if "/rt-edit-" in folder]
        return sums.get(str(TOP / "crates" / crate), 0), mutants

    def table(self):
        """Returns a line for each crate: its first check and its mutants, the first of which proves the crate once
        more."""
        lines = ["crate          first check   mutants   the slowest after the first"]
        for folder in sorted((TOP / "crates").iterdir()):
            names = sorted(edit.stem for edit in folder.glob("must-fail/*.edit"))
            first, mutants = self.of(folder.name)
            slow = sorted(zip(mutants[1:], names[1:]), reverse=True)[:3]
            slowest = ", ".join(f"{name} {seconds:.0f}" for seconds, name in slow)
            lines.append(f"{folder.name:14} {first:9.0f} s {sum(mutants):7.0f} s   {slowest}".rstrip())
        return lines


class Proving:
    """The run of rt ci: what it has proved so far, and its checks."""

    def __init__(self):
        self.proved, self.changed, self.is_over, self.checks = [], threading.Condition(), False, Checks()

    def see(self, line):
        say([line])
        found = PROVED_LINE.match(line)
        with self.changed:
            self.proved += [found[1]] if found else []
            self.changed.notify_all()

    def wait_for(self, *crates):
        """Waits until the crates are proved or rt ci has ended. Returns all crates that are proved, for
        tests/vendor.py."""
        with self.changed:
            self.changed.wait_for(lambda: self.is_over or set(crates) <= set(self.proved))
            return " ".join(self.proved)

    def run(self):
        """Proves everything, with one task per processor if there is enough memory for each."""
        jobs = os.environ.get("RT_JOBS") or str(max(1, min(LANES, free_memory() // CHECK)))
        self.checks.start()
        try:
            return run("rt ci", ["rt", "ci"], self.see, RT_JOBS=jobs)
        finally:
            self.checks.ended.set()
            with self.changed:
                self.is_over = True
                self.changed.notify_all()


def free_memory():
    """Returns the free memory in kB."""
    return int(re.search(r"MemAvailable: +(\d+)", Path("/proc/meminfo").read_text())[1])


def over_library(folder, proving):
    """Runs the scripts over the library for C, which is built in this folder."""
    proved = proving.wait_for("avr_records")
    return [script(name, before=LAST, AVR_RECORDS_C=folder, PROVED_BY_CI=proved) for name in LIBRARY]


def stamper():
    """Returns what stamps the programs that rt ci proves from now on, for `./avrstk` and packages. No older ones are
    left."""
    for name, folder in PROGRAMS.items():
        (folder / name).unlink(missing_ok=True)
    sources = subprocess.run(["./avrstk", "--sources"], cwd=TOP, stdout=subprocess.PIPE, text=True).stdout.strip()
    return lambda: run("./avrstk --stamp proved", ["./avrstk", "--stamp", "proved", sources])


def start_unproved(lanes, over, names, before=()):
    """Starts in `lanes` the build of the unproved program and the scripts that need no program; in `over` the named
    ones, which use it."""
    built = lanes.submit(build)

    def over_it(name):
        return [script(name, "unproved: ", AVRSTK=str(UNPROVED))] if built.result().status == 0 else []

    def without_it(name):
        return [script(name, before=before)]

    begun = [lanes.submit(without_it, name) for name in SOURCES]
    begun += [over.submit(over_it, name) for name in names]
    return lambda: [built.result(), *(done for future in begun for done in future.result())]


def say_what_lacks():
    """Prints which packages are not installed, before anything runs: checks that need them are left out."""
    lacking = subprocess.run([TOP / "tests/tools.sh", "--lacking"], capture_output=True, text=True).stdout.strip()
    if lacking:
        say([f"{lacking}: checks that need them are left out; ./test --tools installs them"])


def few():
    """Runs the quick scripts, one per processor, and beside these twice as many over the program, which mostly wait.
    They try samples of what ./test --all tries whole."""
    os.environ.setdefault("SAMPLE", str(random.randrange(10_000)))
    say([f"samples are drawn by SAMPLE={os.environ['SAMPLE']}"])
    with ThreadPoolExecutor(LANES) as lanes, ThreadPoolExecutor(2 * LANES) as over:
        done = start_unproved(lanes, over, QUICK)()
    return settled(done)


def everything():
    """Runs rt ci, and beside it, with half of the processors, first what needs no proved program and then all scripts.
    Returns the outcome of all steps, and the checks of rt ci."""
    os.environ.pop("SAMPLE", None)
    proving, stamp = Proving(), stamper()
    # (a script that is run again finds the library for C too)
    with tempfile.TemporaryDirectory() as folder:
        with ThreadPoolExecutor(2) as beside, ThreadPoolExecutor(max(1, LANES // 2)) as lanes:
            proof, over_c = beside.submit(proving.run), beside.submit(over_library, folder, proving)
            others = start_unproved(lanes, lanes, BOTH, LAST)
            with_it = {"AVRSTK": str(PROVED), "PROVED_BY_CI": proving.wait_for(*PROGRAMS)}
            stamped = stamp()
            over_it = [lanes.submit(script, name, "proved: ", **with_it) for name in PROGRAM]
            done = [*others(), *over_c.result(), proof.result(), stamped, *(future.result() for future in over_it)]
        return settled(done), proving.checks


def chosen(names):
    """Runs the scripts of these names, with the built program."""
    known = list(dict.fromkeys([*SOURCES, *LIBRARY, *PROGRAM]))
    steps = [name for name in known if name in names or name.split()[0] in set(names) - set(known)]
    current = (
        os.environ.get("AVRSTK") or not subprocess.run(["./avrstk", "--which"], cwd=TOP, capture_output=True).returncode
    )
    built = [] if current else [build()]
    with ThreadPoolExecutor(LANES) as lanes:
        done = built + list(lanes.map(script, steps))
    return settled(done)


def machine():
    """Returns what the times depend on."""
    kit, help_page = (subprocess.run(["rt", word], capture_output=True, text=True) for word in ("version", "help"))
    # (a kit whose rt ci takes names remembers what passed)
    keeps = (
        "keeps what passed"
        if re.search(r"rt ci \[?NAME", help_page.stdout + help_page.stderr)
        else "proves everything anew in each rt ci"
    )
    return f"{LANES} processors, {free_memory() / 1e6:.0f} GB free; {kit.stdout.strip()}, which {keeps}"


def costs(done, checks):
    """Returns the table of processor seconds, and the whole in first checks of one crate."""
    whole, (measure, _) = sum(step.processor for step in done), checks.of(MEASURE)
    two = f"reckoned for two processors: {whole / 2 / 60:.0f} minutes"
    ratio = (
        f"{whole / measure:.0f} times {MEASURE}'s first check of {measure:.0f} s"
        if measure
        else f"{MEASURE} was not proved anew"
    )
    over = f"; more than {MOST}" if measure and whole / measure > MOST else ""
    return [*checks.table(), f"the whole: {whole:.0f} s of a processor, {ratio}{over}; {two}"]


def summary(done, checks=None):
    """Prints the outcome of all steps, and returns the status."""
    print("== summary", *(costs(done, checks) if checks else []), sep="\n")
    for step in done:
        print(f"{step.end():10} {step.seconds / 60:5.1f} min {step.processor:6.0f} s  {step.what}: {step.last()}")
        for line in [row.strip() for row in step.lines if FAILURE.match(row)][:MOST_FAILURES] if step.status else []:
            print(f"    {line[:300]}")
    refused = [found[1] for step in done for found in map(REFUSED.search, step.lines) if found]
    kinds = Counter(next(kind for kind, words in REFUSALS.items() if words.search(how)) for how in refused)
    if refused:
        counted = ", ".join(f"{kinds[kind]} {kind}" for kind in REFUSALS if kinds[kind])
        print(f"mutants: {len(refused)} refused, of these {counted}")
    left = [line for step in done for line in step.left_out()]
    print(f"left out because a tool isn't installed: {len(left) or 'nothing'}", *left, sep="\n    ")
    again = [step.what for step in done if step.what.endswith(AGAIN)]
    print(f"scripts that were run again, at most {MOST_AGAIN}: {', '.join(again) or 'none'}")
    wrong = sum(step.status != 0 for step in done)
    processor = sum(step.processor for step in done)
    took = f"{(time.monotonic() - BEGUN) / 60:.0f} minutes on {LANES} processors, {processor:.0f} s of one"
    print(f"{len(done)} steps in {took}; {wrong} of them failed")
    passed, failed = (sum(counts) for counts in zip(*(step.counts() for step in done)))
    print(f"{passed} passed, {failed} failed")
    return int(wrong > 0)


def main(words):
    say_what_lacks()
    # (avrstk-serial and avrstk-serve load compiled modules, but write none, and tests start them thousands of times)
    compileall.compile_dir(TOP / "lib/avrstk", quiet=1)
    if words == ["--all"]:
        say([machine()])
        return summary(*everything())
    if not words:
        return summary(few())
    known = {name.split()[0] for name in (*SOURCES, *LIBRARY, *PROGRAM)} | {*SOURCES, *LIBRARY, *PROGRAM}
    if set(words) - known:
        print(__doc__.strip(), "", "Scripts:", *(f"    {name}" for name in sorted(known)), sep="\n")
        return 2
    return summary(chosen(words))


if __name__ == "__main__":
    sys.exit(main(sys.argv[1:]))

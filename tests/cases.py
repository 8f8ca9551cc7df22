"""Runs and counts the checks of the scripts beside this one. A case can be run alone by its name; a check is left out
if its tool isn't installed."""

import os
import random
import re
import signal
import sys
import threading
import time
import traceback
from pathlib import Path

# A shell's background jobs ignore SIGINT, and jobs under nohup SIGHUP; their children inherit that. The programs run
# here must not ignore them.
for number, heeded in [(signal.SIGINT, signal.default_int_handler), (signal.SIGHUP, signal.SIG_DFL)]:
    if signal.getsignal(number) is signal.SIG_IGN:
        signal.signal(number, heeded)

TOP = Path(__file__).resolve().parent.parent
VERSION = (TOP / "VERSION").read_text().strip()
# the number in the name of the shared library
NUMBER = re.match(r"0\.\d+|[1-9]\d*", VERSION)[0]
# runs a command as a user who can't write to the system's own folders
SOMEBODY = ["setpriv", "--reuid=65534", "--regid=65534", "--clear-groups"] if os.geteuid() == 0 else []

passed = 0
failed = 0
left = 0
# how many runs and cases were made again because a pause was measured meanwhile
again = 0
# the reports of failures in a case that measures time, until it is known whether the case is made again; else None
held = None

# the status of a script in which only cases failed that measure time: on a busy machine it may be made again
LATE = 75

# the most seconds that a script waits for an expected event. It ends a hang, and is long enough for a machine that
# stops for minutes; nothing is measured by it. (mutants.py waits for less, and ends each script at its first failure)
PATIENCE = int(os.environ.get("PATIENCE", 600))

# the most characters printed of a found or a wanted value
SHOWN = 600

# a pause: a thread that sleeps for BEAT seconds wakes so many seconds late. A link may also measure a late reply
BEAT, PAUSE = 0.02, 0.3
# how often at most a run or a case is made again because of pauses
MOST_AGAIN = 5


class Pauses(threading.Thread):
    """Counts pauses: times in which this process didn't run, because the machine stood still or was busy."""

    def __init__(self):
        super().__init__(daemon=True)
        self.noted, self.seconds, self.woke, self.lock = 0, 0.0, time.monotonic(), threading.RLock()

    def run(self):
        while True:
            time.sleep(BEAT)
            self.so_far()

    def note(self, late):
        """Counts a pause if something came so many seconds late."""
        with self.lock:
            self.noted += late > PAUSE

    def so_far(self):
        """Returns the number of pauses, with one that has just ended."""
        with self.lock:
            now = time.monotonic()
            if not self.is_alive():
                self.woke = now
                self.start()
            late, self.woke = now - self.woke - BEAT, now
            self.note(late)
            self.seconds += late if late > PAUSE else 0
            return self.noted

    def awake(self):
        """Returns a time in seconds that stands still in pauses."""
        self.so_far()
        return time.monotonic() - self.seconds


pauses = Pauses()


def attempts(make, is_good):
    """Makes a run and returns all its outcomes, of which the last one counts. Only if an outcome isn't good and a pause
    was measured meanwhile, the run is made again: a wrong outcome without a pause counts."""
    global again
    found = []
    while True:
        before = pauses.so_far()
        found.append(make())
        if is_good(found[-1]) or pauses.so_far() == before or len(found) > MOST_AGAIN:
            return found
        again += 1


def check(name, good, detail=""):
    """Counts a check and returns whether it holds. If not, prints its name and details."""
    global passed, failed
    if good:
        passed += 1
    else:
        failed += 1
        report = name + (f"\n{detail}" if detail else "")
        if held is None:
            print(f"FAILED: {report}", flush=True)
        else:
            held.append(report)
        if os.environ.get("FIRST_FAILURE") == "1":
            sys.exit(1)
    return bool(good)


def check_equal(name, found, wanted):
    """Checks that `found` equals `wanted`."""
    return check(name, found == wanted, f"found:  {shown(found)}\nwanted: {shown(wanted)}")


def shown(what):
    text = what.hex(" ") if isinstance(what, bytes) and not what.isascii() else str(what)
    return text[:SHOWN] + ("" if len(text) <= SHOWN else " ..")


def leave_out(what, why):
    """Counts a check that is left out, and prints why."""
    global left
    left += 1
    print(f"left out: {what}: {why}", flush=True)


def wait_until(is_there, pause=0.005):
    """Waits until this call returns something true, and returns that. It is called after each pause."""
    ends = time.monotonic() + PATIENCE
    while not (found := is_there()):
        if time.monotonic() > ends:
            raise TimeoutError("what is waited for does not come")
        time.sleep(pause)
    return found


def table(name):
    """Returns the rows of tests/tables/NAME.txt, each a list of as many cells."""
    text = (TOP / f"tests/tables/{name}.txt").read_text()
    rows = [[cell.strip() for cell in f"{row} ".split(" | ")] for row in text.splitlines() if not row.startswith("#")]
    assert len({len(row) for row in rows}) == 1, f"tables/{name}.txt is empty, or its rows differ in length"
    return rows


def bytes_of(cell):
    """Returns the bytes that a cell has: digits or 'text', joined by + and with * repeated."""

    def held(part):
        return part[1:-1].encode() if part.startswith("'") else bytes.fromhex(part)

    return b"".join(
        held(part) * int(times or 1) for part, _, times in (part.partition("*") for part in cell.split("+"))
    )


def sampled(what, most, given):
    """Returns all that is given. If SAMPLE has a seed, as in `./test`, returns at most so many, and prints the seed."""
    given, seed = list(given), os.environ.get("SAMPLE")
    if not seed or len(given) <= most:
        return given
    print(f"{what}: {most} of {len(given)} are tried, drawn by SAMPLE={seed}", flush=True)
    return [given[at] for at in sorted(random.Random(f"{what} {seed}").sample(range(len(given)), most))]


def put_program(path, text):
    """Writes a file that anybody may run."""
    path.write_text(text)
    path.chmod(0o755)


def own_environment(**more):
    """Returns the environment without AVRSTK, and with these variables: a script then runs its own program."""
    return {name: value for name, value in os.environ.items() if name != "AVRSTK"} | more


def named(*functions):
    """Returns functions by their names."""
    return {function.__name__: function for function in functions}


def chosen(cases):
    """Returns the cases named on the command line. If none is named, returns all, or a share: CASES_SHARE=1/2 takes
    every second case, from the first on."""
    given, (first, step) = sys.argv[1:], map(int, os.environ.get("CASES_SHARE", "1/1").split("/"))
    return [name for name in cases if name in given] if given else list(cases)[first - 1 :: step]


def run_cases(cases, doc, timed=()):
    """Runs all cases, or those named on the command line, and returns the status. If a name is unknown, prints the
    script's own help and the names of all cases. A case that raises an exception has failed; the others still run. The
    `timed` cases measure time, or wait for a time that the program measures. If one fails and a pause was measured
    meanwhile, it is made again, unless it has itself made runs again."""
    if set(sys.argv[1:]) - set(cases):
        print(doc.strip(), "", "Cases:", *(f"    {name}" for name in cases), sep="\n")
        return 2
    wrong = set()
    for name in chosen(cases):
        before, begun = passed, time.monotonic()
        is_good = run_case(name, cases[name]) if name not in timed else run_timed(name, cases[name])
        print(f"{passed - before:6} seen in {time.monotonic() - begun:.1f} s: {name}", flush=True)
        wrong |= set() if is_good else {name}
    is_late = wrong and wrong <= set(timed) and not lacks()
    if is_late:
        print(f"late: {' | '.join(wrong)}", flush=True)
    return ended() and (LATE if is_late else 1)


def run_case(name, case):
    """Runs a case, and returns whether all its checks hold."""
    before = passed, failed, left
    try:
        case()
    except (Exception, SystemExit):
        check(name, False, traceback.format_exc().strip())
    if (passed, failed, left) == before:
        check(name, False, "it has looked at nothing")
    return failed == before[1]


def run_timed(name, case):
    """Runs a case that measures time, and returns whether all checks of its last attempt hold."""
    global held
    if os.environ.get("FIRST_FAILURE") == "1":
        return run_case(name, case)
    before = passed, failed, left

    def attempt():
        global passed, failed, left, held
        for report in held or []:
            print(f"no outcome, because a pause was measured: {report}", flush=True)
        (passed, failed, left), held = before, []
        made = again
        return run_case(name, case), again > made

    is_good, _ = attempts(attempt, any)[-1]
    for report in held:
        print(f"FAILED: {report}", flush=True)
    held = None
    return is_good


def ended():
    """Prints the counts and returns the status: 1 if a check failed or is lacking."""
    paused = f", {again} made again because of pauses" if again else ""
    print(f"{passed} passed, {failed} failed, {left} left out{paused}", flush=True)
    return int(failed > 0 or lacks())


def lacks():
    """Returns whether a check was left out and NEED_ALL is 1."""
    return left > 0 and os.environ.get("NEED_ALL") == "1"

#!/usr/bin/env python3
"""Runs most commands of README, docs/USAGE, docs/EMULATOR and examples/README, in a fresh clone with a built program.
Each ends with status 0, none starts a build, and git sees no file that they made.

Not proved: No proof covers documents and the shell.

    tests/recipes.py [CASE ..]    needs a built program (program.py), used as the clone's unproved program; commands
                                  with AVRDUDE are left out without AVRDUDE 7.1, those with srec_cmp without srecord

Only the user's own things differ: the port, the home folder, the firmware, and the board. The board is a pseudo
terminal with the emulated programmer behind it."""

import os
import re
import shlex
import shutil
import subprocess
import sys
import tempfile
import textwrap
from pathlib import Path

from cases import PATIENCE, check, check_equal, leave_out, named, own_environment, put_program, run_cases
from program import PROGRAM, SESSION, TOP, has_avrdude, kept_port, port_of
from serial import Board

# commands that are no step of using the tool, or that start proofs
NOT_HERE = ("cd ", "git ", "./test", ".ci/", "./avrstk --build", "./install.sh --with-c")

# `rt` in the clone: notes that it was called
RT = '#!/bin/sh\necho "$@" >>"$NOTED"\nexit 1\n'

# at the end of the commands' shell, its background jobs are ended
ENDS = "trap 'kill $(jobs -p) 2>/dev/null; wait' EXIT\n"


class Clone:
    """Makes a clone with the uncommitted changes, in a folder with a home and an `rt` that notes its calls."""

    def __init__(self, folder):
        self.folder = Path(folder)
        self.top = self.folder / "avrstk"
        self.noted = self.folder / "noted"
        for subfolder in ["home", "bin"]:
            (self.folder / subfolder).mkdir()
        # (git accepts a repository with any owner)
        (self.folder / "home/.gitconfig").write_text("[safe]\n\tdirectory = *\n")
        self.git("clone", "-q", TOP, self.top)
        changed = self.git("diff", "-z", "--name-only", "HEAD") + self.git("ls-files", "-z", "-o", "--exclude-standard")
        for name in changed.split("\0"):
            if name and (TOP / name).exists():
                (self.top / name).parent.mkdir(parents=True, exist_ok=True)
                shutil.copy(TOP / name, self.top / name)
        self.was = self.status()
        (self.top / "out/unproved").mkdir(parents=True)
        for name, found in [("avrstk", PROGRAM), ("avrstk_session", SESSION)]:
            shutil.copyfile(found, self.top / "out/unproved" / name)
            (self.top / "out/unproved" / name).chmod(0o755)
        self.stamp("unproved")
        put_program(self.folder / "bin/rt", RT)
        # (tools/site.py --check makes the site; here that would only take time)
        put_program(self.folder / "bin/sphinx-build", "#!/bin/sh\nexit 1\n")

    def stamp(self, kind):
        """Stamps the programs there as built from the clone's sources."""
        environment = os.environ | {"PATH": f"{self.folder}/bin:{os.environ['PATH']}"}
        sources = subprocess.run([self.top / "avrstk", "--sources"], capture_output=True, text=True, check=True).stdout
        subprocess.run([self.top / "avrstk", "--stamp", kind, sources.strip()], check=True, env=environment)

    def git(self, *words, at=TOP):
        environment = os.environ | {"HOME": str(self.folder / "home")}
        ran = subprocess.run(["git", "-C", at, *words], capture_output=True, text=True, check=True, env=environment)
        return ran.stdout

    def status(self):
        """Returns the uncommitted changes that git sees in it."""
        return self.git("status", "--porcelain", at=self.top)

    def types(self, commands):
        """Types commands, one after another, into one shell; returns what it printed."""
        kept = kept_port()
        port = port_of(kept)
        path = f"{self.folder}/bin:{self.folder}/home/.local/bin:{os.environ['PATH']}"
        environment = own_environment(PATH=path, HOME=str(self.folder / "home"), NOTED=str(self.noted))
        typed = [f"{command} || echo 'FAILED here'" for command in commands]
        text = ENDS + "\n".join(typed).replace("5000", str(port))
        how = {"stdin": subprocess.DEVNULL, "stdout": subprocess.PIPE, "stderr": subprocess.STDOUT, "text": True}
        with kept:
            return subprocess.run(["bash", "-c", text], cwd=self.top, env=environment, timeout=PATIENCE, **how).stdout

    def tries(self, commands):
        """Types the commands of one block, if they can run here."""
        for tool, is_here in [("avrdude", has_avrdude()), ("srec_cmp", shutil.which("srec_cmp"))]:
            if not is_here and any(command.startswith(f"{tool} ") for command in commands):
                leave_out(f"calls of {tool}", "it is not installed")
                commands = [command for command in commands if not command.startswith(f"{tool} ")]
        commands = [
            command.replace("firmware.hex", "examples/blink.hex")
            for command in commands
            if not command.startswith(NOT_HERE)
        ]
        device = next((found for found in re.findall(r"/dev/tty\w+", " ".join(commands))), None)
        if device:
            words = next(shlex.split(command) for command in commands if device in command)
            board = Board(part="m2560" if "2560" in words[words.index("-p") + 1] else "m328p")
            commands = [command.replace(device, board.device) for command in commands]
        printed = self.types(commands)
        if device:
            board.end()
        for command in commands:
            check(f"is right: {command}", "FAILED here" not in printed, printed)
        check("nothing is built", not self.noted.exists(), self.noted.exists() and self.noted.read_text())


def blocks(file):
    """Yields the commands of each block of a document, as typed."""
    found = re.findall(r"(?:^    (?!  ).*\n)+", (TOP / file).read_text(), re.M)
    # (without the comment after a command)
    return [typed for block in found if (typed := re.findall(r"^    \$ (.*?)(?: +# .*)?$", block, re.M))]


def in_a_clone(case):
    """Runs a case in its own clone; at the end git sees nothing new there."""

    def run():
        with tempfile.TemporaryDirectory() as folder:
            clone = Clone(folder)
            case(clone)
            check_equal("git sees no new file", clone.status(), clone.was)

    run.__name__ = case.__name__
    return run


def readme(clone):
    """Runs the commands of README, without `./test` and those that prove."""
    found = blocks("README.md")
    first = next(command for commands in found for command in commands if command.startswith("./"))
    check("the first command in a clone needs no proof", first.startswith("./avrstk --unproved "), first)
    clone.types(["./install.sh ~/.local"])
    for commands in found:
        clone.tries(commands)


def usage(clone):
    """Runs the commands of docs/USAGE and EMULATOR that have a `$` and are in no list; those for an installed avrstk
    use one that install.sh has installed."""
    clone.types(["./install.sh ~/.local"])
    for commands in [*blocks("docs/USAGE.md"), *blocks("docs/EMULATOR.md")]:
        clone.tries(commands)


def examples(clone):
    """Runs the commands in the table of examples/README that begin with ./avrstk, and its tests with a double, in a
    clone from which avrstk isn't installed."""
    found = re.findall(r"\| `(\./avrstk .*?|[^`]*\bpytest .*?)`", (TOP / "examples/README.md").read_text())
    check("examples/README has commands", len(found) > 4 and any("pytest" in command for command in found), found)
    for command in found:
        if "pytest" in command and not shutil.which("pytest"):
            leave_out(command, "pytest is not installed")
        else:
            clone.tries([command])


# the Arduino IDE's own rules for AVR boards: names and values, of which platform.local.txt replaces some
PLATFORM = Path("/usr/share/arduino/hardware/arduino/avr/platform.txt")


def uploads(local):
    """Returns the upload command of the Arduino IDE, with the text of a platform.local.txt."""
    rules = dict(
        rule.split("=", 1) for rule in f"{PLATFORM.read_text()}\n{local}".splitlines() if re.match(r"[\w.]+=", rule)
    )
    tool = {name[len("tools.avrdude.") :]: value for name, value in rules.items() if name.startswith("tools.avrdude.")}
    given = {
        "build.mcu": "atmega2560",
        "upload.protocol": "wiring",
        "upload.speed": "115200",
        "serial.port": "/dev/ttyACM0",
    }
    given |= {"build.path": "examples", "build.project_name": "blink", "upload.verbose": "-v", "upload.verify": ""}
    command = tool["upload.pattern"]
    while found := re.search(r"\{([\w.]+)\}", command):
        command = command.replace(found[0], {**tool, **given, "path": "", "runtime.tools.avrdude.path": ""}[found[1]])
    return command


def in_place_of_avrdude(clone):
    """docs/USAGE's recipes for the Arduino IDE, PlatformIO and a link named avrdude upload to an emulated board."""
    text = (TOP / "docs/USAGE.md").read_text().split("## In place of AVRDUDE")[1].split("\n## ")[0]
    local, project, link = [
        "\n".join(line.strip() for line in found.splitlines()) for found in re.findall(r"(?:^    .*\n)+", text, re.M)
    ]
    clone.types(["./install.sh ~/.local"])

    def installed(text):
        return text.replace("/usr/bin/", f"{clone.folder}/home/.local/bin/")

    settings = dict(re.findall(r"^(\w+) = (.*)$", project, re.M))
    variables = {"$UPLOAD_PORT": settings["upload_port"], "$SOURCE": "examples/blink.hex"}
    commands = [re.sub(r"\$\w+", lambda match: variables[match[0]], settings["upload_command"])]
    upload = "~/avrdude -patmega2560 -cwiring -P/dev/ttyACM0 -D -Uflash:w:examples/blink.hex:i"
    commands.append(f"cd ~ && {installed(link)} && cd - && {upload}")
    if PLATFORM.exists():
        commands.append(uploads(installed(local)))
    else:
        leave_out("the Arduino IDE's recipe", "arduino-core-avr is not installed")
    for command in commands:
        board = Board(part="m2560")
        printed = clone.types([command.replace("/dev/ttyACM0", board.device)])
        chip = board.end()
        check(
            f"is right: {command}",
            "FAILED here" not in printed and "avrstk: flash: 228 bytes verified" in printed,
            printed,
        )
        check_equal("the chip", chip[:4].hex(), "0c943400")


def jobs(clone):
    """Runs the steps with avrstk of docs/EMULATOR's recipes for GitLab and GitHub, and those for pytest."""
    clone.types(["./install.sh ~/.local"])
    text = (TOP / "docs/EMULATOR.md").read_text().split("### Recipes for jobs")[1]
    gitlab, github, fixture = [
        textwrap.dedent(recipe) for recipe in re.findall(r"(?:^(?:    (?!\$ ).*)?\n)+", text, re.M) if recipe.strip()
    ]
    steps = re.findall("^ +- (avrstk.*)", gitlab, re.M), re.findall("^ +(avrstk.*)", github, re.M)
    shutil.copy(clone.top / "examples/blink.hex", clone.folder / "firmware.hex")
    (clone.folder / "test_flash.py").write_text(fixture)
    typed, double = re.findall(r"run by `([^`]*)`", text)
    if shutil.which("pytest"):
        printed = clone.types([double])
        check("the tests with a double pass", "3 passed" in printed, printed)
    for name, commands in [("gitlab", steps[0]), ("github", steps[1]), ("pytest", [typed])]:
        check(f"{name} has steps", len(commands) > (name != "pytest"), commands)
        if not has_avrdude() or name == "pytest" and not shutil.which("pytest"):
            leave_out(f"the recipe of {name}", "a tool is not installed")
            continue
        printed = clone.types(["cd ..", *commands])
        check(f"{name} is right", printed and "FAILED here" not in printed, printed)
        chip = (clone.folder / "chip.bin").read_bytes()
        check_equal(f"{name}: the chip has the firmware", chip[:4].hex(), "0c943400")
        (clone.folder / "chip.bin").unlink()


CASES = named(*map(in_a_clone, [readme, usage, examples, in_place_of_avrdude, jobs]))

if __name__ == "__main__":
    sys.exit(run_cases(CASES, __doc__))

#!/usr/bin/env python3
"""Makes the packages of tools/package.sh in two clones of this repository, with a script in place of `rt`. The packages
of both clones are identical. They contain what install.sh installs. They can be installed, run
and removed.

Not proved: No proof covers shell scripts and Debian's package tools.

    tests/package.py [CASE ..]
"""

import copy
import functools
import os
import re
import shutil
import subprocess
import sys
import tempfile
import time
from pathlib import Path

from cases import (
    NUMBER,
    PATIENCE,
    SOMEBODY,
    VERSION,
    check,
    check_equal,
    leave_out,
    named,
    own_environment,
    run_cases,
    table,
)
from program import PROGRAM, TOP
from recipes import Clone, blocks

KIT = "rattle-kit-stand-in logic 0123456789abcdef"
NEEDED = ["git", "dpkg-deb", "dpkg-shlibdeps", "strip", "xz", "gcc", "ar", "ld", "objcopy"]

# `rt`: prints its version and the kit's folder, and makes an archive for C
RT = f"""#!/bin/sh
case $1 in
    version) echo {KIT} ;;
    doc) echo "$(dirname "$0")/../kit/START-HERE.md" ;;
    lib)
        mkdir -p out
        echo '#include <stdlib.h>
            int avr_records_size(void) {{ return *(char *)malloc(7); }}' | gcc -fPIC -x c -c -o out/calls.o -
        ar rcD out/libavr_records_c.a out/calls.o ;;
    *) exit 1 ;;
esac
"""

DOCUMENTS = ["BOARDS", "EMULATOR", "FORMATS", "PART", "PARTS", "PROTOCOL", "README", "TROUBLESHOOTING", "USAGE", "WHY"]
UNPROVED = "UNPROVED: this build was compiled without its proofs"
UNKNOWN = "UNPROVED: no stamp says that this build was proved, or from which sources."
PROVED = "Its behaviour is proved"
PROGRAMS_PROVED = (
    "The behaviour of avrstk and avrstk_session is proved. "
    "The scripts avrstk-serial and avrstk-serve are tested. Proved"
)
DEVELOPMENT = [f"usr/{path}" for path, in table("library") if "NUMBER" not in path]


class Packager(Clone):
    """A clone with the stand-in for `rt`, to make packages in."""

    def __init__(self, folder, name):
        (Path(folder) / name).mkdir()
        super().__init__(Path(folder) / name)
        self.made = self.folder / "made"
        self.made.mkdir()
        (self.folder / "bin/rt").write_text(RT)
        self.stamp("unproved")
        (self.folder / "kit/c").mkdir(parents=True)
        kit = {"cwd": self.folder / "kit/c", "check": True}
        subprocess.run(["gcc", "-fPIC", "-x", "c", "-c", "-o", "heap.pic.o", "-"], input=b"int heap;", **kit)
        subprocess.run(["ar", "rcD", "liblibc_c.a", "heap.pic.o"], **kit)

    def give_to(self, user):
        """Makes another user the owner of the folders that packaging writes to."""
        self.folder.chmod(0o755)
        written = [self.made, self.top / "out", self.top / "crates/avr_records_c", self.folder / "home"]
        subprocess.run(["chown", "-R", user, *written], check=True)

    def start(self, *words, front=(), **more):
        """Starts packaging the built program, or the one that AVRSTK names. `front` is a command that runs the
        script."""
        own = {"PATH": f"{self.folder}/bin:{os.environ['PATH']}", "HOME": str(self.folder / "home")}
        environment = own_environment(**own | more)
        environment.pop("SOURCE_DATE_EPOCH", None)
        how = {"stdout": subprocess.PIPE, "stderr": subprocess.STDOUT, "text": True}
        command = [*front, self.top / "tools/package.sh", *words, self.made.name]
        return subprocess.Popen(command, env=environment, cwd=self.folder, **how)

    def commit(self):
        return self.git("rev-parse", "HEAD").strip()

    def packages(self):
        return {file.name: file.read_bytes() for file in self.made.iterdir()}


def ended(started):
    """Returns the status of a run, and its output."""
    output = started.communicate(timeout=PATIENCE)[0]
    return started.returncode, output


def field(package, name):
    return subprocess.run(["dpkg-deb", "-f", package, name], capture_output=True, text=True, check=True).stdout.strip()


def files(folder):
    """Returns the files under a folder."""
    return sorted(str(path.relative_to(folder)) for path in folder.rglob("*") if path.is_symlink() or not path.is_dir())


ROOM = tempfile.TemporaryDirectory()


@functools.cache
def made():
    """Makes the packages in two clones at the same time, as two users with different settings."""
    os.chmod(ROOM.name, 0o755)
    clones = [Packager(ROOM.name, name) for name in ["one", "two"]]
    if SOMEBODY:
        clones[1].give_to("65534:65534")
    private = ["sh", "-c", 'umask 077 && exec "$0" "$@"']
    # (CDPATH makes `cd` print the folder's name)
    started = [clones[0].start("--with-c", TZ="Asia/Tokyo", XZ_DEFAULTS="--check=none", CDPATH=".")]
    # (so the files of the two clones have different times)
    time.sleep(1.1)
    started.append(clones[1].start("--with-c", front=[*SOMEBODY, *private], LC_ALL="C.UTF-8"))
    for status, output in [ended(process) for process in started]:
        if status:
            raise SystemExit(f"tools/package.sh ends with {status}: {output}")
    return clones


def package(name):
    """Returns the package of this name in the first clone."""
    (found,) = made()[0].made.glob(f"{name}_*.deb")
    return found


def packages_are_the_same():
    """Two clones make identical packages."""
    one, two = (clone.packages() for clone in made())
    arch = field(package("avrstk"), "Architecture")
    debs = [("avrstk", f"{VERSION}~unproved"), (f"libavr-records{NUMBER}", VERSION), ("libavr-records-dev", VERSION)]
    wanted = [
        f"avrstk-{VERSION}~unproved-{os.uname().machine}.tar.xz",
        *(f"{name}_{of}_{arch}.deb" for name, of in debs),
    ]
    check_equal("the packages", sorted(one), sorted(wanted))
    check_equal("those of the other clone", sorted(two), sorted(one))
    for name, content in one.items():
        check(f"{name} is the same in both", two.get(name) == content)


def packages_say_what_they_are():
    """Each Debian package of a stamped program names its commit and kit. The program's package states that nothing of
    it was proved; the library's package states that it is proved, because `rt lib` proves it."""
    for name in ["avrstk", f"libavr-records{NUMBER}", "libavr-records-dev"]:
        description = field(package(name), "Description")
        flat = " ".join(description.split())
        mark, proof = (" (unproved build)", UNPROVED) if name == "avrstk" else ("", PROVED)
        check(f"{name} is marked in its first line or not", description.splitlines()[0].endswith(mark), description)
        check_equal(f"{name} states once what is proved", flat.count(f"{proof}, by {KIT}. "), 1)
        check_equal(f"{name} states whether it is unproved", "unproved" in flat.lower(), bool(mark))
        check(f"{name} has the commit", f"Commit {made()[0].commit()}" in flat, description)
    depends = field(package("avrstk"), "Depends")
    check(
        "avrstk depends on libc6 and Python", re.match(r"libc6 \(>= 2\.\d+\).*, python3 \(>= 3\.8\)$", depends), depends
    )
    check("the library depends on libc6", field(package(f"libavr-records{NUMBER}"), "Depends").startswith("libc6"))
    needed = f"libavr-records{NUMBER} (= {VERSION})"
    check_equal("who develops needs the library", field(package("libavr-records-dev"), "Depends"), needed)


def a_proved_program_is_not_marked():
    """The proved program of a clone is packaged as proved. If there are changes since the commit, the package states
    that."""
    clone = made()[0]
    shutil.rmtree(clone.made)
    for name in [folder.name for folder in (clone.top / "crates").glob("avrstk*")]:
        program = clone.top / "crates" / name / "out" / name
        program.parent.mkdir(exist_ok=True)
        subprocess.run(["gcc", "-x", "c", "-o", program, "-"], input=b"int main(void) { return 0; }", check=True)
    clone.stamp("proved")
    program = clone.top / "crates/avrstk/out/avrstk"
    with open(clone.top / "README.md", "a") as readme:
        readme.write("changed\n")
    status, output = ended(clone.start())
    check_equal("two packages are made", (status, re.findall("^made", output, re.M)), (0, ["made"] * 2))
    found = package("avrstk")
    description = field(found, "Description")
    check_equal("its version", field(found, "Version"), VERSION)
    check("it has no mark", "unproved" not in description.lower(), description)
    flat = " ".join(description.split())
    check("it states that it is proved", f"{PROGRAMS_PROVED} by {KIT}." in flat, description)
    check("and of changes", f"Commit {made()[0].commit()}, with changes since." in flat, description)
    shutil.copy(clone.top / "out/unproved/avrstk", program)
    status, output = ended(clone.start(AVRSTK=str(program)))
    (found,) = clone.made.glob("avrstk_*~unproved_*.deb")
    description = " ".join(field(found, "Description").split())
    check(
        "the unproved program in the proved one's place is marked",
        all(text in description for text in [UNKNOWN, "Packaged at commit"]) and PROGRAMS_PROVED not in description,
        description,
    )
    with tempfile.TemporaryDirectory() as folder:
        subprocess.run(["dpkg-deb", "-x", found, folder], check=True)
        stamp = Path(folder, "usr/lib/avrstk/avrstk.stamp").read_text()
    check_equal("its stamp", stamp, "not known whether it is proved\n")


def unpacked(name, folder):
    subprocess.run(["dpkg-deb", "-x", package(name), folder], check=True)
    return files(folder)


def packages_hold_what_is_installed():
    """The Debian packages contain what install.sh installs, except its manifest, and documents of their own."""
    with tempfile.TemporaryDirectory() as folder:
        prefix = Path(folder, "installed")
        # (without the site, as in the clones)
        environment = os.environ | {"AVRSTK": str(PROGRAM), "PATH": f"{made()[1].folder}/bin:{os.environ['PATH']}"}
        subprocess.run([TOP / "install.sh", prefix], env=environment, check=True, stdout=subprocess.DEVNULL)
        (prefix / "share/avrstk/manifest").unlink()
        placed = [path.replace("zsh/site-functions", "zsh/vendor-completions") for path in files(prefix)]
        wanted = [f"usr/{path}{'.gz' if path.endswith(('.1', '.7')) else ''}" for path in placed]
        docs = ["built-from", "changelog.gz", "copyright"]
        own = [*docs, "examples/blink.hex", *(f"{name}.md" for name in DOCUMENTS)]
        found = unpacked("avrstk", Path(folder, "avrstk"))
        check_equal("avrstk", found, sorted([*wanted, *(f"usr/share/doc/avrstk/{path}" for path in own)]))
        name = f"libavr-records{NUMBER}"
        wanted = [f"usr/lib/libavr_records.so.{NUMBER}", *(f"usr/share/doc/{name}/{document}" for document in docs)]
        check_equal(name, unpacked(name, Path(folder, "shared")), wanted)
        wanted = [*DEVELOPMENT, *(f"usr/share/doc/libavr-records-dev/{document}" for document in docs)]
        check_equal("libavr-records-dev", unpacked("libavr-records-dev", Path(folder, "dev")), wanted)
        copyright = Path(folder, "avrstk/usr/share/doc/avrstk/copyright").read_text()
        check("the package states that there is no licence", "There is no licence yet." in copyright, copyright)
        built_from = Path(folder, "avrstk/usr/share/doc/avrstk/built-from").read_text()
        check(
            "and what it was built from",
            all(text in built_from for text in [KIT, made()[0].commit(), UNPROVED]),
            built_from,
        )
        modes = {path: oct((Path(folder, "avrstk") / path).stat().st_mode & 0o777) for path in found}
        programs = {path for path, mode in modes.items() if mode == "0o755"}
        wanted = {
            path for path in found if path.startswith(("usr/bin/", "usr/lib/")) and not path.endswith((".py", ".stamp"))
        }
        check_equal("programs alone can be run", programs, wanted)
        first = {
            (Path(folder, "avrstk/usr/bin") / name).read_text().split("\n")[0]
            for name in ["avrstk-serial", "avrstk-serve"]
        }
        check_equal("the scripts name Debian's Python", first, {"#!/usr/bin/python3"})
        check_equal(
            "all others can be read by everybody", {modes[path] for path in found if path not in programs}, {"0o644"}
        )


def runs(prefix, folder):
    """The installed program runs from its prefix."""
    how = {"cwd": folder, "env": own_environment(), "capture_output": True, "text": True, "timeout": PATIENCE}
    words = ["-p", "m328p", "-P", "emu:chip.bin", "-U", f"flash:w:{TOP}/examples/blink.hex:i"]
    ran = subprocess.run([prefix / "bin/avrstk", *words], **how)
    check_equal("avrstk", (ran.returncode, ran.stderr.splitlines()[-1:]), (0, ["avrstk: done"]))
    for script in sorted(file.name for file in (prefix / "bin").iterdir() if file.name != "avrstk"):
        ran = subprocess.run([prefix / "bin" / script, "--help"], **how)
        check(f"{script} --help", ran.returncode == 0 and script in ran.stdout, ran)
    ran = subprocess.run([prefix / "bin/avrstk-serial", "-p", "?"], **how)
    check("avrstk-serial finds the part file", "ATmega32U4" in ran.stdout, ran)


def slug(heading):
    """Returns what a link to a heading has after its #."""
    return re.sub(r"[^\w -]", "", heading.lower()).replace(" ", "-")


def documents_are_the_packages_own():
    """The package's README has 15 to 35 lines, and its commands work outside a clone. Every link leads to a document of
    the package, and to a heading there."""
    clone = copy.copy(made()[0])
    with tempfile.TemporaryDirectory() as folder:
        unpacked("avrstk", Path(folder, "root"))
        docs = Path(folder, "root/usr/share/doc/avrstk")
        headings = {
            file.name: set(map(slug, re.findall(r"^#+ (.*)$", file.read_text(), re.M))) for file in docs.glob("*.md")
        }
        for name in headings:
            for target in re.findall(r"\]\(([^)]*)\)", (docs / name).read_text()):
                file, _, heading = target.partition("#")
                is_there = heading in headings.get(file or name, {}) if heading else file in headings
                check(f"the link to {target} in {name}", is_there)
        check("commands name no repository", "$ ./" not in "".join((docs / name).read_text() for name in headings))
        readme = (docs / "README.md").read_text()
        check("its README is short", 15 <= readme.count("\n") <= 35, readme.count("\n"))
        # the place of /usr in PATH; a folder that is no clone, with the firmware of the board
        Path(folder, "home").mkdir()
        Path(folder, "root/usr").rename(Path(folder, "home/.local"))
        (Path(folder, "bin")).mkdir()
        clone.folder, clone.top, clone.noted = Path(folder), Path(folder, "work"), Path(folder, "noted")
        (clone.top / "examples").mkdir(parents=True)
        shutil.copy(TOP / "examples/blink.hex", clone.top / "examples")
        Path(folder, "README.md").write_text(readme.replace("/usr/share", f"{folder}/home/.local/share"))
        for commands in blocks(Path(folder, "README.md")):
            clone.tries(commands)


def package_is_installed_and_removed():
    """dpkg installs the package under a folder. It runs there, and dpkg removes all of it."""
    with tempfile.TemporaryDirectory() as folder:
        root = Path(folder, "root")
        for name in ["updates", "info", "triggers"]:
            (root / "var/lib/dpkg" / name).mkdir(parents=True)
        (root / "var/lib/dpkg/status").write_text("")
        # (its dependencies are not installed under that folder)
        dpkg = ["dpkg", f"--root={root}", "--force-not-root", "--force-depends", "--log=/dev/null"]
        how = {"capture_output": True, "text": True}
        ran = subprocess.run([*dpkg, "-i", *(package(name) for name in ["avrstk", f"libavr-records{NUMBER}"])], **how)
        if not check_equal("the status of dpkg -i", ran.returncode, 0):
            print(ran.stderr)
        listed = subprocess.run(
            ["dpkg-query", f"--admindir={root}/var/lib/dpkg", "-W", "-f", "${Status} ", "avrstk"], **how
        )
        check_equal("dpkg has it", listed.stdout, "install ok installed ")
        runs(root / "usr", folder)
        ran = subprocess.run([*dpkg, "-P", "avrstk", f"libavr-records{NUMBER}"], **how)
        if not check_equal("the status of dpkg -P", ran.returncode, 0):
            print(ran.stderr)
        check_equal("what is left", files(root / "usr") if (root / "usr").exists() else [], [])


def archive_runs_anywhere():
    """The program runs from the unpacked archive."""
    with tempfile.TemporaryDirectory() as folder:
        (archive,) = made()[0].made.glob("*.tar.xz")
        subprocess.run(["tar", "-xf", archive], cwd=folder, check=True)
        name = archive.name.removesuffix(".tar.xz")
        check_equal("it has one folder", os.listdir(folder), [name])
        runs(Path(folder, name), folder)


def lintian_finds_no_error():
    """Debian's lintian finds no error in the packages."""
    if not shutil.which("lintian"):
        return leave_out("the packages as lintian judges them", "lintian is not installed")
    debs = sorted(made()[0].made.glob("*.deb"))
    ran = subprocess.run(["lintian", "--fail-on", "error", *debs], capture_output=True, text=True)
    check("lintian finds no error", ran.returncode == 0, ran.stdout + ran.stderr)


def refusals():
    """tools/package.sh refuses a program that isn't there, and an option that it doesn't know."""
    clone = made()[1]
    nothing = f"{clone.folder}/nothing"
    message = f"package.sh: error: {nothing} is not there\n"
    check_equal("a program that is not there", ended(clone.start(AVRSTK=nothing)), (1, message))
    message = "package.sh: error: usage: tools/package.sh [--with-c] FOLDER\n"
    check_equal("an option that is not known", ended(clone.start("--other")), (1, message))
    (clone.top / "out/unproved/avrstk").unlink()
    status, message = ended(clone.start())
    check_equal("no program", (status, "avrstk: error: not built\n" in message), (1, True))


FROM_BOTH = [
    packages_are_the_same,
    packages_say_what_they_are,
    packages_hold_what_is_installed,
    documents_are_the_packages_own,
]
RUN = [package_is_installed_and_removed, archive_runs_anywhere, lintian_finds_no_error]
# (the last change the clones)
CASES = named(*FROM_BOTH, *RUN, a_proved_program_is_not_marked, refusals)


def main():
    lacking = [tool for tool in NEEDED if not shutil.which(tool)]
    if lacking or not (TOP / ".git").exists():
        leave_out("the packages", f"{', '.join(lacking)} not installed" if lacking else "this is no clone")
        CASES.clear()
    return run_cases(CASES, __doc__)


if __name__ == "__main__":
    sys.exit(main())

#!/usr/bin/env python3
"""Copies crates into other repositories by tools/vendor.sh, and builds a crate there that uses the copies. That crate
is an example of examples/library with a contract of its own. The case `proof`, which runs only if named, proves it
there. It also proves the link of examples/library, whose ghost members only a proof reads. That takes minutes if no rt
ci at work has proved the crates below them.

Not proved: No proof covers shell scripts.

    tests/vendor.py [CASE ..]
"""

import os
import re
import shutil
import subprocess
import sys
import tempfile
from contextlib import contextmanager
from pathlib import Path

from cases import TOP, check, check_equal, named, run_cases

PARTS = ("src", "specs", "proofs", "README.md")
FOREIGN = "patch_serial_number"
EXAMPLE = "a_link_of_ones_own"
TEST = """#![tactic(auto)]
#[cfg(test)]
mod tests {
    use avr_image::{Image, Pieces};
    use patch_serial_number::put_serial_number;
    use std::test::Fail;

    #[test]
    fn a_serial_number_is_put(rt: HostRuntime) -> Result<(), Fail> {
        let mut image = Image::new(rt.alloc(), 8)?;
        put_serial_number(&mut image, 2, b"SN")?;
        assert_eq!(rt; image.get(3), Some(b'N'));
        Ok(())
    }
}
"""

# Writes rt's stamps into the copy below this folder: rt takes a library for built if its stamp is the sum of its
# sources. No command of rt writes one for what rt ci built, so this is the one place that knows the kit's own files.
STAMPS = """
import importlib.machinery, importlib.util, os, sys
kit, names = sys.argv[1], sys.argv[2:]
sys.path.insert(0, f"{kit}/bin")
loader = importlib.machinery.SourceFileLoader("rt", f"{kit}/bin/rt")
rt = importlib.util.module_from_spec(importlib.util.spec_from_loader("rt", loader))
loader.exec_module(rt)
for crate in rt.rtlib.crates_below(os.getcwd()):
    if crate.name in names:
        with open(f"{crate.folder}/out/rlib/stamp", "w") as file:
            file.write(crate.stamp())
"""


def lend(copy):
    """Lends to the crates of `copy` what the rt ci at work in this checkout has proved (tests/all.py names it in
    PROVED_BY_CI). Without it, or if the kit has changed, rt proves the copy's crates itself, which takes minutes."""
    names = [name for name in os.environ.get("PROVED_BY_CI", "").split() if (TOP / f"crates/{name}/out/rlib").is_dir()]
    names = [name for name in names if (Path(copy) / "crates" / name).is_dir()]
    for name in names:
        shutil.copytree(TOP / f"crates/{name}/out/rlib", Path(copy) / f"crates/{name}/out/rlib")
    if not names:
        return
    kit = Path(subprocess.run(["rt", "doc"], capture_output=True, check=True, text=True).stdout.strip()).parent
    if subprocess.run([sys.executable, "-c", STAMPS, kit, *names], cwd=copy).returncode:
        print("note: rt's stamps could not be written, so the libraries are proved again")


def line_of(name, top=TOP):
    """Returns the line of a crate in a repository's crates.txt."""
    lines = (top / "crates.txt").read_text().splitlines()
    return next((line for line in lines if line.split(":")[0] == name), None)


@contextmanager
def repository():
    """Makes an empty repository and yields its top folder."""
    with tempfile.TemporaryDirectory() as folder:
        top = Path(folder) / "another one"
        top.mkdir()
        subprocess.run(["git", "init", "-q"], cwd=top, check=True)
        yield top


def ran(words, folder=TOP):
    """Runs a command in a folder, and returns its status and output."""
    done = subprocess.run(words, cwd=folder, stdout=subprocess.PIPE, stderr=subprocess.STDOUT, text=True)
    return done.returncode, done.stdout


def vendor(*words):
    return ran([TOP / "tools/vendor.sh", *words])


def files(top):
    """Returns each file of a repository, with its bytes."""
    paths = [path for path in sorted(top.rglob("*")) if path.is_file() and ".git" not in path.parts]
    return {str(path.relative_to(top)): path.read_bytes() for path in paths}


def copied(top, *crates):
    """Checks that exactly these crates are there, identical to those here, with their lines."""
    check_equal("crates", sorted(crate.name for crate in (top / "crates").iterdir()), sorted(crates))
    for name in crates:
        here = {path: text for path, text in files(TOP / "crates" / name).items() if path.split("/")[0] in PARTS}
        check(f"{name} as it is here", files(top / "crates" / name) == here)
        check_equal(f"line of {name}", line_of(name, top), line_of(name))


def all_that_it_stands_on():
    """tools/vendor.sh copies the named crates and all crates of this repository that they use."""
    with repository() as top:
        status, text = vendor("avr_records", "avr_part", top)
        check_equal("status", status, 0)
        copied(top, "avr_image", "avr_records", "avr_part")
        check("what was made", "made crates.txt" in text and "avr_image: copied, its line added" in text, text)
        check("what is the kit's", "of the kit: arrayvec thiserror hex memchr toml" in text, text)


def the_network_is_named():
    """If a copied crate uses the network, the script prints the line that `HANDLES` needs."""
    needs = "HANDLES of {} needs the line 'Handles allowed: Net.'"
    for crate, is_needed in [("avr_tool", True), ("avr_session", False)]:
        with repository() as top:
            status, text = vendor(crate, top)
            check(f"{crate}: HANDLES", status == 0 and (needs.format(top) in text) == is_needed, text)


def what_is_there_stays():
    """If the other repository already has a crate, tools/vendor.sh changes neither this crate nor its line in
    crates.txt."""
    with repository() as top:
        lines = "own:\navr_image:   arrayvec thiserror # by hand"
        (top / "crates.txt").write_text(lines)
        vendor("avr_image", top)
        before = files(top)
        status, text = vendor("avr_records", top)
        check("the crate below is left", status == 0 and "avr_image: there already\n" in text, text)
        after = files(top)
        before.pop("crates.txt")
        check_equal("nothing else changed", {path: after[path] for path in before}, before)
        check_equal("the lines", after["crates.txt"].decode(), f"{lines}\n{line_of('avr_records')}\n")


def refusals():
    """The script refuses to replace a changed copy, and refuses programs and unknown crates or folders."""
    with repository() as top:
        vendor("avr_image", top)
        changed = top / "crates/avr_image/src/image.rt"
        changed.write_text(changed.read_text() + "// changed\n")
        before = files(top)
        refused = [
            (("avr_records", top), f"{top}/crates/avr_image differs: move it away to copy it again"),
            (("avrstk", top), "avrstk is a program, which no crate can name"),
            (("avr_nothing", top), "no crate of this repository is named avr_nothing"),
            (("avr_image", top / "nowhere"), f"{top}/nowhere is not a folder"),
            (("avr_image", TOP), f"{TOP} is this repository"),
            (("avr_image",), "usage: tools/vendor.sh CRATE.. FOLDER"),
        ]
        for words, why in refused:
            check_equal(why, vendor(*words), (1, f"vendor.sh: error: {why}\n"))
        check_equal("nothing changed", files(top), before)
        shutil.rmtree(top / "crates/avr_image")
        (top / "crates.txt").write_text("avr_image: thiserror\n")
        line = "the line of avr_image in {0}/crates.txt differs: avr_image: thiserror"
        check_equal("another line", vendor("avr_image", top), (1, f"vendor.sh: error: {line.format(top)}\n"))


def add_example(name, top):
    """Adds an example as a library, without its `main`, which tests/rattle.py runs."""
    source = (TOP / f"examples/library/{name}.rs").read_text()
    needs = re.match("// crates: (.*)", source)[1]
    status, text = vendor(*filter(line_of, needs.split()), top)
    check_equal("vendored", (status, text if status else ""), (0, ""))
    crate = top / "crates" / name
    (crate / "src").mkdir(parents=True)
    (crate / "src/lib.rt").write_text(source.partition("\nfn main(")[0])
    with (top / "crates.txt").open("a") as lines:
        lines.write(f"{name}: {needs}\n")
    check_equal("the example's layout", ran(["rt", "fmt"], crate)[0], 0)


@contextmanager
def foreign(*examples):
    """Makes a repository with these examples as crates of its own, beside the crates of this one that they use."""
    with repository() as top:
        shutil.copy(TOP / "HANDLES", top)
        for name in examples:
            add_example(name, top)
        yield top


def build():
    """The crate that uses the copies compiles, and its tests pass."""
    with foreign(FOREIGN) as top:
        tests = top / "crates/tests/src"
        tests.mkdir(parents=True)
        (tests / "lib.rt").write_text(TEST)
        with (top / "crates.txt").open("a") as lines:
            lines.write(f"tests: avr_image {FOREIGN}\n")
        status, text = ran(["rt", "try", "--test"], tests.parent)
        check("its tests pass", status == 0 and "1 passed" in text, text[-600:])


def proof():
    """Only if it is named: the crate that uses the copies is proved, and so is the link of examples/library."""
    with foreign(FOREIGN, EXAMPLE) as top:
        lend(top)
        for name in (FOREIGN, EXAMPLE):
            status, text = ran(["rt", "check"], top / "crates" / name)
            check(f"{name} is proved", status == 0 and "logic=proved" in text.splitlines()[-1], text[-600:])


CASES = named(all_that_it_stands_on, the_network_is_named, what_is_there_stays, refusals, build)
if "proof" in sys.argv:
    CASES |= named(proof)

if __name__ == "__main__":
    sys.exit(run_cases(CASES, __doc__))

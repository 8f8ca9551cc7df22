#!/usr/bin/env python3
"""Renames a definition in every file that uses it, and nowhere else.

    tools/rename.py CRATE FILE OLD NEW    the definition OLD of crates/CRATE/specs/FILE.antt (or proofs/FILE, with
                                          proofs/ in front) becomes NEW

It follows imports. The name changes in the file that defines it, and in each definition, proof and contract whose file
imports it from there. In a mutant it changes if the mutant's source imports it. It also changes after the name under
which a file imports the whole module. If a file has the same name from another module too, nothing is changed.
Documents and READMEs are not changed: the lines with the name are printed for a reader to check.
"""

import re
import subprocess
import sys
from pathlib import Path

TOP = Path(__file__).resolve().parent.parent
IMPORT = re.compile(r"\s*(?:pub |ghost )*use ")
# the characters of a name
PART = r"[\w'◌]"


def known_files(*patterns):
    command = ["git", "-C", TOP, "ls-files", *patterns]
    return [
        TOP / name for name in subprocess.run(command, capture_output=True, text=True, check=True).stdout.splitlines()
    ]


def word(name):
    """Returns a pattern for the name as a whole word; a hyphenated word is another name."""
    return re.compile(rf"(?<!{PART})(?<!{PART}-){re.escape(name)}(?!{PART})(?!-{PART})")


class Renaming:
    """One definition: its module, its old name and its new name."""

    def __init__(self, crate, file, old, new):
        folder, _, stem = file.rpartition("/")
        self.home = TOP / "crates" / crate / (folder or "specs") / f"{stem}.antt"
        self.module = f"Rattle.{crate}.{folder.replace('/', '.') or 'specs'}.{stem}"
        self.old, self.new = old, new

    def names_in(self, text):
        """Returns the names under which a file has the definition: its own, or qualified by the whole module's name."""
        found = set()
        for listed in re.findall(rf"{re.escape(self.module)}\.\{{([^}}]*)\}}", text):
            if self.old in [item.split(" as ")[0].strip() for item in listed.split(",")]:
                found.add(self.old)
        for alias in re.findall(rf"{re.escape(self.module)} as (\w+)", text):
            if word(f"{alias}.{self.old}").search(text):
                found.add(f"{alias}.{self.old}")
        return found

    def has_another(self, text):
        """Whether a file imports the same name from another module, or defines it."""
        others = re.findall(r"Rattle\.([\w.]+)\.\{([^}]*)\}", text)
        elsewhere = any(
            self.old in [item.split(" as ")[-1].strip() for item in listed.split(",")]
            and f"Rattle.{module}" != self.module
            for module, listed in others
        )
        return elsewhere or re.search(rf"^(?:\w+ )*(?:pub )?{re.escape(self.old)} :", text, re.M) is not None

    def renamed(self, text, names):
        return "\n".join(self.renamed_line(line, names) for line in text.split("\n"))

    def renamed_line(self, line, names):
        """Renames in one line. In a comment only names marked as code change; in an import, only those imported from
        the definition's module."""
        if IMPORT.match(line):
            path, brace, listed = line.partition("{")
            return path + brace + word(self.old).sub(self.new, listed) if f"{self.module}." in path else line
        for name in names:
            new = name[: -len(self.old)] + self.new
            if line.lstrip().startswith(("--", "//")):
                line = line.replace(f"`{name}`", f"`{new}`")
            else:
                line = word(name).sub(new, line)
        return line


def changes(renaming):
    """Returns the new text of each changed file, by its path, and what is refused."""
    new, refused = {}, []
    for file in known_files("crates/*.antt", "crates/*.rt"):
        text = file.read_text()
        names = {renaming.old} if file == renaming.home else renaming.names_in(text)
        if renaming.old in names and file != renaming.home and renaming.has_another(text):
            refused.append(f"{file}: has {renaming.old} from elsewhere too")
        if names:
            new[file] = renaming.renamed(text, names)
    for file in known_files("crates/*.edit"):
        source = file.parent.parent / file.read_text().split("\n", 1)[0].removeprefix("file: ").strip()
        if source in new:
            text = renaming.renamed(
                file.read_text(), {renaming.old} if source == renaming.home else renaming.names_in(source.read_text())
            )
            if text != file.read_text():
                new[file] = text
    return new, refused


def main():
    if len(sys.argv) != 5:
        sys.exit(__doc__.strip())
    renaming = Renaming(*sys.argv[1:])
    new, refused = changes(renaming)
    if refused or renaming.home not in new:
        sys.exit("\n".join(refused) or f"no such file: {renaming.home}")
    if not word(renaming.old).search(renaming.home.read_text()):
        sys.exit(f"{renaming.home}: has no {renaming.old}")
    for file, text in new.items():
        file.write_text(text)
        print(f"changed: {file.relative_to(TOP)}")
    for file in known_files("*.md"):
        for number, line in enumerate(file.read_text().splitlines(), 1):
            if word(renaming.old).search(line):
                print(f"check: {file.relative_to(TOP)}:{number}")


if __name__ == "__main__":
    main()

"""Files that a script of this folder makes: it writes them with --write, else looks whether they are up to date."""

import sys
from pathlib import Path

TOP = Path(__file__).resolve().parent.parent


def kept(made, wrong=()):
    """Writes the files with --write; `made` has the text of each. Prints which others are out of date and what else is
    `wrong`, and the counts. Returns the status."""
    if sys.argv[1:] == ["--write"]:
        for file, text in made.items():
            file.write_text(text)
    old = [file.name for file, text in made.items() if not file.exists() or file.read_text() != text]
    problems = [*(f"{name} is out of date: tools/{Path(sys.argv[0]).name} --write" for name in old), *wrong]
    print(*problems, f"{len(made) - len(old)} passed, {len(problems)} failed", sep="\n")
    return int(bool(problems))

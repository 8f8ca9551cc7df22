#!/usr/bin/env python3
"""Writes tests/README.md, the page that says what is tried where, from the heads of the scripts and of their cases.

    tools/tests_page.py             fails if the page is out of date
    tools/tests_page.py --write     writes it

A script's head begins with what it tries. Its paragraph `Not proved: ..` says why no proof shows that. A case has its
name and the first sentence of its text.
"""

import ast
import re
import sys

from kept import TOP, kept

PAGE = TOP / "tests/README.md"
# the modules that the scripts share, and the runner
SHARED = ("all", "cases", "disk", "line", "model", "program", "recorder", "records")

HEAD = """# What is tried where

`tools/tests_page.py --write` makes this page from comments of the scripts. What a script or case tries is its comment's
first sentence; the rest of the comment says more. `./test` runs the quick scripts, and of long lists of cases only
samples. It prints the seed of the samples; with `SAMPLE=SEED` most scripts draw the same samples again. (station.py and
second_runs.py draw by `SEED`.) `./test NAME ..` runs the named scripts. `./test --all` runs all scripts, with whole
lists in place of samples. With `FULL=1` boards.py tries still more cases, and rows.py the whole flash of a Mega.
`tests/NAME.py CASE ..` runs cases of one script (mutants.py has none). The lists below also have functions that make or
help cases. [tests/rattle](rattle/README.md) has tests of the crates' own calls.

| Script | What it tries | Why that is not proved |
| --- | --- | --- |
"""


def sentence(text):
    """Returns the first sentence of a text."""
    return re.split(r"(?<=[.:]) (?=[A-Z`*(])", " ".join((text or "").split()))[0]


def cases(tree):
    """Returns the functions that a script lists as its cases, or that make them, with their texts."""
    texts = {node.name: ast.get_docstring(node) for node in tree.body if isinstance(node, ast.FunctionDef)}
    lists = [node for node in tree.body if isinstance(node, (ast.Assign, ast.AugAssign, ast.If))]
    named = [node.id for part in lists for node in ast.walk(part) if isinstance(node, ast.Name) and node.id in texts]
    return {name: texts[name] for name in dict.fromkeys(named) if not name.startswith(("main", "named", "in_a"))}


def page():
    """Returns the page."""
    rows, parts = [], []
    for file in sorted((TOP / "tests").glob("*.py")):
        if file.stem in SHARED:
            continue
        tree = ast.parse(file.read_text())
        head = ast.get_docstring(tree)
        why = re.search(r"Not proved: (.*?)(?:\n\n|$)", head, re.S)[1]
        rows.append(f"| [{file.stem}]({file.name}) | {sentence(head)} | {' '.join(why.split())} |")
        listed = [f"- `{name}`: {sentence(text)}" if text else f"- `{name}`" for name, text in cases(tree).items()]
        parts += ["", f"## {file.stem}", "", *listed] if listed else []
    return HEAD + "\n".join(rows + parts) + "\n"


if __name__ == "__main__":
    sys.exit(kept({PAGE: page()}))

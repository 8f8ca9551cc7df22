#!/usr/bin/env python3
"""Writes the tables of docs/PROMISES: the laws that README stands on, and all laws, by their comments.

    tools/promises.py             fails if the page is out of date, or if README lacks a sentence of SENTENCES
    tools/promises.py --write     writes the tables

A law has the first sentence of its comment.
"""

import re
import sys

from api import TOP, exports
from kept import kept

PAGE, README = TOP / "docs/PROMISES.md", TOP / "README.md"
CRATES = ("avr_laws", "avr_tool", "avr_session")

# the laws that sentences of README stand on, each by words of the sentence
SENTENCES = {
    "If a verified run ends with status 0, the chip holds your images": ["a_program_with_status_0_kept_its_plan"],
    "The programmer and part that `avrstk` emulates keep the rows": [
        "a_program_with_status_0_kept_its_plan_on_an_emulated_chip",
        "the_emulated_programmer_keeps_the_table",
    ],
    "the chip holds each image compared after the command line's last write": [
        "a_program_with_status_0_left_what_it_compared_last",
    ],
    "found before the first frame": ["a_plan_only_reads_and_warns"],
    "an accepted command line, the files read, the replies and timeouts determine": ["a_run_is_one_function"],
    "run may do only the first part, with status 1": ["a_stop_is_a_prefix"],
}


def begun(doc):
    """Returns the first sentence of a comment, without its full stop."""
    shown = re.sub(r"\[(`[^`]*`)\](?:\([^)]*\))?", r"\1", " ".join(doc).split(" # ")[0].split("```")[0])
    first = re.split(r"(?<=\.) +(?=[A-Z`])", shown.strip())[0]
    return first.removeprefix("States that ").removeprefix("States ").removesuffix(".").replace("|", "\\|")


def exported():
    """Yields the laws with their crates: those of avr_laws, then those of the crates below."""
    yield from ((crate, item) for crate in CRATES for item in sorted(exports(crate)[0]))


def law_rows():
    """Yields the rows of the laws that have no code."""
    yield from ["| Law | What it states |", "| --- | --- |"]
    for crate, item in exported():
        if item.kind == "law":
            yield f"| `{item.name}`{'' if crate == 'avr_laws' else f' of {crate}'} | {begun(item.doc)} |"


def sentence_rows():
    """Yields the rows of README's sentences."""
    yield from ["| README says | Law |", "| --- | --- |"]
    for words, laws in SENTENCES.items():
        yield f"| .. {words} .. | {', '.join(f'`{law}`' for law in laws)} |"


def wrong():
    """Yields the words of SENTENCES that README lacks, and its laws that no crate has."""
    readme = " ".join(README.read_text().split())
    yield from (f"README lacks: {words}" for words in SENTENCES if words not in readme)
    known = {item.name for _, item in exported()}
    yield from (f"no law is {law}" for laws in SENTENCES.values() for law in laws if law not in known)


def page():
    """Returns the page with the current tables."""
    text = PAGE.read_text()
    for name, rows in {"sentences": sentence_rows(), "laws": law_rows()}.items():
        head, _, rest = text.partition(f"<!-- made: {name} -->\n")
        made = "".join(f"{row}\n" for row in rows)
        text = f"{head}<!-- made: {name} -->\n{made}<!-- end -->\n" + rest.partition("<!-- end -->\n")[2]
    return text


if __name__ == "__main__":
    sys.exit(kept({PAGE: page()}, list(wrong())))

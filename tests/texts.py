#!/usr/bin/env python3
"""Compares the texts of faults (`#[error(..)]`, which Display prints) with the message lines that the definitions state
for these faults. So who uses the crates reads the words that avrstk prints.

Not proved: The proofs cover message lines, but not what Display prints.

    tests/texts.py [CASE ..]
"""

import re
import sys

from cases import TOP, check, check_equal, named, run_cases

# texts of faults of which avrstk prints no line, by crate
UNPRINTED = {
    "avr_image": ["the reader has failed before", "the images are of different sizes"],
    "avr_io": ["no such file", "the device failed"],
    "avr_plan": ["a warning could not be printed"],
    "avr_records": ["the reader met a fault before", "the file is too long"],
    "avr_tool": ["the command line asks for no run: status {0}"],
    "stk_emu": ["noise is not lawful"],
    "stk_frame": ["an answer of another length", "an answer to another command", "a frame that came spoiled"],
    "stk_host": ["the link failed"],
}

# texts of faults that say less than their line: the line names the part, the memory, the part file, the expected number
# of bytes, or the command. And the text of a fault with two lines, `no port given (-P)` and `port X is not known`
OTHERWISE = {
    "avr_part": ["no part of this id", "{0} bytes, another number expected"],
    "avr_plan": [
        "the memory is read-only",
        "part file: {0}",
        "no part of this id",
        "no port given, or one that is not known",
    ],
    "stk_frame": ["status {0:02X}"],
}

# `#[error("TEXT" ..)]`, and the name of the variant or struct after it
FAULT = re.compile(r'#\[error\("(.*)"[^"]*\)\]\n(?:\s*(?:///|#\[).*\n)*\s*(?:pub (?:enum|struct) )?(\w+)')
# an equation of a definition: its name, its patterns, and what they mean
EQUATION = re.compile(r"^(\w+_\w+)((?: .*?)?) =((?:.*\n)(?:^ +.*\n)*)", re.M)


def faults():
    """Yields crate, variant and text of each fault."""
    for file in sorted(TOP.glob("crates/*/src/**/*.rt")):
        for text, name in FAULT.findall(file.read_text()):
            yield file.relative_to(TOP / "crates").parts[0], name, text


def equations():
    """Returns each equation of the definitions of messages: by the name of the definition, its patterns and meaning."""
    found = {}
    for file in sorted(TOP.glob("crates/*/specs/*.antt")):
        if file.stem in ("Lines", "Refusal"):
            for name, patterns, meaning in EQUATION.findall(file.read_text()):
                found.setdefault(name, []).append((patterns, meaning))
    return found


def words_of(meaning, definitions):
    """Returns the literal texts of a meaning in their order, with those of the definitions that it names."""
    words = []
    for literal, name in re.findall(r'codes "([^"]*)"|(\w+)', meaning):
        words += [literal] if literal else []
        others = {other: its for other, its in definitions.items() if other != name}
        words += [word for _, inner in definitions.get(name, []) for word in words_of(inner, others)]
    return words


def pieces_of(text):
    """Returns the words of a text between what is put into it: arguments and great numbers."""
    return [stripped for stripped in (piece.strip(" :") for piece in re.split(r"\{.*?\}|\d{4,}", text)) if stripped]


def is_in(text, words):
    """Whether each piece of a text is a whole piece of these words."""
    return set(pieces_of(text)) <= {piece for word in words for piece in pieces_of(word)}


def lines_of(name, definitions):
    """Returns the words of each message of a variant; if no equation has its name, of all messages."""
    every = [equation for equations in definitions.values() for equation in equations]
    own = [meaning for patterns, meaning in every if re.search(rf"\b{name}\b", patterns)]
    return [words_of(meaning, definitions) for meaning in own or [meaning for _, meaning in every]]


def is_printed(name, text, definitions):
    """Whether a message line of this variant has the words of a text."""
    return any(is_in(text, words) for words in lines_of(name, definitions))


def texts():
    """The words of each fault's text are in its message line, or in any line if no equation has its name, but for those
    that the script lists."""
    definitions, found = equations(), list(faults())
    files = TOP.glob("crates/*/src/**/*.rt")
    written = sum(file.read_text().count('#[error("') for file in files)
    check_equal("all texts are found", len(found), written)
    for crate, name, text in found:
        is_listed = text in [*UNPRINTED.get(crate, []), *OTHERWISE.get(crate, [])]
        check(f"{crate}: {name}: {text}", is_printed(name, text, definitions) != is_listed, lines_of(name, definitions))
    for name, text in [
        ("NoAnswer", "no reply"),
        ("BadMark", "line {0}: no record"),
        ("TooMany", "more than 17 updates"),
    ]:
        check(f"{text}: another text is noticed", not is_printed(name, text, definitions))


CASES = named(texts)

if __name__ == "__main__":
    sys.exit(run_cases(CASES, __doc__))

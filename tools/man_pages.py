#!/usr/bin/env python3
"""Writes the parts of the man pages (docs/*.1 and *.7) that come from the manual (docs/USAGE, EMULATOR,
TROUBLESHOOTING, BOARDS).

    tools/man_pages.py             fails if a page is out of date
    tools/man_pages.py --write     writes these parts: each is between a comment with its page, its section (and the
                                   kind of block, if only one kind is taken) and `.\\" end`
"""

import re
import sys
from textwrap import wrap

from kept import TOP, kept

MANUAL = [TOP / f"docs/{name}.md" for name in ["USAGE", "EMULATOR", "TROUBLESHOOTING", "BOARDS"]]
SECTIONS = {"avrstk": 1, "avrstk-serial": 1, "avrstk-serve": 1, "avrstk-emulator": 7}
PAGES = {name: TOP / f"docs/{name}.{section}" for name, section in SECTIONS.items()}

# the first line of a part that comes from the manual, with its section and a kind of block; and the last line
MADE = re.compile(r'\.\\" docs/[A-Z]+\.md, ([^:\n]+)(?:: (\w+))?')
END = '.\\" end'

# the greatest width of a page's line, and of a tag as it is shown
WIDTH = 79
SHOWN_WIDTH = 66

# sentences that only apply in the repository
HERE_ALONE = re.compile(r"\bclone\b|\brepository\b")

# characters with a special meaning in roff
ESCAPES = str.maketrans({"\\": "\\e", "-": "\\-", "'": "\\(aq", "`": "\\(ga", "^": "\\(ha", "~": "\\(ti"})


def escaped(text):
    return text.translate(ESCAPES)


def inline(text):
    """Returns a text with code and strong words bold, and emphasized words underlined."""
    # (a link's words may have code)
    text = re.sub(r"\[((?:`[^`]*`|[^]`])*)\]\([^)]*\)", r"\1", text)
    pieces = re.split(r"(``? .*? ``?|`[^`]*`)", text)
    made = []
    for piece in pieces:
        if piece.startswith("`"):
            made.append(f"\\fB{escaped(piece.strip('`').strip())}\\fR")
        else:
            made.append(escaped(piece).replace("\\(ga", ""))

    def strong(found):
        return "\\fB" + found[1].replace("\\fB", "").replace("\\fR", "\\fB") + "\\fR"

    text = re.sub(r"\*\*(.*?)\*\*", strong, "".join(made))
    return re.sub(r"(?<![\w*])\*(\w[^*]*?)\*(?!\w)", r"\\fI\1\\fR", text)


def line(text):
    """Returns a line of text, marked if roff would take it as a request."""
    return f"\\&{text}" if text[:1] in (".", "'") else text


def filled(text):
    """Yields a text in lines; each sentence begins a new line."""
    for sentence in re.split(r"(?<=[.?!]) (?=[A-Z\\(])", text):
        for piece in wrap(sentence, WIDTH - 2, break_long_words=False, break_on_hyphens=False):
            yield line(piece)


def cells(row):
    return [cell.strip() for cell in row.strip().strip("|").split(" | ")]


def table(rows):
    """Yields a paragraph for each row: the first cell is the tag; from the third on, a cell follows its heading."""
    heads = cells(rows[0])
    for row in rows[2:]:
        tag, *rest = cells(row)
        more = [ended(cell, head) for head, cell in zip(heads[2:], rest[1:])]
        parts = [ended(rest[0]), *more] if more else rest
        yield from tagged(tag)
        yield from list(filled(inline(" ".join(part for part in parts if part)))) or ["\\&"]


def tagged(tag):
    """Yields a tag, in several lines if it is wide; code is not broken."""
    lines = [""]
    for word in re.findall(r"(?:`[^`]*`|[^\s`])+", tag):
        longer = f"{lines[-1]} {word}".strip()
        is_wide = len(inline(longer)) > WIDTH or len(longer.replace("`", "")) > SHOWN_WIDTH
        if lines[-1] and is_wide:
            lines.append(word)
        else:
            lines[-1] = longer
    for macro, text in zip([".TP"] + [".TQ"] * len(lines), lines):
        yield from [macro, line(inline(text))]


def ended(text, head=""):
    """Returns a cell as a sentence, after its heading."""
    if not text:
        return ""
    return (f"{head}: " if head else "") + text + ("" if text.endswith("?") else ".")


def code(rows):
    yield from [".RS 4", ".nf", *(line(escaped(row)) for row in rows), ".fi", ".RE"]


def item(rows, shown):
    """Yields an item of a list, with its code; `shown` makes of a text what the page has of it."""
    mark, first = re.match(r"(-|\d+\.) +(.*)", rows[0]).groups()
    yield ".IP \\(bu 2" if mark == "-" else f".IP {mark} 4"
    texts, blocks = [first], []
    for row in rows[1:]:
        if row.startswith("      "):
            blocks.append(row[6:])
            continue
        if blocks and row.strip():
            yield from [*filled(inline(shown(" ".join(texts)))), *code(blocks), '.IP "" 2']
            texts, blocks = [], []
        texts += [row.strip()] if row.strip() else []
    yield from filled(inline(shown(" ".join(texts))))
    yield from code(blocks) if blocks else []


def blocks_of(text):
    """Yields the paragraphs of a page: headings, tables, code, items and text, each with its lines."""
    kind, held = None, []
    for row in text.splitlines():
        is_more = kind == "item" and (row.startswith("  ") or not row)
        starts = [("#", "head"), ("|", "table"), ("- ", "item"), ("    ", "code")]
        begun = next((name for mark, name in starts if row.startswith(mark)), None)
        begun = "item" if re.match(r"\d+\. ", row) else begun
        found = kind if is_more else begun or ("text" if row else None)
        if held and (found != kind or found == "head" or found == "item" and not is_more):
            yield kind, held
            held = []
        kind = found
        held += [row] if found else []
    if held:
        yield kind, held


def sections():
    """Returns the blocks of each section of the manual, by its heading."""
    found, blocks = {}, []
    for kind, rows in blocks_of("".join(file.read_text() for file in MANUAL)):
        if kind == "head":
            blocks = found.setdefault(rows[0].lstrip("# "), [])
        else:
            blocks.append((kind, rows))
    return found


def places():
    """Returns the page and heading under which each section of the manual is."""
    found = {}
    for name, file in PAGES.items():
        heading = None
        for row in file.read_text().splitlines():
            heading = row.split(" ", 1)[1] if row.startswith((".SH ", ".SS ")) else heading
            if made := MADE.fullmatch(row):
                found[made[1]] = name, heading
    return found


def for_page(text, page, places):
    """Returns a text of the manual for a man page: without references to the repository, and with the page's own
    headings."""
    text = re.sub(r"; docs/[A-Z]+(?=\))| \((?:docs/|CHANGELOG)[^()]*\)", "", text)
    text = re.sub(r"; \[[A-Z]+\]\([^()]*\)(?=\))|\s\(\[[A-Z]+\]\([^()]*\)\)", "", text)
    text = re.sub(r"\(\[([^]]+)\]\([A-Z]*(?:\.md)?#[^()]*\)\)", r'("\1")', text)

    def named(found):
        where = places.get(found[1])
        if where is None:
            return found[0]
        return f"(see **{where[1]}**" + ("" if where[0] == page else f" in {where[0]}({SECTIONS[where[0]]})") + ")"

    return re.sub(r'\("([^"]+)"(?:, below)?\)', named, text)


def made(page, section, only, places):
    """Yields the lines that a page takes from a section of the manual."""

    def shown(text):
        sentences = re.split(r"(?<=[.?:]) (?=[A-Z`*(])", text)
        return for_page(" ".join(sentence for sentence in sentences if not HERE_ALONE.search(sentence)), page, places)

    is_first = True
    for kind, rows in sections()[section]:
        if only not in (None, kind):
            continue
        if kind in ("table", "item"):
            while not rows[-1].strip():
                rows.pop()
            kept = [for_page(row, page, places) for row in rows if not HERE_ALONE.search(row)]
            yield from table(kept) if kind == "table" else item(rows, shown)
        elif kind == "code":
            yield from [*([] if is_first else [".PP"]), *code([row[4:] for row in rows])]
        else:
            text = shown(" ".join(row.strip() for row in rows))
            yield from [*([] if is_first else [".PP"]), *filled(inline(text))]
        is_first = False


def page(name):
    """Returns a page with its parts from the manual rewritten."""
    rows, is_kept = [], True
    for row in PAGES[name].read_text().splitlines():
        is_kept |= row == END
        rows += [row] if is_kept else []
        if begun := MADE.fullmatch(row):
            rows += made(name, *begun.groups(), places())
            is_kept = False
    return "\n".join(rows) + "\n"


if __name__ == "__main__":
    sys.exit(kept({file: page(name) for name, file in PAGES.items()}))

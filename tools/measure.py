#!/usr/bin/env python3
"""Counts how large the sources are and how they read.

    tools/measure.py            prints a table of all crates, and how many names have several meanings
    tools/measure.py -v         also lists these names, and lines over 120 columns
    tools/measure.py --write    writes the sums into docs/ARCHITECTURE, and rounded into README
    tools/measure.py --check    fails if one of them is out of date, if a document has a sentence over 30 words, if
                                what README's table "Read on" names takes a reader more minutes than it says, or if the
                                crates that no program needs have more lines of proofs than MOST_ABOVE

Only files known to git are read. Code is counted in src/, without tests and contracts. Contracts are the clauses of
functions, definitions are in specs/, and proofs in proofs/. Blank lines, comments and `use` lines are never counted.
Wide lines have more than 120 columns, except imports. A clause is one `requires` or `ensures`; the mean is over public
functions. The program's row is the sum of the crates of the programs (`avrstk` ..) and of all below them."""

import re
import subprocess
import sys
from collections import defaultdict
from pathlib import Path

from kept import TOP, kept
from reach import FILES

PAGE, README = TOP / "docs/ARCHITECTURE.md", TOP / "README.md"
WIDEST = 120
SHARED = "Types of data that several crates have under one name: "
SEVERAL = "Names that are defined in more than one file of specs/ with another meaning in each: "

CLAUSE = re.compile(r"^\s*(?:requires|ensures)\b")
FUNCTION = re.compile(r"^\s*(pub |pub\(crate\) )?(?:const |unsafe )?fn (\w+)")
TYPE = re.compile(r"(?:pub(?:\(crate\))? )?(?:struct|enum|trait|type) (\w+)")
DATA = re.compile(r"(?:pub (?:record|data)|abbrev pub(?= [A-Z]\w* : Type 0$)) ([A-Z]\w*)")
TEST = re.compile(r"/src/(?:.*/)?(?:\w*tests?|examples)(?:/|\.rt)")

# lines of proofs in the crates that no program needs: a new law pays for itself. Rows of mistakes don't count, because
# they are in place of mutants
MOST_ABOVE = 9_300
MISTAKES = "crates/avr_laws/proofs/Rows/*Mistakes.antt"

LONG = 30
WORDS_A_MINUTE = 220
# code blocks, tables and titles, which aren't prose; the cells of tables are read one by one
NO_PROSE = re.compile(r"^```.*?^```|^(?:\||#|    ).*?$", re.MULTILINE | re.DOTALL)
PARAGRAPH = re.compile(r"\n\s*\n|\n(?=\s*(?:[-*]|\d+\.) )")
SENTENCE = re.compile(r"(?<=[.!?])[*_)\"]*\s+(?=[*_(`\"]*[A-Z`\[])")


def known_files():
    """Returns the files of each crate, except crates of tests."""
    listed = subprocess.run(["git", "-C", TOP, "ls-files", "crates"], capture_output=True, text=True, check=True)
    crates = defaultdict(list)
    for name in listed.stdout.splitlines():
        crate = name.split("/")[1]
        if name.endswith((".rt", ".antt")) and (TOP / name).exists() and not crate.startswith("test_"):
            crates[crate].append(name)
    return crates


def lines_of(name):
    return (TOP / name).read_text().splitlines()


def is_text(line, name):
    """Returns whether a line counts: it isn't blank, a comment or an import."""
    line = line.strip()
    if name.endswith(".antt"):
        return bool(line) and not line.startswith(("--", "use ", "pub use ", "pub mod "))
    return bool(line) and not line.startswith(("//", "use ", "pub use ", "ghost use ", "#!["))


def clauses_in(name):
    """Returns the lines of clauses in a file of src/, and for each function whether it is public and its number of
    clauses."""
    contract, functions, open_braces = [], [], 0
    for line in lines_of(name):
        function = FUNCTION.match(line)
        if function and not open_braces:
            functions.append([function.group(1) == "pub ", 0])
        if open_braces or CLAUSE.match(line):
            if not open_braces and functions:
                functions[-1][1] += 1
            contract.append(line)
            open_braces += line.count("{") - line.count("}")
    return contract, functions


def measured(name):
    """Returns the figures of a crate."""
    code = contracts = definitions = proofs = 0
    over, clauses = [], []
    for file in CRATES[name]:
        lines = lines_of(file)
        over += [f"{file}:{i}" for i, line in enumerate(lines, 1) if len(line) > WIDEST and "use Rattle." not in line]
        count = sum(1 for line in lines if is_text(line, file))
        if "/specs/" in file:
            definitions += count
        elif "/proofs/" in file:
            proofs += count
        elif not TEST.search(file):
            contract, functions = clauses_in(file)
            contracts += sum(1 for line in contract if line.strip())
            code += count - sum(1 for line in contract if is_text(line, file))
            clauses += [number for public, number in functions if public]
    OVER.extend(over)
    mean = sum(clauses) / len(clauses) if clauses else 0
    return code, contracts, definitions, proofs, len(over), mean


def meanings():
    """Returns the names that several files of specs/ define with different texts, with their places."""
    texts = defaultdict(dict)
    for name, files in CRATES.items():
        for file in files:
            if "/specs/" in file:
                for defined, rows in FILES[name, Path(file).stem].definitions.items():
                    texts[defined].setdefault(" ".join(" ".join(rows).split()), f"{name}.{Path(file).stem}")
    return {defined: sorted(where.values()) for defined, where in texts.items() if len(where) > 1}


def types():
    """Returns the names of types that several crates have, in sources or definitions, with these crates. If a crate has
    a type and a definition of one name, they count as one."""
    places = defaultdict(set)
    for name, files in CRATES.items():
        for file in files:
            pattern = TYPE if "/src/" in file and not TEST.search(file) else DATA if "/specs/" in file else None
            for line in lines_of(file) if pattern else ():
                if found := pattern.match(line):
                    places[found.group(1)].add(name)
    return {defined: sorted(where) for defined, where in places.items() if len(where) > 1}


def below_programs():
    """Returns the programs' crates and all that they stand on."""
    lines = [re.sub("#.*", "", line).split() for line in (TOP / "crates.txt").read_text().splitlines()]
    below = {row[0].rstrip(":"): row[1:] for row in lines if row}
    found, todo = set(), [crate for crate in below if crate.startswith("avrstk")]
    while todo:
        name = todo.pop()
        found.add(name)
        todo += set(below.get(name, [])) - found
    return found


def figures():
    """Returns the table, with a row for each crate, and the two counts of names."""
    titles = ["Crate", "Code", "Contracts", "Definitions", "Proofs", "Wide lines", "Clauses, mean"]
    rows = {name: measured(name) for name in CRATES}
    table = ["| " + " | ".join(titles) + " |", "| --- |" + " ---: |" * (len(titles) - 1)]
    for name, row in rows.items():
        table.append(f"| {name} | " + " | ".join(f"{x:.1f}" if isinstance(x, float) else str(x) for x in row) + " |")
    program = below_programs()
    for title, names in {"the program": [name for name in rows if name in program], "in all": list(rows)}.items():
        sums = [str(sum(rows[name][i] for name in names)) for i in range(5)]
        table.append(f"| {title} | " + " | ".join(sums) + " | |")
    return "\n".join(table), f"{SEVERAL}{len(meanings())}", f"{SHARED}{len(types())}"


def above_bound(page):
    """Yields what the page's sums show if the crates that no program needs have too many lines of proofs."""
    sums = dict(re.findall(r"^\| (the program|in all) (?:\| \d+ ){3}\| (\d+) ", page, re.M))
    mistakes = sum(is_text(line, path.name) for path in TOP.glob(MISTAKES) for line in path.read_text().splitlines())
    above = int(sums["in all"]) - int(sums["the program"]) - mistakes
    if above > MOST_ABOVE:
        yield f"the crates that no program needs have {above} lines of proofs that count, not {MOST_ABOVE} at most"


def with_figures(page):
    """Returns the page with the current table, of which it has the titles and the sums."""
    head, rest = page.split("| Crate | Code |", 1)
    rows = figures()[0].splitlines()
    return f"{head}{chr(10).join(rows[:2] + rows[-2:])}\n\n" + rest.split("\n\n", 1)[1]


def with_sums(readme, page):
    """Returns README with the sums of code and proofs of this page's table, rounded to hundreds, and the count of
    mutants."""
    code, proofs = (
        round(int(count), -2)
        for count in re.search(r"^\| in all \| (\d+) \| \d+ \| \d+ \| (\d+) ", page, re.M).groups()
    )
    mutants = len(list(TOP.glob("crates/*/must-fail/*.edit")))
    sums = f"About {code:,} lines of code, with {proofs:,} of proofs; {mutants} mutants"
    return re.sub(r"About [\d,]+ lines of code, with [\d,]+ of proofs; \d+ mutants", sums, readme)


def documents():
    """Returns the names of all documents."""
    listed = subprocess.run(["git", "-C", TOP, "ls-files", "*.md"], capture_output=True, text=True, check=True)
    return [name for name in listed.stdout.splitlines() if (TOP / name).exists()]


def long_sentences(name):
    """Returns the sentences of a document with more than 30 words, in paragraphs and in the cells of tables."""
    text = (TOP / name).read_text()
    cells = [cell for row in text.splitlines() if row.startswith("|") for cell in row.strip("| ").split(" | ")]
    paragraphs = PARAGRAPH.split(NO_PROSE.sub("\n\n", text)) + cells
    sentences = [sentence for paragraph in paragraphs for sentence in SENTENCE.split(" ".join(paragraph.split()))]
    return [sentence for sentence in sentences if len(sentence.split()) > LONG]


def words_of(name, anchor=None):
    """Returns how many words a document has, or its section with this anchor; code and pictures are not read."""
    text = re.sub(r"^```.*?^```|^    .*?$", "", (TOP / name).read_text(), flags=re.M | re.S)
    if anchor is None:
        return len(text.split())
    titles = [(heading[1], heading[2], heading.start()) for heading in re.finditer(r"^(#+) (.*)$", text, re.M)]
    slugs = [re.sub(r"[^\w\- ]", "", title[1].lower()).replace(" ", "-") for title in titles]
    at = slugs.index(anchor)
    ends = (title[2] for title in titles[at + 1 :] if len(title[0]) <= len(titles[at][0]))
    return len(text[titles[at][2] : next(ends, None)].split())


def too_long():
    """Yields the rows of README's table of readers that take more minutes than they say. Each reads README, too."""
    table = README.read_text().split("\n## Read on\n\n")[1].split("\n\n")[0]
    for row in table.splitlines()[2:]:
        who, pages, minutes = row.strip("| ").split(" | ")
        links = re.findall(r"\(([\w./]+)#([\w-]+)\)", pages)
        count = words_of("README.md") + sum(words_of(*link) for link in links)
        if count > WORDS_A_MINUTE * int(minutes):
            yield f"README: who {who}s reads {count} words in {minutes} minutes, not {WORDS_A_MINUTE * int(minutes)}"


def main():
    if sys.argv[1:] in (["--check"], ["--write"]):
        page = with_figures(PAGE.read_text())
        long = ((name, sentence) for name in documents() for sentence in long_sentences(name))
        wrong = [f"{name} has a sentence over {LONG} words: {sentence}" for name, sentence in long]
        wrong += [*too_long(), *above_bound(page)]
        sys.exit(kept({PAGE: page, README: with_sums(README.read_text(), page)}, wrong))
    print("\n\n".join(figures()))
    if "-v" in sys.argv:
        print("\n".join(f"  {name}: {', '.join(where)}" for name, where in sorted(meanings().items())))
        print("\n".join(f"  {name}: {', '.join(where)}" for name, where in sorted(types().items())))
        print("\nLines over 120 columns, except imports:")
        print("\n".join("  " + place for place in OVER))


CRATES = known_files()
OVER = []
main()

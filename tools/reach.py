#!/usr/bin/env python3
"""Measures how much a reader has to read: the definitions that a contract reaches.

    tools/reach.py FILE.NAME ..      for these definitions of specs/; CRATE.FILE.NAME if several crates have one; a name
                                     alone is a law or another function, for all that its clauses name
    tools/reach.py -v ..             also lists them, file by file
    tools/reach.py --for WORD ..     what the promise needs for a command line of avrstk: -P net: -U flash:w:a.hex:i
    tools/reach.py --check           compares the table of docs/PROOFS with the figures; --write writes them there. It
                                     also looks for each definition (`File.name`) and law that the documents name, for
                                     the lemmas of avr_laws that show that the promise isn't empty, for the rows of
                                     Intel HEX, and for each clause of `Folder` in the model that shows that the laws of
                                     a crash aren't empty

A definition reaches the definitions that its text names, in its own file or brought in by `use` lines. Definitions of
std, of other libraries and of Rust (an enum, a struct) are listed but not counted. A variable with the name of a
definition counts as that definition, so a figure can be too high, but not too low. A record's field doesn't. Lines are
those of the definitions, without comments and `use` lines."""

import argparse
import re
import sys

from kept import TOP, kept

PAGE, README = TOP / "docs/PROOFS.md", TOP / "README.md"
# the page with the table of worlds
LAWS = TOP / "crates/avr_laws/README.md"
# the documents whose names are looked for
NAMING = ("PROOFS", "PROMISES", "CHECK", "LIBRARY")
TABLE = "| Sentence | Where it is defined | Definitions | Lines |"
HEX_ROWS = "| Lemma | Lines of the text | Bytes of memory | Image |"
WORLDS = "| Definition | Lemma: an example meets it | Lemma: a wrong example doesn't |"
PROMISE = "a_program_with_status_0_kept_its_plan"
USES = "| Use of a command line | Where it is defined | Definitions | Lines |"
# for a use of a command line, the definitions that only such a command line needs
ONLY_FOR = {
    "`-P net:`": ["Sockets.IsOverAddress"],
    "`-P stdio:` or `-P net:`": ["KeptByAny.IsKeptByAny", "Links.TranscriptIsTrueSince"],
    "`-P emu:`": ["KeptByPort.IsKeptInFile"],
    "`--serve`": ["AskedSettings.AsksToServe"],
    "`--parts`": ["HeldParts.HoldsParts"],
    "a memory that is read": ["SavedText.saved_text", "Session.bytes_to_save"],
    "values (`:m`)": ["HeldImage.HoldsValues"],
    "a file of Intel HEX": ["HeldImage.ihex_line"],
    "a file of S-records": ["HeldImage.srec_line"],
    "a file of either": ["HeldImage.HoldsRecords"],
    "a format that is detected": ["Detect.format_of_file"],
}
# command lines in docs/PROOFS
EXAMPLES = (
    "-P net:HOST:PORT -U flash:w:a.hex:i",
    "-P emu:FILE -U flash:w:a.hex:i",
    "-P net:HOST:PORT -U lfuse:w:0xE2:m",
)
# the trait whose clauses a crash rests on, and its model
TRAIT, MODEL = TOP / "crates/avr_desk/src/folder.rt", TOP / "crates/avr_laws/proofs/Rows/Folder.antt"

HEADER = re.compile(r"^\s*(?:(?:abbrev|unfoldable) pub|pub (?:record|data)) (\S+)")
USE = re.compile(r"^(?:ghost )?use Rattle\.(\w+)\.specs\.(\w+)(?: as (\w+)|\.\{(.*)\})?;?$")
FIELD = re.compile(r"^(\s+pub )\w+(?= :)", re.M)
CONSTRUCTOR = re.compile(r"^\s+(\w+) : ")
WORD = re.compile(r"[A-Za-z_][\w']*(?:\.[A-Za-z_][\w']*)*")


class File:
    """A file of specs/: its definitions, each a list of lines, and the names in its scope."""

    def __init__(self, path):
        self.definitions = {}
        self.owner = {}
        self.names = {}
        self.modules = {}
        block = None
        for line in path.read_text().splitlines():
            header, use = HEADER.match(line), USE.match(line)
            if use:
                self.read_use(*use.groups())
            elif header:
                name = header.group(1)
                block = self.definitions.setdefault(name, [])
                is_data = "data " in line
                self.owner[name] = name
            if use or not line.strip() or line.lstrip().startswith("--") or re.match(r"infix|mutual", line):
                if use or not line.strip():
                    block = block if line.startswith("  ") else None
                continue
            if block is None:
                continue
            block.append(line)
            constructor = CONSTRUCTOR.match(line)
            if constructor and is_data:
                self.owner[constructor.group(1)] = name

    def read_use(self, crate, file, alias, brought):
        if alias or not brought:
            self.modules[alias or file] = (crate, file)
        for item in (brought or "").split(", "):
            name, _, local = item.partition(" as ")
            if name:
                self.names[local or name] = (crate, file, name)


FILES = {(p.parent.parent.name, p.stem): File(p) for p in TOP.glob("crates/*/specs/*.antt")}


def found(crate, file, name):
    """Returns the definition of this name in a file, if it is one of this project's."""
    here = FILES.get((crate, file))
    if here and name in here.owner:
        return crate, file, here.owner[name]
    return None


def named_in(crate, file, text):
    """Returns the definitions that a text in this file names."""
    here = FILES[crate, file]
    for word in WORD.findall(text):
        first, _, rest = word.partition(".")
        if rest and first in here.modules:
            yield found(*here.modules[first], rest.split(".")[0])
        elif first in here.names:
            yield found(*here.names[first])
        else:
            yield found(crate, file, first)
    operators = {name: (crate, file, name) for name in here.definitions} | here.names
    for name, place in operators.items():
        if name.startswith("◌") and name.strip("◌") in text.split():
            yield found(*place)


def reached(roots, skipped=()):
    """Returns the definitions that these need, themselves among them, without the skipped ones and what only these
    need."""
    seen, todo = set(), list(roots)
    while todo:
        place = todo.pop()
        if place is None or place in seen or place in skipped:
            continue
        seen.add(place)
        crate, file, name = place
        todo += named_in(crate, file, FIELD.sub(r"\1", "\n".join(FILES[crate, file].definitions[name])))
    return seen


def definition(name):
    """Returns the definition for a name of two or three parts."""
    *crate, file, name = name.split(".")
    places = [found(*place, name) for place in FILES if place[1] == file and crate in ([], [place[0]])]
    known = [place for place in places if place]
    if len(known) != 1:
        sys.exit(f"{'.'.join([*crate, file, name])}: {len(known)} definitions of this name\n\n{__doc__}")
    return known[0]


def roots_of(name):
    """Returns the definition of a name with its file, or those that the clauses of a function name."""
    if "." in name:
        return [definition(name)]
    for path in TOP.glob("crates/*/src/**/*.rt"):
        head = re.search(rf"^pub fn {name}\b.*?^\{{", path.read_text(), re.M | re.S)
        if head:
            FILES["law", name] = File(path)
            return [place for place in named_in("law", name, head[0][head[0].index(" ensures") :]) if place]
    return sys.exit(f"{name}: no law or function of this name\n\n{__doc__}")


def lines_of(places):
    return sum(len(FILES[crate, file].definitions[name]) for crate, file, name in places)


def with_figures(page):
    """Returns the page with the figures of its table. A row has the definitions that are read together, then a `;`."""
    head, rest = page.split(TABLE, 1)
    rows, behind = rest.split("\n\n", 1)
    made = rows.splitlines()[:2]
    for row in rows.splitlines()[2:]:
        sentence, named, *_ = row.strip("| ").split(" | ")
        seen = [
            reached(root for name in re.findall("`([^`]*)`", group) for root in roots_of(name))
            for group in named.split(";")
        ]
        counts = ["; ".join(f"{count:,}" for count in counts) for counts in (map(len, seen), map(lines_of, seen))]
        made.append(f"| {sentence} | {named} | {counts[0]} | {counts[1]} |")
    return f"{head}{TABLE}" + "\n".join(made) + f"\n\n{behind}"


def uses_of(words):
    """Returns the uses in `ONLY_FOR` of a command line, given as its words. An update's default format is detected, and
    a detected format may be any."""
    parser = argparse.ArgumentParser(add_help=False, allow_abbrev=False)
    for option in ("-P", "--serve", "--parts", "-p", "-c", "-b"):
        parser.add_argument(option, default="")
    for flag in "eDVnFAqv":
        parser.add_argument(f"-{flag}", action="store_true")
    parser.add_argument("-U", action="append", default=[])
    line = parser.parse_known_args(words)[0]
    updates = [update if ":" in update else f"flash:w:{update}:a" for update in line.U]
    reads = [update for update in updates if update.split(":")[1] == "r"]
    files = [update.split(":", 2)[2] for update in updates if update not in reads]
    letters = {file[-1] if file[-2:-1] == ":" else "a" for file in files}
    port = line.P.split(":")[0]
    uses = {f"`-P {port}:`", *(f"`{name}`" for name in ("--serve", "--parts") if getattr(line, name[2:]))}
    uses |= {"`-P stdio:` or `-P net:`"} if port in ("stdio", "net") else set()
    uses |= {"a memory that is read"} if reads else set()
    uses |= {"values (`:m`)"} if "m" in letters else set()
    uses |= {"a file of Intel HEX"} if letters & {"i", "a"} else set()
    uses |= {"a file of S-records"} if letters & {"s", "a"} else set()
    uses |= {"a file of either"} if letters & {"i", "s", "a"} else set()
    return uses | ({"a format that is detected"} if "a" in letters else set())


def needed_for(words):
    """Returns the definitions that the promise needs for a command line."""
    skipped = {definition(name) for use in ONLY_FOR.keys() - uses_of(words) for name in ONLY_FOR[use]}
    return reached(roots_of(PROMISE), skipped)


def with_uses(page):
    """Returns the page with its table of uses. A use has the definitions that no other command line needs; a command
    line has all that it needs."""
    head, rest = page.split(USES, 1)
    whole = reached(roots_of(PROMISE))
    rows = []
    for use, names in ONLY_FOR.items():
        only = whole - reached(roots_of(PROMISE), {definition(name) for name in names})
        rows.append(f"| {use} | {', '.join(f'`{name}`' for name in names)} | {len(only)} | {lines_of(only)} |")
    for line in EXAMPLES:
        needed = needed_for(line.split())
        rows.append(f"| all that `{line}` needs | `{PROMISE}` | {len(needed)} | {lines_of(needed):,} |")
    return "\n".join([head + USES, "| --- | --- | ---: | ---: |", *rows]) + "\n\n" + rest.split("\n\n", 1)[1]


def with_lines(readme, page):
    """Returns README with the lines that the first sentence of the page's table needs, rounded to hundreds."""
    lines = re.search(r"^\| status 0 of the program, .*\| ([\d,]+) \|$", page, re.M)[1]
    return re.sub(r"\[[\d,]+ lines\]", f"[{round(int(lines.replace(',', '')), -2):,} lines]", readme)


def lacking():
    """Returns the definitions and laws that documents name and that aren't there: `File.name`; a name of several words
    with capital letters, which may also be a type of Rust (docs/LIBRARY has std's, too); and a name of four words or
    more, which is a law."""
    sources = "\n".join(path.read_text() for path in TOP.glob("crates/*/src/**/*.rt"))
    functions = set(re.findall(r"\bfn (\w+)", sources)) | {path.stem for path in TOP.glob("crates/*/must-fail/*.edit")}
    types = set(re.findall(r"\b(?:struct|enum|trait|type) (\w+)", sources)) | {file for _, file in FILES}
    defined = {f"{file}.{name}" for (_, file), here in FILES.items() for name in here.definitions} | {"File.name"}
    alone = {name for here in FILES.values() for name in here.owner} | types
    wrong = []
    for name in NAMING:
        path = TOP / f"docs/{name}.md"
        given = set(re.findall(r"`([^`\n]*)`", path.read_text()))
        lost = {word for word in given if re.fullmatch(r"[a-z\d]+(_[a-z\d]+){3,}", word)} - functions
        lost |= {word for word in given if re.fullmatch(r"[A-Z]\w*\.(?!(?:antt|md)$)\w+", word)} - defined
        lost |= {word for word in given if re.fullmatch(r"([A-Z][a-z]+){2,}", word) and name != "LIBRARY"} - alone
        wrong += [f"{path.name} names {word}, which is nowhere" for word in sorted(lost)]
    return wrong


def statements():
    """Returns the statements of lemmas by file and name, of the files in proofs/Rows of avr_laws."""
    head = re.compile(r"^(?:pub )?(\w+) :\s(.*?)\n(?=unfolding |\1 )", re.M | re.S)
    files = TOP.glob("crates/avr_laws/proofs/Rows/*.antt")
    return {f"Rows.{path.stem}": dict(head.findall(path.read_text())) for path in files}


def hex_statement(lines, size, image):
    """Returns what a row of Intel HEX states: a text of these lines has this image in a memory of `size` bytes. A short
    image is written byte by byte."""
    text = "".join(f"{line}\\n" for line in lines)
    holds = f'HoldsRecords Ihex (codes "{text}") {size}'
    if image == "refused":
        return f"(image : List (Option ℕ)) → {holds} image → ⊥"
    places = [(int(at, 16), int(byte, 16)) for at, byte in re.findall(r"(\w+): (\w+)", image)]
    if size > 4:
        pairs = [f"({at:#x}, {byte})" for at, byte in places]
        return f"{holds} (image_of_pairs {size} ({' ∷ '.join([*pairs, '[]'])}))"
    cells = [f"Some {dict(places)[at]}" if at in dict(places) else "None" for at in range(size)]
    return f"{holds} ({' ∷ '.join([*cells, '[]'])})"


def unproved(page):
    """Yields the rows of Intel HEX that aren't what their lemma states."""
    lemmas = statements()["Rows.Held"]
    for row in page.split(HEX_ROWS)[1].split("\n\n")[0].splitlines()[2:]:
        name, lines, size, image = row.strip("| ").split(" | ")
        stated = hex_statement(re.findall("`([^`]*)`", lines), int(size.replace(",", "")), image)
        if "".join(stated.split()) != "".join(lemmas.get(name.strip("`"), "").split()):
            yield f"Rows.Held: {name} doesn't state: {stated}"


def unshown(page):
    """Yields what is wrong in the table of worlds. A lemma has to be there and to name the definition of its row; one
    that refuses a world ends in `→ ⊥`. The promise has to reach the definition."""
    rows = statements()
    promise = reached(roots_of(PROMISE))
    for row in page.split(WORLDS)[1].split("\n\n")[0].splitlines()[2:]:
        named, met, refuses, *_ = re.findall("`([^`]*)`", row)
        if definition(named) not in promise:
            yield f"{PROMISE} doesn't reach {named}"
        for lemma, end in ((met, ""), (refuses, "→ ⊥")):
            file, _, name = lemma.rpartition(".")
            statement = rows.get(file or "Rows.Promise", {}).get(name, "")
            if named.split(".")[-1] not in WORD.findall(statement) or not statement.endswith(end):
                yield f"{lemma} shows nothing of {named}"


def unmet():
    """Yields the calls and clauses of `Folder` that its model doesn't have as they are in the trait. The clauses of a
    call are the fields of a record of its name, and a lemma shows that the call meets them."""
    model = MODEL.read_text()
    records = dict(re.findall(r"^  record (\w+)Clauses\b.*? where\n(.*?)\n\n", model, re.M | re.S))
    for call, text in re.findall(r"^    fn (\w+)\b(.*?);$", TRAIT.read_text(), re.M | re.S):
        fields = re.findall(r"^    (\w+) : (.*(?:\n {8}.*)*)", records.get(call.title().replace("_", ""), ""), re.M)
        stated = [(name, " ".join(clause.split())) for name, clause in fields]
        if f"\n  {call}_met :" not in model:
            yield f"{MODEL.name} has no lemma {call}_met"
        for name, clause in re.findall(r"^ {8}ensures (\w+) \{ (.*?) \}$", text, re.M | re.S):
            if (name, " ".join(clause.split())) not in stated:
                yield f"{MODEL.name} doesn't have the clause {name} of {call} as it is in {TRAIT.name}"


def main(words):
    if words in (["--check"], ["--write"]):
        page = with_uses(with_figures(PAGE.read_text()))
        sys.exit(
            kept(
                {PAGE: page, README: with_lines(README.read_text(), page)},
                [*lacking(), *unproved(LAWS.read_text()), *unshown(LAWS.read_text()), *unmet()],
            )
        )
    if words[:1] == ["--for"]:
        seen = needed_for(words[1:])
    else:
        seen = reached([root for word in words if word != "-v" for root in roots_of(word)] or sys.exit(__doc__))
    files = sorted({(crate, file) for crate, file, _ in seen})
    print(f"{len(seen)} definitions, {lines_of(seen)} lines, in {len(files)} files")
    for crate, file in files if "-v" in words else []:
        names = sorted(name for c, f, name in seen if (c, f) == (crate, file))
        print(f"  {crate}/specs/{file}: {', '.join(names)}")


if __name__ == "__main__":
    main(sys.argv[1:])

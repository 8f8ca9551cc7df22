"""Makes the pages of the crates' calls, for tools/site.py: what the crates of `CRATES` export, from the comments and
signatures of their sources.

A page has the crate's own text, a table of its exports, and then each type, trait and call: its signature without ghost
members and private fields, its text, and its contract, folded. The definitions that a contract names follow it: as
links, and as a text if they are short. Laws (functions with an empty body) come last. An export of a crate without a
page is here, too; one of another page is a link. Sources are read as `rt fmt` leaves them."""

import re
import sys
from collections import namedtuple
from pathlib import Path

sys.path.append(str(Path(__file__).resolve().parent.parent / "tests"))
from rattle import EXPORT, MORE, TOP  # noqa: E402
from reach import FILES, File, named_in  # noqa: E402

CRATES = "avr_image avr_records avr_part stk_frame stk_host stk_emu avr_io".split()
CRATES += "avr_desk avr_plan avr_session avr_tool".split()

# an item at the left margin, with its comment and attributes: all of a type or an impl, of a function what precedes its
# body
ITEM = re.compile(
    r"((?:^///[^\n]*\n)*)((?:^(?:#\[|// )[^\n]*\n)*)^((?:pub |final )?(?:"
    r"(?:struct|enum|trait|impl)\b(?:[^\n]*(?:;|\{\})$|.*?^\}$)"
    r"|(?:fn|type|const|ghost(?! use))\b(?:[^\n]*[;{}]$|.*?(?:^(?:\S[^\n]*)?(?:\{\}?|;)|\};)$)))",
    re.M | re.S,
)
NAME = re.compile(r"(?:pub |final )?(\w+)(?:<.*?>(?= ))? ?(\w*)")
LINK = re.compile(r"\[`([\w:]+)`\](?:\([\w:]*\))?")
FOLDED = {"trait": "In contracts", "law": "Law"}
# what a type is in contracts, and what `{:?}` prints: nothing that a user calls
HIDDEN = re.compile(r"impl.* (?:Model|fmt::Debug) for ")

# the most lines of a definition that follows a contract as a text
SHORT = 6

# an item of a source, with the source's place in `FILES`: its comment, its signature, its contract, and the items in it
Item = namedtuple("Item", "kind name doc shown contract inner place")


def items(source, place):
    """Yields the items at the left margin of a source."""
    for comment, attributes, whole in ITEM.findall(source):
        kind, name = NAME.match(whole).groups()
        rows = (whole.removesuffix(";") if kind == "fn" else whole).splitlines()
        doc, derived = re.findall("^/// ?(.*)", comment, re.M), re.findall(r"^#\[derive.*", attributes, re.M)
        inner = (
            list(items("\n".join(re.findall("^(?:    (.*))?$", whole, re.M)), place))
            if kind in ("trait", "impl")
            else []
        )
        ghosts = [row for member in inner if member.kind == "ghost" for row in ["", *member.shown]][1:]
        calls = [member for member in inner if member.kind in ("fn", "const")]
        if kind == "fn":
            first = next(
                (at for at, row in enumerate(rows) if re.match(r"\s+(?:requires|ensures|//)|\{", row)), len(rows)
            )
            shown = [re.sub(r" \{\}?$", "", row) for row in rows[:first]]
            clauses = [row[4:] for row in rows[first:] if row not in ("{", "{}")]
            yield Item("law" if rows[-1] == "{}" else kind, name, doc, shown, clauses, [], place)
        elif kind == "struct":
            fields = re.sub(r"(?:^    ///.*\n)*^    (?:pub\(|pub ghost |(?!pub )\w).*\n", "\0", whole, flags=re.M)
            yield Item(
                kind,
                name,
                doc,
                [*derived, *re.sub("\0+", "    // private fields\n", fields).splitlines()],
                [],
                [],
                place,
            )
        elif kind == "trait":
            types = [f"    {row}" for member in inner if member.kind == "type" for row in member.shown]
            yield Item(
                kind, name, doc, [rows[0], *types, "}"] if types else [rows[0].rstrip(" {")], ghosts, calls, place
            )
        elif kind == "impl":
            head = re.match(r".*?(?= ?\{\}?$)", whole, re.M | re.S)[0].splitlines()
            name = re.sub(r"^impl(?:<.*?>(?= [A-Z&]))? |.* for |<.*", "", head[0])
            yield Item(kind, name, doc, head, [], calls, place)
        else:
            yield Item(
                kind, name, doc, [*(f"/// {line}" for line in doc if kind == "ghost"), *derived, *rows], [], [], place
            )


def exports(crate):
    """Returns the items that a crate exports, in the order of its root, and the names of other crates that have a
    page."""
    source = TOP / "crates" / crate / "src"
    files = {}
    for path in sorted(source.glob("*.rt")):
        place = (crate, f"src/{path.stem}")
        FILES[place] = File(path)
        files[path.stem] = list(items(path.read_text(), place))
    root, own, others = (source / "lib.rt").read_text(), [], {}
    for path in EXPORT.findall(root):
        module, _, listed = " ".join(path.split()).partition("::")
        names = list(dict.fromkeys(re.findall(r"(\w+)(?: as \w+)?", listed)))
        if module in CRATES:
            others.setdefault(module, []).extend(names)
        else:
            known = {item.name: item for item in files.get(module) or exports(module)[0] if item.kind != "impl"}
            own += [known[name] for name in names]
    for module in re.findall(r"^pub mod (\w+);", root, re.M):
        own += [item for item in files[module] if item.kind == "law"]
        numbers = [row for item in files[module] if item.kind == "const" and item not in own for row in item.shown]
        own += (
            [
                Item(
                    "mod",
                    module,
                    re.findall("^//! ?(.*)", (source / f"{module}.rt").read_text(), re.M),
                    numbers,
                    [],
                    [],
                    None,
                )
            ]
            if numbers
            else []
        )
    for impl in [
        item for file in files.values() for item in file if item.kind == "impl" and not HIDDEN.match(item.shown[0])
    ]:
        of = re.search(r"(\w+)(?:<.*>)? for ", impl.shown[0])
        if owner := next((x for name in (impl.name, of and of[1]) for x in own if x.name == name), None):
            owner.inner.extend([impl] if of else [x for x in impl.inner if x.shown[0].startswith("pub ")])
    return own, others


def link(name, crate):
    """Returns a name as code, and as a link if a page has its heading; a variant is a link to its type."""
    of, name = name.split("::", 1) if name.split("::")[0] in CRATES else (crate, name)
    for place in (of, *CRATES):
        for anchor in (name.replace("::", "").lower(), name.split("::")[0].lower()):
            if anchor in HEADINGS[place]:
                return f"[`{name}`]({'' if place == crate else f'{place}.md'}#{anchor})"
    return f"`{name}`"


def text(doc, crate):
    """Returns a comment as a page has it: `# Errors` begins a paragraph, a name in brackets is a link if a page has
    it."""
    joined = re.sub(r"^# (\w+)\n+", r"**\1:** ", "\n".join(doc), flags=re.M).replace("```text", "```rust")
    return LINK.sub(lambda match: link(match[1].removeprefix("crate::"), crate), joined)


def block(kind, rows):
    assert "".join(rows).count("{") == "".join(rows).count("}"), rows
    return ["", f"```{kind}", *rows, "```"] if rows else []


def anchor(file, name):
    """Returns the anchor of a definition on the page of its crate's definitions."""
    return f"{file}.{name}".strip("◌").lower()


def cited(item):
    """Yields the rows on the definitions that a contract names."""
    places = sorted({place for place in named_in(*item.place, "\n".join(item.contract)) if place})
    if places:
        links = (
            f'<a href="../definitions/{crate}.html#{anchor(file, name)}">{name}</a>' for crate, file, name in places
        )
        yield from ["", f"Definitions: {', '.join(links)}"]
    for crate, file, name in places:
        rows = FILES[crate, file].definitions[name]
        yield from block("text", rows) if len(rows) <= SHORT else []


def shown(item, crate, mark="##", of=""):
    """Yields the rows of an item: its heading, signature, comment and contract, and then what is in it."""
    yield from [
        "",
        f"{mark} {of}{item.name}",
        *block("rust", [] if item.kind == "law" else item.shown),
        "",
        text(item.doc, crate),
    ]
    if item.contract:
        yield from [
            "",
            f"<details><summary>{FOLDED.get(item.kind, 'Contract')}</summary>",
            *block("text", item.contract),
            *cited(item),
            "",
            "</details>",
        ]
    for inner in (x for x in item.inner if x.kind != "impl"):
        yield from shown(inner, crate, "###", f"{item.name}::")
    made = [row for x in item.inner if x.kind == "impl" for row in x.shown]
    yield from ["", "Implemented:", *block("rust", made)] if made else []


def page(crate):
    """Returns the page of a crate."""
    own, others = exports(crate)
    calls, laws = ([item for item in own if (item.kind == "law") == is_law] for is_law in (False, True))
    root = (TOP / "crates" / crate / "src/lib.rt").read_text()
    rows = [
        f"# {crate}",
        "",
        text(re.findall(r"^//! ?(.*)", root, re.M), crate),
        "",
        "An example is the body of a function with `rt: HostRuntime` and `let alloc = rt.alloc();`.",
    ]
    rows += [
        f"It sees all names of this page{', and those of these lines:' if MORE[crate] else '.'}",
        *block("rust", [f"use {path};" for path in MORE[crate]]),
    ]
    rows += ["", "| Name | What it is |", "| --- | --- |"]
    rows += [
        f"| {link(item.name, crate)} | {re.split(r'(?<=[.]) ', text([' '.join(item.doc)], crate))[0]} |"
        for item in calls
    ]
    rows += [
        f"| of [{name}]({name}.md) | {', '.join(link(f'{name}::{export}', crate) for export in names)} |"
        for name, names in others.items()
    ]
    rows += [row for item in calls for row in shown(item, crate)]
    rows += ["", "## Laws", "", "What a law ensures is proved once. A proof cites it by a call."] if laws else []
    return "\n".join([*rows, *(row for law in laws for row in shown(law, crate, "###"))]) + "\n"


# the anchors of each page
HEADINGS = {
    crate: {f"{item.name}{name}".lower() for item in exports(crate)[0] for name in ["", *(x.name for x in item.inner)]}
    for crate in CRATES
}

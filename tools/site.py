#!/usr/bin/env python3
"""Writes all documents as a site that opens without a network, with search. It also has a page for each crate's calls
(tools/api.py), one for its definitions, and the man pages.

    tools/site.py FOLDER     writes the site; begin at FOLDER/index.html
    tools/site.py --check    makes it in a temporary folder, looks for dead links, compares its pictures with the
                             drawings that they replace, and opens its pages in a browser (tools/browser.py)

It needs Sphinx with MyST, the theme furo and the copy button, and mandoc. docs/site has its settings, style and
pictures. A link to another file of the repository leads to a copy of its text."""

import html
import os
import re
import shutil
import subprocess
import sys
import tempfile
from pathlib import Path

from api import CRATES, TOP, anchor, page
from browser import looked_at
from reach import FILES

SITE = TOP / "docs/site"
MODULES = ("myst_parser", "furo", "sphinx_copybutton")
PAGES = ("*.md", "docs/*.md", "crates/*/README.md", "tests/README.md", "tests/rattle/README.md", "examples/README.md")
MANUALS = ("avrstk.1", "avrstk-serial.1", "avrstk-serve.1", "avrstk-emulator.7")
# the pages in the left column, with their titles there if those are not the pages' own
GROUPS = {
    "Use": "Use avrstk=docs/USAGE Boards=docs/BOARDS Parts=docs/PARTS docs/TROUBLESHOOTING docs/FORMATS man/avrstk.1 "
    "man/avrstk-serial.1",
    "Emulate": "docs/EMULATOR docs/PROTOCOL docs/PART man/avrstk-serve.1 man/avrstk-emulator.7",
    "Trust": "docs/WHY docs/CHECK docs/PROOFS Laws=docs/PROMISES docs/EVIDENCE SECURITY",
    "Build on it": "docs/LIBRARY examples/README docs/api/README docs/definitions/README crates/README "
    "Architecture=docs/ARCHITECTURE docs/DECISIONS CONTRIBUTING CHANGELOG tests/README tests/rattle/README",
}
# pages that are in lists of their own
LISTED = ("docs/api/", "docs/definitions/", "crates/")
# the picture that a page has in place of its drawing
PICTURES = {"docs/BOARDS": "way", "docs/PROOFS": "link", "docs/CHECK": "status"}

LINK = re.compile(r"(?<!!)\[([^\]]+)\]\(([^)\s#]*)(#[^)\s]*)?\)")
ENUM = re.compile(r"^```rust\n(?:#\[[^\n]*\n)*pub enum (\w+).*?^```$", re.S | re.M)
SECTION = re.compile(r'<h([12]) class="S[hs]"[^>]*><a[^>]*>(.*?)</a></h\1>', re.S)
HREF = re.compile(r'(?<=href=")(?!\w+:)([^"#?]*)(?:\?[^"#]*)?((?:#[^"]*)?)(?=")')


def sources():
    """Returns the Markdown of each page, by its name without an ending."""
    paths = [path for pattern in PAGES for path in sorted(TOP.glob(pattern)) if path.name != "PACKAGE.md"]
    pages = {str(path.relative_to(TOP).with_suffix("")): path.read_text() for path in paths}
    crates = sorted(name.split("/")[1] for name in pages if name.startswith("crates/"))
    pages |= {f"docs/api/{crate}": with_variants(page(crate)) for crate in CRATES}
    defined = sorted({crate for crate, file in FILES if not file.startswith("src/")})
    pages |= {f"docs/definitions/{crate}": definitions(crate) for crate in defined}
    for name in (key for key in list(pages) if f"crates/{Path(key).name}/README" in pages):
        kind = "Its calls" if "/api/" in name else "Its definitions"
        pages[f"crates/{Path(name).name}/README"] += f"\n[{kind}](../../{name}.md)\n"
    pages |= {f"man/{name}": manual(name) for name in MANUALS}
    for name, picture in PICTURES.items():
        pages[name] = pages[name].replace(drawing(pages[name]), raw((SITE / f"{picture}.svg").read_text()))
    pages["docs/api/README"] = listing("The calls of each crate", CRATES)
    pages["docs/definitions/README"] = listing("The definitions of each crate", defined)
    pages["crates/README"] = listing("The crates", [f"{crate}/README" for crate in crates])
    return pages


def listing(title, names):
    return f"# {title}\n\n" + contents(names, ":maxdepth: 1")


def contents(names, *options):
    return "\n".join(["```{toctree}", *options, "", *names, "```", ""])


def raw(body):
    return f"``````{{raw}} html\n{body.strip()}\n``````\n"


def with_variants(text):
    """Returns a page of calls with an entry of the index before each enum, for each of its variants."""

    def entries(enum):
        names = re.findall(r"^    ([A-Z]\w*)", enum[0], re.M)
        return "".join(f"```{{index}} {enum[1]}::{variant}\n```\n\n" for variant in names) + enum[0]

    return ENUM.sub(entries, text)


def definitions(crate):
    """Returns the page of a crate's definitions: each file of specs/, with a heading for each definition."""
    rows = [f"# Definitions of {crate}"]
    for path in sorted((TOP / "crates" / crate / "specs").glob("*.antt")):
        named = FILES.get((crate, path.stem))
        if named and named.definitions:
            rows += ["", f"## {path.stem}", "", *blocks(path, named.definitions)]
    return "\n".join(rows) + "\n"


def blocks(path, named):
    """Yields the blocks of a file of definitions, without its `use` lines, each in a fence below the name of what
    it defines."""
    text = "\n".join(line for line in path.read_text().splitlines() if not line.startswith("use "))
    for block in filter(None, re.split(r"\n{2,}", text.strip())):
        names = re.findall(r"^(?:(?:abbrev|unfoldable) pub|pub (?:record|data)) (\S+)", block, re.M)
        for name in (found for found in names if found in named):
            yield from [
                f"```{{index}} {name}",
                "```",
                "",
                f'<p class="name" id="{anchor(path.stem, name)}">{name}</p>',
                "",
            ]
        yield from ["```text", block, "```", ""]


def manual(name):
    """Returns a man page, as mandoc makes it, with headings of this site."""
    words = ["mandoc", "-T", "html", "-O", "fragment", TOP / "docs" / name]
    made = subprocess.run(words, capture_output=True, text=True, check=True).stdout
    body = re.sub(
        r"<br/>\n",
        "",
        re.sub(r'<(table class="(?:head|foot)").*?</table>|</?section[^>]*>|</div>\s*$', "", made, flags=re.S),
    )
    body = body.replace('<div class="manual-text">', "")
    first, *rest = SECTION.split(body)
    rows = [f"# {name[:-2]}({name[-1]})", "", *([raw(first)] if first.strip() else [])]
    for level, title, text in zip(rest[::3], rest[1::3], rest[2::3]):
        text = re.sub(r' (?:id|href)="[^"]*"', "", text)
        rows += [f"{'#' * (int(level) + 1)} {html.unescape(title)}", "", raw(f'<div class="manual">{text}</div>')]
    return "\n".join(rows)


def drawing(text):
    """Returns the only drawing of a page, a block of code with arrows."""
    (found,) = [
        block[0] for block in re.finditer(r"^(?: {4}.*\n(?:\n(?= {4}))?)+", text, re.M) if re.search("[╳▶▲├]", block[0])
    ]
    return found


def words_of(text):
    return sorted(re.findall(r"[^\s─│┌├└▶◀▼▲╳]+", text))


def linked(name, text, pages):
    """Returns a page whose links lead to pages of the site, and the files of the repository that it links to."""
    copied = set()

    def address(match):
        shown, target, at = match[1], match[2], match[3] or ""
        path = os.path.normpath(Path(name).parent / target)
        if not target or ":" in target:
            return match[0]
        if path == "README.md":
            return f"[{shown}]({os.path.relpath('index.md', Path(name).parent)}{at})"
        if path.removesuffix(".md") in pages:
            return match[0]
        if not (TOP / path).is_file():
            return shown
        copied.add(path)
        return f'<a href="{target}.txt">{shown}</a>'

    # (a link in code is none)
    parts = re.split(r"(^ {0,3}```.*?^ {0,3}```|^(?: {4}).*?$|`[^`]*`)", text, flags=re.M | re.S)
    return "".join(part if i % 2 else LINK.sub(address, part) for i, part in enumerate(parts)), copied


def write_sources(folder):
    """Writes what Sphinx reads, and returns the files of the repository that it links to."""
    pages, copied = sources(), set()
    pages["index"] = pages.pop("README")
    named = {name for listed in GROUPS.values() for _, name in titled(listed)}
    others = [name for name in pages if name not in named and name != "index" and not name.startswith(LISTED)]
    for caption, listed in GROUPS.items():
        names = [f"{title} <{name}>" if title else name for title, name in titled(listed) if name in pages]
        # (a page that no group names comes last)
        names += others if caption == list(GROUPS)[-1] else []
        pages["index"] += "\n" + contents(names, f":caption: {caption}", ":hidden:")
    for name, text in list(pages.items()):
        pages[name], files = linked(name, text, pages)
        copied |= files
    for name, text in pages.items():
        place = folder / f"{name}.md"
        place.parent.mkdir(parents=True, exist_ok=True)
        place.write_text(text)
    return copied


def titled(listed):
    """Yields the title and the name of each page of a group; a title may have blanks."""
    return re.findall(r"(?:(\w[\w ]*)=)?(\S+)", listed)


def write(folder):
    """Writes the site, and returns Sphinx's warnings."""
    with tempfile.TemporaryDirectory() as made:
        copied = write_sources(Path(made, "pages"))
        words = ["sphinx-build", "-q", "-b", "html", "-c", SITE, "-d", f"{made}/trees", f"{made}/pages"]
        ran = subprocess.run([*words, folder], stderr=subprocess.PIPE, text=True)
    for file in (".buildinfo", "objects.inv"):
        Path(folder, file).unlink(missing_ok=True)
    for name in copied:
        place = Path(folder, f"{name}.txt")
        place.parent.mkdir(parents=True, exist_ok=True)
        shutil.copyfile(TOP / name, place)
    return ran.stderr.splitlines() or [f"sphinx-build ends with status {ran.returncode}"] * bool(ran.returncode)


def lacking():
    """Returns the names of what making the site needs and is not installed."""
    tools = [tool for tool in ("sphinx-build", "mandoc") if not shutil.which(tool)]
    if tools:
        return tools
    # (another Python than this script's may run Sphinx)
    python = Path(shutil.which("sphinx-build")).read_text().splitlines()[0].removeprefix("#!").split()
    looks = "import importlib.util, sys; print(*[name for name in sys.argv[1:] if not importlib.util.find_spec(name)])"
    return subprocess.run([*python, "-c", looks, *MODULES], capture_output=True, text=True).stdout.split()


def dead(folder):
    """Yields the links of a site that lead nowhere."""
    ids = {path.resolve(): set(re.findall(r'id="([^"]*)"', path.read_text())) for path in folder.rglob("*.html")}
    for path in ids:
        for file, at in HREF.findall(path.read_text()):
            place = (path.parent / file).resolve() if file else path
            if not place.exists() or len(at) > 1 and at[1:] not in ids.get(place, ()):
                yield f"{path.relative_to(folder.resolve())}: {file}{at} leads nowhere"


def wrong_in(folder):
    """Yields what is wrong with a site, but for how it looks."""
    yield from write(folder)
    yield from dead(folder)
    for name, picture in PICTURES.items():
        drawn, shown = ((TOP / f"{name}.md").read_text(), (SITE / f"{picture}.svg").read_text())
        texts = html.unescape(" ".join(re.findall(r"<text[^>]*>(.*?)</text>", shown)))
        if words_of(drawing(drawn)) != words_of(texts):
            yield f"docs/site/{picture}.svg hasn't the words of the drawing in {name}.md"
    library = (TOP / "docs/LIBRARY.md").read_text()
    for crate in CRATES:
        if f"(../crates/{crate}/README.md)" not in library:
            yield f"docs/LIBRARY.md has no link to the README of {crate}"


def check():
    """Prints what is wrong with a site made anew, and returns the status."""
    if names := lacking():
        print(f"left out: the site: not installed: {', '.join(names)}\n0 passed, 0 failed")
        return 0
    with tempfile.TemporaryDirectory() as made:
        wrong = list(wrong_in(Path(made)))
        good, bad = looked_at(Path(made))
    wrong += bad
    print(*wrong, f"{good + len(PICTURES) + len(CRATES)} passed, {len(wrong)} failed", sep="\n")
    return int(bool(wrong))


if __name__ == "__main__":
    if sys.argv[1:] == ["--check"]:
        sys.exit(check())
    if len(sys.argv) != 2 or sys.argv[1].startswith("-"):
        sys.exit(__doc__)
    if names := lacking():
        sys.exit(f"not installed: {', '.join(names)}")
    sys.exit("\n".join(write(Path(sys.argv[1]))) or None)

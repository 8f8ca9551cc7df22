"""How Sphinx makes the site of the documents: tools/site.py writes its pages and runs sphinx-build."""

import re
from pathlib import Path

HERE = Path(__file__).resolve().parent

project = "avrstk"
version = (HERE.parent.parent / "VERSION").read_text().strip()
html_title = f"avrstk {version}"
extensions = ["myst_parser", "sphinx_copybutton"]
root_doc = "index"
html_theme = "furo"
html_static_path = ["style.css"]
html_css_files = ["style.css"]
html_search_scorer = str(HERE / "scorer.js")
html_show_sourcelink = False
html_copy_source = False
html_use_index = False
html_show_copyright = False
myst_heading_anchors = 4
highlight_language = "none"
copybutton_prompt_text = r"\$ "
copybutton_prompt_is_regexp = True
# (the crates' ghost code isn't Rust's)
suppress_warnings = ["myst.header", "misc.highlighting_failure"]


def setup(app):
    """Mends Debian's furo once the site is made."""
    app.connect("build-finished", mended)


def mended(app, failed):
    """Makes Debian's furo work from files: it imports a script and a style by addresses that only a server has, and
    lacks the colours for a reader who prefers dark pages."""
    static = Path(app.outdir, "_static")
    script, style = static / "scripts/furo.js", static / "styles/furo.css"
    if failed or not script.exists():
        return
    text, imported = script.read_text(), static / "scripts/gumshoe-patched.js"
    if text.startswith("import Gumshoe"):
        script.write_text(imported.read_text() + text.partition("\n")[2])
    text, normal = style.read_text(), Path("/usr/share/javascript/normalize.css/normalize.css")
    first, _, rest = text.partition("\n")
    if first.startswith("@import"):
        text = (normal.read_text() if normal.exists() else "") + rest
    if "prefers-color-scheme" not in text:
        dark = re.search(r'^  body\[data-theme="dark"\] \{.*?\}', text, re.M | re.S)[0]
        dark = dark.replace('body[data-theme="dark"]', 'body:not([data-theme="light"])')
        text += f"@media (prefers-color-scheme: dark) {{\n{dark} }}\n"
    style.write_text(text)

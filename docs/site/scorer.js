// What search shows first: for a name of the code its definition or call, for other words the pages for users.
const sought = new URLSearchParams(location.search).get("q") || ""
const isName = /::|_|[a-z][A-Z]/.test(sought)
const FIRST = ["docs/USAGE", "docs/BOARDS", "docs/TROUBLESHOOTING", "docs/EMULATOR", "index", "man/", "docs/"]

// (a browser reads no other page for a page that is a file)
if (location.protocol === "file:") DOCUMENTATION_OPTIONS.SHOW_SEARCH_SUMMARY = false

var Scorer = {
  score: ([page, title, anchor, description, score]) => {
    const isCode = /^docs\/(api|definitions)\/|^crates\//.test(page)
    const place = FIRST.findIndex(it => page.startsWith(it))
    if (isName) return score
    return isCode ? score / 100 : score / 10 + 100 - 10 * (place < 0 ? FIRST.length : place)
  },
  objNameMatch: 11,
  objPartialMatch: 6,
  objPrio: { 0: 15, 1: 5, 2: -5 },
  objPrioDefault: 0,
  title: 15,
  partialTitle: 7,
  term: 5,
  partialTerm: 2,
}

"""Tests of the pages: each relative link leads somewhere, each name of the code that a page cites is in the code, and the map
of the crates has each crate, on a floor that is no lower than those of the crates it depends on. A page has no sentence of more
than 40 words, no more words than it may have, and no path of a machine."""
import re

PAGES = (
    "*.md",
    "docs/*.md",
    "crates/*.md",
    "bench/**/*.md",
    "examples/**/*.md",
    "python/*.md",
    "python/*/*.md",
    "tests/cases/*.md",
)
CITING = (
    "docs/PROOFS.md",
    "docs/CALLS.md",
    "docs/DEFINITIONS.md",
    "docs/PROOF_GUIDE.md",
    "docs/ARCHITECTURE.md",
    "docs/ASSURANCE.md",
    "crates/README.md",
    "crates/FILES.md",
)
LONGEST_SENTENCE = 40
MOST_WORDS = {
    "README.md": 900,
    "docs/GUIDE.md": 4_800,
    "docs/DECISIONS.md": 4_500,
    "docs/ASSURANCE.md": 2_000,
    "bench/RESULTS.md": 2_800,
}
# Pages that are generated, and whose sentences may be longer.
UNREAD = ("bench/LAST_RUN.md", "docs/STATEMENT.md", "crates/FILES.md")
SENTENCE = re.compile(r"(?<=[.!?:])\s+")
LINK = re.compile(r"\]\(([^()\s]+)\)")
QUOTED = re.compile(r"`([^`\n]+)`")
NAME = re.compile(r"[A-Za-z_][\w-]*(?:::[A-Za-z_][\w-]*)*")
MACHINE_PATH = re.compile(r"(?<![\w.}])/(?:work|home|root|tmp)/[\w./-]*")
# `A`, `B` in `FILE`
IN_FILE = re.compile(r"((?:`[^`]+`(?:, | and ))*`[^`]+`) in `([\w/]+\.(?:antt|rt))`")
DEFINES = r"^ *(?:(?:pub(?:\(crate\))?|abbrev|unfoldable|record|data|fn|struct|enum|trait|const|ghost) +)*%s\b"


def without_code(text):
    """A page without its blocks of code."""
    return re.sub(r"^```.*?^```", "", text, flags=re.M | re.S)


def anchors(text):
    """The anchors of a page's headings, as GitHub makes them."""
    titles = re.findall(r"^#+ (.*)$", without_code(text), re.M)
    return {re.sub(r"[^\w\- ]", "", title).strip().lower().replace(" ", "-") for title in titles}


def broken_links(top):
    """The relative links whose file isn't there, or has no such heading."""
    wrong = []
    for page in sorted({page for pattern in PAGES for page in top.glob(pattern)}):
        for link in LINK.findall(without_code(page.read_text())):
            path, _, anchor = link.partition("#")
            target = page.parent / path if path else page
            if re.match(r"\w+:", link):
                continue
            if not target.exists():
                wrong.append("%s: no file %s" % (page.relative_to(top), path))
            elif anchor and anchor not in anchors(target.read_text()):
                wrong.append(
                    "%s: %s has no heading #%s" % (page.relative_to(top), target.name, anchor)
                )
    return wrong


def sources(top):
    """The text of each source, definition and lemma, by its path."""
    kinds = ("src/**/*.rt", "specs/**/*.antt", "proofs/**/*.antt")
    return {file: file.read_text() for kind in kinds for file in top.glob("crates/*/" + kind)}


def is_known(top, quoted, texts, words):
    """Whether what a page quotes is there: a file by its path or its name, or a word of the code. Other quotes, and words in
    capitals, which stand for something, are passed over."""
    if re.search(r"[A-Z]{3}|[* <]", quoted):
        return True
    if quoted.startswith("crates/"):
        return (top / quoted).exists()
    if quoted.endswith((".antt", ".rt")) and "/" not in quoted:
        return any(file.name == quoted for file in texts)
    if not NAME.fullmatch(quoted):
        return True
    *rooms, name = quoted.split("::")
    return name in words and all(is_room(top, room, texts, words) for room in rooms)


def is_room(top, room, texts, words):
    """Whether what stands before `::` is a crate or a library, a source file, or a type."""
    if room[0].isupper():
        return room in words
    listed = re.findall(r"\w+", (top / "crates.txt").read_text())
    return room in listed or room in ("core", "std") or any(file.stem == room for file in texts)


def unknown_names(top):
    """What the citing pages name and the code hasn't, and what isn't defined in the file that they name for it."""
    texts, wrong = sources(top), []
    others = [top / "crates.txt", *top.glob("python/**/*.py")]
    words = set(
        re.findall(r"[\w-]+", "\n".join([*texts.values(), *(file.read_text() for file in others)]))
    )
    recipes = [page for page in (top / "CONTRIBUTING.md",) if page.exists()]
    wrong += [
        "CONTRIBUTING.md: there is no %s" % quoted
        for page in recipes
        for quoted in QUOTED.findall(without_code(page.read_text()))
        if (
            "::" in quoted
            or quoted.startswith("crates/")
            or "_" in quoted
            and NAME.fullmatch(quoted)
        )
        and not is_known(top, quoted, texts, words)
    ]
    for page in (top / name for name in CITING if (top / name).exists()):
        text = without_code(page.read_text())
        wrong += [
            "%s: there is no %s" % (page.name, quoted)
            for quoted in QUOTED.findall(text)
            if not is_known(top, quoted, texts, words)
        ]
        for names, file in IN_FILE.findall(text):
            found = [
                texts[one]
                for one in texts
                if (one == top / file if "/" in file else one.name == file)
            ]
            wrong += [
                "%s: %s isn't defined in %s" % (page.name, name, file)
                for name in QUOTED.findall(names)
                if not any(re.search(DEFINES % re.escape(name), one, re.M) for one in found)
            ]
    return wrong


def misplaced_crates(top):
    """The crates that the map of the crates lacks, or has below one that they depend on."""
    floors, floor = {}, 0
    for line in (top / "crates" / "README.md").read_text().splitlines():
        floor = int(line[4]) if re.match(r"### \d", line) else floor
        floors.update((name, floor) for name in re.findall(r"^\| `(\w+)` \|", line))
    wrong = []
    for line in (top / "crates.txt").read_text().splitlines():
        name, _, below = line.partition(":")
        if line and not line.startswith("#"):
            if name not in floors or any(
                floors.get(one, 0) > floors[name] for one in below.split()
            ):
                wrong.append(
                    "crates/README.md: %s isn't there, or below a crate that it depends on" % name
                )
    return wrong


OPTION = re.compile(r'_option\(\s*alloc,\s*"([\w-]+)"|\.long\("([\w-]+)"\)')
OPTION_ROW = re.compile(r"^\| `--([\w-]+)` \|.*", re.M)


def wrong_options(top):
    """The options of the program that the table in the map of the crates lacks, or has and there are none; and the rows that name a file
    and not what is in it, which `unknown_names` compares with the code."""
    code = "".join(file.read_text() for file in top.glob("crates/command_line/src/*.rt"))
    options = {one or other for one, other in OPTION.findall(code)}
    page = (top / "crates" / "README.md").read_text()
    rows = {row[1]: row[0] for row in OPTION_ROW.finditer(page)}
    wrong = ["lacks --%s" % name for name in sorted(options - set(rows))]
    wrong += ["has --%s, which is no option" % name for name in sorted(set(rows) - options)]
    wrong += [
        "names a file at --%s and not what is in it" % name
        for name, row in rows.items()
        if len(re.findall(r"\.rt`", row)) != len(IN_FILE.findall(row)) or ".rt`" not in row
    ]
    return ["crates/README.md " + one for one in wrong]


def wrong_counts(top):
    """The numbers of edits in ASSURANCE that aren't those of the crates."""
    page = top / "docs" / "ASSURANCE.md"
    planted = (file.read_text() for file in top.glob("crates/*/planted.edits"))
    said = (
        "`crates/NAME/edits/` | {:,} edits".format(len(list(top.glob("crates/*/edits/*")))),
        "`crates/NAME/planted.edits` | {:,} others".format(
            sum(len(re.findall(r"^edit: ", text, re.M)) for text in planted)
        ),
    )
    text = page.read_text() if page.exists() else None
    return ["docs/ASSURANCE.md lacks: %s" % one for one in said if text and one not in text]


def paragraphs(text):
    """What a page says outside its code and what it quotes: the parts of its tables' cells, and its paragraphs and items."""
    for line in re.sub(r"\n(?=[^\n|#>\-*\d ])", " ", without_code(text)).split("\n"):
        if line.startswith("|"):
            yield from re.split(r"[|;]", line)
        elif not line.startswith(("    ", ">")):
            yield line


def long_sentences(top):
    """The sentences of more words than one may have, by their page."""
    wrong = []
    for page in sorted({page for pattern in PAGES for page in top.glob(pattern)}):
        name = str(page.relative_to(top))
        if name not in UNREAD:
            said = (
                sentence
                for paragraph in paragraphs(page.read_text())
                for sentence in SENTENCE.split(paragraph)
            )
            wrong += [
                "%s: a sentence of %d words: %s .." % (name, len(one.split()), one[:60])
                for one in said
                if len(one.split()) > LONGEST_SENTENCE
            ]
    return wrong


def machine_paths(top):
    """The pages that name a place on the machine of who wrote them."""
    pages = sorted({page for pattern in PAGES for page in top.glob(pattern)})
    return [
        "%s names %s" % (page.relative_to(top), found[0])
        for page in pages
        for found in MACHINE_PATH.finditer(page.read_text())
    ]


def long_pages(top):
    """The pages that have more words than they may have."""
    counts = {
        name: len((top / name).read_text().split()) for name in MOST_WORDS if (top / name).exists()
    }
    return [
        "%s: %d words, at most %d" % (name, counts[name], MOST_WORDS[name])
        for name in counts
        if counts[name] > MOST_WORDS[name]
    ]

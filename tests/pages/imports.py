"""Tests of what is imported: a file takes the names of a crate from its Prelude, or from one file of its specs, and contracts no name that
they don't use."""
import re
from collections import defaultdict

TAKEN = re.compile(r"^use Rattle\.(\w+)\.specs\.([^\s{]+)\.\{", re.M)


def scattered(top):
    """The files that take names of one crate's specs from several of their files; not the specs of that crate, which say where each is defined."""
    wrong = []
    for file in sorted(top.glob("crates/*/specs/**/*.antt")) + sorted(
        top.glob("crates/*/proofs/**/*.antt")
    ):
        crate, part = file.relative_to(top / "crates").parts[:2]
        sources = defaultdict(set)
        for other, module in TAKEN.findall(file.read_text(encoding="utf-8")):
            is_file = (
                (top / "crates" / other / "specs" / module.replace(".", "/"))
                .with_suffix(".antt")
                .is_file()
            )
            if is_file and (other != crate or part == "proofs"):
                sources[other].add(module)
        wrong += [
            "%s: names of %s come from %s"
            % (file.relative_to(top), other, ", ".join(sorted(modules)))
            for other, modules in sources.items()
            if len(modules) > 1
        ]
    return wrong


GHOST = re.compile(r"^ghost use [\w.]+\.\{([^}]*)\};\n", re.M)
TAKEN_NAMES = re.compile(r"^use [\w.]+\.\{([^}]*)\}\n", re.M)
SUGAR = {"[]", "◌∷◌", "◌>>=◌", "Bool"}  # what lists, `do` and conditions stand for
COMMENTS = {".rt": re.compile(r"//.*"), ".antt": re.compile(r"(^|\s)--(\s.*)?$", re.M)}


def is_used(name, rest):
    """Whether a text has a name: as a word of its own, or all signs of an operator."""
    signs = [sign for sign in name.split("◌") if sign]
    return all(
        re.search(rf"(?<![\w'-]){re.escape(sign)}(?![\w'-])", rest)
        if re.fullmatch(r"[\w'-]+", sign)
        else sign in rest
        for sign in signs
    )


def unused(top):
    """The names that a source takes for its contracts, or a definition or a proof for itself, and then doesn't use; an operator by its
    sign. What comments say is no use."""
    wrong = []
    files = [*top.glob("crates/*/src/**/*.rt"), *top.glob("crates/*/*/**/*.antt")]
    for file in sorted(files):
        text = file.read_text(encoding="utf-8")
        rest = re.sub(r"^(pub |ghost )?use .*\n", "", text, flags=re.M)
        rest = COMMENTS[file.suffix].sub("", rest)
        for names in (GHOST if file.suffix == ".rt" else TAKEN_NAMES).findall(text):
            shown = [name.split(" as ")[-1].strip() for name in names.split(",")]
            wrong += [
                "%s: nothing uses %s" % (file.relative_to(top), name)
                for name in shown
                if name not in SUGAR and not is_used(name, rest)
            ]
    return wrong


TRAIT = re.compile(r"^(?:pub(?:\(crate\))? )?trait (\w+)", re.M)
CODE_USE = re.compile(r"^(?:pub |ghost |pub\(crate\) )?use ([^;]+);\n", re.M)
TAKEN_CODE = re.compile(r"^use ([^;]+);$", re.M)
KIT_TRAITS = {
    "Read",
    "Write",
    "Abort",
    "Model",
}  # of std: their methods are called, not their names


def unused_code(top):
    """The names that a source takes for its code and doesn't use. A trait may be taken for its methods alone."""
    texts = {
        file: file.read_text(encoding="utf-8") for file in sorted(top.glob("crates/*/src/**/*.rt"))
    }
    traits = KIT_TRAITS.union(*(TRAIT.findall(text) for text in texts.values()))
    wrong = []
    for file, text in texts.items():
        rest = COMMENTS[".rt"].sub("", CODE_USE.sub("", text))
        for taken in TAKEN_CODE.findall(text):
            names = re.split(r"[{},]", taken.partition("{")[2]) if "{" in taken else [taken]
            shown = {re.split(r"::| as ", name.strip())[-1] for name in names} - {"", "self", "*"}
            wrong += [
                "%s: nothing uses %s" % (file.relative_to(top), name)
                for name in sorted(shown - traits)
                if not re.search(r"\b%s\b" % name, rest)
            ]
    return wrong


CLAUSE = re.compile(r"\s*(requires|ensures|invariant|decreases|ghost (view|invariant))\b")
MOST_COLUMNS = 100


def wide_clauses(top):
    """The lines of clauses that are wider than so many columns."""
    wrong = []
    for file in sorted(top.glob("crates/*/src/**/*.rt")):
        open_braces = 0
        for number, line in enumerate(file.read_text(encoding="utf-8").split("\n"), 1):
            is_clause = open_braces > 0 or CLAUSE.match(line)
            open_braces = (
                max(open_braces + line.count("{") - line.count("}"), 0) if is_clause else 0
            )
            if is_clause and len(line) > MOST_COLUMNS:
                wrong.append("%s:%d: %d columns" % (file.relative_to(top), number, len(line)))
    return wrong

#!/usr/bin/env python3
"""Writes docs/STATEMENT.md: every definition on which an answer of `pit check` or a bound rests, in reading order.

    tools/statement.py [--check]     with --check it writes nothing, and its status is 1 where the page is another

The page is made from the sources alone. It begins at a clause of a public function, resolves each name of it by the imports
of its file, and goes on with the definitions that these names have. A word of the language's library, an operator and a type
of the code are named on the page, and not followed. A definition without words of its own is refused: those above it in its
file are of another one.
"""
import re
import sys
from dataclasses import dataclass, field
from pathlib import Path

TOP = Path(__file__).resolve().parent.parent
PAGE = TOP / "docs" / "STATEMENT.md"

HEAD = re.compile(
    r"^(?:(?:abbrev|unfoldable) )?(?:pub )?(?:(?:record|data) )?(?P<name>[^\W\d][\w'-]*|◌\S+◌)(?= [:({]|$)",
    re.M,
)
DEFINES = re.compile(r"^(?:abbrev|unfoldable|pub|record|data) (?!use |mod )")
USE = re.compile(
    r"^(?P<pub>pub )?(?:(?:ghost|unfoldable) )?(?:pub )?use Rattle\.(?P<path>[\w.«»]+?)(?:\.\{(?P<names>[^}]*)\}| as (?P<alias>\w+));?$",
    re.M,
)
WORD = re.compile(r"[^\W\d][\w']*(?:\.[^\W\d][\w']*)*")
FIELD = re.compile(r"^  (?:pub )?(?P<name>[\w']+) :", re.M)


@dataclass
class Definition:
    """A definition: its file and name, the comment above it, its text, and the line where it begins."""

    module: str
    name: str
    words: str
    text: str
    line: int


@dataclass
class Module:
    """A file of definitions: what it defines, and what each imported name stands for."""

    path: Path
    definitions: dict = field(default_factory=dict)
    constructors: dict = field(default_factory=dict)
    names: dict = field(default_factory=dict)
    aliases: dict = field(default_factory=dict)


def imports(text, module):
    """Fills in what the imports of a text say."""
    for use in USE.finditer(text):
        if use["alias"]:
            module.aliases[use["alias"]] = use["path"]
            continue
        for part in use["names"].split(","):
            name, _, other = part.strip().partition(" as ")
            module.names[(other or name).strip()] = (use["path"], name.strip())


def blocks(text):
    """The definitions of a file: the comment above each, its text, its first line. An equation stands with what it defines.

    The comment at the file's top is of the file, and of no definition.
    """
    words, held, found, begun = [], [], [], 0
    text = re.sub(r"\A(?:--.*\n)+", lambda top: "\n" * top[0].count("\n"), text)
    for number, line in enumerate(text.split("\n") + [""], 1):
        if (
            held
            and line
            and (
                line[0] in " \t"
                or not DEFINES.match(line)
                and not line.startswith(("--", "use ", "pub use ", "infix"))
            )
        ):
            held.append(line)
        elif line.startswith("--"):
            if held:
                found.append((words, held, begun))
                words, held = [], []
            words = words + [line[2:].strip()]
        elif line.startswith("infix"):  # the words above it are of the operator that follows
            if held:
                found.append((words, held, begun))
                words, held = [], []
        elif DEFINES.match(line):
            if held:
                found.append((words, held, begun))
                words = []
            held, begun = [line], number
        else:
            if held:
                found.append((words, held, begun))
            words, held = [], []
    return found


def module_of(path, name):
    """A file of definitions as it is read."""
    text = path.read_text(encoding="utf-8")
    module = Module(path)
    imports(text, module)
    for words, lines, number in blocks(text):
        head = HEAD.match(lines[0])
        if head:
            if " data " in lines[0]:
                module.constructors.update(
                    (name, head["name"]) for name in FIELD.findall("\n".join(lines))
                )
            module.definitions[head["name"]] = Definition(
                name, head["name"], " ".join(words), "\n".join(lines), number
            )
    return module


class Sources:
    """All files of definitions, by the names that imports give them, and the order in which they are to be read."""

    def __init__(self, top):
        self.top, self.modules, self.order = top, {}, []
        self.crates = re.findall(r"^(\w+)(?: \w+)*:", (top / "crates.txt").read_text(), re.M)
        for crate in self.crates:
            specs = top / "crates" / crate / "specs"
            if (specs / "Lib.antt").exists():
                names = re.findall(r"^pub mod (\w+)", (specs / "Lib.antt").read_text(), re.M)
                for name in names:
                    self.add(specs / (name + ".antt"), "%s.specs.%s" % (crate, name))

    def add(self, path, name):
        if path.exists():
            self.modules[name] = module_of(path, name)
            self.order.append(name)

    def home(self, path, name):
        """The definition that a name of a file stands for, through files that only hand names on; else none."""
        module = self.modules.get(path)
        while module is not None:
            name = module.constructors.get(name, name)
            if name in module.definitions:
                break
            if name not in module.names:
                return None
            path, name = module.names[name]
            module = self.modules.get(path)
        return module.definitions[name] if module else None


@dataclass
class Cone:
    """What a clause rests on: definitions, types of the code, and words of the library."""

    definitions: dict = field(default_factory=dict)
    types: set = field(default_factory=set)
    library: set = field(default_factory=set)


def cited(text, module):
    """The names of a text that stand for something elsewhere: pairs of a file and a name."""
    bare = re.sub(r"--.*", "", text)
    for word in WORD.findall(bare):
        first, *rest = word.split(".")
        if first in module.aliases and rest:
            yield module.aliases[first], rest[0]
        elif first in module.names:
            yield module.names[first]
        elif first in module.definitions:
            yield module.definitions[first].module, first
    own = {name: (it.module, name) for name, it in module.definitions.items()}
    for name, source in {**own, **module.names}.items():
        written = name.strip("◌")
        if name != written and (written in bare or written == ">>=" and "←" in bare):
            yield source


def in_code(path, name, crates):
    """The type or constant of the code, with its file, that a name of a declared type stands for; else none."""
    found = re.match(r"(\w+)\.specs\.declared\.(.+?)(\.TheVariants|\.TheConstants)?$", path)
    if not found or found[1] not in crates:
        return None
    *folders, last = found[2].split(".")
    if found[3] == ".TheConstants":
        folders, last = [*folders, last], name
    return last, "crates/%s/src/%s.rt" % (found[1], "/".join(folders))


def cone_of(sources, clause, module):
    """What a clause rests on."""
    cone, waiting = Cone(), list(cited(clause, module))
    while waiting:
        path, name = waiting.pop()
        definition = sources.home(path, name)
        if definition is not None:
            key = definition.module, definition.name
            if key not in cone.definitions:
                cone.definitions[key] = definition
                waiting += cited(definition.text, sources.modules[definition.module])
            continue
        last = sources.modules.get(path)
        if last is not None and name in last.names:
            path, name = last.names[name]
        shown = in_code(path, name, sources.crates)
        if shown:
            cone.types.add(shown)
        elif path.split(".")[0] not in sources.crates:
            cone.library.add(name)
        else:
            raise SystemExit("%s.%s: no definition of it was found" % (path, name))
    return cone


def clause_of(path, function, name):
    """The text of a clause of a function, and what the imports of its file say."""
    text = path.read_text(encoding="utf-8")
    module = Module(path)
    imports(re.sub(r"^ghost use", "use", text, flags=re.M), module)
    found = re.search(
        r"fn %s\b.*?ensures %s (\{.*?\})\n\s*    (?:ensures|requires|//|\{)|fn %s\b.*?ensures %s (\{.*?\})\n\{"
        % (function, name, function, name),
        text,
        re.S,
    )
    if not found:
        raise SystemExit("%s has no clause %s of %s" % (path, name, function))
    return found[1] or found[2], module


def wordless(sources, definitions):
    """The definitions that have no words of their own, each with its file and line."""
    return [
        "%s:%d: %s has no words of its own above it"
        % (sources.modules[it.module].path.relative_to(sources.top), it.line, it.name)
        for it in sorted(definitions, key=lambda it: (it.module, it.line))
        if not it.words
    ]


def section(sources, name, definitions):
    """The part of the page for one file."""
    crate, file = name.split(".specs.")
    lines = ["## `%s`, `%s.antt`" % (crate, file), ""]
    for it in sources.modules[name].definitions.values():
        if it.name in definitions:
            words = it.words[:1].upper() + it.words[1:].rstrip(".")
            lines += [words + ":", "", "```", it.text, "```", ""]
    return lines


def part(sources, title, words, definitions):
    """A part of the page: its title, a paragraph, and these definitions by their files."""
    lines = ["# " + title, "", words, ""]
    for name in sources.order:
        names = {definition for module, definition in definitions if module == name}
        if names:
            lines += section(sources, name, names)
    return lines


def number_of(top, name, path):
    """The number of a constant, as a contract of its file states it; none of a type."""
    if not name.isupper():
        return ""
    found = re.search(r"\{ %s ≡ (\d+) \}" % name, (top / path).read_text(encoding="utf-8"))
    if not found:
        raise SystemExit("%s: no contract says which number %s is" % (path, name))
    return ", which is %s," % format(int(found[1]), ",")


def leaves(sources, cone):
    """What the definitions take from elsewhere: types and constants of the code, and words of the library."""
    lines = [
        "# Taken from elsewhere",
        "",
        "Types and constants of the code, each with its file. The number of a constant is the one that a contract in that file",
        "states, which is proved with the rest:",
        "",
    ]
    lines += [
        "- `%s`%s in [`%s`](../%s)" % (name, number_of(sources.top, name, path), path, path)
        for name, path in sorted(cone.types)
    ]
    return lines + [
        "",
        "Words of the language's library: "
        + ", ".join("`%s`" % name for name in sorted(cone.library))
        + ".",
        "",
    ]


def shown(function, path, clause):
    """A clause as the page shows it."""
    return [
        "The clause `answer` of `%s` in [`%s`](../%s):" % (function, path, path),
        "",
        "```",
        re.sub(r"\n {4,}", "\n    ", clause),
        "```",
        "",
    ]


def without(cone, other):
    """The definitions of a cone that the other hasn't."""
    return {key: it for key, it in cone.definitions.items() if key not in other.definitions}


def page(sources):
    """The text of the page."""
    clause, module = clause_of(sources.top / ENGINE, "check_engine", "answer")
    every = cone_of(sources, clause, module)
    accepted = cone_of(
        sources, "WritesAccepted", sources.modules["check_engines.specs.Checking"]
    ).definitions
    rest = {key: every.definitions[key] for key in every.definitions if key not in accepted}
    bounding, module = clause_of(sources.top / BOUNDS, "bound_engine", "answer")
    bound = cone_of(sources, bounding, module)
    nested = cone_of(sources, "AcceptedAreNested", sources.modules["check_engines.specs.Nested"])
    two = without(nested, every)
    own = {key: it for key, it in without(bound, every).items() if key not in two}
    unsaid = wordless(sources, [*every.definitions.values(), *two.values(), *own.values()])
    if unsaid:
        raise SystemExit("\n".join(unsaid))
    files = {name for name, _ in accepted}
    lines = [
        "# What you have to believe: of an `ACCEPTED` %d definitions, with each refusal %d; of a bound %d"
        % (len(accepted) + len(two), len(every.definitions) + len(two), len(bound.definitions)),
        "",
        HEAD_WORDS,
        "",
        *shown("check_engine", ENGINE, clause),
    ]
    lines += part(
        sources,
        "An `ACCEPTED`: %d definitions" % len(accepted),
        "They stand in %d files of %d crates. The last of them is `WritesAccepted`."
        % (len(files), len({name.split(".")[0] for name in files})),
        accepted,
    )
    lines += part(
        sources,
        "Two accepted pits: %d more" % len(two),
        "The last clause of the sentence is of two certificates, and is the contract of `accepted_pits_are_nested`. The last of "
        "these definitions is `AcceptedAreNested`.",
        two,
    )
    lines += part(
        sources,
        "A `REFUSED` and a fault: %d more" % len(rest),
        "Whoever asks why a certificate was refused reads these too.",
        rest,
    )
    lines += part(
        sources,
        "A `BOUND`: %d more" % len(own),
        BOUND_WORDS % (len(bound.definitions), len(bound.definitions) - len(own))
        + "\n\n"
        + "\n".join(shown("bound_engine", BOUNDS, bounding)).rstrip(),
        own,
    )
    every.types |= bound.types | nested.types
    every.library |= bound.library | nested.library
    return "\n".join(lines + leaves(sources, every))


ENGINE = "crates/check_engines/src/checking_engine.rt"
BOUNDS = "crates/bound_engines/src/bounding_engine.rt"
BOUND_WORDS = """Whoever relies on a bound on the worth of every feasible schedule has to believe %d definitions: %d of those above, and these.
The last but those of its line is `IsBounded`."""
HEAD_WORDS = """`tools/statement.py` wrote this page from the sources, and the tests compare it. It has every definition on which an answer of
`pit check` or a bound on schedules rests, and no other. A file stands after those it uses.

Whoever relies on an `ACCEPTED` has to believe that these definitions say what [DEFINITIONS.md](DEFINITIONS.md) says in words.
That the code meets them is proved. A set of blocks is a test, a text is a list of bytes, and a worth is a whole number of
billionths."""


def main():
    text = page(Sources(TOP))
    if sys.argv[1:] == ["--check"]:
        return 0 if PAGE.exists() and PAGE.read_text(encoding="utf-8") == text else 1
    if sys.argv[1:]:
        sys.exit(__doc__)
    PAGE.write_text(text, encoding="utf-8")
    return 0


if __name__ == "__main__":
    sys.exit(main())

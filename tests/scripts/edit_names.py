"""Tests of what edits name, without the prover: each file is there, each `old:` text stands in it once, and each
function that a `# function:` line names stands in the crate, under that name. In the gate a stale name is found after
an hour of proofs, and here in a second.
"""
import re
import tempfile
from pathlib import Path
from types import SimpleNamespace

import tree
from edits import functions, must_fail, planted

DERIVED = re.compile(
    r"#\[derive\(([^)]*)\)\]\s*(?:///[^\n]*\s*|#\[[^\n]*\s*)*(?:pub(?:\([^)]*\))? )?(?:struct|enum) (\w+)"
)
DECLARED = re.compile(r"^(?:pub(?:\([^)]*\))? )?(?:struct|enum|union|trait|type) (\w+)", re.M)
MACRO = re.compile(r"^macro_rules! *(\w+)", re.M)


def known_in(crate):
    """The functions of a crate as a check names them: those of modules, methods under the module of their type, and those
    of a trait also under the module of the `impl`. One that a macro writes stands in the macro, for whichever type.
    """
    texts = {
        file.stem: file.read_text(encoding="utf-8") for file in (crate.folder / "src").glob("*.rt")
    }
    homes = {name: module for module, text in texts.items() for name in DECLARED.findall(text)}
    found, of_macros = set(), set()
    for module, text in texts.items():
        for traits, name in DERIVED.findall(text):
            found |= {
                (module, name + trait.strip().rpartition("::")[2], None)
                for trait in traits.split(",")
            }
        for head in functions.HEAD.finditer(text):
            function = functions.function_at(text, head.end(), module)
            around, _, name = function.path.rpartition("::") if function else (module, "", head[2])
            if around == module:
                found.add((module, None, name))
            else:
                own = max(
                    (home for home in homes if around.startswith(home)), key=len, default=None
                )
                home = homes.get(own, module)
                found |= {(it, around, name) for it in {home, home if around == own else module}}
        for at in MACRO.finditer(text):
            end = re.compile(r"^\}", re.M).search(text, at.end())
            of_macros |= {
                head[2]
                for head in functions.HEAD.finditer(text[at.end() : end.start() if end else None])
            }
    return texts, found, of_macros


def wrong_name(path, known):
    """What is wrong with the name of a function, or None."""
    texts, found, of_macros = known
    *modules, name = path.split("::")
    module, around = (modules + [None, None])[:2]
    if module is None:  # of the root itself
        module = next((root for root in ("lib", "main") if root in texts), None)
    if module not in texts or len(modules) > 2:
        return "there is no %s: src/%s.rt isn't there" % (path, module)
    if (module, around, name) in found or (module, around, None) in found:
        return None
    if name in of_macros and (around is None or any(it[:2] == (module, around) for it in found)):
        return None
    others = sorted("::".join(filter(None, it)) for it in found if it[2] == name)
    return "the crate has no %s%s" % (path, "; it has " + ", ".join(others) if others else "")


def wrong_of(edit, known):
    """What is wrong with an edit by its text alone."""
    try:
        edit.texts()
    except must_fail.BadEdit as bad:
        yield str(bad)
    for path in re.findall(r"^# function: *(.*?)\s*$", edit.text, re.M):
        wrong = wrong_name(path, known)
        if wrong:
            yield wrong


def wrong_in(crate):
    """What is wrong with the edits of a crate, a line each, and how many edits it has."""
    known, edits = known_in(crate), [
        *must_fail.edits_in(crate),
        *planted.planted_in(crate).values(),
    ]
    return [(edit.label, wrong) for edit in edits for wrong in wrong_of(edit, known)], len(edits)


SOURCE = """pub struct Board<G> { of: G }

impl<G: Group> Board<G> {
    pub fn most(&self) -> u64 {
        17
    }
}

impl fmt::Display for Board<u64> {
    fn fmt(&self, f: &mut fmt::Formatter<'_>) -> fmt::Result {
        Ok(())
    }
}

pub fn first_of(n: u64) -> u64 {
    n + 1
}
"""
ELSEWHERE = """use crate::board::Board;

impl<G: Group> Board<G> {
    pub(crate) fn turn(&mut self) -> bool {
        true
    }
}
"""
RIGHT = (
    "board::first_of",
    "board::Board::most",
    "board::BoardDisplay::fmt",
    "board::Board::turn",
)
WRONG = (
    "boards::first_of",
    "board::last_of",
    "board::Board::fmt",
    "board::BoardDisplay::most",
    "moves::Board::turn",
    "board::Display::fmt",
    "board::most",
    "board::Boards::most",
    "first_of",
)


def small_example():
    """Whether right names pass and wrong ones don't, in a crate of two files; and what was said of each."""
    with tempfile.TemporaryDirectory(prefix="pit-names-") as room:
        crate = SimpleNamespace(name="small", folder=Path(room))
        for name, text in (("board", SOURCE), ("moves", ELSEWHERE)):
            file = crate.folder / "src" / (name + ".rt")
            file.parent.mkdir(exist_ok=True)
            file.write_text(text)
        (crate.folder / "edits").mkdir()

        def said(name, file="src/board.rt", old="n + 1"):
            text = "# function: %s\nfile: %s\nold: %s\nnew: n\n" % (name, file, old)
            (crate.folder / "edits" / "one.edit").write_text(text)
            return wrong_in(crate)[0]

        passed = [not said(name) for name in RIGHT] + [bool(said(name)) for name in WRONG]
        passed += [
            bool(said(RIGHT[0], **change))
            for change in ({"file": "src/no.rt"}, {"old": "fn "}, {"old": "n + 2"})
        ]
    return passed


def test(top):
    """Gives how many crates' edits name what stands in them, and how many don't."""
    passed, failed, counted = 0, 0, 0
    for crate in tree.read_crates().values():
        wrong, count = wrong_in(crate)
        for label, why in wrong:
            print("%s: %s" % (label, why))
        passed, failed, counted = passed + (not wrong), failed + bool(wrong), counted + count
    example = small_example()
    if not all(example):
        print(
            "of the small example's names these were judged wrongly: %s"
            % [i for i, well in enumerate(example) if not well]
        )
    return passed + all(example), failed + (not all(example)) + (counted == 0)

"""Tests of this repository's own scripts, on a repository of one small crate that is made for them; of the version that the program tells;
and of the pages."""
import os
import re
import shutil
import subprocess
import sys
import tempfile
from contextlib import redirect_stdout
from pathlib import Path
from unittest.mock import patch

import files_page
import manual
import statement
from edits import edit_groups, must_fail
from pages import examples, imports, pages, site

CODE = """//! A crate for the tests of the scripts.
#![tactic(auto)]

ghost use Rattle.std.specs.Prelude.{◌≡◌, ◌+◌, ◌<◌, ◌^◌};

/// The number after n.
pub fn next(n: u64) -> u64
    requires { n + 1 < 2 ^ 64 }
    ensures { result ≡ n + 1 }
{
    n + 1
}

/// The number after the next.
pub fn second(n: u64) -> u64
    requires { n + 2 < 2 ^ 64 }
    ensures { result ≡ n + 2 }
{
    let m = next(n);
    next(m)
}

/// The number before n.
pub fn before(n: u64) -> u64
    requires { 0 < n }
    ensures { result + 1 ≡ n }
{
    n - 1
}

/// A number of no matter what size.
pub fn some_number() -> u64 {
    7
}

/// The number three after n.
pub fn third(n: u64) -> u64
    requires { n + 3 < 2 ^ 64 }
    ensures { result ≡ n + 3 }
{
    n + 3
}
"""
# An answer that fits no other code, though it be right.
OF_THIRD = """use Rattle.std.specs.Prelude.{◌+◌}
use Rattle.small.proofs.third.Goals as goal

pub returns : goal.returns
returns c = λ _. c.args.n + 3
"""
REFUSED = "file: src/lib.rt\nold:     n + 1\nnew:     n\n"
ACCEPTED = "file: src/lib.rt\nold:     7\nnew:     8\n"
OF_SECOND = "# function: second\nfile: src/lib.rt\nold:     next(m)\nnew:     m + 1\n"
OF_BEFORE = "# function: before\nfile: src/lib.rt\nold:     n - 1\nnew:     n\n"
STALE = "file: src/lib.rt\nold:     9\nnew:     8\n"
NEXT, SOME = "# function: next\n", "# function: some_number\n"
MAIN = """//! A program for the tests of the scripts.
#![tactic(auto)]

fn main(rt: HostRuntime) -> std::process::ExitCode {
    let _ = rt.println("ACCEPTED");
    std::process::ExitCode::SUCCESS
}
"""


def repository(top, room):
    """A repository with this one's scripts, a library `small` and a program `pit`."""
    tree = Path(room) / "repository"
    scripts = [
        file.relative_to(top)
        for pattern in ("tests/*/*.py", "tools/*.py")
        for file in top.glob(pattern)
    ]
    shared = [
        file.relative_to(top)
        for file in (top / "python" / "pitplan").rglob("*.py")
        if file.name in ("__init__.py", "public_names.py", "machine.py")
    ]
    for file in ("build", "run-example", "tests/run", *scripts, *shared):
        (tree / file).parent.mkdir(parents=True, exist_ok=True)
        shutil.copy(top / file, tree / file)
    (tree / "crates.txt").write_text("small:\npit: small\n")
    write(tree, "small/src/lib.rt", CODE)
    write(tree, "small/proofs/third/Answers.antt", OF_THIRD)
    write(tree, "pit/src/main.rt", MAIN)
    write(tree, "pit/stdout", "ACCEPTED\n")
    (tree / "examples" / "copper").mkdir(parents=True)
    return tree


def write(tree, name, text):
    file = tree / "crates" / name
    file.parent.mkdir(parents=True, exist_ok=True)
    file.write_text(text)


def ran(tree, *words):
    done = subprocess.run(
        [str(tree / words[0]), *words[1:]],
        cwd=tree,
        stdin=subprocess.DEVNULL,
        stdout=subprocess.PIPE,
        stderr=subprocess.STDOUT,
        text=True,
        errors="replace",
    )
    return done.returncode, done.stdout


def refused_edits_pass(tree):
    write(tree, "small/planted.edits", "edit: the_number_itself\n" + REFUSED)
    status, said = ran(tree, "tests/run", "--planted", "small")
    return (
        status == 0
        and "small/the_number_itself: refused: " in said
        and said.endswith("1 passed, 0 failed\n"),
        said,
    )


def an_accepted_edit_fails(tree):
    """Beside those of a function that the entry names, or that is found by the line that it changes."""
    entries = {
        "the_number_itself": REFUSED,
        "harmless": ACCEPTED,
        "stale": STALE,
        "of_next": NEXT + REFUSED,
        "of_another": SOME + REFUSED,
    }
    write(
        tree, "small/planted.edits", "\n".join("edit: %s\n%s" % entry for entry in entries.items())
    )
    status, said = ran(tree, "tests/run", "--planted")
    is_told = "small/harmless: ACCEPTED" in said and "small/stale: cannot be tried" in said
    is_told = (
        is_told
        and "small/of_next: refused: " in said
        and "small/of_another: refused by the whole crate" in said
    )
    return status == 1 and is_told and said.endswith("3 passed, 2 failed\n"), said


def named_edits_are_tried_alone(tree):
    """Those of one name, over the edits of the tests above: harmless is accepted, and not tried here."""
    status, said = ran(tree, "tests/run", "--planted", "small/the_number_itself")
    unknown, told = ran(tree, "tests/run", "--planted", "small/nothing")
    return (status, unknown) == (0, 1) and said.endswith(
        "1 passed, 0 failed\n"
    ) and "no such edit: small/nothing" in told, said + told


def an_edit_is_tried_without_an_answer_for_other_code(tree):
    """What is right is accepted then, and what is wrong is refused by its goal."""
    write(
        tree,
        "small/planted.edits",
        "edit: wrong\nfile: src/lib.rt\nold:     n + 3\nnew:     n + 2\n\n"
        "edit: right\nfile: src/lib.rt\nold:     n + 3\nnew:     3 + n\n",
    )
    status, said = ran(tree, "tests/run", "--planted", "small")
    wanted = (
        "small/wrong: refused, also without `returns`: note: src/lib.rt:",
        "small/right: ACCEPTED without `returns`",
    )
    return (
        status == 1 and all(it in said for it in wanted) and said.endswith("1 passed, 1 failed\n"),
        said,
    )


def edits_are_tried_by_their_function(tree):
    for name, text in {
        "of_next": NEXT + REFUSED,
        "of_another": SOME + REFUSED,
        "harmless": SOME + ACCEPTED,
        "unnamed": REFUSED,
        "stale": NEXT + STALE,
        "nowhere": "# function: nobody\n" + REFUSED,
        "unreadable": NEXT + REFUSED.replace("new:     n", "new:     nobody"),
    }.items():
        write(tree, "small/edits/%s.edit" % name, text)
    status, said = ran(tree, "tests/run", "--edits", "small")
    wanted = [
        "of_next: refused: ",
        "of_another: refused by the whole crate, and not by some_number",
        "harmless: ACCEPTED",
        "unnamed: cannot be tried",
        "stale: cannot be tried",
        "unreadable: cannot be tried",
        "nowhere: cannot be tried",
    ]
    shutil.rmtree(tree / "crates/small/edits")
    return (
        status == 1
        and all("small/" + it in said for it in wanted)
        and said.endswith("2 passed, 5 failed\n"),
        said,
    )


# Tries the edits of `small` as if no function called another.
BY_ONE_CHECK = """import sys
sys.path[:0] = ["tools", "tests"]
from edits import edit_groups, must_fail
edit_groups.calls = lambda text, body: False
print("%d passed, %d failed" % must_fail.try_all(["small"]))
"""


def edits_of_several_functions_are_tried_by_one_check(tree):
    """Where none calls another; and where one does that nothing in its text tells of, each by the goals of its own function:
    what is harmless isn't refused for what it calls."""
    for name, text in {
        "of_next": NEXT + REFUSED,
        "harmless": OF_SECOND,
        "of_before": OF_BEFORE,
    }.items():
        write(tree, "small/edits/%s.edit" % name, text)
    _, apart = ran(tree, "tests/run", "--edits", "small")
    _, together = ran(tree, sys.executable, "-c", BY_ONE_CHECK)
    wanted = [
        "small/of_next: refused: note: src/lib.rt:7",
        "small/of_before: refused: note: src/lib.rt:2",
        "small/harmless: ACCEPTED",
    ]
    shutil.rmtree(tree / "crates/small/edits")
    return (
        "3 edits, by 2 checks" in apart
        and "3 edits, by 1 check," in together
        and all(it in said for it in wanted for said in (apart, together))
        and all(said.endswith("2 passed, 1 failed\n") for said in (apart, together)),
        apart + together,
    )


def a_build_says_what_it_proved(tree):
    status, said = ran(
        tree, "build", "--anew"
    )  # an earlier run of the tests may have proved the same
    again, nothing = ran(tree, "build")
    return (
        status == 0
        and "[ 1/2] small" in said
        and "functions proved" in said
        and (again, nothing) == (0, ""),
        said + nothing,
    )


def a_failed_proof_fails_the_example(tree):
    write(tree, "small/src/lib.rt", CODE.replace("    n + 1\n", "    n\n"))
    status, said = ran(tree, "run-example")
    return (
        status != 0
        and "small NOT PROVED" in said
        and "logic=not-proved" in said
        and "ACCEPTED" not in said,
        said,
    )


def version_is_up_to_date(top):
    """Whether `pit --version` tells the changelog's newest version and the logic of the kit that is installed, and pitplan that version."""
    kit = subprocess.run(
        ["rt", "version"], stdin=subprocess.DEVNULL, stdout=subprocess.PIPE, text=True
    ).stdout
    logic = kit[kit.index("logic ") :].strip()
    newest = re.search(r"^## (\S+)", (top / "CHANGELOG.md").read_text(), re.M)[1]
    told = re.search(
        r'VERSION: &str = "([^"]*)"', (top / "crates/command_line/src/version.rt").read_text()
    )[1]
    wanted = "%s\n%s" % (newest, logic)
    case = (top / "tests/cases/usage/version/stdout").read_text()
    planner = re.search(
        r'^__version__ = "([^"]*)"', (top / "python/pitplan/__init__.py").read_text(), re.M
    )[1]
    well = (
        told == wanted
        and planner == newest
        and case == "pit %s\n" % wanted
        and "`%s`" % logic in (top / "README.md").read_text()
    )
    return (
        well,
        "version.rt has %r, pitplan %r, usage/version has %r, wanted is %r, in README too"
        % (told, planner, case, wanted),
    )


def pages_are_right(top):
    """Whether all links of the pages lead somewhere, what they name is in the code, no sentence or page is too long, and none names a path of a machine;
    and whether crates/FILES.md is what the heads of the files say."""
    wrong = (
        pages.broken_links(top)
        + pages.unknown_names(top)
        + pages.misplaced_crates(top)
        + pages.wrong_options(top)
        + pages.wrong_counts(top)
        + pages.long_sentences(top)
        + pages.long_pages(top)
        + pages.machine_paths(top)
        + files_page.differences(top)
    )
    return not wrong, "\n".join(wrong)


def the_manual_is_right(top):
    """Whether the manual is made of the pages without a warning, leads everywhere that its links say, and has each page and each public name."""
    try:
        files = manual.made("0", 0)
    except manual.NoManual as error:
        return False, str(error)
    wrong = site.broken(files) + site.unreached(files) + site.missing(files, manual.pages(), top)
    return not wrong, "\n".join(wrong)


def examples_are_right(top):
    """Whether each library has an example, whose block stands in a test or a case that it names."""
    wrong = examples.wrong_examples(top)
    return not wrong, "\n".join(wrong)


SHOWN = """//! A library.
//!
//! An example: so. Tried by way of `next`, in `some_tests/src/a.rt`; and in `tests/cases/kind/first` and `second`.
//!
//! ```rust
//! let n = next(1);
//! assert!(rt; n == 2);
//! ```
//!
//! ```text
//! NEXT 2
//!
//! 0 1
//! ```
"""


def wrong_examples_are_told(tree):
    """Whether a library without an example is told, one with a line that is changed or out of order, and one whose file isn't there; and
    none where lines are left out, or where a case has a file that lies elsewhere."""
    room = tree / "shown"
    files = {
        "crates/some_tests/src/lib.rt": "//! Tests alone.\n",
        "crates/some_tests/src/a.rt": "    let n = next(1);\n    n;\n    assert!(rt; n == 2);\n",
        "tests/cases/kind/first/words": "next\n",
        "tests/cases/kind/first/stdout": "NEXT 2\n",
        "tests/cases/kind/second/words": "next\n",
        "tests/cases/kind/second/same-as": "u ../../u\n",
        "tests/cases/u": "0 1\n",
        "crates/right/src/lib.rt": SHOWN,
        "crates/changed/src/lib.rt": SHOWN.replace("n == 2", "n == 3").replace("NEXT 2", "NEXT 3"),
        "crates/turned/src/lib.rt": SHOWN.replace("let n", "assert!(rt; n == 2);\n//! let n"),
        "crates/gone/src/lib.rt": SHOWN.replace("a.rt", "b.rt").replace("second", "third"),
        "crates/bare/src/lib.rt": "//! A library.\n",
    }
    for name, text in files.items():
        (room / name).parent.mkdir(parents=True, exist_ok=True)
        (room / name).write_text(text)
    told = examples.wrong_examples(room)
    shutil.rmtree(room)
    wanted = [
        "bare has no example that says where it is tried",
        "changed: no file that it names has the lines of let n = next(1);",
        "changed: no file that it names has the lines of NEXT 3",
        "gone: there is no %s" % (room / "crates/some_tests/src/b.rt"),
        "gone: there is no %s" % (room / "tests/cases/kind/third"),
        "gone: no file that it names has the lines of let n = next(1);",
        "gone: no file that it names has the lines of 0 1",
        "turned: no file that it names has the lines of assert!(rt; n == 2);",
    ]
    return told == wanted, "\n".join(told)


def wrong_manuals_are_told(tree):
    """Whether a link to no file or place is told, a page that nothing leads to, what comes by the network, and what isn't there."""
    first = '<a href="b.html#here">b</a> <a href="gone.html">c</a> <a href="#left">d</a> <a href="https://x.example/">e</a> <p id="up">'
    files = {
        "index.html": first.encode(),
        "b.html": b'<p id="here"><script src="https://x.example/y.js"></script><a href="b.html#there">f</a>',
        "lost.html": b"<img src='no.png'>",
    }
    room = tree / "manual"  # with a door of its own alone
    door = room / "python" / "pitplan" / "some" / "__init__.py"
    door.parent.mkdir(parents=True)
    door.write_text("    from .one import (\n        Two as Two,\n    )\n")
    told = (
        site.broken(files) + site.unreached(files) + site.missing(files, [Path("docs/A.md")], room)
    )
    wanted = [
        "index.html: no file gone.html",
        "index.html: no place #left",
        "b.html loads https://x.example/y.js",
        "b.html: no place b.html#there",
        "lost.html: no file no.png",
        "no way leads to lost.html",
        "docs/A isn't there",
        "pitplan.some.Two has no place in the reference",
    ]
    shutil.rmtree(room)
    return sorted(told) == sorted(wanted), "\n".join(told)


def wrong_pages_are_told(tree):
    """Whether a page is told that links to no file or heading, or names what the code hasn't, or hasn't there."""
    write(tree, "small/specs/Small.antt", "pub record IsNext : Type 0 where\n")
    write(
        tree,
        "README.md",
        "### 1. Low\n\n| `pit` | a program |\n\n### 2. High\n\n| `small` | a library |\n",
    )
    (tree / "docs").mkdir()
    (tree / "docs" / "PROOFS.md").write_text(
        "# Right\n\n[a](#right) [b](../crates/README.md#1-low) [c](gone.md) [d](#left)\n\n"
        "`next`, `IsNext` in `Small.antt`; `nothing_so`, `some_number` in `Small.antt`, `Gone.antt`\n"
        "`small::next`, `engines::next`\n"
    )
    (tree / "CONTRIBUTING.md").write_text(
        "`crates/small/src`, `crates/left`, `run-example`, `left_options`\n"
    )
    told = pages.broken_links(tree) + pages.unknown_names(tree) + pages.misplaced_crates(tree)
    wanted = [
        "no file gone.md",
        "no heading #left",
        "there is no nothing_so",
        "there is no Gone.antt",
        "there is no engines::next",
        "there is no crates/left",
        "there is no left_options",
        "next isn't defined",
        "nothing_so isn't defined",
        "some_number isn't defined",
        "pit isn't there, or below",
    ]
    return len(told) == len(wanted) and all(
        sum(one in said for said in told) == 1 for one in wanted
    ), "\n".join(told)


def wrong_options_are_told(tree):
    """Whether an option is told that the table lacks, one that there isn't, a file without what is in it, and what isn't in that file; and
    a wrong number of edits."""
    room = tree / "options"
    row = "| `--%s` | `%s` in `a.rt` | off | %s | none |\n"
    files = {
        "crates.txt": "command_line:\n",
        "crates/command_line/src/a.rt": 'pub(crate) const ONE_HELP: &str = "one";\nfn help() {\n'
        '    named_option(\n        alloc,\n        "one", ONE_HELP);\n    arg.long("two-words");\n    number_option(alloc, "left");\n',
        "crates/README.md": "### 8. High\n\n| `command_line` | a library |\n\n"
        + row % ("one", "ONE_HELP", "`help` in `a.rt`")
        + row % ("two-words", "TWO_HELP", "of `a.rt`")
        + row % ("gone", "help", "no value"),
        "crates/command_line/edits/a": "",
        "crates/command_line/planted.edits": "edit: a\n\nedit: b\n",
        "docs/ASSURANCE.md": "| `crates/NAME/edits/` | 1 edits | `crates/NAME/planted.edits` | 3 others |\n",
    }
    for name, text in files.items():
        (room / name).parent.mkdir(parents=True, exist_ok=True)
        (room / name).write_text(text)
    told = pages.wrong_options(room) + pages.unknown_names(room) + pages.wrong_counts(room)
    shutil.rmtree(room)
    wanted = [
        "crates/README.md lacks --left",
        "crates/README.md has --gone, which is no option",
        "crates/README.md names a file at --two-words and not what is in it",
        "README.md: TWO_HELP isn't defined in a.rt",
        "docs/ASSURANCE.md lacks: `crates/NAME/planted.edits` | 2 others",
    ]
    return sorted(told) == sorted(wanted), "\n".join(told)


def a_wrong_page_of_files_is_told(tree):
    """Whether the page of files has the first sentence of each head, also where a stop is within code, and says where it is of other
    heads, has a file that is gone, lacks one, and which file has no sentence."""
    room = tree / "files"
    files = {
        "crates/README.md": "### 1. Low\n\n| `low` | a library |\n\n### 2. High\n\n| `high` | a program |\n\n### None\n",
        "crates/low/src/lib.rt": "//! Low, with\n//! more. Not told.\n\nmod one;\n",
        "crates/low/src/one.rt": "//! Takes `a. b` | c.\n\nfn f() {}\n",
        "crates/high/src/main.rt": "//! High.\n",
        "crates/high/src/gone.rt": "//! Gone\n//! soon.\n",
    }
    for name, text in files.items():
        (room / name).parent.mkdir(parents=True, exist_ok=True)
        (room / name).write_text(text)
    (room / files_page.PAGE).write_text(files_page.page(room))
    rows = (room / files_page.PAGE).read_text().partition("## 1. Low")[2]
    right = files_page.differences(room)
    (room / "crates/low/src/one.rt").write_text("//! Takes `a. b` alone.\n")
    (room / "crates/high/src/gone.rt").rename(room / "crates/high/src/come.rt")
    (room / "crates/high/src/bare.rt").write_text("fn g() {}\n")
    told = files_page.differences(room)
    shutil.rmtree(room)
    wanted_rows = (
        "\n\n| [`low`](low/src/lib.rt) | Low, with more |\n|---|---|\n| [one.rt](low/src/one.rt) | Takes `a. b` \\| c |\n\n"
        "## 2. High\n\n| [`high`](high/src/main.rt) | High |\n|---|---|\n| [gone.rt](high/src/gone.rt) | Gone soon |\n"
    )
    wanted = [
        "crates/high/src/bare.rt has no sentence at its head",
        "crates/FILES.md has: | [one.rt](low/src/one.rt) | Takes `a. b` \\| c |",
        "crates/FILES.md lacks: | [one.rt](low/src/one.rt) | Takes `a. b` alone |",
        "crates/FILES.md has: | [gone.rt](high/src/gone.rt) | Gone soon |",
        "crates/FILES.md lacks: | [bare.rt](high/src/bare.rt) |  |",
        "crates/FILES.md lacks: | [come.rt](high/src/come.rt) | Gone soon |",
    ]
    return (right, rows, told) == ([], wanted_rows, wanted), "\n".join([*right, rows, *told])


def long_pages_are_told(tree):
    """Whether a sentence of 41 words is told, and none of 40, of code or of a quotation; and a page of too many words, or with a path of a
    machine."""
    text = "Is %s.\n\n> %s\n\n    %s\n\n| %s; %s |\n\nIs %s\n%s.\n" % (
        ("so " * 39).strip(),
        "so " * 50,
        "so " * 50,
        "so " * 30,
        "so " * 30,
        ("so " * 20).strip(),
        ("so " * 20).strip(),
    )
    (tree / "docs").mkdir(exist_ok=True)
    (tree / "docs" / "DECISIONS.md").write_text(text + "\n\n".join(["So."] * 4_500))
    (tree / "docs" / "GATE.md").write_text(
        "As in /home/somebody/log, and in `docs/tmp/x` or https://example.org/home/y.\n"
    )
    told = (
        [one for one in pages.long_sentences(tree) if "DECISIONS" in one]
        + pages.long_pages(tree)
        + pages.machine_paths(tree)
    )
    for name in ("DECISIONS.md", "GATE.md"):
        (tree / "docs" / name).unlink()
    return len(told) == 3 and "of 41 words" in told[0] and "at most 4500" in told[
        1
    ] and "names /home/somebody/log" in told[2], "\n".join(told)


def the_statement_is_of_the_sources(top):
    """Whether docs/STATEMENT.md is what tools/statement.py writes from the definitions as they are."""
    said = subprocess.run(
        [sys.executable, top / "tools" / "statement.py", "--check"],
        stdin=subprocess.DEVNULL,
        stdout=subprocess.PIPE,
        stderr=subprocess.STDOUT,
        text=True,
    )
    return (
        said.returncode == 0,
        "docs/STATEMENT.md is of other definitions; try: tools/statement.py\n" + said.stdout,
    )


def a_statement_has_what_it_rests_on(top, tree):
    """Whether a definition is reached through a file that hands names on, by an alias and by a constructor, and no other is."""
    write(tree, "small/specs/Lib.antt", "pub mod Low\npub mod High\npub mod Prelude\n")
    write(
        tree,
        "small/specs/Low.antt",
        "use Rattle.std.specs.Prelude.{List}\n-- a size\nabbrev pub size : List -- unused\nsize = 1\n\nabbrev pub other : List\nother = 2\n"
        "pub data Kind : Type 0 where\n  plain : Kind\n",
    )
    write(tree, "small/specs/Prelude.antt", "pub use Rattle.small.specs.Low.{size, other}\n")
    write(
        tree,
        "small/specs/High.antt",
        "use Rattle.small.specs.Low as low\nuse Rattle.small.specs.Low.{plain}\ninfixl 10 ◌>>=◌\nabbrev pub ◌>>=◌ : List\na >>= b = 1\n\nabbrev pub top : List\ntop = do\n  x ← low.other plain\n  x\n\nabbrev pub unused : List\nunused = 3\n",
    )
    (tree / "crates.txt").write_text("small:\n")
    sources = statement.Sources(tree)
    through = statement.cone_of(
        sources,
        "size top",
        statement.Module(
            tree,
            names={"size": ("small.specs.Prelude", "size"), "top": ("small.specs.High", "top")},
        ),
    )
    return {name for _, name in through.definitions} == {
        "size",
        "top",
        "other",
        "Kind",
        "◌>>=◌",
    } and through.library == {"List"}, str(through)


def a_statement_wants_words_of_each(top, tree):
    """Whether a definition is told that has no comment of its own: be it behind another's, or right below that of the file."""
    write(tree, "small/specs/Lib.antt", "pub mod Low\npub mod High\n")
    write(
        tree,
        "small/specs/Low.antt",
        "-- what the file is about\nabbrev pub low : List\nlow = 1\n\n-- two of a kind\npub record Two : Type 0 where\n"
        "  pub one : List\n\npub record Bare : Type 0 where\n  pub one : List\n",
    )
    write(
        tree,
        "small/specs/High.antt",
        "-- what the file is about\n\n-- a kind\npub data Kind : Type 0 where\n  plain : Kind\n\n"
        "pub data Other : Type 0 where\n  other : Other\n\n-- far above\n\nunfoldable pub high : List\nhigh = 2\n",
    )
    (tree / "crates.txt").write_text("small:\n")
    sources = statement.Sources(tree)
    told = statement.wordless(
        sources, [it for one in sources.modules.values() for it in one.definitions.values()]
    )
    return told == [
        "crates/small/specs/%s: %s has no words of its own above it" % one
        for one in (
            ("High.antt:7", "Other"),
            ("High.antt:12", "high"),
            ("Low.antt:2", "low"),
            ("Low.antt:9", "Bare"),
        )
    ], "\n".join(told)


def a_page_without_words_is_refused(top, tree):
    """Whether no page is made where a definition that it shows has lost its words."""
    unread = shutil.ignore_patterns("out", "proofs", "must-fail", "tests", "data")
    shutil.copytree(top / "crates", tree / "crates", ignore=unread)
    shutil.copy(top / "crates.txt", tree)
    file = tree / "crates/upit_file/specs/Body.antt"
    lines = file.read_text().split("\n")
    place = next(
        at for at, line in enumerate(lines) if line.startswith("abbrev pub has_value_record :")
    )
    file.write_text("\n".join(lines[: place - 1] + lines[place:]))
    try:
        said = statement.page(statement.Sources(tree))[:1000]
    except SystemExit as refusal:
        said = str(refusal)
    return (
        said
        == "crates/upit_file/specs/Body.antt:%d: has_value_record has no words of its own above it"
        % place,
        said,
    )


def imports_are_right(top):
    """Whether each file takes the names of a crate's specs from one file, and uses them; and no clause is too wide."""
    wrong = imports.scattered(top) + imports.unused(top) + imports.unused_code(top)
    wrong += imports.wide_clauses(top)
    return not wrong, "\n".join(wrong)


def scattered_imports_are_told(tree):
    """Whether a file is told that takes names of a crate from two files of its specs; and none for variants, or in those specs."""
    write(
        tree,
        "small/proofs/Told.antt",
        "use Rattle.small.specs.Prelude.{IsNext}\nuse Rattle.small.specs.Small.{IsNext}\n",
    )
    write(
        tree,
        "small/proofs/Right.antt",
        "use Rattle.small.specs.Prelude.{IsNext}\nuse Rattle.small.specs.declared.T.TheVariants.{A}\n"
        "use Rattle.std.specs.Prelude.{List}\nuse Rattle.std.specs.List.{All}\n",
    )
    for name in ("Prelude", "Small", "Other"):
        write(tree, "small/specs/%s.antt" % name, "")
    write(
        tree,
        "small/specs/Next.antt",
        "use Rattle.small.specs.Small.{IsNext}\nuse Rattle.small.specs.Other.{other}\n",
    )
    return imports.scattered(tree) == [
        "crates/small/proofs/Told.antt: names of small come from Prelude, Small"
    ], "\n".join(imports.scattered(tree))


# What the prover printed where a proof names a goal or a value that is gone: a long message goes on over lines.
GONE_GOAL = """./proofs/long_module/long_function/Answers.antt:4:15: error: `returns`: `goal.returns-then-long`
  module `Rattle.small.proofs.long_module.long_function.Goals`
  has no `returns-then-long` that can be named from here (names in it that begin alike: `returns`)
fn small::long_module::long_function: not proved
help: `Goals` has no `returns-then-long`; rattle asks for `returns`, `overflow_add-result`; a `use` line of it can name these places: `Start`
"""
GONE_VALUE = """./proofs/long_module/long_function/Answers.antt:5:28: error: `returns`: record `Rattle.small.proofs.long_module.long_function.Lts.Start`
  has no field `if-long`
  the fields that can be named here are `args`, `well_formed`, `ranges`, `requires`
./proofs/long_module/above/Answers.antt:4:5: error: 1 declaration that depends on `returns`, which was not admitted, was not checked: loop
"""
TWICE = "./proofs/next/Answers.antt:4:5: error: `returns`: `returns` is already a name of this module (a `use` line brings it)\n"
OTHER_TYPE = """./proofs/row/read_row/Answers.antt:33:134: error: `loop-preserved`: as printed, the two types differ only where one has `c.loop.column`
  (expected), right after `AreTaken c.args.columns.now`
  and the other has `(c.loop.column + 1)` (found)
"""
OPEN_GOAL = "note: src/lib.rt:107:128: it is not proved that what the function ensures holds when it returns (`returns`); `search` gave up at one of its limits\n"
UNREAD = "src/lib.rt:8:5: error: `nobody` is not in scope\n"
# What a check printed, and the beginning of what it is refused by, or of why that is nothing.
REFUSALS = (
    (GONE_GOAL, "it is refused for a name alone"),
    (GONE_VALUE, "it is refused for a name alone"),
    (GONE_GOAL + GONE_VALUE + TWICE, "it is refused for a name alone"),
    (GONE_VALUE + OPEN_GOAL + GONE_GOAL, OPEN_GOAL[:-1]),
    (OTHER_TYPE + GONE_VALUE, "./proofs/row/read_row/Answers.antt:33:134: error: `loop-preserved`"),
    (OTHER_TYPE + OPEN_GOAL, OPEN_GOAL[:-1]),
    (OPEN_GOAL + UNREAD, "the prover can't read the edited text"),
)


def unused_imports_are_told(tree):
    """Whether a name is told that a source takes for its contracts and doesn't use, an operator too, though a comment has its sign; one
    under another name isn't. A name within another is none."""
    write(
        tree,
        "small/src/lib.rt",
        "ghost use Rattle.std.specs.Prelude.{◌≡◌, ◌<◌, length, at as place};\n"
        "ghost use Rattle.small.specs.Small.{IsNext};\n\n"
        "// 1 < 2^27\nfn next() ensures { place ≡ length }\n",
    )
    write(
        tree,
        "small/proofs/Small.antt",
        "use Rattle.std.specs.Prelude.{◌≡◌, All, nat_lt}\nuse Rattle.small.specs.Small as small\n\n-- All\n"
        "lem : AllOf nat_lt' ≡ small.next\n",
    )
    own = ("crates/small/src/lib.rt", "crates/small/proofs/Small.antt")  # others left theirs
    told = [one for one in imports.unused(tree) if one.startswith(own)]
    wanted = ["nothing uses All", "nothing uses nat_lt", "nothing uses ◌<◌", "nothing uses IsNext"]
    return [one.split(": ")[1] for one in told] == wanted, "\n".join(told)


def imports_that_code_leaves_are_told(tree):
    """Whether a name is told that a source takes for its code and doesn't use, though a comment or a contract's import has it; a trait
    isn't, since its methods are called without its name."""
    write(
        tree,
        "small/src/lib.rt",
        "ghost use Rattle.small.specs.declared.size.Size.TheVariants as size;\n\n"
        "use other::{Kept, Left as Gone, Counted};\nuse other::Size;\n\n"
        "pub trait Counted {}\n// Size\nfn next(kept: Kept) {}\n",
    )
    told = [one for one in imports.unused_code(tree) if one.startswith("crates/small/src/lib.rt")]
    wanted = ["nothing uses Gone", "nothing uses Size"]
    return [one.split(": ")[1] for one in told] == wanted, "\n".join(told)


def wide_clauses_are_told(tree):
    """Whether a clause's line is told that is wider than 100 columns, one of its later lines too, and a line of a type's view or
    invariant; and nothing else that is as wide."""
    wide = "≡ " + "x" * 100
    write(
        tree,
        "small/src/lib.rt",
        f"// {wide}\nfn next()\n    requires few {{ a {wide} }}\n    ensures {{ a\n        {wide} }}\n{{\n    let a = {wide};\n}}\n    ghost view = {{ {wide} }};\n",
    )
    told = imports.wide_clauses(tree)
    return [one.split(":")[1] for one in told] == ["3", "5", "9"], "\n".join(told)


def refusals_are_read(top):
    """Whether a refusal by a goal, an open one first, is told from one for a name alone, and from a text that can't be read."""
    wrong = []
    for text, wanted in REFUSALS:
        try:
            said = must_fail.goal_refused(
                {"src/lib.rt": ""}, text.splitlines() + ["only=1 proved=0"]
            )
        except must_fail.BadEdit as bad:
            said = str(bad)
        wrong += (
            []
            if said.startswith(wanted)
            else ["%s\nin place of %s, for\n%s" % (said, wanted, text)]
        )
    return not wrong, "\n".join(wrong)


# What the prover printed of a check of several functions, and whether it refuses an edit of the body of `next` in src/row.rt, in lines 3 to 7.
OF_NEXT = (
    (
        "note: src/row.rt:5:9: it is not proved that what the function ensures holds when it returns (`returns`)",
        True,
    ),
    (
        "note: src/row.rt:8:9: it is not proved that what the function ensures holds when it returns (`returns`)",
        False,
    ),
    (
        "note: src/lib.rt:5:9: it is not proved that what the function ensures holds when it returns (`returns`)",
        False,
    ),
    (
        "./proofs/row/next/Answers.antt:4:5: error: `returns`: as printed, the two types differ",
        True,
    ),
    (
        "./proofs/row/next_but_one/Answers.antt:4:5: error: `returns`: as printed, the two types differ",
        False,
    ),
    ("./proofs/Rows.antt:4:5: error: `is_next`: as printed, the two types differ", False),
    (
        "./proofs/row/next/Answers.antt:4:5: error: 1 declaration that depends on `returns`, which was not admitted, was not checked: loop",
        False,
    ),
)


def goals_are_of_their_function(top):
    """Whether of several functions each has its own goals, by its lines or by the answers of its proof."""
    body = edit_groups.Body("src/row.rt", "row::next")
    wrong = [
        line for line, is_its in OF_NEXT if edit_groups.is_of(body, range(3, 8), line) != is_its
    ]
    return not wrong, "\n".join(wrong)


class OfCrate:
    """An edit as `must_fail.try_each` sees it, of which nothing is known but its crate."""

    def __init__(self, name):
        self.crate, self.label, self.work = self, name, None
        self.name = name

    def lines(self):
        return 1

    def changes(self):
        raise must_fail.BadEdit("it is tried by itself")


def folders_of(names, processes, **how):
    """The folders over which edits of crates with these names are tried, by crate, each with whether it was there; and the counts."""
    found = {}

    def verdict_of(edit):
        folder = Path(edit.work) if edit.work else None
        found.setdefault(edit.name, []).append((folder, bool(folder and folder.is_dir())))
        return True, edit.label

    with patch.object(must_fail, "processes", lambda: processes):
        with open(os.devnull, "w") as nowhere, redirect_stdout(nowhere):
            counts = must_fail.try_each(list(map(OfCrate, names)), verdict_of, **how)
    return found, counts


def work_is_kept_within_a_crate(top):
    """Whether the edits of a crate are tried over one folder, which is gone in the end, and those of another over another; of
    one crate over as many as there are processes."""
    kept, counts = folders_of("abcdeabcde", 4, keeps_work=True)
    alone, _ = folders_of("aaaa", 2, keeps_work=True)
    without, _ = folders_of("a", 4)
    folders = [{folder for folder, _ in those} for those in kept.values()]
    well = (
        counts == (10, 0)
        and [len(those) for those in folders] == [1] * 5
        and len(set.union(*folders)) == 5
        and all(there for those in kept.values() for _, there in those)
        and not any(folder.exists() for those in folders for folder in those)
        and len({folder for folder, _ in alone["a"]}) == 2
        and without == {"a": [(None, False)]}
    )
    return well, "%s\n%s\n%s" % (kept, alone, without)


OF_THIS_TREE = [
    version_is_up_to_date,
    pages_are_right,
    examples_are_right,
    the_manual_is_right,
    the_statement_is_of_the_sources,
    imports_are_right,
    refusals_are_read,
    goals_are_of_their_function,
    work_is_kept_within_a_crate,
]


TABLE = "x,y,z,value\n0,0,0,1\n20,0,0,-2.5\n"
# What is wrong with a table or the words behind it, and what csv_to_minelib.py has to say of it.
WRONG_TABLES = (
    (
        TABLE.replace("z,value", "z,value,value").replace("\n", ",3\n").replace("value,3", "value"),
        "mine",
        "the table has two columns 'value': which one counts?",
    ),
    (
        TABLE.replace("20,", "1e400,"),
        "mine",
        "block 1, row 2 below the header: x is '1e400', which is too far away",
    ),
    (TABLE, "nowhere/mine", "nowhere/mine.blocks: No such file or directory"),
    (
        TABLE.replace("-2.5", "\u0661"),
        "mine",
        "block 1, row 2 below the header: value is '\u0661', and has to be a plain decimal",
    ),
    (
        TABLE.replace("20,", "432037.5,"),
        "mine",
        "block 1, row 2 below the header: x is 432037.5, which is 21601.88 blocks of 20 above the lowest",
    ),
    (
        TABLE.replace("value", "Value"),
        "mine",
        "the table has no column value: its header line has x, y, z, Value; is 'Value' meant?",
    ),
    (
        TABLE.replace(",", "\t"),
        "mine",
        "the table has no column x: its header line has x\ty\tz\tvalue; are there commas or semicolons between the columns",
    ),
    (
        TABLE.replace("\n20", "\n\n20"),
        "mine",
        "block 1 is in line 4 of the table, and has to be in line 3: take blank lines",
    ),
    (
        TABLE.replace("z,value", 'z,value,"a\nname"')
        .replace("1\n", "1,\n")
        .replace("-2.5", "-2.5,"),
        "mine",
        "block 0 is in line 3 of the table, and has to be in line 2",
    ),
    (
        "made by hand\n" + TABLE,
        "mine",
        "block 0, row 1 below the header, has 4 cells, and the header line 1: is there a comma within a number, or a line above",
    ),
)


def told_of_a_table(top, folder, table, name):
    """Status, output and errors of csv_to_minelib.py, and what it wrote."""
    (folder / "t.csv").write_text(table, encoding="utf-8")
    done = subprocess.run(
        [
            sys.executable,
            str(top / "examples" / "csv_to_minelib.py"),
            "t.csv",
            "20",
            "20",
            "10",
            name,
        ],
        cwd=folder,
        stdin=subprocess.DEVNULL,
        stdout=subprocess.PIPE,
        stderr=subprocess.PIPE,
        encoding="utf-8",
        env=dict(os.environ, PYTHONIOENCODING="utf-8"),
    )
    texts = [
        (folder / (name + ending)).read_text() if (folder / (name + ending)).exists() else None
        for ending in (".blocks", ".upit")
    ]
    return done.returncode, done.stdout, done.stderr, texts


def tables_are_read_or_refused(top, folder):
    """Whether a table becomes two files, and each wrong one a sentence and none."""
    for table, name, wanted in WRONG_TABLES:
        status, said, errors, texts = told_of_a_table(top, folder, table, name)
        if (
            (status, said, texts) != (1, "", [None, None])
            or not errors.startswith(wanted)
            or errors.count("\n") != 1
        ):
            return False, "%r: status %d, %r, %r, %r" % (table, status, said, errors, texts)
    got = told_of_a_table(top, folder, TABLE, "mine")
    blocks, upit = (
        "0 0 0 0\n1 1 0 0\n",
        "NAME: mine\nTYPE: UPIT\nNBLOCKS: 2\nOBJECTIVE_FUNCTION:\n0 1\n1 -2.5\n",
    )
    return got == (0, "", "", [blocks, upit]), str(got)


# What draw_bench.py says of a certificate for two blocks that is none of them.
WRONG_CERTIFICATES = (
    ("UNSETTLED\n", "t.cert is no certificate: its first line is 'UNSETTLED'\n"),
    ("", "t.cert is no certificate: its first line is ''\n"),
    (
        "PITCERT 1\nBLOCKS 3\nPIT 2\n",
        "t.cert is of another model: it says 'BLOCKS 3', and there are 2 blocks\n",
    ),
)


def drawn(top, folder, blocks, certificate):
    """Status, output and errors of draw_bench.py."""
    (folder / "t.blocks").write_text(blocks)
    (folder / "t.cert").write_text(certificate)
    done = subprocess.run(
        [sys.executable, str(top / "examples" / "draw_bench.py"), "t.blocks", "t.cert"],
        cwd=folder,
        stdin=subprocess.DEVNULL,
        stdout=subprocess.PIPE,
        stderr=subprocess.PIPE,
        text=True,
    )
    return done.returncode, done.stdout, done.stderr


def wrong_drawings_are_refused(top, folder):
    """Whether a pit is drawn, and what is no certificate, of another model or no model of blocks is one sentence."""
    blocks = "0 0 0 0\n1 1 0 0\n"
    for certificate, wanted in WRONG_CERTIFICATES:
        got = drawn(top, folder, blocks, certificate)
        if got != (1, "", wanted):
            return False, "%r: %s" % (certificate, got)
    status, said, errors = drawn(top, folder, "id,x,y,z\n", "PITCERT 1\nBLOCKS 2\n")
    if (status, said) != (1, "") or not errors.startswith("t.blocks is no .blocks file"):
        return False, str((status, said, errors))
    got = drawn(top, folder, blocks, "PITCERT 1\nBLOCKS 2\nPIT 1\n")
    return got[0] == 0 and got[2] == "" and got[1].split("\n")[1].startswith(".#"), str(got)


def installs_where_the_caller_stands(top, folder):
    """Whether ./install FOLDER, called from elsewhere, takes a folder of the caller's. Its build is one that does nothing."""
    tree, caller = folder / "tree", folder / "caller"
    caller.mkdir()
    for name in (
        "install",
        "tools/launcher",
        "docs/pit.1",
        "completions/pit.bash",
        "completions/pit.zsh",
        "completions/pit.fish",
    ):
        (tree / name).parent.mkdir(parents=True, exist_ok=True)
        shutil.copy(top / name, tree / name)
    for name, text in (
        ("build", "#!/bin/sh\n"),
        ("out/pit", "the program"),
        ("python/packages", "python3-nowhere\n"),
    ):
        (tree / name).parent.mkdir(exist_ok=True)
        (tree / name).write_text(text)
        (tree / name).chmod(0o755)
    done = subprocess.run(
        [str(tree / "install"), "bin"],
        cwd=caller,
        stdin=subprocess.DEVNULL,
        stdout=subprocess.PIPE,
        stderr=subprocess.STDOUT,
        text=True,
    )
    well = (
        (caller / "bin" / "pit").exists()
        and not (tree / "bin").exists()
        and done.stdout.startswith("installed %s/bin/pit, which" % caller.resolve())
    )
    return done.returncode == 0 and well, done.stdout


# the build comes first: the copies in which edits are tried begin with what it made
CASES = [
    a_build_says_what_it_proved,
    an_edit_is_tried_without_an_answer_for_other_code,
    edits_are_tried_by_their_function,
    edits_of_several_functions_are_tried_by_one_check,
    refused_edits_pass,
    an_accepted_edit_fails,
    named_edits_are_tried_alone,
    a_failed_proof_fails_the_example,
    wrong_pages_are_told,
    wrong_examples_are_told,
    wrong_options_are_told,
    a_wrong_page_of_files_is_told,
    wrong_manuals_are_told,
    long_pages_are_told,
    scattered_imports_are_told,
    unused_imports_are_told,
    imports_that_code_leaves_are_told,
    wide_clauses_are_told,
]


def test(top):
    """Runs the tests, and gives how many passed and failed."""
    passed = failed = 0
    for case in (
        tables_are_read_or_refused,
        wrong_drawings_are_refused,
        installs_where_the_caller_stands,
        a_statement_has_what_it_rests_on,
        a_statement_wants_words_of_each,
        a_page_without_words_is_refused,
    ):
        with tempfile.TemporaryDirectory(prefix="pit-scripts-") as room:
            well, said = case(top, Path(room))
        if not well:
            print("%s: failed:\n%s" % (case.__name__, said))
        passed, failed = passed + well, failed + (not well)
    with tempfile.TemporaryDirectory(prefix="pit-scripts-") as room:
        tree = repository(top, room)
        for case, where in [(case, top) for case in OF_THIS_TREE] + [
            (case, tree) for case in CASES
        ]:
            well, said = case(where)
            if not well:
                print("%s: failed:\n%s" % (case.__name__, said))
            passed, failed = passed + well, failed + (not well)
    return passed, failed

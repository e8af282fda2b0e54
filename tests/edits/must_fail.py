"""Tries edits: mistakes that the prover must refuse, each by a check of the function that it breaks.

Those of crates/*/edits are here; those of crates/*/planted.edits, which the gate doesn't try, in planted.py. An edit has
the lines that the kit's edits have, and one that names the function, which the kit doesn't read:

    # function: rests::read_pairs
    file: src/rests.rt
    old: TEXT THAT STANDS EXACTLY ONCE IN THAT FILE
    new: TEXT IN ITS PLACE

The function, and what it calls in its crate, is checked from nothing over the libraries as they were proved (a planted
edit's over what the checks of its crate before it have proved of the functions that no edit changes). An edit
that is proved there is tried on the whole crate: it is refused only if the prover refuses that. Edits of several functions
of a crate are tried by one check first (edit_groups.py), and by themselves where that leaves no goal of theirs open.
"""
import re
import shutil
import subprocess
import sys
import tempfile
import threading
from concurrent.futures import ThreadPoolExecutor
from contextlib import contextmanager
from pathlib import Path

import machine
import tree
from edits import edit_groups, functions

TRY_MEMORY = 2_000_000_000
PARTS = ("src", "specs", "proofs")
TOLD = re.compile(r"(note: )?\S+:\d+:\d+: ")
# A goal that is left without a proof.
OPEN = re.compile(r"note: (\./)?src/\S+: it is not proved that ")
# What the prover says where a proof file names what the edit took away: that shows nothing of a contract.
OF_NAMES = re.compile(
    r"(note: )?(\./)?proofs/.*(has no field|is not in scope|has no `|was not admitted|is already a name|can be named from here)"
)
OF_TEXT = re.compile(r"(?:\./)?(\S+?):\d+:\d+: error: (?:(`[^`]*`): )?(.*)")
UNREADABLE = re.compile(
    r"is not in scope|has no field|is no name|operand is missing|expected the end|cannot continue"
)


class BadEdit(ValueError):
    """The edit can't be tried, for this reason."""


class Edit:
    """An edit of a crate: its name, the function that it names, and the texts that it changes, by their path in the crate."""

    work = None  # a folder from which its checks take what others of its crate proved; without one they begin from nothing

    def __init__(self, crate, name, text):
        self.crate, self.label, self.text = crate, "%s/%s" % (crate.name, name), text

    def functions(self):
        """The functions that are checked; none where the whole crate is."""
        named = re.findall(r"^# function: (\S+)$", self.text, re.M)
        if not named:
            raise BadEdit("no line `# function: PATH` names the function that it breaks")
        return named

    def changes(self):
        """What it changes: each file with a text that it has once, and the one in its place."""
        path, old, found = None, None, []
        for word, said in re.findall(r"^(file|old|new):(?: |$)(.*)$", self.text, re.M):
            if word == "file":
                path = said.strip()
            elif word == "old":
                old = said
            elif not path or not old or path.split("/")[0] not in PARTS:
                raise BadEdit(
                    "a `new:` line stands before a `file:` line of src, specs or proofs, or before its `old:` line"
                )
            else:
                found.append((path, old, said))
                old = None
        if not found:
            raise BadEdit("it has no `old:` and `new:` pair")
        return found

    def function_changed(self, path, old):
        """The function of that file in which this text of it stands, or None."""
        file = self.crate.folder / path
        text = file.read_text(encoding="utf-8") if file.is_file() else ""
        return (
            functions.function_at(text, text.find(old) + len(old), functions.module_of(file))
            if old in text
            else None
        )

    def texts(self, before=()):
        """The texts of files as it leaves them, over those that edits before it left."""
        texts = dict(before)
        for path, old, new in self.changes():
            texts[path] = replaced(texts.get(path), self.crate.folder / path, old, new)
        return texts


def replaced(text, file, old, new):
    """The text, at first the file's, with the one place that has `old` changed to `new`."""
    if text is None and not file.is_file():
        raise BadEdit("there is no file %s" % file)
    text = file.read_text(encoding="utf-8") if text is None else text
    if text.count(old) != 1:
        raise BadEdit("its `old:` text is in the file %d times, and not once" % text.count(old))
    return text.replace(old, new)


def edits_in(crate):
    return [
        Edit(crate, file.stem, file.read_text(encoding="utf-8"))
        for file in sorted((crate.folder / "edits").glob("*.edit"))
    ]


def words_for(crate):
    """The kit's words for a check of a crate over the libraries that were built."""
    kit = tree.kit_folder()
    words = [
        str(kit / "bin" / "rattle"),
        "check",
        "--crate-name",
        crate.name,
        "src/main.rt" if crate.is_program else "src/lib.rt",
    ]
    for name in ["std", *crate.of_kit]:
        words += ["--extern", "%s=%s" % (name, kit / "rlibs" / (name + ".rlib"))]
    words += ["-L", "dependency=%s" % (kit / "rlibs")]
    for other in crate.uses:
        words += ["--extern", "%s=%s" % (other.name, library(other))]
    for other in crate.below.values():
        words += ["-L", "dependency=%s" % library(other).parent]
    return words + [
        "--antt-project",
        str(kit / "rattle" / "logic" / "antt-project.json"),
        "--logic-built",
        str(kit / "logic_built"),
        "--links",
        crate.name + "=",
        "--jobs",
        "1",
    ]


def library(crate):
    return crate.folder / "out" / "rlib" / (crate.name + ".rlib")


def checked(edit, texts, named):
    """What a check of the crate with these texts in place of its own says: its status and its lines. Where no functions are named, of all of it."""
    over = ["--incremental", str(edit.work)] if edit.work else []
    with tempfile.TemporaryDirectory(prefix="pit-edit-") as room:
        for part in PARTS:
            if (edit.crate.folder / part).is_dir():
                shutil.copytree(edit.crate.folder / part, Path(room) / part)
        for path, text in texts.items():
            (Path(room) / path).write_text(text, encoding="utf-8")
        only = [word for name in named for word in ("--only", name)]
        ran = subprocess.run(
            [*words_for(edit.crate), *over, *only],
            cwd=room,
            stdin=subprocess.DEVNULL,
            stdout=subprocess.PIPE,
            stderr=subprocess.STDOUT,
            text=True,
            errors="replace",
        )
    return ran.returncode, ran.stdout.rstrip("\n").split("\n")


def is_unread(line, texts):
    """Whether this line says that a text of the sources or of the edit can't be read, where another mistake only leaves a goal open."""
    said = OF_TEXT.match(line)
    if not said or said[1] not in texts and not said[1].startswith(("src/", "specs/")):
        return False
    return not said[2] or bool(UNREADABLE.search(re.sub(r"`[^`]*`", "", said[3])))


def messages(lines):
    """What the prover says, a line a message: it breaks a long one before a name, and indents what follows."""
    told = []
    for line in lines:
        if told and line.startswith(" "):
            told[-1] += " " + line.strip()
        else:
            told.append(line)
    return told


def goal_refused(texts, lines):
    """The message with which the prover refuses a goal, one that it left open before an answer that doesn't fit; BadEdit where it refuses the edit's text, or a name alone."""
    told = [
        line
        for line in messages(lines)
        if TOLD.match(line) and (": error" in line or line.startswith("note: "))
    ]
    for line in told:
        if is_unread(line, texts):
            raise BadEdit("the prover can't read the edited text: %s" % line[:200])
    goals = [line for line in told if not OF_NAMES.match(line)]
    if not goals:
        raise BadEdit(
            "it is refused for a name alone, which says nothing of a contract: %s"
            % (told or lines)[0][:200]
        )
    return next(filter(OPEN.match, goals), goals[0])


def tried(edit):
    """What a check says of the crate with the edit: its status, its lines, and a remark where all of it had to be checked."""
    texts, named = edit.texts(), edit.functions()
    ask_for_libraries(edit.crate)
    status, lines = checked(edit, texts, named)
    if not named or status != 0:
        return texts, status, lines, ""
    return (
        texts,
        *checked(edit, texts, []),
        " by the whole crate, and not by %s: name another function" % ", ".join(named),
    )


def ask_for_libraries(crate):
    lacking = [other.name for other in crate.below.values() if not library(other).is_dir()]
    if lacking:
        raise BadEdit("the library %s isn't built" % lacking[0])


def told_by_one_check(group):
    """What one check of all functions of a group of edits says: the edited texts, and its messages; none where it shows nothing of each."""
    texts = {}
    try:
        for edit in group:
            texts = edit.texts(texts)
        ask_for_libraries(group[0].crate)
    except BadEdit:
        return texts, []
    status, lines = checked(group[0], texts, [name for edit in group for name in edit.functions()])
    told = messages(lines)
    if (
        status != 1
        or not lines[-1].startswith("only=")
        or any(is_unread(line, texts) for line in told)
    ):
        return texts, []
    return texts, told


def verdicts(group, verdict_of):
    """Whether each edit of a group is refused, and what to say of it: by one check of all, and by its own where that leaves no goal of it open."""
    texts, told = told_by_one_check(group) if len(group) > 1 else ({}, [])
    goals = [
        *filter(OPEN.match, told),
        *(line for line in told if ": error: " in line and not OF_NAMES.match(line)),
    ]
    for edit in group:
        goal = edit_groups.goal_of(edit, texts, goals) if goals else None
        yield (True, "%s: refused: %s" % (edit.label, goal[:200])) if goal else verdict_of(edit)


def verdict(edit):
    """Whether the edit is refused, and what to say of it."""
    try:
        texts, status, lines, by = tried(edit)
        if status == 0:
            return False, "%s: ACCEPTED: the crate is still proved with this mistake" % edit.label
        if status != 1 or not lines[-1].startswith(("only=", "logic=not-proved")):
            raise BadEdit(
                "its check ended with the status %d: %s" % (status, " / ".join(lines[-3:])[:300])
            )
        return True, "%s: refused%s: %s" % (edit.label, by, goal_refused(texts, lines)[:200])
    except BadEdit as bad:
        return False, "%s: cannot be tried: %s" % (edit.label, bad)


def processes():
    """How many edits are tried at a time."""
    return max(1, min(machine.processors(), machine.free_memory() // TRY_MEMORY))


def as_found(_edit, found):
    return found


def lists_of(groups, many):
    """The groups of each crate in a list, or in several lists where there are fewer crates than `many`; the longest first."""
    of_crate = {}
    for group in groups:
        of_crate.setdefault(group[0].crate.name, []).append(group)
    parts = max(1, many // max(1, len(of_crate)))
    lists = [those[first::parts] for those in of_crate.values() for first in range(parts)]
    return sorted(filter(None, lists), key=len, reverse=True)


@contextmanager
def work_for(edits):
    """Gives these edits of one crate a folder in which each check leaves what it proved to the next, while it lasts."""
    with tempfile.TemporaryDirectory(prefix="pit-edits-", ignore_cleanup_errors=True) as folder:
        for edit in edits:
            edit.work = folder
        yield


def in_turn(groups, tell, verdict_of, confirmed):
    """Tries groups of edits one after the other, tells each verdict, and gives how many edits were refused."""
    refused = 0
    for group in groups:
        for edit, found in zip(group, verdicts(group, verdict_of)):
            is_refused, said = confirmed(edit, found)
            tell(said)
            refused += is_refused
    return refused


def try_each(edits, verdict_of=verdict, confirmed=as_found, keeps_work=False):
    """Tries these edits over the libraries that were built, and gives how many were refused and how many not.

    `confirmed` looks again at what was found of each edit. Where work is kept, the checks of a crate run one after the
    other, and each takes from those before it what they proved of the functions that no edit changes.
    """
    printing = threading.Lock()

    def tell(said):
        with printing:
            print(said, flush=True)

    def of_list(groups):
        if not keeps_work:
            return in_turn(groups, tell, verdict_of, confirmed)
        with work_for([edit for group in groups for edit in group]):
            return in_turn(groups, tell, verdict_of, confirmed)

    groups = edit_groups.groups_of(sorted(edits, key=lambda it: -it.crate.lines()))
    tell(
        "%d edits, by %d check%s, and by one of its own where that shows nothing"
        % (len(edits), len(groups), "s" if len(groups) != 1 else "")
    )
    lists = lists_of(groups, processes()) if keeps_work else [[group] for group in groups]
    with ThreadPoolExecutor(processes()) as pool:
        refused = sum(pool.map(of_list, lists))
    return refused, len(edits) - refused


def try_all(names=()):
    """Tries the edits of the crates with these names, or of all, over the libraries that were built, and gives how many were refused and how many not."""
    crates = tree.read_crates()
    unknown = sorted(set(names) - set(crates))
    if unknown:
        sys.exit("no such crate: %s" % " ".join(unknown))
    return try_each(
        [
            edit
            for crate in crates.values()
            if not names or crate.name in names
            for edit in edits_in(crate)
        ]
    )


@contextmanager
def own_libraries_aside():
    """Moves the libraries of earlier builds out of the way, so that those stay which the kit's gate makes, and back at the end.

    The kit's gate moves them aside too, but puts them back, whatever sources they are of, in place of its own. They lie
    beside git's own files meanwhile, since the kit refuses sources anywhere else. Without edits, or without git, all stays.
    """
    crates = tree.read_crates().values()
    git = subprocess.run(
        ["git", "rev-parse", "--absolute-git-dir"],
        cwd=tree.TOP,
        stdout=subprocess.PIPE,
        stderr=subprocess.DEVNULL,
        text=True,
    )
    if git.returncode or not any(map(edits_in, crates)):
        yield
        return
    aside = Path(git.stdout.strip()) / "pit-libraries"
    put_back(aside)  # of a gate that was killed
    aside.mkdir()
    for crate in crates:
        if library(crate).parent.is_dir():
            library(crate).parent.rename(aside / crate.name)
    try:
        yield
    finally:
        put_back(aside)


def put_back(aside):
    for made in aside.iterdir() if aside.is_dir() else []:
        to = tree.CRATES / made.name / "out" / "rlib"
        shutil.rmtree(to, ignore_errors=True)
        to.parent.mkdir(parents=True, exist_ok=True)
        made.rename(to)
    shutil.rmtree(aside, ignore_errors=True)

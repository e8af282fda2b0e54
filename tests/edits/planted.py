"""Tries the edits of crates/*/planted.edits: mistakes that the prover must refuse too.

An entry is a line `edit: NAME` and the lines of an edit, as must_fail.py has them. Where it names no function, the one is
checked in which its first change of `src` stands; a mistake elsewhere, as in a definition, is tried on the whole crate.

A refusal may come from an answer that is written for the code without the mistake, and would fit no other code: that says
nothing of the contract. So the edit is tried again without this answer (`confirmed`).
"""
import re
import sys

import tree
from edits import must_fail

ENTRY = re.compile(r"^edit: (\S+)\n(.*?)(?=^edit: |\Z)", re.M | re.S)
NOBODY = "has no function `"
# An answer that isn't of its goal any more, where no search was made for it.
OF_ANSWER = re.compile(
    r"(?:\./)?(proofs/\S+/Answers\.antt):\d+:\d+: error: `([^`]+)`: (?!.*(?:`grind`|`omega`|`search`|does not follow))"
)
FOR_NAME = "refused for a name alone"
MOST_ANSWERS = 8  # that are left out of one edit


class Planted(must_fail.Edit):
    """An edit that may leave it to us which function it breaks."""

    def functions(self):
        if "# function: " in self.text:
            return super().functions()
        changes = [change for change in self.changes() if change[0].startswith("src/")]
        found = self.function_changed(*changes[0][:2]) if changes else None
        return [found.path] if found else []


def planted_in(crate):
    """The planted edits of a crate, by name."""
    file = crate.folder / "planted.edits"
    text = file.read_text(encoding="utf-8") if file.exists() else ""
    return {name: Planted(crate, name, lines) for name, lines in ENTRY.findall(text)}


def wanted_edits(names):
    """The edits to be tried: those of the crates CRATE, those named CRATE/EDIT, or all where no name is given."""
    found = {crate.name: planted_in(crate) for crate in tree.read_crates().values()}
    wanted = {}
    for name in names or found:
        crate, _, edit = name.partition("/")
        if crate not in found or edit and edit not in found[crate]:
            sys.exit("no such %s: %s" % ("edit" if edit else "crate", name))
        wanted.update(
            {it.label: it for it in ([found[crate][edit]] if edit else found[crate].values())}
        )
    return list(wanted.values())


class Whole(Planted):
    """An edit that is tried on the whole crate, since a check knows no function of the name that was found."""

    def functions(self):
        return []


def verdict(edit):
    """Whether the edit is refused, and what to say of it. Refused for a name alone counts, and is told."""
    is_refused, said = must_fail.verdict(edit)
    if not is_refused and NOBODY in said and "# function: " not in edit.text:
        whole = Whole(edit.crate, edit.label.partition("/")[2], edit.text)
        whole.work = edit.work
        is_refused, said = must_fail.verdict(whole)
    if not is_refused and "cannot be tried: it is refused for a name alone" in said:
        return True, "%s: %s, which says little" % (edit.label, FOR_NAME)
    return is_refused, said


def without_answer(text, goal):
    """The text of an Answers.antt without the answer to this goal, or None where it has none."""
    found = re.search(
        r"^(?:pub )?%s : .*?(?=^(?:pub )?\S+ : |\Z)" % re.escape(goal), text, re.M | re.S
    )
    return text[: found.start()] + text[found.end() :] if found else None


def tried_without_answers(edit):
    """What a check says of the edit without the answers that don't fit it: whether it is refused, what it says, and the goals of these answers."""
    texts, goals = edit.texts(), []
    for _ in range(MOST_ANSWERS):
        status, lines = must_fail.checked(edit, texts, edit.functions())
        told = must_fail.messages(lines)
        if status == 0:
            return False, "", goals
        found = next(filter(None, map(OF_ANSWER.search, told)), None)
        opened = next(filter(must_fail.OPEN.match, told), None)
        if opened or not found:
            return True, opened or must_fail.goal_refused(texts, lines), goals
        file = edit.crate.folder / found[1]
        text = without_answer(texts.get(found[1]) or file.read_text(encoding="utf-8"), found[2])
        if text is None:
            raise must_fail.BadEdit("%s has no answer `%s`" % (found[1], found[2]))
        texts[found[1]] = text
        goals.append(found[2])
    raise must_fail.BadEdit("%d answers don't fit it" % len(goals))


def confirmed(edit, found):
    """What was found of an edit; where only an answer or a name refused it, what a check without that answer says."""
    is_refused, said = found
    if not is_refused or not OF_ANSWER.search(said) and FOR_NAME not in said:
        return found
    try:
        is_refused, said, goals = tried_without_answers(edit)
    except must_fail.BadEdit as bad:
        return False, "%s: cannot be tried without the answers that don't fit it: %s" % (
            edit.label,
            bad,
        )
    of = "without %s" % ", ".join("`%s`" % goal for goal in goals) if goals else "by another"
    if not is_refused:
        return False, "%s: ACCEPTED %s: only what was written for other code refused it" % (
            edit.label,
            of,
        )
    return True, "%s: refused, also %s: %s" % (edit.label, of, said[:200])


def try_all(names):
    """Tries the planted edits of these names, CRATE or CRATE/EDIT, or all, and gives how many were refused and how many not."""
    return must_fail.try_each(wanted_edits(names), verdict, confirmed, keeps_work=True)

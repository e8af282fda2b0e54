"""Edits of a crate that one check can try at once: each changes the body of a function of its own.

A function is proved against the contracts of what it calls, and not against their bodies. So a goal that is left open in
a function is open because of the edit of that function, whatever the bodies of others are. Of a function that calls one
without a proof the prover says that, and leaves no goal of it open (scripts/small_repository.py tests it): so no function
of a group calls another of it, as far as their texts tell.
"""
import re
from pathlib import Path
from typing import NamedTuple

from edits import functions

MOST = 8
PLACE = re.compile(r"note: (?:\./)?(src/\S+?):(\d+):")
# an answer of a function's own proof that its goal doesn't fit any more
ANSWER = re.compile(
    r"(?:\./)?proofs/(\S+)/Answers\.antt:\d+:\d+: error: (?!\d+ declarations? that depends?\b)"
)
# what an edit has that may change more than a body
BEYOND = re.compile(r"\b(fn|requires|ensures|struct|enum|impl|use|const|mod)\b")


class Body(NamedTuple):
    """The function in whose body alone an edit changes something: its file, and its name as a check has it."""

    file: str
    path: str


def body_of(edit):
    """The body that an edit changes, or None where it changes more, or where it names another function."""
    changes = edit.changes()
    path, old, new = changes[0]
    found = edit.function_changed(path, old)
    if (
        len(changes) > 1
        or not path.startswith("src/")
        or not found
        or BEYOND.search(old + " " + new)
    ):
        return None
    begins = (edit.crate.folder / path).read_text(encoding="utf-8").find(old)
    named = [name.rpartition("::")[2] for name in edit.functions()]
    return Body(path, found.path) if begins >= found.body and named == [found.name] else None


def text_of(edit, body):
    """The text of the function whose body an edit changes."""
    text = (edit.crate.folder / body.file).read_text(encoding="utf-8")
    lines = functions.lines_of(text, body.path, functions.module_of(Path(body.file)))
    return "\n".join(text.split("\n")[lines.start - 1 : lines.stop - 1])


def calls(text, body):
    """Whether the text of a function seems to call the one of this body."""
    return re.search(r"\b%s(?:::<[^(]*>)?\(" % re.escape(body.path.rpartition("::")[2]), text)


class Group:
    """Edits of a crate that one check tries: of functions of which none calls another."""

    def __init__(self, crate):
        self.crate, self.edits, self.bodies = crate, [], []

    def takes(self, edit, body, text):
        """Whether the edit of this body may come to them."""
        return (
            self.crate == edit.crate.name
            and len(self.edits) < MOST
            and all(body != other for other, _ in self.bodies)
            and not any(calls(text, other) or calls(its, body) for other, its in self.bodies)
        )

    def add(self, edit, body, text):
        self.edits.append(edit)
        self.bodies.append((body, text))


def groups_of(edits):
    """The edits in groups, at most eight of one crate in each; one that changes more than a body is a group by itself."""
    alone, groups = [], []
    for edit in edits:
        try:
            body = body_of(edit)
        except ValueError:  # it can't be tried, which its own try tells
            body = None
        if body is None:
            alone.append([edit])
            continue
        text = text_of(edit, body)
        group = next((group for group in groups if group.takes(edit, body, text)), None)
        if group is None:
            group = Group(edit.crate.name)
            groups.append(group)
        group.add(edit, body, text)
    return [group.edits for group in groups] + alone


def goal_of(edit, texts, goals):
    """The first of these refused goals that is of the function whose body the edit changes, or None: one that is left open in its
    lines, or one that an answer of its own proof doesn't fit."""
    body = body_of(edit) if texts else None
    if body is None or body.file not in texts:
        return None
    lines = functions.lines_of(texts[body.file], body.path, functions.module_of(Path(body.file)))
    return next((goal for goal in goals if is_of(body, lines, goal)), None)


def is_of(body, lines, goal):
    """Whether this is a goal of the function, which has these lines in its file."""
    place, answer = PLACE.match(goal), ANSWER.match(goal)
    if place:
        return place[1] == body.file and int(place[2]) in lines
    return bool(answer) and ("::" + answer[1].replace("/", "::")).endswith("::" + body.path)

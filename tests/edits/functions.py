"""Where functions stand in a source file, and as a check names them."""
import re
from typing import NamedTuple

HEAD = re.compile(r"^( *)(?:pub(?:\([^)]*\))? )?(?:ghost )?(?:const )?fn (\w+)", re.M)
# the trait of an `impl`, if it is for one, and the type: a check names its functions by both, as `KindDisplay::fmt`
IMPL = re.compile(
    r"^impl\b(?:<[^{]*?>)? *(?:(?:\w+::)*(\w+)(?:<[^{]*?>)? for )?&?(?:\w+::)*(\w+)", re.M
)


class Function(NamedTuple):
    """A function of a file: its name, its name as a check has it, and where its head, its body and what follows begin."""

    name: str
    path: str
    head: int
    body: int
    end: int


def function_at(text, at, module):
    """The function of the text of a module in which this place is, head or body, or None. The root's module is None."""
    heads = list(HEAD.finditer(text, 0, at))
    if not heads:
        return None
    head = heads[-1]
    close = re.compile(r"^%s\{?\}\n" % head[1], re.M).search(text, head.end())
    opened = re.compile(r"^%s\{\}?$|^(?! *(?:requires|ensures)).* \{$" % head[1], re.M).search(
        text, head.start()
    )
    if not close or close.end() <= at or not opened or opened.start() > close.start():
        return None
    of = list(IMPL.finditer(text, 0, head.start())) if head[1] else []
    around = of[-1][2] + (of[-1][1] or "") if of else None
    return Function(
        head[2],
        "::".join(filter(None, (around or module, head[2]))),
        head.start(),
        opened.end(),
        close.end(),
    )


def module_of(file):
    """The module of a source file that lies in `src` itself; the root's is None."""
    return None if file.stem in ("lib", "main") else file.stem


def lines_of(text, path, module):
    """The lines, counted from 1, of the function of a text that a check names so, or none."""
    for head in HEAD.finditer(text):
        found = function_at(text, head.end(), module)
        if found and found.path == path:
            return range(text.count("\n", 0, found.head) + 1, text.count("\n", 0, found.end) + 1)
    return range(0)

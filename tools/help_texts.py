"""The help texts of `pit` and of `pitplan`, in their parts: manual pages and completions are made of them.

`pit` is asked by --help. Of `pitplan` it is asked what its --help is made of, since on a screen that is drawn with frames.
"""
import json
import re
import subprocess

import tree

PYTHON = "/usr/bin/python3"  # Debian's own, which has pitplan's packages
# Prints pitplan's version, and the help text of it and of each command in the form of pit's.
ASKED = r"""
import json, sys
sys.path.insert(0, sys.argv[1])
import click
import pitplan.cli.main as cli
import pitplan.cli.console as console
from pitplan import __version__
from typer.main import get_command

def told(command, context):
    text = click.HelpFormatter(width=10000, max_width=10000)
    for part in (command.format_help_text, command.format_usage, command.format_options):
        part(context, text)
    return text.getvalue() + "\n" + (command.epilog or "")

cli.load_commands()
main = get_command(console.app)
top = click.Context(main, info_name="pitplan", **main.context_settings)
texts = {name: told(it, click.Context(it, info_name=name, parent=top, **main.context_settings)) for name, it in main.commands.items()}
print(json.dumps([__version__, told(main, top), texts]))
"""


class Help:
    """A help text in its parts: what stands before the usage, the usage, and the blocks under a title, as "Options"."""

    def __init__(self, text):
        self.before, self.usage, self.blocks = [], [], {}
        into = self.before
        for line in text.splitlines():
            title = re.fullmatch(r"([A-Z][A-Za-z ]*):", line)
            usage = re.match(r"Usage: (.*)", line)
            status = re.match(r"Exit status: (.*)", line)
            if usage:
                self.usage.append(usage[1])
                into = self.usage
            elif status:  # pitplan has them in one line
                self.blocks["Exit status"] = [
                    "  " + it.strip(" .").replace(" ", "  ", 1) for it in status[1].split(";")
                ]
            elif title:
                into = self.blocks.setdefault(title[1], [])
            elif line and not line.startswith(" ") and into is not self.before:
                into = self.blocks.setdefault("", [])
                into.append(line)
            else:
                into.append(line)
        self.usage = [line.strip() for line in self.usage if line.strip()]

    def rows(self, title):
        """The rows of a block, none where there is no such: (term, what is said of it). A term that is alone on its line has its
        text on the lines below. A row within such a text, and what comes after an empty line, begins a line of its own.
        """
        found, before = [], " "
        for line in self.blocks.get(title, []):
            if not line.strip():
                before = "\n"
                continue
            indent = len(line) - len(line.lstrip())
            term, _, said = line.strip().partition("  ")
            if indent < 8 and (term.startswith(("-", "<", "[")) or indent == 2):
                found.append([term, said.strip()])
            elif found:
                is_row = re.match(r"\S+ {2,}", line.strip())
                found[-1][1] = (
                    found[-1][1]
                    + ("\n" if is_row else before)
                    + re.sub(r"^(\S+) {2,}", r"\1: ", line.strip())
                ).strip()
            before = " "
        return found


class Texts:
    """The help texts of a command: its name, its version, its own text, and that of each of its commands by name."""

    def __init__(self, name, version, main, commands):
        self.name, self.version, self.main, self.commands = (
            name,
            version,
            Help(main),
            {it: Help(text) for it, text in commands.items()},
        )


def of_pit(program):
    """Those of this program."""

    def said(*words):
        return subprocess.run(
            ["pit", *words],
            executable=program,
            stdin=subprocess.DEVNULL,
            stdout=subprocess.PIPE,
            check=True,
            text=True,
        ).stdout

    main = said("--help")
    names = [name for name, _ in Help(main).rows("Commands") if name != "help"]
    return Texts(
        "pit",
        re.match(r"pit (\S+)", said("--version"))[1],
        main,
        {name: said(name, "--help") for name in names},
    )


def of_pitplan(top=tree.TOP):
    """Those of this repository's pitplan, or None where Debian's Python hasn't the packages that it needs."""
    asked = subprocess.run(
        [PYTHON, "-I", "-B", "-c", ASKED, str(top / "python")],
        stdin=subprocess.DEVNULL,
        stdout=subprocess.PIPE,
        stderr=subprocess.PIPE,
        text=True,
    )
    if asked.returncode and "ModuleNotFoundError" in asked.stderr:
        return None
    if asked.returncode:
        raise ValueError("pitplan doesn't tell its help texts:\n" + asked.stderr)
    return Texts("pitplan", *json.loads(asked.stdout))

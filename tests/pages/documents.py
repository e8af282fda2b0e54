"""README, GUIDE and SOLVERS, read by a program: every command is typed, and every number compared.

- **Sessions.** In a code block a line that begins with `$`, with the next ones until its quotes are closed, is given to a
  shell, in a copy of examples/, and what is printed has to be what the page shows below it. ` .. ` stands for any text within a line, and `..` alone for any lines.
  Where the status is 0, what comes on standard error may be left out.
- **Files.** A code block that follows a line which ends in the name of a file and a colon is that file.
- **Facts.** Sentences and rows of tables that have numbers are made anew (page_facts.py), of the answers, of the files of
  examples/ and of bench/RESULTS.md, and have to be in the page.
- **Other numbers.** A number from 10 on that is in no fact has to be in a command, an answer, a help text, or in OTHERS,
  which says where it is from.
- **Other commands.** A line of a code block that looks like a command and isn't typed has to be in UNTYPED.

tests/day measures walls too, in the pits of deep models.
"""
import re
import shlex
import shutil
import subprocess
from collections import namedtuple
from pathlib import Path

from pages import page_facts

PAGES = "README.md", "docs/GUIDE.md", "docs/SOLVERS.md"
COMMANDS = "slopes", "solve", "check", "shells", "report", "replay", "value", "schedule"
STATUSES = (
    ("REFUSED", 1),
    ("UNSETTLED", 1),
    ("HISTORYFULL", 1),
    ("OPEN ", 1),
    ("error:", 2),
    ("fault: device", 4),
    ("fault: memory", 4),
    ("fault:", 3),
)
LOOKS_TYPED = re.compile(r"(pit|python3|pitplan|\./\S+|cd|grep|sed|cut|cat) ")
UNTYPED = {
    # the last as PLANNING's test types them
    "README.md": ("./run-example", "./install", "python3 tests/run", "pitplan "),
    "docs/GUIDE.md": (
        "python3 examples/csv_to_minelib.py mine.csv 20 20 10 mine revenue cost tonnes",
        "pit shells --blocks mine.blocks",
    ),
}  # the mine of tests/day, which types them
NUMBER = re.compile(r"(?<![\w.,-])\d[\d,]*(?:\.\d+)?")
OTHERS = {
    1965: "Lerchs and Grossmann's paper",
    1976: "Picard's",
    2008: "Hochbaum's and Hong's",
    2026: "the year of RESULTS",
    27: "2^27",
    32: "2^32",
    40: "2^40",
    12: "10^12, and seconds",
    64: "bits of a word",
    128: "bits of an amount",
    1001: "one more than 1,000",
    10_000: "blocks, in DECISIONS",
    2_000: "blocks of dense slopes, tried",
    1_060: "blocks of newman, in bench/README",
    3_865: "its pairs",
    9_400: "blocks of zuck",
    130_697: "its pairs",
    50_000: "blocks of a chain, in RESULTS",
    75: "turns, in RESULTS",
    10**10: "steps, in RESULTS",
    10**11: "steps, an example",
    500: "steps, an example",
    1250.75: "an example of a decimal",
    65: "per cent",
    80: "per cent",
    100: "per cent",
}

NAMED = re.compile(r".*`([\w-]+\.\w+)`:$")
Session = namedtuple("Session", "line command shown")
Typed = namedtuple("Typed", "line text above")  # the last line of text above it


def code_lines(text):
    """Each line of the code blocks of a page, with its number, and an empty one after each block."""
    is_fenced = was_code = False
    above = ""
    for number, line in enumerate(text.split("\n"), 1):
        if line.startswith("```"):
            is_fenced = not is_fenced
        elif is_fenced or line.startswith("    "):
            was_code = True
            yield Typed(number, line, above)
        elif was_code:
            was_code = False
            yield Typed(number, "", above)
        if line and not line.startswith("    "):
            above = line


def sessions(text):
    """The commands that a page types, each with the lines that it shows as the answer, and the files that it shows, as commands
    that write them; and lines that only look typed."""
    found, untyped, margin = [], [], None
    for number, line, above in code_lines(text):
        if line.lstrip().startswith("$ "):
            margin = len(line) - len(line.lstrip())
            found.append(Session(number, line[margin + 2 :], []))
        elif not line:
            margin = None
        elif margin is None and NAMED.match(above):
            found.append(
                Session(
                    number, "echo %s >> %s" % (shlex.quote(line[4:]), NAMED.match(above)[1]), []
                )
            )
        elif margin is not None and not found[-1].shown and found[-1].command.count("'") % 2:
            found[-1] = found[-1]._replace(command=found[-1].command + "\n" + line[margin:])
        elif margin is not None:
            found[-1].shown.append(line[margin:].rstrip())
        elif LOOKS_TYPED.match(line.lstrip()):
            untyped.append(line.lstrip())
    return found, untyped


def pattern_of(shown):
    """What the lines of an answer stand for, as a regular expression."""
    return "".join(
        r"(?:.*\n)*" if line == ".." else re.escape(line).replace(r"\ \.\.\ ", " .* ") + r"\n"
        for line in shown
    )


def status_of(shown):
    """The exit status that goes with an answer."""
    for start, status in STATUSES:
        if any(line.startswith(start) for line in shown):
            return status
    return int(any(line.endswith(" OPEN") for line in shown))


def numbers_of(text):
    return [float(found.rstrip(",").replace(",", "")) for found in NUMBER.findall(text)]


class Reader:
    """Somebody who types what a page says, in a copy of examples/."""

    def __init__(self, day, top, page):
        self.day, self.page, self.text, self.seen = day, page, (top / page).read_text(), ""
        self.place = self.top = Path(day.folder) / Path(page).stem
        self.top.mkdir()
        shutil.copytree(top / "examples", self.top / "examples")
        (self.top / "python").symlink_to(top / "python")

    def types(self, session):
        """Types a command, and compares its answer and its status."""
        where = "%s:%d: %s" % (self.page, session.line, session.command)
        if session.command.startswith("cd "):
            self.place = (self.place / session.command[3:]).resolve()
            self.day.same(where, self.place.is_dir(), True)
            return
        done = subprocess.run(
            ["sh", "-c", session.command],
            cwd=self.place,
            env=self.day.around,
            stdin=subprocess.DEVNULL,
            stdout=subprocess.PIPE,
            stderr=subprocess.PIPE,
            text=True,
            errors="replace",
        )
        self.seen += session.command + "\n" + done.stdout + done.stderr
        printed = [done.stderr + done.stdout] + [done.stdout] * (done.returncode == 0)
        printed = [re.sub(r" +\n", "\n", text) for text in printed]
        is_shown = any(re.fullmatch(pattern_of(session.shown), text) for text in printed)
        wanted = "".join(line + "\n" for line in session.shown)
        self.day.same(where, wanted if is_shown else printed[-1], wanted)
        self.day.same(where + " (status)", done.returncode, status_of(session.shown))

    def asks(self, command):
        """What a command prints that no page shows."""
        return subprocess.run(
            ["sh", "-c", command],
            cwd=self.place,
            env=self.day.around,
            stdin=subprocess.DEVNULL,
            stdout=subprocess.PIPE,
            stderr=subprocess.DEVNULL,
            text=True,
        ).stdout

    def plays(self):
        """Types every command of the page."""
        found, untyped = sessions(self.text)
        for session in found:
            self.types(session)
        allowed = UNTYPED.get(self.page, ())
        self.day.same(
            "%s: commands that nobody types" % self.page,
            [line for line in untyped if not line.startswith(allowed)],
            [],
        )

    def has(self, *facts):
        """Compares facts with the page, and takes them out of it."""
        for fact in facts:
            self.day.same("%s lacks" % self.page, [fact] * (fact not in self.text), [])
            self.text = self.text.replace(fact, " ")

    def has_no_other_number(self, texts):
        """Compares what numbers are left in the text of the page with those that are known: by these texts, or by what was seen."""
        known = set(numbers_of(self.seen + texts)) | set(OTHERS)
        code = {line.line for line in code_lines(self.text) if line.text}
        lines = [line for number, line in enumerate(self.text.split("\n"), 1) if number not in code]
        prose = [re.sub(r"\]\([^)]*\)", "]", line) for line in lines]
        left = [
            (number, line[:60])
            for line in prose
            for number in numbers_of(line)
            if number >= 10 and number not in known
        ]
        self.day.same("%s: numbers from nowhere" % self.page, left, [])


def play(day, top):
    """Plays the three pages, each in a folder of its own."""
    readers = {page: Reader(day, top, page) for page in PAGES}
    readers["docs/SOLVERS.md"].place = readers["docs/SOLVERS.md"].top / "examples" / "copper"
    for reader in readers.values():
        reader.plays()
    readme, guide, engines = (readers[page] for page in PAGES)
    readme_sizes, guide_sizes = page_facts.size_rows((top / "bench" / "RESULTS.md").read_text())
    readme.has(*readme_sizes, *page_facts.of_readme(readme))
    guide.has(
        *guide_sizes,
        *page_facts.of_table(guide),
        *page_facts.of_copper(guide),
        *page_facts.of_patterns(guide),
        *page_facts.of_shells(guide),
        *page_facts.of_benches(guide),
    )
    engines.has(*page_facts.of_trace(engines))
    helps = "".join(readme.asks("pit %s --help" % command) for command in COMMANDS)
    for reader in readers.values():
        reader.has_no_other_number(helps)

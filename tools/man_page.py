#!/usr/bin/env python3
"""Writes the manual pages docs/pit.1 and docs/pitplan.1, and what shells complete, in completions/, from the help texts.

    tools/man_page.py [PROGRAM]     from those of out/pit, or of PROGRAM, and of bin/pitplan where its packages are there

`tests/run --program`, and so the gate, compares what is written of `pit` with its help texts; python/tests what is of `pitplan`.
"""
import re
import sys
from pathlib import Path

sys.dont_write_bytecode = True
sys.path.insert(0, str(Path(__file__).resolve().parent))

import completions  # noqa: E402
import help_texts  # noqa: E402
import tree  # noqa: E402

HEAD = r""".\" Written by tools/man_page.py from the help texts: change those, not this page.
.TH %s 1 "" "%s %s" "User Commands"
"""
EXAMPLES = {
    "pit": r"""On the example mine, in examples/copper: write each block's predecessors, find the best pit, and check it.
.PP
.nf
.RS
pit slopes \-\-blocks copper.blocks \-\-pattern five > slopes.prec
pit solve \-\-prec slopes.prec \-\-upit copper.upit > best.cert
pit check \-\-prec slopes.prec \-\-upit copper.upit best.cert
.RE
.fi
""",
    "pitplan": r"""From a table of blocks to a page with the proved pits; prices, costs and angles are put into mine/study.toml after the first.
.PP
.nf
.RS
pitplan init mine.csv \-\-study mine
pitplan build mine
pitplan shells mine
pitplan page mine
.RE
.fi
""",
}
SEE = {"pit": "pitplan(1)", "pitplan": "pit(1)"}


def plain(text):
    """Text as roff takes it."""
    text = text.replace("\\", r"\e").replace("-", r"\-")
    return re.sub(r"^(?=[.'])", r"\\&", text, flags=re.M)


def paragraphs(lines):
    """Lines as paragraphs, parted where one is empty."""
    texts = [" ".join(part.split()) for part in re.split(r"\n\s*\n", "\n".join(lines).strip())]
    return "\n.PP\n".join(plain(text) for text in texts if text) + "\n"


def table(found):
    """Rows as a list of terms."""
    return "".join(
        ".TP\n.B %s\n%s\n" % (plain(term), plain(said).replace("\n", "\n.br\n"))
        for term, said in found
    )


def command_section(name, text):
    """The part of one command: what it does, how it is called, and its options."""
    section = ".SS %s\n%s" % (name, paragraphs(text.before))
    section += ".PP\n" + "\n.br\n".join(".B %s" % plain(line) for line in text.usage) + "\n"
    for title in text.blocks:
        if title not in ("Exit status", "", "Commands"):
            section += ".PP\n%s:\n%s" % (plain(title), table(text.rows(title)))
    return section


def page(texts):
    """The manual page of a command by its help texts."""
    main = texts.main
    about, _, more = " ".join(" ".join(main.before).split()).partition(". ")
    told = HEAD % (texts.name.upper(), texts.name, texts.version)
    told += ".SH NAME\n%s \\- %s\n" % (texts.name, plain(about[:1].lower() + about[1:]))
    told += (
        ".SH SYNOPSIS\n"
        + "\n.br\n".join(
            ".B %s" % plain(line)
            for text in [main, *texts.commands.values()]
            for line in text.usage
        )
        + "\n"
    )
    if more or "" in main.blocks:
        told += ".SH DESCRIPTION\n" + paragraphs([more, "", *main.blocks.get("", [])])
    told += ".SH OPTIONS\n" + table(main.rows("Options"))
    told += ".SH COMMANDS\n" + "".join(
        command_section("%s %s" % (texts.name, name), text) for name, text in texts.commands.items()
    )
    told += ".SH EXIT STATUS\n" + table(main.rows("Exit status"))
    return (
        told
        + ".SH EXAMPLE\n"
        + EXAMPLES[texts.name]
        + ".SH SEE ALSO\n.BR %s\n" % SEE[texts.name].replace("(", " (")
    )


def files(texts):
    """What is written of a command, by its name in the repository."""
    return {
        "docs/%s.1" % texts.name: page(texts),
        **{
            "completions/%s.%s" % (texts.name, shell): completions.of(texts, shell)
            for shell in completions.SHELLS
        },
    }


def is_up_to_date(texts):
    """Whether the files are what the help texts give; says so where one isn't."""
    well = True
    for name, wanted in files(texts).items():
        path = tree.TOP / name
        has = path.read_text() if path.exists() else ""
        if has != wanted:
            well = False
            at = next(
                (
                    at
                    for at, (a, b) in enumerate(zip(has.splitlines(), wanted.splitlines()), 1)
                    if a != b
                ),
                None,
            )
            print(
                "%s isn't what the help texts of %s say%s; tools/man_page.py writes it anew"
                % (name, texts.name, ": the first difference is in line %d" % at if at else "")
            )
    return well


def main():
    program = Path(sys.argv[1]).resolve() if len(sys.argv) == 2 else tree.PROGRAM
    if len(sys.argv) > 2 or not program.exists():
        sys.exit("%s\n%s isn't there: ./build makes it" % (__doc__, program))
    of_pitplan = help_texts.of_pitplan()
    if not of_pitplan:
        print("what is of pitplan stays as it is: its packages aren't here (python/packages)")
    for texts in filter(None, (help_texts.of_pit(program), of_pitplan)):
        for name, text in files(texts).items():
            (tree.TOP / name).parent.mkdir(exist_ok=True)
            (tree.TOP / name).write_text(text)


if __name__ == "__main__":
    main()

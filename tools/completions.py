"""What a shell completes after `pit` and `pitplan`: scripts for bash, zsh and fish, made from the help texts.

After the command its commands, after a `-` the options of that command, after an option the words that it may have or files.
"""
import re

SHELLS = ("bash", "zsh", "fish")
# A value of one of these names is no file; a value of any other name is one.
NO_FILE = re.compile(r"(INTEGER|FLOAT|TEXT|FACTORS?|STEPS|ROOM|WORKERS|N|KEY=NAME|CHANGES|WORDS)\b")
# What an option may have, where that isn't a block of the help text, as "Patterns" is of <PATTERN>. tests/scripts/small_repository.py asks that the text has each.
VALUES = {
    ("pit", "--group"): "pair scaled worth",
    ("pit", "--up"): "plus minus",
    ("pit", "--method"): "auto pseudoflow push-relabel",
}


class Option:
    """A row of a block of options.

    Attributes
    ----------
    names : list of str
        As ["-c", "--column"].
    value : str
        What its value is called, as "PATH"; empty where it has none.
    words : list of str
        What the value may be, where it is one of few.
    said : str
    """

    def __init__(self, texts, text, term, said):
        self.names = re.findall(r"(?<![\w-])--?[a-z][\w-]*", term, re.I)
        self.value = re.sub(r"(?<![\w-])--?[a-z][\w-]*,?", "", term, flags=re.I).strip(" <>")
        self.said = re.split(r"(?<=\w)[.;:] | \[default|  |\n", said)[0].rstrip(".")
        listed = re.fullmatch(r"\[([\w|]+)\]", self.value)
        block = self.value.capitalize() + "s"
        told = VALUES.get((texts.name, self.names[-1]), "").split()
        named = [
            re.sub(r"[A-Z].*", "", name) for name, _ in text.rows(block)
        ]  # cone: of cone:LEVELS:RUN:RISE
        among = re.search(r"\bKEY is one of ([\w, ]+)\.", said)
        self.words = (
            listed[1].split("|")
            if listed
            else named or told or (among[1].split(", ") if among else [])
            if self.value
            else []
        )

    @property
    def is_file(self):
        return bool(self.value) and not self.words and not NO_FILE.match(self.value)


def options(texts, text):
    return [Option(texts, text, *row) for row in text.rows("Options")]


def about(text):
    """The first sentence of what a command does."""
    return re.split(r"(?<=\w)[.:;?] |\.$", " ".join(" ".join(text.before).split()))[0]


def takes_files(text):
    """Whether a command takes a file that is no option's value."""
    return any(not NO_FILE.match(term.strip("<>[].")) for term, _ in text.rows("Arguments"))


def words_of(found):
    return " ".join(name for it in found for name in it.names)


BASH = """# Completion of %(name)s for bash. Written by tools/man_page.py from the help texts: change those, not this file.
_%(name)s() {
    local word=${COMP_WORDS[COMP_CWORD]} before=${COMP_WORDS[COMP_CWORD-1]} words= files=
    if [ "$COMP_CWORD" = 1 ]; then
        words="%(commands)s"
        case "$word" in -*) words="%(options)s" ;; esac
    else
        case "${COMP_WORDS[1]} $before" in
%(values)s        *)
            case "${COMP_WORDS[1]}" in
%(cases)s            esac
            case "$word" in -*) files= ;; *) words= ;; esac ;;
        esac
    fi
    COMPREPLY=()
    [ -z "$words" ] || mapfile -t COMPREPLY < <(compgen -W "$words" -- "$word")
    if [ -n "$files" ]; then
        compopt -o filenames 2> /dev/null
        mapfile -t -O "${#COMPREPLY[@]}" COMPREPLY < <(compgen -f -- "$word")
    fi
}
complete -F _%(name)s %(name)s
"""


def bash(texts):
    values, cases = "", ""
    for name, text in texts.commands.items():
        found = options(texts, text)
        for it in found:
            if it.value:
                pattern = "|".join('"%s %s"' % (name, one) for one in it.names)
                values += "        %s) %s ;;\n" % (
                    pattern,
                    'words="%s"' % " ".join(it.words)
                    if it.words
                    else "files=1"
                    if it.is_file
                    else ":",
                )
        cases += '            %s) words="%s"%s ;;\n' % (
            name,
            words_of(found),
            " files=1" if takes_files(text) else "",
        )
    return BASH % {
        "name": texts.name,
        "commands": " ".join(texts.commands),
        "options": words_of(options(texts, texts.main)),
        "values": values,
        "cases": cases,
    }


ZSH = """#compdef %(name)s
# Completion of %(name)s for zsh. Written by tools/man_page.py from the help texts: change those, not this file.
_%(name)s() {
    local -a commands
    commands=(
%(commands)s    )
    if (( CURRENT == 2 )); then
        [[ $words[2] == -* ]] && _arguments -S %(options)s || _describe -t commands command commands
        return
    fi
    local command=$words[2]
    shift words
    (( CURRENT-- ))
    case $command in
%(cases)s    esac
}
_%(name)s "$@"
"""


def in_zsh(text):
    """A text within one of _arguments' words, in single quotes."""
    return re.sub(r"([\[\]:\\])", r"\\\1", text).replace("'", "'\\''")


def zsh_option(it):
    """The words of _arguments for an option; a name that comes after another is one word for both."""
    action = ""
    if it.value:
        action = ":%s:%s" % (
            it.names[-1].lstrip("-"),
            "(%s)" % " ".join(re.sub(r"([:\\])", r"\\\1", word) for word in it.words)
            if it.words
            else "_files"
            if it.is_file
            else " ",
        )
    return " ".join("'%s[%s]%s'" % (name, in_zsh(it.said), action) for name in it.names)


def zsh(texts):
    commands = "".join(
        "        '%s:%s'\n" % (name, in_zsh(about(text))) for name, text in texts.commands.items()
    )
    cases = ""
    for name, text in texts.commands.items():
        rest = " '*:file:_files'" if takes_files(text) else ""
        cases += "        %s) _arguments %s%s ;;\n" % (
            name,
            " \\\n            ".join(map(zsh_option, options(texts, text))),
            rest,
        )
    return ZSH % {
        "name": texts.name,
        "commands": commands,
        "options": " ".join(map(zsh_option, options(texts, texts.main))),
        "cases": cases,
    }


def in_fish(text):
    return "'%s'" % text.replace("\\", "\\\\").replace("'", "\\'")


def fish_option(name, condition, it):
    names = " ".join(
        "-l %s" % one[2:] if one.startswith("--") else "-s %s" % one[1:] for one in it.names
    )
    value = (
        (
            " -x -a %s" % in_fish(" ".join(it.words))
            if it.words
            else " -r -F"
            if it.is_file
            else " -x"
        )
        if it.value
        else ""
    )
    return "complete -c %s -n %s %s%s -d %s\n" % (name, condition, names, value, in_fish(it.said))


def fish(texts):
    told = (
        "# Completion of %s for fish. Written by tools/man_page.py from the help texts: change those, not this file.\n"
        % texts.name
    )
    told += "complete -c %s -f\n" % texts.name
    told += "".join(
        fish_option(texts.name, "__fish_use_subcommand", it) for it in options(texts, texts.main)
    )
    for command, text in texts.commands.items():
        told += "complete -c %s -n __fish_use_subcommand -a %s -d %s\n" % (
            texts.name,
            command,
            in_fish(about(text)),
        )
        condition = "'__fish_seen_subcommand_from %s'" % command
        told += "complete -c %s -n %s -F\n" % (texts.name, condition) if takes_files(text) else ""
        told += "".join(fish_option(texts.name, condition, it) for it in options(texts, text))
    return told


def of(texts, shell):
    """The script for a shell, one of SHELLS."""
    return {"bash": bash, "zsh": zsh, "fish": fish}[shell](texts)

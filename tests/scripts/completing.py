#!/usr/bin/env python3
"""What bash, zsh and fish complete after `pit` and `pitplan`, by the scripts of completions/ or by those that a package installed.

    python3 tests/scripts/completing.py     by those that are installed, in each of the three shells that is here
"""
import os
import pty
import select
import shutil
import signal
import subprocess
import sys
import tempfile
import time
from pathlib import Path

TOP = Path(__file__).resolve().parents[2]
SHELLS = ("bash", "zsh", "fish")
INSTALLED = {
    "bash": "/usr/share/bash-completion/completions/%s",
    "zsh": "/usr/share/zsh/vendor-completions/_%s",
    "fish": "/usr/share/fish/vendor_completions.d/%s.fish",
}
# A line that is begun, and the word that its last one becomes. Only one fits, or nothing where it is None.
LINES = (
    ("pit sol", "solve"),
    ("pit check --up", "--upit"),
    ("pit solve --method pse", "pseudoflow"),
    ("pit slopes --pattern ni", "nine"),
    ("pit solve --group sca", "scaled"),
    ("pit check --prec a-f", "a-file"),
    ("pit check a-f", "a-file"),
    ("pit solve --steps a-f", None),
    ("pitplan she", "shells"),
    ("pitplan plot --be", "--bench"),
    ("pitplan submit --engine sl", "slurm"),
    ("pitplan build a-f", "a-file"),
    ("pitplan compare --surface a-f", "a-file"),
    ("pitplan init --column dens", "density"),
    ("pitplan doctor --ru", None),
    ("pitplan --ver", "--version"),
)
BASH = 'source "$0"; COMP_WORDS=("$@"); COMP_CWORD=$(($# - 1)); _"$1"; printf "%s\\n" "${COMPREPLY[@]}"'


def in_bash(script, line, folder):
    """The words that bash offers, one in a line."""
    return subprocess.run(
        ["bash", "--norc", "-c", BASH, str(script), *line.split(" ")],
        cwd=folder,
        stdout=subprocess.PIPE,
        text=True,
    ).stdout


def in_fish(script, line, folder):
    """The words that fish offers, one in a line, each with what is said of it."""
    return subprocess.run(
        ["fish", "-N", "-c", "source $argv[1]; complete -C $argv[2]", str(script), line],
        cwd=folder,
        stdin=subprocess.DEVNULL,
        env={**os.environ, "HOME": str(folder)},
        stdout=subprocess.PIPE,
        text=True,
    ).stdout


def told(terminal, text, until, seconds=10):
    """What a shell at a terminal shows after a text is typed, until something is in it."""
    os.write(terminal, text.encode())
    said, end = "", time.monotonic() + seconds
    while until not in said and time.monotonic() < end:
        if select.select([terminal], [], [], 0.2)[0]:
            said += os.read(terminal, 1 << 16).decode(errors="replace")
    return said


def in_zsh(script, line, folder):
    """What zsh makes of the last word of a line, at a terminal, when tab is typed."""
    (folder / "functions").mkdir(exist_ok=True)
    shutil.copy(script, folder / "functions" / ("_" + line.split(" ")[0]))
    child, terminal = pty.fork()
    if not child:
        os.chdir(folder)
        os.execvpe(
            "zsh",
            ["zsh", "-f", "-i"],
            {**os.environ, "TERM": "dumb", "HOME": str(folder), "PS1": ""},
        )
    try:
        told(
            terminal,
            "fpath=($PWD/functions $fpath); autoload -Uz compinit; compinit -u -d $PWD/dump; unsetopt zle_bracketed_paste; print rea''dy\n",
            "ready",
        )
        told(terminal, line + "\t", "\0", 1.0)
        # what stands on the line now is printed, a word in a line
        said = (
            told(terminal, "\x01print -rl -- \x05 en''d\n", "\r\nend", 5.0)
            .replace("\r", "")
            .rpartition("\nend")[0]
        )
        word = said.rpartition("\n")[2]
        return "" if word == line.split(" ")[-1] else word
    finally:
        os.kill(child, signal.SIGKILL)
        os.waitpid(child, 0)
        os.close(terminal)


def wrong_in(shell, script_of):
    """A line for each of LINES that a shell completes to something else."""
    wrong = []
    for line, wanted in LINES:
        with tempfile.TemporaryDirectory() as room:
            folder = Path(room)
            (folder / "a-file").write_text("")
            offered = {"bash": in_bash, "zsh": in_zsh, "fish": in_fish}[shell](
                script_of(line.split(" ")[0]), line, folder
            )
        words = {row.split("\t")[0].strip() for row in offered.splitlines()} - {""}
        if words != ({wanted} if wanted else set()):
            wrong.append(
                "%s completes %r to %s, and not to %s" % (shell, line, sorted(words)[:9], wanted)
            )
    return wrong


def wrong_scripts(script_of):
    """What is wrong in those of the shells that are here. `script_of` gives the script by shell and command."""
    return [
        it
        for shell in SHELLS
        if shutil.which(shell)
        for it in wrong_in(shell, lambda name, shell=shell: script_of(shell, name))
    ]


def of_repository(shell, name, top=TOP):
    return top / "completions" / ("%s.%s" % (name, shell))


def main():
    wrong = wrong_scripts(lambda shell, name: INSTALLED[shell] % name)
    print("\n".join(wrong) or "completed in " + ", ".join(filter(shutil.which, SHELLS)))
    return 1 if wrong else 0


if __name__ == "__main__":
    sys.exit(main())

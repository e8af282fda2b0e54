"""What `--verbose` tells of each command where a file of it is missing, where the output fails, and where the slopes of its settings give
nothing; and what is told without it.

What must come is FORMATS.md's. All files are opened before one is read, so those that are there may be empty.
"""
import subprocess
import tempfile
from pathlib import Path

from program.refused_calls import HERE, SECONDS, lay_out

VALUES = "--prec p --upit u"
PRICES = "--prec p --blocks b --settings s"
SLOPED = "--blocks b --settings s"
VALUED = "--upit u --blocks b --settings s"
MODELS = VALUES, PRICES, SLOPED, VALUED
AT_FACTOR = VALUES, PRICES + " --factor 500", SLOPED + " --factor 500", VALUED
# Of each command the models that it takes, and what may follow; a name of one letter is that of a file that is read.
COMMANDS = (
    ("check", MODELS, ("c",)),
    ("solve", AT_FACTOR, ("", "--method lock-free", "--uses d --periods t --pit q")),
    ("replay", AT_FACTOR, ("t",)),
    ("value", MODELS, ("d", "--best c d")),
    ("schedule", MODELS, ("--uses c --periods t d", "--uses x --periods t --best c --pit q d")),
    ("bound", MODELS, ("--uses d --periods t c", "--uses d --periods t --pit q c")),
    ("shells", (PRICES, SLOPED), ("",)),
    ("report", (PRICES, SLOPED), ("",)),
    ("slopes", ("--blocks b",), ("--pattern five", "--pattern settings --settings s")),
)
RUNS = [
    [command, *model.split(), *others.split()]
    for command, models, after in COMMANDS
    for model in models
    for others in after
]
# Cases of each command that are answered on standard output.
ANSWERED = (
    "check/two_ore_blocks_share_one_waste_block",
    "solve/one_block_worth_digging",
    "solve/lock_free_one_block_worth_digging",
    "solve/trace_of_a_settled_run",
    "solve/over_periods",
    "replay/two_ore_blocks_over_one_waste_block",
    "value/all_three_blocks_beside_the_best_pit",
    "value/prices_of_a_block_that_needs_another",
    "schedule/a_feasible_schedule",
    "schedule/a_schedule_below_a_bound",
    "bound/three_blocks_over_two_periods",
    "shells/two_prices",
    "report/two_prices",
    "slopes/nine",
)
# A block of a region for which no slope is listed.
OF_NO_REGION = {
    "b": "0 0 0 0 1 1\n",
    "s": "revenue = 0\ncost = 1\ntonnes = 1\nfactors = [1000]\nslopes = [[[0, 0, 1]]]\nregion = 1\n",
}
MISSING = "cannot open gone: No such file or directory (os error 2)", "device", 4
FULL = "cannot write to standard output: No space left on device (os error 28)", "device", 4
NO_REGION = (
    "the region of block 0 is no whole number, or slopes has no offsets for it: its first list is that of region 0",
    "slope UnknownRegion(0)",
    3,
)


def wrong(program, words, folder, failure, output=subprocess.PIPE):
    """What is wrong with how a run fails, with and without --verbose."""
    reason, fault, status = failure
    for verbose in ([], ["--verbose"]):
        done = subprocess.run(
            [str(program), *words, *verbose],
            cwd=folder,
            stdin=subprocess.DEVNULL,
            stdout=output,
            stderr=subprocess.PIPE,
            text=True,
            timeout=SECONDS,
        )
        must = ("reason: %s\n" % reason if verbose else "") + "fault: %s\n" % fault
        if (done.returncode, done.stdout or "", done.stderr) != (status, "", must):
            return "%s: status %d, %r in place of %r" % (
                " ".join([*words, *verbose]),
                done.returncode,
                done.stderr,
                must,
            )
    return None


def where_a_file_is_missing(program, folder):
    """Each file of each command in turn."""
    for words in RUNS:
        for place, word in enumerate(words):
            if len(word) == 1:
                missing = [*words[:place], "gone", *words[place + 1 :]]
                yield wrong(program, missing, folder, MISSING)


def where_the_output_fails(program, folder):
    """A device that is full takes the output."""
    for number, case in enumerate(ANSWERED):
        room = folder / str(number)
        room.mkdir()
        words = lay_out(HERE.parent / "cases" / case, room)
        with open("/dev/full", "wb") as full:
            yield wrong(program, words, room, FULL, full)


def where_slopes_give_nothing(program, folder):
    """A fault of slopes comes before those of the files that are read later."""
    for name, text in OF_NO_REGION.items():
        (folder / name).write_text(text)
    for words in RUNS:
        if "--settings" in words and "--prec" not in words and "--upit" not in words:
            yield wrong(program, words, folder, NO_REGION)


def try_all(program):
    """Tries all of it, and gives how many runs told what they must and how many not."""
    results = []
    for tried in where_a_file_is_missing, where_the_output_fails, where_slopes_give_nothing:
        with tempfile.TemporaryDirectory() as name:
            folder = Path(name)
            for file in "pubscdtqx":
                (folder / file).write_text("")
            results += tried(program, folder)
    strange = [line for line in results if line]
    for line in strange[:10]:
        print("reasons: %s" % line)
    return len(results) - len(strange), len(strange)

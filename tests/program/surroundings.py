"""Runs the built program where a case's folder can't say what is wanted: on one processor, with outputs that are closed, past the
limit of a file's size, on blocks of too many pairs, on runs that are long enough to tell how far they are, and on mines whose size chooses the solver.

What must come is worked out from FORMATS.md and the help texts, or is what the program answers without the surroundings.
"""
import os
import re
import resource
import shutil
import subprocess
from pathlib import Path

from program.refused_calls import SECONDS, run
from program.traces import FILES, VALUES, room_with

SERIES = ["--prec", "p", "--blocks", "b", "--settings", "s"]


def chain(ore, waste):
    """Blocks worth 2 in a row under a row of blocks worth -1, each resting on the next one up."""
    upit = "NBLOCKS: %d\nOBJECTIVE_FUNCTION:\n" % (ore + waste) + "".join(
        "%d %d\n" % (b, 2 if b < ore else -1) for b in range(ore + waste)
    )
    return {"u": upit, "p": "".join("%d 1 %d\n" % (b, b + 1) for b in range(ore + waste - 1))}


def on_one_processor(program):
    """Two workers without a lock, bound to one processor, need about as many turns as one. Where each spun until the other
    has its turn of the processor, it would use up some 50,000 turns at each of some thousand changes, and end UNSETTLED.
    """
    words = ["solve", *VALUES, "--method", "lock-free"]
    allowed = os.sched_getaffinity(0)
    with room_with(chain(40, 40)) as room:
        alone = run(program, [*words, "--workers", "1"], room)
        try:
            os.sched_setaffinity(0, {min(allowed)})
            both = run(program, [*words, "--workers", "2", "--steps", "10000000"], room)
        finally:
            os.sched_setaffinity(0, allowed)
    pits = [
        [line for line in said[1].split(b"\n") if line.startswith(b"PIT ")]
        for said in (alone, both)
    ]
    yield None if both[0] == 0 and pits[0] == pits[1] else "two workers on one processor: %r" % (
        both,
    )


def closed(program, redirection, words, folder):
    """The exit status where the shell redirects an output so."""
    line = '"$0" "$@" ' + redirection
    return subprocess.run(
        ["sh", "-c", line, str(program), *words],
        cwd=folder,
        stdin=subprocess.DEVNULL,
        stdout=subprocess.DEVNULL,
        stderr=subprocess.DEVNULL,
        timeout=SECONDS,
    ).returncode


def with_closed_outputs(program):
    """A wrong use has the status 2, and a wrong file the status 3, also where nobody can be told."""
    wrong_file = ["check", "--prec", "u", "--upit", "u", "u"]
    rows = (
        (["nonsense"], "2>&-", 2),
        (["nonsense"], "2>/dev/full", 2),
        (["solve", *VALUES, "--steps", "0"], "2>&-", 2),
        (wrong_file, "2>&-", 3),
        (["--help"], ">/dev/full", 4),
        (["--help"], "2>&-", 0),
    )
    with room_with(FILES) as room:
        for words, redirection, wanted in rows:
            status = closed(program, redirection, words, room)
            yield None if status == wanted else "%s %s: status %d in place of %d" % (
                " ".join(words),
                redirection,
                status,
                wanted,
            )


def with_arguments_that_are_no_text(program):
    """Arguments that aren't in UTF-8 can't be shown, and are a wrong use all the same."""
    with room_with(FILES) as room:
        said = run(program, ["check", *VALUES, b"\xff"], room)
    yield None if said == (2, b"", b"fault: usage\n") else "arguments that are no text: %r" % (
        said,
    )


LAUNCHER = Path(__file__).resolve().parents[2] / "tools" / "launcher"
LIMIT = 1000


def past_a_limit(program, words, folder):
    """The exit status and the errors where no file may be longer than LIMIT bytes, and what came on standard output."""
    out = Path(folder) / "out"
    with open(out, "wb") as file:
        done = subprocess.run(
            [str(program), *words],
            cwd=folder,
            stdin=subprocess.DEVNULL,
            stdout=file,
            stderr=subprocess.PIPE,
            timeout=SECONDS,
            preexec_fn=lambda: resource.setrlimit(resource.RLIMIT_FSIZE, (LIMIT, LIMIT)),
        )
    return done.returncode, done.stderr, out.read_bytes()


def with_files_of_a_limit(program):
    """What is installed, the launcher over the program, says that a device failed where a file grows past its limit (`ulimit -f`): of the
    output a front is there, and of a trace. The answer is the program's own where there is no limit.
    """
    with room_with(chain(40, 40)) as room:
        installed = Path(room) / "bin" / "pit"
        (Path(room) / "lib" / "pontihaw").mkdir(parents=True)
        (Path(room) / "lib" / "pontihaw" / "pit").symlink_to(Path(program).resolve())
        installed.parent.mkdir()
        shutil.copy(LAUNCHER, installed)
        ample, same = run(program, ["solve", *VALUES], room), run(
            installed, ["solve", *VALUES], room
        )
        yield None if ample == same and ample[0] == 0 and len(
            ample[1]
        ) > LIMIT else "the launcher: %r in place of %r" % (same, ample)
        status, errors, output = past_a_limit(installed, ["solve", *VALUES], room)
        well = (status, errors) == (4, b"fault: device\n") and output == ample[1][:LIMIT]
        yield None if well else "output past its limit: %r" % ((status, errors, output),)
        status, errors, output = past_a_limit(
            installed, ["solve", *VALUES, "--trace", "t", "--verbose"], room
        )
        told = [b"fault: device"] == errors.splitlines()[1:] and errors.startswith(
            b"reason: cannot write to t: "
        )
        trace = (Path(room) / "t").read_bytes()
        run(program, ["solve", *VALUES, "--trace", "t"], room)
        well = (
            (status, output) == (4, b"")
            and told
            and trace == (Path(room) / "t").read_bytes()[:LIMIT]
        )
        yield None if well else "a trace past its limit: %r" % ((status, errors, output),)


def more_pairs_than_may_be(program):
    """Once the blocks are read, and before pairs are looked for, --verbose tells how many there may be at most, where that is too many.
    Here two blocks at one place end the run then."""
    width, blocks = 35, 35_000
    offsets = sum(
        x * x + y * y <= width * width
        for x in range(-width, width + 1)
        for y in range(-width, width + 1)
    )
    listed = [[x, y, 1] for x in range(64) for y in range(64)]
    files = {
        "b": "".join("%d %d 0 0\n" % (b, 0 if b == blocks - 1 else 100 * b) for b in range(blocks)),
        "s": "offsets = %r\n" % listed,
    }
    by_list = ["--pattern", "settings", "--settings", "s"]
    with room_with(files) as room:
        for pattern, number in (
            (["--pattern", "cone:1:%d:1" % width], offsets),
            (by_list, len(listed)),
            (["--pattern", "nine"], None),
        ):
            said = run(program, ["slopes", "--blocks", "b", *pattern, "--verbose"], room)
            note = (
                b"note: %d offsets give at most %d pairs for %d blocks, and no more than 134217728 are written\n"
                % (number, number * blocks, blocks)
                if number
                else b""
            )
            yield None if said == (
                3,
                b"",
                note + b"fault: slope SamePlace(0, %d)\n" % (blocks - 1),
            ) else "pairs of %s: %r" % (pattern, said)


def run_within(kilobytes, program, words, folder):
    """Status, output and errors of a run that may use so many kilobytes of addresses."""
    done = subprocess.run(
        [str(program), *words],
        cwd=folder,
        stdin=subprocess.DEVNULL,
        capture_output=True,
        timeout=SECONDS,
        preexec_fn=lambda: resource.setrlimit(resource.RLIMIT_AS, (kilobytes << 10,) * 2),
    )
    return done.returncode, done.stdout, done.stderr


def more_pairs_than_a_list_has(program):
    """Settings whose slopes give more than 2^27 pairs are solved, checked, drawn as shells, reported and asked for the worth of a
    design with half of the memory that a list of 2^27 takes, for none is made. Each block of the lower of two benches rests on a
    square of the upper one, and a single block of ore pays for its square. A certificate that lacks a block of it is refused, and a
    design that lacks it is open.
    """
    wide, ore, kilobytes = 256, 128 * 257, 1 << 18
    offsets = [[x, y, 1] for x in range(-32, 32) for y in range(-32, 32)]
    places = [(x, y, z) for z in range(2) for y in range(wide) for x in range(wide)]
    files = {
        "b": "".join(
            "%d %d %d %d %d 1\n" % (b, *place, 5_000 * (b == ore)) for b, place in enumerate(places)
        ),
        "s": "revenue = 0\ncost = 1\ntonnes = 1\nfactors = [500, 1000]\nslopes = [%r]\n" % offsets,
    }
    words = ["--blocks", "b", "--settings", "s"]
    with room_with(files) as room:
        solved = run_within(kilobytes, program, ["solve", *words, "--factor", "1000"], room)
        (Path(room) / "c").write_bytes(solved[1])
        lines = solved[1].splitlines(keepends=True)
        last = max(at for at, line in enumerate(lines) if line.startswith(b"PIT "))
        (Path(room) / "less").write_bytes(b"".join(lines[:last] + lines[last + 1 :]))
        checked, refused = (
            run_within(kilobytes, program, ["check", *words, file], room) for file in ("c", "less")
        )
        drawn, reported = (
            run_within(kilobytes, program, [word, *words], room) for word in ("shells", "report")
        )
        valued, beside, lacking = (
            run_within(kilobytes, program, ["value", *words, *said], room)
            for said in (
                ["--factor", "1000", "c"],
                ["--best", "c", "less"],
                ["--factor", "1000", "less"],
            )
        )
    yield None if solved[0] == 0 and solved[2] == b"" else "more pairs: %r" % (solved[::2],)
    yield None if checked == (0, b"ACCEPTED 4097 903\n", b"") else "more pairs: %r" % (checked,)
    yield None if refused[0] == 1 and refused[1].startswith(
        b"REFUSED NotClosed"
    ) else "more pairs, a block too few: %r" % (refused,)
    design = b"DESIGN 4097 903\nCLOSED\n"
    open_design = b"DESIGN 4096 904\nOPEN 1\nNEEDS %d %d\n" % (ore, int(lines[last].split()[1]))
    for what, answer, wanted in (
        ("shells", drawn, (0, b"SHELL 500 0 0\nSHELL 1000 4097 903\n", b"")),
        (
            "report",
            reported,
            (
                0,
                b"z,shell,blocks,tonnes,worth\n0,1000,1,1,4999\n1,1000,4096,4096,-4096\n",
                b"",
            ),
        ),
        ("value", valued, (0, design, b"")),
        ("value beside", beside, (1, open_design + b"BEST 4097 903 GAP -1\n", b"")),
        ("value of a block too few", lacking, (1, open_design, b"")),
    ):
        yield None if answer == wanted else "more pairs, %s: %r" % (what, answer)


def square_over_periods(wide, periods, reach):
    """Blocks, settings, periods and a certificate: one block of ore below rests on a square above, and is dug with it in the last of
    these periods, of equal weights."""
    count, ore = 2 * wide * wide, wide * (wide + 1) // 2
    places = [(x, y, z) for z in range(2) for y in range(wide) for x in range(wide)]
    span = range(-reach, reach + 1)
    above = sorted(wide * wide + ore + wide * y + x for y in span for x in span)
    last = (periods - 1) * count
    unit = 10**15
    lines = ["PITCERT 1", "BLOCKS %d" % (periods * count), "PRICE 1000", "GROUP WORTH"]
    lines += ["PIT %d" % (last + b) for b in [ore, *above]]
    lines += ["SOURCE %d %d 0" % (last + ore, unit * len(above))]
    lines += ["REST %d %d %d 0" % (last + ore, last + b, unit) for b in above]
    lines += ["SINK %d %d 0" % (last + b, unit) for b in above]
    return {
        "b": "".join(
            "%d %d %d %d %d 1\n" % (b, *place, 5_000 * (b == ore)) for b, place in enumerate(places)
        ),
        "s": "revenue = 0\ncost = 1\ntonnes = 1\nfactors = [1000]\nslopes = [%r]\n"
        % [[x, y, 1] for x in span for y in span],
        "p": "weights = %r\nresources = [1]\ncapacities = [%r]\nmultipliers = [%r]\n"
        % ([1_000_000] * periods, [0] * periods, [0] * periods),
        "c": "\n".join([*lines, "END", ""]),
        "less": "\n".join([*lines[: 4 + len(above)], *lines[5 + len(above) :], "END", ""]),
    }


def more_node_pairs_than_a_list_has(program):
    """A bound is told of nodes that have more than 2^27 pairs, with less memory than a list of them takes, for none is made; and a
    certificate that lacks a block of its pit is refused."""
    wide, periods, reach, kilobytes = 100, 36, 10, 1 << 19
    words = ["bound", "--blocks", "b", "--settings", "s", "--periods", "p"]
    with room_with(square_over_periods(wide, periods, reach)) as room:
        told, refused = (
            run_within(kilobytes, program, [*words, file], room) for file in ("c", "less")
        )
    yield None if told == (0, b"BOUND 4558\n", b"") else "more node pairs: %r" % (told,)
    yield None if refused[0] == 1 and refused[1].startswith(
        b"REFUSED NotClosed"
    ) else "more node pairs, a block too few: %r" % (refused,)


def first_lines_of_progress(program, words, folder):
    """What a run tells on standard error until its second line; then it is ended."""
    with subprocess.Popen(
        [str(program), *words, "--progress"],
        cwd=folder,
        stdin=subprocess.DEVNULL,
        stdout=subprocess.DEVNULL,
        stderr=subprocess.PIPE,
        text=True,
    ) as running:
        lines = [running.stderr.readline() for _ in range(2)]
        running.kill()
    return lines


def how_far_the_machine_is(program):
    """The machine tells its steps, and what share of the limit they are, which is 1,000,000,000 where no word says."""
    with room_with(chain(2_000, 2_000)) as room:
        lines = first_lines_of_progress(
            program, ["solve", *VALUES, "--method", "push-relabel"], room
        )
    told = [
        re.fullmatch(r"progress: (\d+) steps, (\d+)% of the limit, (\d+) s\n", line)
        for line in lines
    ]
    well = all(told) and all(int(one[2]) == int(one[1]) * 100 // 1_000_000_000 for one in told)
    yield None if well and int(told[0][3]) < int(told[1][3]) and int(told[0][1]) < int(
        told[1][1]
    ) else "progress of the machine: %r" % (lines,)


def the_solver_by_size(program):
    """Up to 1,000 blocks `auto` is the push-relabel machine, and beyond pseudoflow: the two find different flows here."""
    for blocks, method in ((1_000, "push-relabel"), (1_001, "pseudoflow")):
        upit = "NBLOCKS: %d\nOBJECTIVE_FUNCTION:\n0 -7\n1 4\n3 -3\n" % blocks
        with room_with({"u": upit, "p": "0 1 3\n1 2 2 3\n2 1 1\n"}) as room:
            auto, machine, pseudoflow = (
                run(program, ["solve", *VALUES, *words], room)
                for words in ([], ["--method", "push-relabel"], ["--method", "pseudoflow"])
            )
        is_right = (
            machine != pseudoflow
            and auto == (machine if method == "push-relabel" else pseudoflow)
            and auto[0] == 0
        )
        yield None if is_right else "auto of %d blocks isn't %s: %r, %r, %r" % (
            blocks,
            method,
            auto,
            machine,
            pseudoflow,
        )


def try_all(program):
    """Tries all of it, and gives how many answers were as they must be and how many not."""
    results = [
        line
        for tried in (
            on_one_processor,
            with_closed_outputs,
            with_arguments_that_are_no_text,
            with_files_of_a_limit,
            more_pairs_than_may_be,
            more_pairs_than_a_list_has,
            more_node_pairs_than_a_list_has,
            how_far_the_machine_is,
            the_solver_by_size,
        )
        for line in tried(program)
    ]
    wrong = [line for line in results if line]
    for line in wrong:
        print("surroundings: %s" % line[:600])
    return len(results) - len(wrong), len(wrong)

"""Runs the built program where it is hardest pressed: 64 workers a thousand times, a model of 2^24 blocks of which no value is
given, one record too many of each kind, and inputs of 4 GB, a single line each, with memory for them and without.

What must come is worked out from FORMATS.md. The long inputs are files with a hole, which take no room on the disk.
"""
import os
import resource
import subprocess
import tempfile
from concurrent.futures import ThreadPoolExecutor
from pathlib import Path

RUNS = 1_000
MOST_BYTES = 1 << 32
MOST_BLOCKS = 1 << 24
SHARED_WASTE = {"p": "0 1 2\n1 1 2\n", "u": "NBLOCKS: 3\nOBJECTIVE_FUNCTION:\n0 6\n1 5\n2 -10\n"}
PRICED = {"s": "revenue = 0\ncost = 1\n", "b": "0 0 0 0 5 1\n"}
VALUES = ["--prec", "p", "--upit", "u"]
PRICES = ["--prec", "p", "--blocks", "b", "--settings", "s"]


def answer(program, words, folder, kilobytes=None):
    """Status, standard output and standard error; kilobytes bound the addresses that the program may use."""
    bound = kilobytes and (lambda: resource.setrlimit(resource.RLIMIT_AS, (kilobytes * 1024,) * 2))
    done = subprocess.run(
        [str(program), *words],
        cwd=folder,
        stdin=subprocess.DEVNULL,
        stdout=subprocess.PIPE,
        stderr=subprocess.PIPE,
        timeout=600,
        preexec_fn=bound,
    )
    return done.returncode, done.stdout, done.stderr


def room_with(files):
    room = tempfile.TemporaryDirectory()
    for name, text in files.items():
        (Path(room.name) / name).write_text(text)
    return room


def by_64_workers(program, _):
    """One run: what is wrong with its answer, or None."""
    with room_with(SHARED_WASTE) as room:
        status, certificate, errors = answer(program, ["solve", *VALUES, "--workers", "64"], room)
        (Path(room) / "c").write_bytes(certificate)
        said = answer(program, ["check", *VALUES, "c"], room)
    is_right = (status, errors) == (0, b"") and said == (0, b"ACCEPTED 3 1\n", b"")
    return (
        None
        if is_right
        else "64 workers: status %d, %r, %r, %r" % (status, certificate, errors, said)
    )


def a_model_without_values(program):
    """The greatest number of blocks, none of which is worth anything: the pit is empty, and so is its flow."""
    head = "PITCERT 1\nBLOCKS %d\nPRICE OBJECTIVE\nGROUP PAIR\n" % MOST_BLOCKS
    cases = [
        (MOST_BLOCKS, "solve", (0, (head + "END\n").encode(), b"")),
        (MOST_BLOCKS, "check", (0, b"ACCEPTED 0 0\n", b"")),
        (MOST_BLOCKS + 1, "solve", (3, b"", b"fault: upit WrongBlocks(1)\n")),
    ]
    for blocks, command, wanted in cases:
        with room_with(
            {"p": "", "u": "NBLOCKS: %d\nOBJECTIVE_FUNCTION:\n" % blocks, "c": head + "END\n"}
        ) as room:
            said = answer(program, [command, *VALUES] + ["c"] * (command == "check"), room)
        yield None if said == wanted else "%s of %d blocks: %r" % (command, blocks, said)


def long_inputs(program):
    """A file of 2^32 bytes that are one line, and of one byte more."""
    cases = [
        ("prec", "p", ["solve", *VALUES]),
        ("upit", "u", ["solve", *VALUES]),
        ("certificate", "c", ["check", *VALUES, "c"]),
        ("trace", "c", ["replay", *VALUES, "c"]),
        ("blocks", "b", ["solve", *PRICES, "--factor", "1000"]),
        ("settings", "s", ["solve", *PRICES, "--factor", "1000"]),
    ]
    for kind, name, words in cases:
        line = b"fault: %s Text(1)\n" % kind.encode() if kind != "settings" else None
        over, short = (3, b"fault: %s InputTooLong\n" % kind.encode()), (4, b"fault: memory\n")
        if kind == "certificate":
            # it is read line by line, so its long line is told before the rest is read, and takes little memory
            over = short = 3, line
        for length, kilobytes, (status, wanted) in (
            (MOST_BYTES, None, (3, line)),
            (MOST_BYTES + 1, None, over),
            (MOST_BYTES, 1_000_000, short),
        ):
            # which fault of a TOML document comes first is the library's word, so only that there is one is compared
            files = dict(SHARED_WASTE, **PRICED) if "--upit" in words else dict(PRICED, p="")
            with room_with(files) as room:
                with open(Path(room) / name, "wb") as hole:
                    hole.truncate(length)
                said = answer(program, words, room, kilobytes)
            is_right = said[:2] == (status, b"") and (
                said[2] == wanted or (wanted is None and said[2].startswith(b"fault: settings "))
            )
            yield None if is_right else "%s of %d bytes: %r" % (kind, length, said)


def is_line_of(numbers, b):
    """A record of block b with so many predecessors, each a single digit."""
    return "%d %d%s\n" % (b, numbers, " 0" * numbers)


def one_record_too_many(program):
    """One predecessor more than 2^27, a block and a step more than 2^24, each at its line; and pairs by slopes below and above 2^27."""
    most_pairs, a_line = 1 << 27, 32_000
    lines, rest = divmod(most_pairs, a_line)
    upit = "NBLOCKS: %d\nOBJECTIVE_FUNCTION:\n" % (lines + 1)
    with room_with({"u": upit}) as room:
        for more, wanted in (
            (0, (0, "PITCERT 1\nBLOCKS %d\nPRICE OBJECTIVE\nGROUP PAIR\nEND\n" % (lines + 1), "")),
            (1, (3, "", "fault: prec TooMany(%d)\n" % (lines + 1))),
        ):
            with open(Path(room) / "p", "w") as prec:
                for b in range(lines):
                    prec.write(is_line_of(a_line, b))
                prec.write(is_line_of(rest + more, lines))
            status, output, errors = answer(program, ["solve", *VALUES], room)
            yield None if (
                status,
                output.decode(),
                errors.decode(),
            ) == wanted else "%d predecessors: %r" % (
                most_pairs + more,
                (status, output[:99], errors),
            )
        with open(Path(room) / "b", "w") as blocks:
            for _ in range(MOST_BLOCKS // 4096):
                blocks.write("0 0 0 0\n" * 4096)
            blocks.write("0 0 0 0\n")
        said = answer(program, ["slopes", "--blocks", "b", "--pattern", "five"], room)
        yield None if said == (
            3,
            b"",
            b"fault: blocks TooMany(%d)\n" % (MOST_BLOCKS + 1),
        ) else "%d blocks: %r" % (MOST_BLOCKS + 1, said)
        (Path(room) / "p").write_text("")
        with open(Path(room) / "t", "w") as trace:
            trace.write("PITTRACE 1\n")
            for _ in range(MOST_BLOCKS // 4096):
                trace.write("RE 0\n" * 4096)
            trace.write("RE 0\nEND\n")
        said = answer(program, ["replay", *VALUES, "t"], room)
        yield None if said == (3, b"", b"fault: trace TooMany\n") else "a trace of %d steps: %r" % (
            MOST_BLOCKS + 1,
            said,
        )
    yield from too_many_by_slopes(program, most_pairs)


def too_many_by_slopes(program, most_pairs):
    """Two benches under an offset list of 64 by 64, so that each block of the lower one rests on a square of the upper one."""
    offsets = [[dx, dy, 1] for dx in range(-32, 32) for dy in range(-32, 32)]
    for wide in (192, 256):
        pairs = sum(min(x + 31, wide - 1) - max(x - 32, 0) + 1 for x in range(wide)) ** 2
        places = [(x, y, z) for z in range(2) for y in range(wide) for x in range(wide)]
        with room_with(
            {
                "b": "".join("%d %d %d %d\n" % (b, *place) for b, place in enumerate(places)),
                "s": "offsets = %s\n" % offsets,
            }
        ) as room:
            words = [
                str(program),
                "slopes",
                "--blocks",
                "b",
                "--pattern",
                "settings",
                "--settings",
                "s",
            ]
            done = subprocess.run(
                words,
                cwd=room,
                stdin=subprocess.DEVNULL,
                stdout=subprocess.DEVNULL,
                stderr=subprocess.PIPE,
                timeout=600,
            )
        wanted = (0, b"") if pairs <= most_pairs else (3, b"fault: slope TooMany\n")
        yield None if (done.returncode, done.stderr) == wanted else "%d pairs by slopes: %r" % (
            pairs,
            (done.returncode, done.stderr),
        )


def try_all(program):
    """Tries all of it, and gives how many answers were as they must be and how many not."""
    with ThreadPoolExecutor(len(os.sched_getaffinity(0))) as pool:
        results = list(pool.map(lambda number: by_64_workers(program, number), range(RUNS)))
    results += a_model_without_values(program)
    results += one_record_too_many(program)
    results += long_inputs(program)
    wrong = [line for line in results if line]
    for line in wrong[:10]:
        print(line)
    print("hard pressed: %d answers, %d wrong" % (len(results), len(wrong)))
    return len(results) - len(wrong), len(wrong)

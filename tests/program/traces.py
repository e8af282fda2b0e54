"""Runs `pit solve --trace` of the built program where a case's folder can't say what is wanted: over one of its own inputs, by
links, and over an older trace.

A trace replaces what is in its file only once all inputs are read. What must come is what comes without a trace, by FORMATS.md.
"""
import os
import tempfile
from pathlib import Path

from program.refused_calls import run

FILES = {
    "p": "0 1 2\n1 1 2\n",
    "u": "NBLOCKS: 3\nOBJECTIVE_FUNCTION:\n0 6\n1 5\n2 -10\n",
    "s": "revenue = 0\ncost = 1\n",
    "b": "0 0 0 0 6 0\n1 1 0 0 5 0\n2 0 0 1 0 10\n",
}
VALUES = ["--prec", "p", "--upit", "u"]
PRICES = ["--prec", "p", "--blocks", "b", "--settings", "s", "--factor", "1000"]
SLOPED = ["--blocks", "b", "--settings", "s", "--factor", "1000"]
VALUED = ["--upit", "u", "--blocks", "b", "--settings", "s"]
MACHINE = ["--method", "push-relabel"]
HEAD = b"PITTRACE 1\n"


def room_with(files):
    room = tempfile.TemporaryDirectory()
    for name, text in files.items():
        (Path(room.name) / name).write_text(text)
    return room


def left(folder):
    """What the files hold that stood in the folder."""
    return {name: (Path(folder) / name).read_text() for name in FILES}


def under_an_inputs_name(program):
    """The name of an input is declined before a file is opened, and nothing is changed."""
    for model in (VALUES, PRICES, SLOPED, VALUED):
        for name in model[1::2]:
            if name not in FILES:
                continue
            with room_with(FILES) as room:
                status, certificate, errors = run(program, ["solve", *model, "--trace", name], room)
                said = (
                    b"error: invalid value '%s' for '--trace <FILE>': a file that isn't an input"
                    % name.encode()
                )
                is_right = (status, certificate, left(room)) == (
                    2,
                    b"",
                    FILES,
                ) and errors.startswith(said)
            yield None if is_right else "--trace %s of %s: %r" % (
                name,
                model,
                (status, certificate, errors),
            )


def by_another_name(program):
    """Another way to the same file: the certificate is that of the inputs as they were, and then the trace stands in the file."""
    ways = {
        "another word": lambda folder, name: "./" + name,
        "a symbolic link": lambda folder, name: os.symlink(name, Path(folder) / "link") or "link",
        "a hard link": lambda folder, name: os.link(Path(folder) / name, Path(folder) / "link")
        or "link",
    }
    for model in (VALUES, PRICES):
        for name in model[1::2]:
            if name not in FILES:
                continue
            for way, linked in ways.items():
                with room_with(FILES) as room:
                    ample = run(program, ["solve", *model, *MACHINE], room)
                    said = run(program, ["solve", *model, "--trace", linked(room, name)], room)
                    trace = (Path(room) / name).read_bytes()
                    others = {key: text for key, text in left(room).items() if key != name}
                    for key, text in FILES.items():
                        (Path(room) / key).unlink()
                        (Path(room) / key).write_text(text)
                    (Path(room) / "t").write_bytes(trace)
                    again = run(program, ["replay", *model, "t"], room)
                is_right = (
                    said == ample and ample[0] == 0 and trace.startswith(HEAD) and again[:1] == (0,)
                )
                is_right = is_right and others == {
                    key: text for key, text in FILES.items() if key != name
                }
                yield None if is_right else "%s to %s of %s: %r, %r, %r" % (
                    way,
                    name,
                    model,
                    said,
                    trace[:40],
                    again,
                )


def over_an_older_trace(program):
    """An older and longer trace is replaced whole; it stays where an input is missing or faulty."""
    older = HEAD + b"RE 0\n" * 1000 + b"END\n"
    with room_with(FILES) as room:
        (Path(room) / "t").write_bytes(older)
        (Path(room) / "bad").write_text("0 one 2\n")
        missing = (
            run(program, ["solve", "--prec", "none", "--upit", "u", "--trace", "t"], room),
            (Path(room) / "t").read_bytes(),
        )
        yield None if missing == (
            (4, b"", b"fault: device\n"),
            older,
        ) else "a missing input: %r" % (missing,)
        faulty = (
            run(program, ["solve", "--prec", "bad", "--upit", "u", "--trace", "t"], room),
            (Path(room) / "t").read_bytes(),
        )
        yield None if faulty == (
            (3, b"", b"fault: prec Number(1)\n"),
            older,
        ) else "a faulty input: %r" % (faulty,)
        run(program, ["solve", *VALUES, "--trace", "fresh"], room)
        said = run(program, ["solve", *VALUES, "--trace", "t"], room)
        is_right = (
            said[0] == 0 and (Path(room) / "t").read_bytes() == (Path(room) / "fresh").read_bytes()
        )
        yield None if is_right else "an older trace: %r" % (said,)


def to_what_is_no_file(program):
    """A device takes a trace as a file does."""
    with room_with(FILES) as room:
        ample = run(program, ["solve", *VALUES, *MACHINE], room)
        said = run(program, ["solve", *VALUES, "--trace", "/dev/null"], room)
        yield None if said == ample else "to /dev/null: %r" % (said,)
        said = run(program, ["solve", *VALUES, "--trace", "/dev/stderr"], room)
        yield None if said[:2] == ample[:2] and said[2].startswith(HEAD) and said[2].endswith(
            b"END\n"
        ) else "to a pipe: %r" % (said,)


def by_default(program):
    """A trace has room for 1,048,576 steps where no word says, so that a longer run has exactly so many."""
    blocks = 600
    upit = "NBLOCKS: %d\nOBJECTIVE_FUNCTION:\n" % blocks
    upit += "".join("%d %d\n" % (b, 2 if b < blocks // 2 else -1) for b in range(blocks))
    prec = "".join("%d 1 %d\n" % (b, b + 1) for b in range(blocks - 1))
    with room_with({"p": prec, "u": upit}) as room:
        said = run(program, ["solve", *VALUES, "--trace", "t"], room)
        lines = (Path(room) / "t").read_bytes().count(b"\n")
    yield None if said == (
        1,
        b"HISTORYFULL\n",
        b"",
    ) and lines == 1_048_576 + 2 else "the room of a trace: %r, %d lines" % (said, lines)


def try_all(program):
    """Tries all of it, and gives how many answers were as they must be and how many not."""
    results = [
        line
        for tried in (
            under_an_inputs_name,
            by_another_name,
            over_an_older_trace,
            to_what_is_no_file,
            by_default,
        )
        for line in tried(program)
    ]
    wrong = [line for line in results if line]
    for line in wrong:
        print("traces: %s" % line[:500])
    return len(results) - len(wrong), len(wrong)

#!/usr/bin/env python3
"""Draws a pit as text: one bench from above, and beside it a section from west to east.

    python3 draw_bench.py BLOCKS CERT [BENCH [ROW]]

BLOCKS is the .blocks file of the model, CERT a certificate that `pit check` has accepted. BENCH is the z of the bench,
where it is left out that of the highest blocks; ROW is the y of the section, where it is left out the middle one. `#` is
a block of the pit, `.` another block, and a space a place without a block. In the plan y grows upward, in the section z.
"""
import sys


def read_blocks(path):
    """The place (x, y, z) of each block, by its number."""
    with open(path, encoding="utf-8", errors="replace") as file:
        records = [
            line.replace(":", " ").split()
            for line in file
            if not line.lstrip(" \t:").startswith("%")
        ]
    try:
        return {
            block: (x, y, z)
            for block, x, y, z in (map(int, record[:4]) for record in records if record)
        }
    except ValueError:
        sys.exit(
            "%s is no .blocks file: a line of it doesn't begin with the number, x, y and z of a block"
            % path
        )


def read_pit(path, blocks):
    """The blocks of the pit of a certificate, of a model with so many blocks."""
    with open(path, encoding="ascii", errors="replace") as file:
        lines = file.read().split("\n")
    if not lines[0].startswith("PITCERT "):
        sys.exit("%s is no certificate: its first line is '%s'" % (path, lines[0][:40]))
    if "BLOCKS %d" % blocks not in lines[1:2]:
        sys.exit(
            "%s is of another model: it says '%s', and there are %d blocks"
            % (path, "".join(lines[1:2]), blocks)
        )
    return {int(line.split()[1]) for line in lines if line.startswith("PIT ")}


def drawn(places, pit, column, line):
    """A line of text for each value of coordinate `line`, the greatest first, with a mark for each of coordinate `column`."""
    marks = {(places[b][line], places[b][column]): "#" if b in pit else "." for b in places}
    columns = range(min(c for _, c in marks), max(c for _, c in marks) + 1)
    lines = range(max(at for at, _ in marks), min(at for at, _ in marks) - 1, -1)
    return [(at, "".join(marks.get((at, c), " ") for c in columns)) for at in lines]


def picture(places, pit, bench, row):
    """The plan of a bench, and the section through a row beside it, which begins at that row."""
    plan = drawn({b: at for b, at in places.items() if at[2] == bench}, pit, 0, 1)
    section = drawn({b: at for b, at in places.items() if at[1] == row}, pit, 0, 2)
    beside = ["%s   z = %d" % (marks, z) for z, marks in section]
    first = [y for y, _ in plan].index(row)
    plan = [marks for _, marks in plan] + [""] * (first + len(beside) - len(plan))
    beside = [""] * first + beside + [""] * (len(plan) - first - len(beside))
    title = "z = %d from above" % bench
    width = max(len(title) + 3, len(plan[0]) + 8)
    return [title.ljust(width) + "section at y = %d" % row] + [
        (marks.ljust(width) + section_line).rstrip() for marks, section_line in zip(plan, beside)
    ]


def chosen(word, what, there):
    """The number that a word names, where it is there."""
    if word not in map(str, there):
        sys.exit("%s is '%s', and the blocks have %d to %d" % (what, word, min(there), max(there)))
    return int(word)


def main():
    if not 3 <= len(sys.argv) <= 5:
        sys.exit(__doc__)
    try:
        places = read_blocks(sys.argv[1])
        pit = read_pit(sys.argv[2], len(places))
    except OSError as error:
        sys.exit("%s: %s" % (error.filename, error.strerror))
    benches = sorted({z for _, _, z in places.values()})
    bench = chosen(sys.argv[3], "BENCH", benches) if len(sys.argv) > 3 else benches[-1]
    rows = sorted({y for _, y, z in places.values() if z == bench})
    row = chosen(sys.argv[4], "ROW", rows) if len(sys.argv) > 4 else rows[len(rows) // 2]
    print("\n".join(picture(places, pit, bench, row)))


if __name__ == "__main__":
    main()

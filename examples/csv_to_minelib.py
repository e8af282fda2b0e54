#!/usr/bin/env python3
"""Makes MineLib's .blocks and .upit files of a table of blocks.

    python3 csv_to_minelib.py TABLE.csv XSIZE YSIZE ZSIZE NAME [COLUMN ..]

reads a CSV table with a header line and a row for each block, and writes NAME.blocks and NAME.upit. The sizes are those
of a block, in the unit of the coordinates. Blocks are numbered from 0 in the order of the rows. A block's index along an
axis is its distance from the lowest coordinate, in blocks; so z has to count upward, as an elevation does.

The columns that are named behind NAME, as revenue, cost and tonnes, are written into NAME.blocks behind z, in this order:
settings know them as columns 0, 1, 2 and so on.
"""
import csv
import functools
import math
import re
import sys

COORDINATES = "x", "y", "z"  # the columns with a block's centre
VALUE = "value"  # the column with what the block is worth

# the digits 0 to 9 alone: \d would take those of other scripts too, which pit refuses
DECIMAL = re.compile(r"[+-]?([0-9]+\.?[0-9]*|\.[0-9]+)([eE][+-]?[0-9]+)?")


def rows_of(table):
    try:
        with open(table, newline="", encoding="utf-8-sig") as file:
            separator = ";" if ";" in file.readline() else ","
            file.seek(0)
            reader = csv.DictReader(file, delimiter=separator)
            columns = reader.fieldnames or []
            rows = []
            for row in reader:
                rows.append(row)
                if (
                    reader.line_num != len(rows) + 1
                ):  # whoever marks a pit in the table counts its lines
                    sys.exit(
                        "block %d is in line %d of the table, and has to be in line %d: take blank lines, and line ends within cells, out"
                        % (len(rows) - 1, reader.line_num, len(rows) + 1)
                    )
    except OSError as error:
        sys.exit("%s: %s" % (table, error.strerror))
    except UnicodeDecodeError:
        sys.exit("%s is no text in UTF-8; in Excel save it as 'CSV UTF-8'" % table)
    twice = sorted({column for column in columns if columns.count(column) > 1})
    if twice:
        sys.exit(
            "the table has two columns %s: which one counts? Rename or remove the other"
            % ", ".join(map(repr, twice))
        )
    for block, row in enumerate(rows):
        if None in row:
            sys.exit(
                "block %d, row %d below the header, has %d cells, and the header line %d: is there a comma within a number%s?"
                % (
                    block,
                    block + 1,
                    len(row) - 1 + len(row[None]),
                    len(row) - 1,
                    "" if block else ", or a line above the header",
                )
            )
    return rows


def hint(column, columns):
    """What may be wrong where a table has no such column."""
    near = [name for name in columns if name.strip().lower() == column.strip().lower()]
    if near:
        return (
            "; is '%s' meant? Capitals and spaces count, and the names of x, y, z and value stand near the top of this script"
            % near[0]
        )
    if len(columns) == 1:
        return "; are there commas or semicolons between the columns, and no line above the header?"
    return ""


def cells(rows, column):
    """What stands in a column, a plain decimal in each row."""
    if not rows:
        sys.exit("the table has no rows")
    if column not in rows[0]:
        sys.exit(
            "the table has no column %s: its header line has %s%s"
            % (column, ", ".join(rows[0]), hint(column, list(rows[0])))
        )
    found = [(row[column] or "").strip() for row in rows]
    for block, cell in enumerate(found):
        if not DECIMAL.fullmatch(cell):
            sys.exit(
                "block %d, row %d below the header: %s is '%s', and has to be a plain decimal, as -1250.75"
                % (block, block + 1, column, cell)
            )
    return found


def size_of(word):
    """The size of a block along an axis."""
    if not DECIMAL.fullmatch(word) or not 0 < float(word) < math.inf:
        sys.exit("the size of a block is '%s', and has to be a number above 0" % word)
    return float(word)


def coordinates(rows, axis):
    """The coordinates of the blocks along an axis."""
    found = [float(cell) for cell in cells(rows, axis)]
    for block, coordinate in enumerate(found):
        if math.isinf(coordinate):
            sys.exit(
                "block %d, row %d below the header: %s is '%s', which is too far away"
                % (block, block + 1, axis, rows[block][axis].strip())
            )
    return found


def written(file_name):
    """A file to be written."""
    try:
        return open(file_name, "w")
    except OSError as error:
        sys.exit("%s: %s" % (file_name, error.strerror))


def indices(axis, coordinates, size):
    lowest = min(coordinates)
    steps = [(c - lowest) / size for c in coordinates]
    for row, step in enumerate(steps):
        if abs(step - round(step)) > 0.1:
            sys.exit(
                "block %d, row %d below the header: %s is %.10g, which is %.2f blocks of %g above the lowest, and no whole number of blocks: "
                "is a block %g long along %s, are all of one size, and is the model not turned?"
                % (row, row + 1, axis, coordinates[row], step, size, size, axis)
            )
    found = [round(step) for step in steps]
    apart = functools.reduce(math.gcd, found)
    if apart > 1:
        sys.exit(
            "along %s no two blocks are neighbours: all are %d blocks of %g apart, or a multiple of that. Is a block %g long?"
            % (axis, apart, size, apart * size)
        )
    return found


def main():
    if len(sys.argv) < 6:
        sys.exit(__doc__)
    table, *sizes, name = sys.argv[1:6]
    rows = rows_of(table)
    axes = [
        indices(axis, coordinates(rows, axis), size_of(size))
        for axis, size in zip(COORDINATES, sizes)
    ]
    values = cells(rows, VALUE)
    further = [cells(rows, column) for column in sys.argv[6:]]
    with written(name + ".blocks") as blocks, written(name + ".upit") as upit:
        upit.write("NAME: %s\nTYPE: UPIT\nNBLOCKS: %d\nOBJECTIVE_FUNCTION:\n" % (name, len(rows)))
        for number, (place, value) in enumerate(zip(zip(*axes), values)):
            blocks.write(
                " ".join(map(str, [number, *place, *(column[number] for column in further)])) + "\n"
            )
            upit.write("%d %s\n" % (number, value))


if __name__ == "__main__":
    main()

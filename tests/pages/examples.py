"""Tests of the examples in the heads of the libraries: each library has one, which says where it is tried; each test file and each case that
it names is there; and each piece of its blocks, between empty lines, has lines of one such file in their order."""
import re

TRIED = re.compile(r"\b[Tt]ried\b.*?\.(?=\s|$)", re.S)
BLOCK = re.compile(r"^```\w+\n(.*?)^```$", re.M | re.S)
QUOTED = re.compile(r"`([^`]+)`")


def example_of(source):
    """What the head of a source says from its example on, without the signs of a comment."""
    head = re.match(r"(?://!.*\n)*", source)[0]
    return "".join(line[4:] or "\n" for line in head.splitlines(True)).partition("An example:")[2]


def named_places(top, example):
    """The test files and the cases that an example names; a case without a path stands beside the last one that has one."""
    places, beside = [], None
    for name in QUOTED.findall(" ".join(TRIED.findall(BLOCK.sub("", example)))):
        if name.startswith("tests/cases"):
            places.append(top / name)
            beside = places[-1] if any(places[-1].glob("**/*/words")) else places[-1].parent
        elif beside or "_tests/src/" in name:  # before them stands what it is tried by
            places.append((top / "crates" if "_tests/src/" in name else beside) / name)
    return places


def texts_at(place):
    """The lines of a test file, or of each file of a case, also of those that lie elsewhere, without the margins."""
    files = [place] if place.is_file() else [file for file in place.glob("*") if file.is_file()]
    for same in place.glob("same-as"):
        files += [place / line.split()[1] for line in same.read_text().splitlines()]
    return [[line.strip() for line in file.read_text().splitlines()] for file in files]


def stands_in(lines, text):
    """Whether a text has these lines in this order."""
    left = iter(text)
    return all(line.strip() in left for line in lines)


def wrong_examples(top):
    """What is wrong with the examples of the libraries, by their crates. Crates of tests alone have none."""
    wrong = []
    for file in sorted(top.glob("crates/*/src/lib.rt")):
        crate, example = file.parts[-3], example_of(file.read_text())
        places = named_places(top, example)
        if not places and not crate.endswith("_tests"):
            wrong.append("%s has no example that says where it is tried" % crate)
        wrong += ["%s: there is no %s" % (crate, one) for one in places if not one.exists()]
        texts = [text for one in places if one.exists() for text in texts_at(one)]
        wrong += [
            "%s: no file that it names has the lines of %s" % (crate, piece.splitlines()[0])
            for block in BLOCK.findall(example)
            for piece in block.split("\n\n")
            if not any(stands_in(piece.splitlines(), text) for text in texts)
        ]
    return wrong

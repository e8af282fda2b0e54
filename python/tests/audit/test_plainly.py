"""plainly.py and `pit check` share no line, and agree: on the cases of tests/cases/check, and on
certificates with planted faults."""
import os
import random
import re
import subprocess
import sys
from collections import Counter
from pathlib import Path

import pytest

import mines
import pitplan as pp
from pitplan.audit import plainly
from pitplan.pit.program import Pit

TOP = Path(__file__).resolve().parents[3]
CASES = sorted(path for path in (TOP / "tests" / "cases" / "check").iterdir() if path.is_dir())
COPPER = TOP / "examples" / "copper"


def words_of(case):
    """The words of a case as whole paths, `check` left out."""
    near = (
        {
            line.split()[0]: case / line.split()[1]
            for line in (case / "same-as").read_text().splitlines()
        }
        if (case / "same-as").exists()
        else {}
    )
    words = (case / "words").read_text().split("\n")[1:]
    return [
        word if word.startswith("--") else str(near.get(word, case / word))
        for word in words
        if word
    ]


def plain(words, capsys):
    """The line of plainly.py, and its exit status."""
    sys.argv = ["plainly.py", *map(str, words)]
    status = plainly.main()
    return capsys.readouterr().out.strip(), status


def checked(words):
    """The line of `pit check`, and its exit status."""
    ran = subprocess.run(
        [os.environ["PIT"], "check", *map(str, words)], capture_output=True, text=True
    )
    return (ran.stdout or ran.stderr).strip(), ran.returncode


@pytest.mark.parametrize("case", CASES, ids=lambda case: case.name)
def test_it_answers_the_cases_as_they_ask(case, capsys):
    wanted = "".join(
        (case / name).read_text() for name in ("stdout", "stderr") if (case / name).exists()
    ).strip()
    assert plain(words_of(case), capsys)[0] == wanted


def test_there_are_cases():
    assert len(CASES) > 40


def changed(lines, r):
    """A certificate with one fault: a line gone, doubled or moved, a number or a word that is
    another, or bytes cut off."""
    lines = list(lines)
    at = r.randrange(len(lines))
    words = lines[at].split(" ")
    numbers = [i for i, word in enumerate(words) if re.fullmatch(r"-?\d+", word)]
    kind = r.choice(["number"] * 6 + ["gone", "doubled", "moved", "word", "cut"])
    if kind == "number" and numbers:
        i = r.choice(numbers)
        words[i] = r.choice(
            [
                str(int(words[i]) + r.choice([-1, 1, 10**9])),
                "0",
                "-" + words[i],
                words[i] + "0",
                "0" + words[i],
                str(2**127),
            ]
        )
        lines[at] = " ".join(words)
    elif kind == "word":
        lines[at] = " ".join(
            [r.choice(["PIT", "SOURCE", "REST", "SINK", "END", "pit", ""]), *words[1:]]
        )
    elif kind == "doubled":
        lines.insert(at, lines[at])
    elif kind == "moved":
        lines.insert(r.randrange(len(lines)), lines.pop(at))
    elif kind == "cut":
        return "\n".join(lines)[: r.randrange(1, 400)]
    else:
        del lines[at]
    return "".join(line + "\n" for line in lines)


def agree(files, certificate, tmp_path, capsys, count, seed):
    """Plants faults in a certificate; counts the answers, which have to be the same."""
    lines, r, found = certificate.splitlines(), random.Random(seed), Counter()
    for _ in range(count):
        path = tmp_path / "planted.cert"
        path.write_text(changed(lines, r))
        ours, theirs = plain([*files, path], capsys), checked([*files, path])
        assert ours == theirs, path.read_text()
        found[
            re.split(r"[ (]", ours[0].replace("REFUSED ", "").replace("fault: certificate ", ""))[0]
        ] += 1
    return found


COUNT = int(os.environ.get("FAULTS", "120"))


def test_they_agree_on_faults_in_a_model_of_values(tmp_path, capsys):
    files = ["--prec", COPPER / "copper.prec", "--upit", COPPER / "copper.upit"]
    found = agree(files, (COPPER / "copper.cert").read_text(), tmp_path, capsys, COUNT, 1)
    assert len(found) >= 6, found


@pytest.mark.parametrize("group", ["pair", "scaled", "worth"])
def test_they_agree_on_faults_in_a_model_of_a_mill(tmp_path, capsys, group):
    study = mines.study_of(tmp_path, mines.table(5, 4, 3, 8))
    files = study.files.words()
    text = subprocess.run(
        [os.environ["PIT"], "solve", *files, "--factor", "1000", "--group", group],
        capture_output=True,
        text=True,
    ).stdout
    assert text.startswith("PITCERT 2")
    found = agree(files, text, tmp_path, capsys, COUNT, group)
    assert len(found) >= 6, found


def test_they_agree_on_sound_certificates(tmp_path, capsys):
    for seed in range(6):
        study = (
            mines.study_of(tmp_path / str(seed), mines.table(6, 5, 4, seed))
            if (tmp_path / str(seed)).mkdir() is None
            else None
        )
        files = study.files.words()
        for factor in (0, 700, 1300):
            path = tmp_path / f"{seed}-{factor}.cert"
            found = Pit().best(study.files, factor, path)
            line, status = plain([*files, f"{path}.gz"], capsys)
            assert (line, status) == (f"ACCEPTED {found.count} {found.worth}", 0)


def test_predecessors_are_those_at_the_offsets_of_a_block_s_own_region(tmp_path):
    """Block by block, by a plain search; and pair by pair."""
    slopes = pp.Slopes(45, by="SECTOR", regions={"EAST": 32}, levels=3)
    study = mines.study_of(tmp_path, mines.table(6, 5, 4, 8), slopes)
    settings = plainly.Settings(str(study.settings_file))
    blocks = plainly.Blocks(str(study.blocks_file), settings.columns, settings.region)
    above, wanted = plainly.Above(blocks, settings), mines.predecessors(study.where)
    assert [list(above.of(block)) for block in range(len(wanted))] == wanted
    for block, on in enumerate(wanted):
        assert [other for other in range(len(wanted)) if above.has(block, other)] == on
    regions = study.region
    assert {(int(regions[b]), int(regions[p])) for b, p in mines.pairs_of(study.where)} == {
        (0, 0),
        (0, 1),
        (1, 0),
        (1, 1),
    }


@pytest.mark.parametrize(
    "settings, column, said",
    [
        ("slopes = [[[0, 0, 1], [1, 0, 0]]]", "0", "fault: slope NotUpward(0, 1)"),
        ("slopes = [[], [[0, 0, -1]]]\nregion = 2", "1", "fault: slope NotUpward(1, 0)"),
        ("slopes = [[[0, 0, 1]]]\nregion = 2", "1", "fault: slope UnknownRegion(0)"),
        ("slopes = [[[0, 0, 1]]]\nregion = 2", "0.5", "fault: slope UnknownRegion(0)"),
        ("slopes = [[[0, 0, 1]]]\nregion = 2", "-1", "fault: slope UnknownRegion(0)"),
        (f"slopes = [{[[0, 0, 1]] * 4097}]", "0", "fault: slope TooManyOffsets(0)"),
        (f"slopes = {[[]] * 65}", "0", "fault: slope TooManyRegions"),
    ],
)
def test_faults_of_slopes_are_those_of_pit(tmp_path, capsys, settings, column, said):
    (tmp_path / "b").write_text(f"0 0 0 0 1 2 {column}\n1 0 0 1 1 2 {column}\n")
    (tmp_path / "s").write_text(f"revenue = 0\ncost = 1\n{settings}\n")
    (tmp_path / "c").write_text("PITCERT 1\nBLOCKS 2\n")
    words = ["--blocks", tmp_path / "b", "--settings", tmp_path / "s", tmp_path / "c"]
    assert plain(words, capsys) == checked(words) == (said, 3)


def test_several_certificates_are_judged_in_one_reading_of_the_model(tmp_path, capsys, monkeypatch):
    lines = (COPPER / "copper.cert").read_text().splitlines()
    texts = {
        "sound": lines,
        "less": [line for line in lines if line != "PIT 3"],
        "cut": lines[:-1],
        "other": [lines[0], "BLOCKS 7", *lines[2:]],
    }
    for name, text in texts.items():
        (tmp_path / name).write_text("".join(line + "\n" for line in text))
    (tmp_path / "no.gz").write_bytes(b"not packed")
    read, predecessors = [], plainly.Predecessors
    monkeypatch.setattr(
        plainly, "Predecessors", lambda *words: read.append(words) or predecessors(*words)
    )
    files = ["--prec", COPPER / "copper.prec", "--upit", COPPER / "copper.upit"]
    names = [*texts, "no.gz", "sound"]
    said, status = plain([*files, *(tmp_path / name for name in names)], capsys)
    alone = [plain([*files, tmp_path / name], capsys) for name in names]
    assert said.splitlines() == [line for line, _ in alone]
    assert status == 3
    assert [status for _, status in alone] == [0, 1, 3, 3, 3, 0]
    assert len(read) == 1 + len(names)


def said_of_unread(folder, texts, capsys):
    """What plainly.py says of files with these bytes, which neither it nor `pit check` reads."""
    for name, data in texts.items():
        (folder / name).write_bytes(data)
    names = {"--prec": "p", "--blocks": "b", "--settings": "s"}
    words = [word for key, name in names.items() for word in (key, folder / name)]
    line, status = plain([*words, folder / "c"], capsys)
    assert status == 3
    assert line.startswith("plainly: ")
    assert checked([*words, folder / "c"])[1] == 3
    return line


@pytest.mark.parametrize(
    "text, what",
    [
        ("0 0 0 0 1 2\n1 0 0 0 1 2\n1 0 0 1 1 2\n", "second record"),
        ("0 0 0 0 x 2\n", "no decimal"),
        ("0 0 0 0 1\n", "column is missing"),
        ("1 0 0 0 1 2\n", "numbered from 0"),
        ("0 0 0 0 -1 2\n", "below 0"),
        ("0 0.5 0 0 1 2\n", "coordinate"),
    ],
)
def test_a_model_that_cannot_be_read_is_told(tmp_path, capsys, text, what):
    settings = b"revenue = 0\ncost = 1\n"
    texts = {"b": text.encode(), "p": b"", "s": settings, "c": b"PITCERT 1\n"}
    assert what in said_of_unread(tmp_path, texts, capsys)


def test_settings_that_are_no_text_are_told(tmp_path, capsys):
    """Without a word for it Python's own status is 1, which says that the certificate is refused."""
    settings = b"revenue = 0\ncost = 1 # \xe9\n"
    texts = {"b": b"0 0 0 0 1 2\n", "p": b"", "s": settings, "c": b"PITCERT 1\n"}
    said_of_unread(tmp_path, texts, capsys)

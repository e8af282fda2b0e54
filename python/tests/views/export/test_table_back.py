"""The planner's own table comes back as it was, with a column of shells."""
import gzip

import numpy as np
import pandas as pd
import pytest

import pitplan as pp
from mines import SIZE, costs, shells_of, study_of, table
from pitplan.views.export import table_back


def shares_of(shells):
    b = shells.study.model.blocks
    names = [f"{factor / 1000:g}" for factor in shells.factors] + [""]
    return {int(row): names[s] for row, s in zip(b["row"], shells.shell) if row >= 0}


@pytest.mark.parametrize(
    "separator, end, mark, last",
    [
        (",", "\n", b"", "\n"),
        (";", "\r\n", b"\xef\xbb\xbf", "\r\n"),
        ("\t", "\n", b"", ""),
        (",", "\r\n", b"", "\n\n\n"),
    ],
)
def test_the_planners_table_comes_back_byte_for_byte(tmp_path, separator, end, mark, last):
    f = table(6, 5, 4, 3)
    f["NOTE"] = ['said "so"' if n % 5 else f"two{separator} parts" for n in range(len(f))]
    lines = f.to_csv(index=False, sep=separator).rstrip("\n").split("\n")
    lines.insert(4, "")
    source = mark + end.join(lines).encode() + last.encode()
    (tmp_path / "t.csv").write_bytes(source)
    shells = pp.Study.create(
        tmp_path / "s",
        pp.read_table(tmp_path / "t.csv", size=SIZE, widen=1),
        costs(),
        pp.Slopes(45),
    ).shells([800, 1000])
    count = table_back.write(shells, tmp_path / "back.csv")
    shares = shares_of(shells)
    old, new = source.split(end.encode()), (tmp_path / "back.csv").read_bytes().split(end.encode())
    assert new[0] == old[0] + f"{separator}pit_shell".encode()
    for row, (was, now) in enumerate(zip(old[1:], new[1:])):
        if was.strip():
            assert now == was.rstrip(b"\n") + f"{separator}{shares[row]}".encode() + (
                b"\n" * (len(was) - len(was.rstrip(b"\n")))
            )
        else:
            assert now == was
    assert len(old) == len(new)
    assert count == sum(value != "" for value in shares.values()) > 0


def test_the_column_has_the_tables_own_mark_of_a_decimal(tmp_path):
    table(6, 5, 4, 3).to_csv(tmp_path / "t.csv", index=False, sep=";", decimal=",")
    shells = pp.Study.create(
        tmp_path / "s", pp.read_table(tmp_path / "t.csv", size=SIZE), costs(), pp.Slopes(45)
    ).shells([800, 1100])
    table_back.write(shells, tmp_path / "back.csv")
    back = pd.read_csv(tmp_path / "back.csv", sep=";", decimal=",").pit_shell
    assert back.dtype == float
    assert ((back == 0.8) == shells.holds(0)).all()
    assert ((back <= 1.1) == shells.holds(1)).all()
    assert shells.holds(0).any()


def test_cells_with_line_ends_and_packed_tables(tmp_path):
    f = table(5, 4, 3, 3)
    f["NOTE"] = ["two\nlines" if n % 3 == 0 else "one" for n in range(len(f))]
    with gzip.open(tmp_path / "t.csv.gz", "wt", newline="") as file:
        file.write(f.to_csv(index=False))
    shells = pp.Study.create(
        tmp_path / "s", pp.read_table(tmp_path / "t.csv.gz", size=SIZE), costs(), pp.Slopes(45)
    ).shells([1000])
    table_back.write(shells, tmp_path / "back.csv.gz")
    back = pd.read_csv(tmp_path / "back.csv.gz")
    assert back.drop(columns="pit_shell").equals(f)
    assert (back.pit_shell.notna() == shells.holds(0)).all()


RECORDS = [
    b"%d,x,2.5",
    b"%d,y,",
    b"\t%d,1",
    b"",
    b" \t",
    b'%d,"said ""so""\n, twice",1',
    b'%d,"\n\n",1',
    b"%d,in\rside,3",
]


@pytest.mark.parametrize(
    "kinds, end",
    [
        (RECORDS[:2], b"\n"),
        (RECORDS[:3], b"\r\n"),
        (RECORDS[:4], b"\n"),
        (RECORDS[:5], b"\r\n"),
        (RECORDS, b"\n"),
        (RECORDS, b"\r\n"),
    ],
)
def test_each_record_gets_its_own_cell(tmp_path, monkeypatch, kinds, end):
    """Plain lines, blank lines, cells in quotes with line ends, and a carriage return within a
    line, in pieces of any length."""
    cells = [b",0.4", b",0.85", b",1", b","]
    for seed in range(60):
        r = np.random.default_rng(seed)
        rows = [
            kind % n if b"%d" in kind else kind
            for n, kind in enumerate(
                map(kinds.__getitem__, r.integers(0, len(kinds), r.integers(0, 40)))
            )
        ]
        shell = np.repeat(r.integers(0, 3, len(rows)), r.choice([1, 4]))[
            : max(0, len(rows) - seed % 3)
        ]
        last = end if r.random() < 0.7 else b""
        (tmp_path / "t.csv").write_bytes(end.join([b"a,b,c", *rows]) + last)
        monkeypatch.setattr(table_back, "CHUNK_SIZE", int(r.choice([1, 9, 40, 1 << 22])))
        table_back.rewrite(tmp_path / "t.csv", tmp_path / "back.csv", b",pit_shell", cells, shell)
        wanted = [
            row + (cells[shell[n]] if n < len(shell) else cells[-1]) if row.strip() else row
            for n, row in enumerate(rows)
        ]
        assert (tmp_path / "back.csv").read_bytes() == end.join(
            [b"a,b,c,pit_shell", *wanted]
        ) + last, seed


def test_sub_blocks_get_the_shell_of_their_whole_block(tmp_path):
    f = table(5, 5, 3, 7)
    whole = f.assign(XINC=20.0, YINC=20.0, ZINC=15.0)
    cut = whole.sample(frac=0.5, random_state=1)
    halves = [
        cut.assign(XC=cut.XC + side * 5, XINC=10.0, TONNES=cut.TONNES / 2) for side in (-1, 1)
    ]
    g = pd.concat([whole.drop(cut.index), *halves]).sample(frac=1, random_state=2)
    g.to_csv(tmp_path / "t.csv", index=False)
    shells = pp.Study.create(
        tmp_path / "s", pp.read_table(tmp_path / "t.csv", regularise=True), costs(), pp.Slopes(45)
    ).shells([1000])
    table_back.write(shells, tmp_path / "back.csv")
    back = pd.read_csv(tmp_path / "back.csv")
    by_place = dict(
        zip(
            zip(
                shells.study.model.blocks.ix,
                shells.study.model.blocks.iy,
                shells.study.model.blocks.iz,
            ),
            shells.holds(0),
        )
    )
    places = zip(
        np.rint((back.XC - 5000) / 20 + 1e-9).astype(int),
        np.rint((back.YC - 9000) / 20).astype(int),
        np.rint((back.ZC - 100) / 15).astype(int),
    )
    assert [by_place[place] for place in places] == back.pit_shell.notna().tolist()
    assert back.pit_shell.notna().any()
    assert back.pit_shell.isna().any()


def test_a_table_that_changed_isnt_written_again(tmp_path):
    shells = shells_of(tmp_path)
    (tmp_path / "t.csv").write_text((tmp_path / "t.csv").read_text().replace("SUL", "SVL", 1))
    with pytest.raises(pp.PlanError, match="isn't the table that the study was built from"):
        table_back.write(shells, tmp_path / "back.csv")
    (tmp_path / "t.csv").unlink()
    with pytest.raises(pp.PlanError, match="is gone"):
        table_back.write(shells, tmp_path / "back.csv")


def test_a_column_of_that_name_is_kept(tmp_path):
    f = table(4, 4, 3, 1).assign(pit_shell=7)
    shells = study_of(tmp_path, f).shells([1000])
    table_back.write(shells, tmp_path / "back.csv")
    assert pd.read_csv(tmp_path / "back.csv").columns[-2:].tolist() == ["pit_shell", "pit_shell_2"]


def test_a_letter_that_the_encoding_hasnt_is_told(tmp_path):
    """And the mark at the head of a table in UTF-8 comes to no cell."""
    table(6, 5, 4, 3).to_csv(tmp_path / "t.csv", index=False, encoding="utf-8-sig")
    model = pp.read_table(tmp_path / "t.csv", size=SIZE)
    study = pp.Study.create(tmp_path / "s", model, costs(), pp.Slopes(45))
    sent = {"sent": np.full(len(study.model), "\u6d78")}
    with pytest.raises(pp.PlanError, match="can't be written in cp1252, the table's encoding"):
        table_back.write_columns(study, sent, tmp_path / "back.csv", "cp1252")
    assert not (tmp_path / "back.csv").exists()
    assert table_back.write_columns(study, sent, tmp_path / "back.csv", "utf-8-sig")
    text = (tmp_path / "back.csv").read_text("utf-8-sig")
    assert ",\u6d78\n" in text
    assert "\ufeff" not in text

"""The command line, as a planner uses it."""
import os
import re
import shlex
import subprocess

import pandas as pd

from mines import STUDY_TOML, table, written_study
from pitplan.base.files import host
from pitplan.study.study_file import read_study_file
from served import PITPLAN, linked, pitplan


def hinted(ran):
    """The words of the command that an error says to try."""
    return shlex.split(ran.stderr.rsplit("try: ", 1)[1])


def test_from_a_table_to_shells(tmp_path):
    f = table(8, 7, 4, 3)
    f.to_csv(tmp_path / "mine.csv", index=False)
    assert pitplan("init", "mine.csv", cwd=tmp_path).returncode == 0
    study = tmp_path / "mine"
    plan = read_study_file(study)
    assert plan.keys.size == [20, 20, 15]
    assert [m.name for m in plan.economics.metals] == ["copper", "gold"]
    assert plan.table.resolve() == tmp_path / "mine.csv"
    text = (
        (study / "study.toml")
        .read_text()
        .replace("factors = { from = 0.30, to = 1.20, step = 0.05 }", "factors = [0.5, 1.0, 1.5]")
    )
    (study / "study.toml").write_text(text)
    built = pitplan("build", "mine", cwd=tmp_path)  # the other commands name it from elsewhere
    assert built.returncode == 0
    assert "pairs" in built.stdout
    assert "SUL" in built.stdout
    assert "MB" in built.stdout
    ran = pitplan("shells", study)
    assert ran.returncode == 0, ran.stderr
    assert "factor 1 proved" in ran.stderr, ran.stderr
    assert "pit by pit" in ran.stdout, ran.stderr
    pits = pd.read_csv(study / "out/pit_by_pit.csv")
    back = pd.read_csv(study / "out/mine.csv")
    assert pits.factor.tolist() == [0.5, 1.0, 1.5]
    assert back.drop(columns="pit_shell").equals(f)
    assert (back.pit_shell <= 1.0).sum() == pits.blocks[1]
    assert pd.read_csv(study / "out/benches.csv").blocks.sum() == pits.blocks[2]
    again = pitplan("shells", ".", cwd=study)
    assert again.returncode == 0
    assert again.stdout.replace(str(study), "").count("pit by pit") == 1
    # what was built counts only as long as study.toml says the same
    (study / "study.toml").write_text(text.replace("mining = 2.50", "mining = 2.60"))
    stale = pitplan("shells", study)
    assert stale.returncode == 3
    assert "has changed since the study was built" in stale.stderr
    assert hinted(stale) == [PITPLAN, "build", str(study)]
    (study / "study.toml").write_text(text)
    f.assign(CU=f.CU + 1).to_csv(tmp_path / "mine.csv", index=False)
    assert "the table has changed" in pitplan("shells", study).stderr
    assert pitplan("init", "mine.csv", cwd=tmp_path).returncode == 3


def test_shells_before_build_says_so(tmp_path):
    ran = pitplan("shells", written_study(tmp_path / "s"))
    assert ran.returncode == 3
    assert "never built" in ran.stderr
    assert hinted(ran) == [PITPLAN, "build", str(tmp_path / "s")]


def test_a_folder_in_the_place_of_a_file_is_to_be_moved_away(tmp_path):
    folder = written_study(tmp_path / "s", table(9, 8, 5, 5))
    (folder / "model/manifest.json").mkdir(parents=True)
    ran = pitplan("shells", "s", cwd=tmp_path)
    assert ran.returncode == 4
    assert ran.stderr == (
        "error: s/model/manifest.json: Is a directory\n"
        "  try: move that folder away, since a file stands there, and run the command again\n"
    )


def test_each_hint_can_be_pasted(tmp_path):
    """What an error says to try is typed as it stands, until pitplan has nothing more to say; also
    where the folder has a space, a study.toml has another name, and the command is found on the
    path."""
    written_study(tmp_path / "my mine").joinpath("study.toml").rename(
        tmp_path / "my mine" / "high price.toml"
    )
    path = f"{linked(tmp_path / 'bin')}:{os.environ['PATH']}"
    typed, said = "pitplan phases 'my mine/high price.toml' 0.6,1", []
    while typed and len(said) < 6:
        ran = subprocess.run(
            ["bash", "-c", typed],
            capture_output=True,
            text=True,
            cwd=tmp_path,
            env={**os.environ, "PATH": path},
        )
        said.append(typed)
        typed = next(
            iter(
                re.findall(
                    r"try: (.*)" if ran.returncode else r"then: (.*)", ran.stderr + ran.stdout
                )
            ),
            "",
        )
    assert said == [
        "pitplan phases 'my mine/high price.toml' 0.6,1",
        "pitplan build 'my mine/high price.toml'",
        "pitplan shells 'my mine/high price.toml'",
    ], ran.stderr


def test_tables_of_the_model_before_are_set_aside(tmp_path):
    """What pitplan wrote of another model goes to out/older, a table that the user wrote something
    into apart from it; what is the user's own stays."""
    study = written_study(tmp_path / "s")
    text = (study / "study.toml").read_text()
    for words in (
        ("slopes",),
        ("build",),
        ("shells",),
        ("phases", "0.6,1"),
        ("compare", "--column", "CU"),
    ):
        ran = pitplan(
            words[0],
            study,
            *words[1:],
        )
        assert ran.returncode == (
            words[0] == "compare"
        ), ran.stderr  # all that has copper is no pit
    out = study / "out"
    (out / "mine.txt").write_text("of my own")
    (out / "benches.csv").write_text("a word of mine\n" + (out / "benches.csv").read_text())

    def files():
        return {
            path.relative_to(out).as_posix(): path.read_bytes()
            for path in out.rglob("*")
            if path.is_file() and not path.name.startswith(".")
        }

    before = files()
    assert {
        "pit_by_pit.csv",
        "t.csv",
        "phases.csv",
        "slopes.csv",
        "slopes.png",
        "compare-CU/summary.json",
    } <= set(before)
    again = pitplan("build", study)
    assert again.returncode == 0
    assert files() == before
    assert "model before" not in again.stdout + again.stderr  # the same model
    (study / "study.toml").write_text(text.replace("mining = 2.0", "mining = 2.1"))
    ran = pitplan("build", study)
    stay = {"mine.txt", "slopes.csv", "slopes.png"}
    before["changed/benches.csv"] = before.pop("benches.csv")
    assert {name: data for name, data in files().items()} == {
        name if name in stay else f"older/{name}": data for name, data in before.items()
    }
    assert ran.returncode == 0
    assert f"{out}/older has what was written of the model before" in ran.stdout
    assert "pit_by_pit.csv" in ran.stdout
    assert ran.stderr.count("model before") == 1
    kept = "of the model before: changed/benches.csv\n"
    assert f"{out}/older has what isn't as pitplan wrote it, {kept}" in ran.stderr
    (study / "study.toml").write_text(text.replace("angles = 45", "angles = 44"))
    assert "slopes.csv, slopes.png" in pitplan("build", study).stdout
    assert stay - set(files()) == {"slopes.csv", "slopes.png"}


def test_what_a_planner_changed_is_kept_whatever_writes_over_it(tmp_path):
    """Each table as it was changed is in out/older/changed, and that is told."""
    study = written_study(tmp_path / "s")
    out = study / "out"
    every = (("build",), ("shells",), ("phases", "0.6,1"), ("compare", "--column", "CU"))
    for words in every:
        pitplan(words[0], study, *words[1:])
    names = ("pit_by_pit.csv", "benches.csv", "t.csv", "phases.csv", "compare-CU/summary.json")
    mine = {}
    for name in names:
        mine[name] = "a word of mine\n" + (out / name).read_text()
        (out / name).write_text(mine[name])
    said = "".join(pitplan(words[0], study, *words[1:]).stderr for words in every)
    for name in names:
        assert (out / "older/changed" / name).read_text() == mine[name]
        assert (out / name).read_text() == mine[name].removeprefix("a word of mine\n")
        assert f"look: {out}/older has what isn't as pitplan wrote it: changed/{name}\n" in said
    assert not (out / "older/changed-2").exists()


def test_what_a_killed_build_and_bundle_left_is_taken_away(tmp_path):
    folder = written_study(tmp_path / "s")
    gone = f"{host()}.{subprocess.run(['sh', '-c', 'echo $$'], capture_output=True, text=True).stdout.strip()}.abcdefgh"
    for name in (f".model.{gone}", f".for me.{gone}", f".model.{host()}.{os.getpid()}.abcdefgh"):
        (folder / name).mkdir()
    for words in (("build", folder), ("shells", folder), ("bundle", folder, folder / "for me")):
        assert pitplan(*words).returncode == 0
    assert sorted(path.name for path in folder.iterdir() if path.name.startswith(".")) == [
        f".model.{host()}.{os.getpid()}.abcdefgh"
    ]


def test_markup_in_names_does_no_harm(tmp_path):
    f = table(5, 4, 3, 1).rename(columns={"AU": "[red]AU[/x"})
    f["ROCK"] = f.ROCK + "[/bold]"
    text = STUDY_TOML.replace("{ OXI = 7.5, SUL = 9.0 }", "9.0")
    ran = pitplan("build", written_study(tmp_path / "s", f, text))
    assert ran.returncode == 0, ran.stderr
    assert "SUL[/bold]" in ran.stdout, ran.stderr
    folder = written_study(tmp_path / "mine [bold]", f, text)
    for words in (
        ("build", folder),
        ("slopes", folder),
        ("shells", folder),
        ("plot", folder),
        ("page", folder),
        ("phases", folder, "0.6,1.2"),
        ("export", folder, "--to", "csv"),
        ("vary", folder, "price=-10"),
        ("bundle", folder, tmp_path / "b [bold]"),
    ):
        ran = pitplan(*words)
        assert ran.returncode == 0, (words, ran.stdout, ran.stderr)
        assert " [bold]" in ran.stdout, (words, ran.stdout, ran.stderr)


def test_a_study_toml_that_init_writes_over_is_kept(tmp_path):
    table(6, 5, 4, 3).to_csv(tmp_path / "t.csv", index=False)
    path = tmp_path / "t" / "study.toml"
    assert pitplan("init", "t.csv", cwd=tmp_path).returncode == 0
    fresh = path.read_text()
    for mine, name in (("a = 1\n", "before"), ("b = 2\n", "before-2"), ("a = 1\n", "before")):
        path.write_text(mine)
        assert pitplan("init", "t.csv", cwd=tmp_path).returncode == 3
        assert path.read_text() == mine
        ran = pitplan("init", "t.csv", "--force", cwd=tmp_path)
        assert ran.returncode == 0, ran.stderr
        assert f"what stood in t/study.toml is kept as study.toml.{name}\n" in ran.stdout
        assert path.with_name(f"study.toml.{name}").read_text() == mine
        assert path.read_text() == fresh
    assert len(list(path.parent.glob("study.toml.*"))) == 2


def test_commas_beside_marks_and_column_names_of_ones_own(tmp_path):
    f = table(6, 5, 4, 3).rename(columns={"XC": "xx", "YC": "yy"})
    f["CU"] = f.CU.astype(object)
    f.loc[3, "CU"], f.loc[20, "CU"] = "-", "<0,01"
    f.to_csv(tmp_path / "t.csv", index=False, sep=";", decimal=",")
    lost = pitplan("init", "t.csv", cwd=tmp_path)
    assert lost.returncode == 3
    assert "no column is known as x, y" in lost.stderr
    assert "pitplan init t.csv --column x=xx --column y=yy\n" in lost.stderr
    assert "\n  looked for x as x, xc, " in lost.stderr
    found = pitplan("init", "t.csv", "--column", "x=xx", "-c", "y=yy", cwd=tmp_path)
    assert found.returncode == 0, found.stderr
    plan = read_study_file(tmp_path / "t")
    assert list(plan.keys.absent) == ["-", "<0,01"]
    assert "CU" in [m.grade for m in plan.economics.metals]
    ran = pitplan("build", "t", cwd=tmp_path)
    assert ran.returncode == 0, ran.stderr


def test_spanish_names_are_known_and_the_nearest_is_offered(tmp_path):
    f = table(6, 5, 4, 3).rename(
        columns={"XC": "X_CENTRO", "YC": "Y_CENTRO", "ZC": "Z_CENTRO", "ROCK": "ZONA"}
    )
    f.to_csv(tmp_path / "t.csv", index=False)
    found = pitplan("init", "t.csv", cwd=tmp_path)
    assert found.returncode == 0, found.stderr
    assert "x = X_CENTRO, y = Y_CENTRO, z = Z_CENTRO" in found.stdout, found.stderr
    assert "rock = ZONA" in found.stdout, found.stderr
    f = f.rename(columns={"X_CENTRO": "Coord X", "Y_CENTRO": "NORTINGH", "Z_CENTRO": "Q"})
    f.to_csv(tmp_path / "u.csv", index=False)
    lost = pitplan("init", "u.csv", "--column", "rock=ZONA", cwd=tmp_path)
    assert lost.returncode == 3, lost.stderr
    assert (
        "pitplan init u.csv --column rock=ZONA --column 'x=Coord X' --column y=NORTINGH --column z=..\n"
        in lost.stderr
    ), lost.stderr


def test_a_table_as_excel_saves_it_in_peru(tmp_path):
    f = table(6, 5, 4, 3).rename(
        columns={"XC": "ESTE", "YC": "NORTE", "ZC": "COTA", "CU": "LEY_ZN", "ROCK": "LITOLOGÍA"}
    )
    f["LEY_ZN"] = f.LEY_ZN.astype(object)
    f.loc[3, "LEY_ZN"] = "N/D"
    f.loc[11, "LITOLOGÍA"] = "Óxido"
    f.to_csv(tmp_path / "t.csv", index=False, sep=";", decimal=",", encoding="cp1252")
    lost = pitplan("init", "t.csv", cwd=tmp_path)
    assert lost.returncode == 3
    assert "t.csv, row 1: isn't text in UTF-8: the byte 0xcd" in lost.stderr
    assert "--encoding cp1252" in lost.stderr
    assert "no encoding" in pitplan("init", "t.csv", "--encoding", "ansi1252", cwd=tmp_path).stderr
    found = pitplan("init", "t.csv", "--encoding", "cp1252", cwd=tmp_path)
    assert found.returncode == 0, found.stderr
    assert (
        'look: N/D stands for "not estimated" in LEY_ZN, and counts as 0' in found.stderr
    ), found.stderr
    plan = read_study_file(tmp_path / "t")
    assert plan.keys.encoding == "cp1252"
    assert list(plan.keys.absent) == ["N/D"]
    assert [m.grade for m in plan.economics.metals][0] == "LEY_ZN"
    assert set(plan.read_model().blocks.rock) >= {"Óxido"}


def test_a_mark_of_a_decimal_that_is_told_is_that_of_the_shells_too(tmp_path):
    """The first lines have whole numbers alone, so that it can't be found out."""
    f = table(7, 6, 4, 3).sort_values("CU", ignore_index=True)
    f["CU"] = [f"{v:g}".replace(".", ",") for v in f.CU]
    study = written_study(
        tmp_path / "s", f, STUDY_TOML.replace("[model]\n", '[model]\ndecimal = ","\n')
    )
    f[["XC", "YC", "ZC", "TONNES"]] = f[["XC", "YC", "ZC", "TONNES"]].round().astype(int)
    f.assign(AU=0).to_csv(study / "t.csv", index=False, sep=";")
    assert pitplan("build", study).returncode == 0
    assert pitplan("shells", study).returncode == 0
    back = pd.read_csv(study / "out/t.csv", sep=";", dtype=str)
    assert "0,6" in set(back.pit_shell)
    assert not back.pit_shell.dropna().str.contains(".", regex=False).any()


def test_a_byte_that_is_no_text_is_told_with_its_row(tmp_path):
    f = table(9, 8, 6, 3)
    f["ROCK"] = f.ROCK.where(f.index != 100, "Óxido")
    f.to_csv(tmp_path / "t.csv", index=False, encoding="cp1252")
    assert (
        "t.csv, row 102: isn't text in UTF-8: the byte 0xd3"
        in pitplan("init", "t.csv", cwd=tmp_path).stderr
    )


def test_a_mark_that_is_told_is_not_asked_for_again(tmp_path):
    f = table(5, 4, 3, 1)
    f["CU"] = f.CU.astype(object)
    f.loc[1, "CU"], f.loc[7, "CU"] = "-", "<0.01"
    text = (
        STUDY_TOML.replace("[model]\n", '[model]\nabsent = ["-"]\n')
        if "absent" not in STUDY_TOML
        else STUDY_TOML.replace("absent = [", 'absent = ["-", ')
    )
    ran = pitplan("build", written_study(tmp_path / "s", f, text))
    assert ran.returncode == 3
    assert "row 9, column CU" in ran.stderr
    assert 'absent = ["-", "<0.01"]' in ran.stderr

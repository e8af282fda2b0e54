"""Nothing is read or written outside a folder that a command is told to stay in."""
import pytest

from mines import table, written_study
from pitplan.base.errors import PlanError
from processes import command, said


@pytest.fixture
def nowhere_else(tmp_path, monkeypatch):
    from pitplan.base.within import NAME, only_within

    monkeypatch.setenv(NAME, "")
    (tmp_path / "of").mkdir()
    only_within(tmp_path / "of")
    return tmp_path / "of"


def test_nothing_is_read_outside_the_folder(tmp_path, nowhere_else):
    from pitplan.study.check import check
    from pitplan.plans.design import by_file
    from pitplan.plans.grade_files import open_realisations
    from pitplan.study.study_file import read_study_file

    folder = written_study(nowhere_else / "s")
    assert not check(folder).errors
    model = read_study_file(folder).read_model()
    table(7, 6, 4, 3).to_csv(tmp_path / "t.csv", index=False)
    text = (folder / "study.toml").read_text()
    for name in ("../../t.csv", str(tmp_path / "t.csv"), "link.csv"):
        (nowhere_else / "s" / "link.csv").unlink(missing_ok=True)
        (nowhere_else / "s" / "link.csv").symlink_to(tmp_path / "t.csv")
        (folder / "study.toml").write_text(text.replace("t.csv", name))
        errors = check(folder).errors
        assert len(errors) == 1, name
        assert "lies outside of" in str(errors[0]), name
        assert errors[0].key == ("model", "table"), name
    for name, read in (
        ("d.dxf", lambda path: by_file(model, path)),
        ("d.csv", lambda path: by_file(model, path)),
        ("r.npy", lambda path: open_realisations(path, tmp_path)),
        ("r.csv", lambda path: open_realisations(path, tmp_path)),
    ):
        (tmp_path / name).write_text("x")
        with pytest.raises(PlanError, match="lies outside of"):
            read(tmp_path / name)
    (folder / "study.toml").write_text(text)
    (folder / "link.csv").unlink()
    run = command("--within", nowhere_else / "s", "build", folder)
    assert run.communicate(timeout=600)
    assert run.returncode == 0
    (folder / "study.toml").write_text(text.replace("t.csv", "../../t.csv"))
    run = command("--within", nowhere_else, "build", folder)
    assert "lies outside of" in run.communicate(timeout=600)[1]
    assert run.returncode == 3
    run = command("--within", tmp_path / "none", "build", folder)
    assert "there is no such folder" in run.communicate(timeout=600)[1]
    assert run.returncode == 3


def test_nothing_is_written_outside_the_folder(tmp_path, nowhere_else, monkeypatch):
    """Not by a path that is named, and not through a link that a study has."""
    from pitplan.base.files import made_whole, whole_file

    with pytest.raises(PlanError, match="lets nothing else be written"):
        with whole_file(tmp_path / "new" / "x.csv"):
            pass
    with pytest.raises(PlanError, match="lets nothing else be written"):
        with made_whole(tmp_path / "new" / "bundle"):
            pass
    assert not (tmp_path / "new").exists()
    inside = nowhere_else / "s"
    monkeypatch.setenv("PITPLAN_WITHIN", "")
    written_study(inside, table(5, 4, 3, 3))
    said("build", inside)
    said("shells", inside)
    for words, made in (
        (["bundle", inside, tmp_path / "b"], tmp_path / "b"),
        (["init", inside / "t.csv", "--study", tmp_path / "i"], tmp_path / "i"),
    ):
        run = command("--within", nowhere_else, *words)
        said_of_it = run.communicate(timeout=600)[1]
        assert run.returncode == 3, said_of_it
        assert "lets nothing else be written" in said_of_it, said_of_it
        assert not made.exists()
    victim = tmp_path / "victim"
    victim.write_text("kept")
    for link, to in (
        ("log/lock", victim),
        ("log/last.jsonl", victim),
        ("out/pit_by_pit.csv", victim),
        ("out/new", tmp_path / "elsewhere"),
        ("runs/base/f01000.more", tmp_path),
    ):
        place = inside / link
        kept = place.read_bytes() if place.exists() else None
        place.unlink(missing_ok=True)
        place.symlink_to(to)
        for name in (["shells", inside], ["task", inside, "run", "base", "800"]):
            run = command("--within", nowhere_else, *name)
            said_of_it = run.communicate(timeout=600)[1]
            assert run.returncode == 3, (link, said_of_it)
            assert str(place) in said_of_it, (link, said_of_it)
            assert victim.read_text() == "kept"
            assert not (tmp_path / "elsewhere").exists()
        place.unlink()
        if kept is not None:
            place.write_bytes(kept)
    said("--within", nowhere_else, "shells", inside)

"""What is asked of the desk wrongly is answered in words, and what it finds oddly doesn't stop it.
`test_fuzz.py` sends it whatever anybody may send."""
import os
import shutil
import threading
from pathlib import Path

import pytest

pytest.importorskip("starlette")
from starlette.applications import Starlette
from starlette.testclient import TestClient

from fuzz_desk import Here
from pitplan.desk import runs, worker
from pitplan.desk.folder import Folder, refused
from pitplan.desk.guard import Guard
from pitplan.desk.routes import Desk
from processes import TOP
from served import pitplan

ORIGIN = "http://desk"


@pytest.fixture
def study(tmp_path, monkeypatch):
    """A study of a part of the example, whose runs aren't begun."""
    rows = (TOP / "examples" / "hill.csv").read_text().splitlines()
    (tmp_path / "hill.csv").write_text("\n".join(rows[:1] + rows[1::9]) + "\n")
    ran = pitplan("init", "hill.csv", "--study", "s", cwd=tmp_path)
    assert ran.returncode == 0, ran.stderr
    monkeypatch.chdir(tmp_path)
    monkeypatch.setattr(runs, "start", lambda *_: 1)
    return tmp_path / "s"


@pytest.fixture
def client(study):
    desk = Desk(Folder(study.parent), 10**6)
    desk.quick = desk.heavy = Here(desk.folder.root)
    app = Guard(Starlette(routes=desk.routes()), "t", {"desk": ORIGIN}, "c")
    found = TestClient(app, base_url=ORIGIN)  # raises what an answer isn't made of
    found.headers["origin"] = ORIGIN
    found.cookies.set("c", "t")
    return found


@pytest.mark.parametrize(
    "method, path, sent, status, words",
    [
        ("GET", "/api/studies/s/runs/x", None, 404, "there is no run x"),
        ("DELETE", "/api/studies/s/runs/-1", None, 404, "there is no run -1"),
        ("GET", "/api/studies/s/runs/" + "9" * 5000, None, 404, "there is no run 9"),
        ("GET", "/files/s/out/%00", None, 404, "a byte 0"),
        ("GET", "/manual/%00", None, 404, "a byte 0"),
        ("PATCH", "/api/studies/s", b"{}", 422, "can't be changed so"),
        ("PATCH", "/api/studies/s", b'{"changes": [', 400, "a table of JSON"),
        ("PATCH", "/api/studies/s", b'{"changes": "\xff"}', 400, "a table of JSON"),
        ("PATCH", "/api/studies/s", b"9" * 5000, 400, "a table of JSON"),
        ("POST", "/api/studies", b'{"table": "hill", "columns": "x"}', 415, "can't be taken"),
    ],
)
def test_what_is_asked_wrongly_is_told_in_words_and_not_on_the_terminal(
    client, capsys, method, path, sent, status, words
):
    kind = {"content-type": "application/json"}
    answer = client.request(method, path, content=sent, headers=kind)
    assert answer.status_code == status, answer.text
    assert words in answer.json()["errors"][0]["said"]
    assert capsys.readouterr().err == ""


@pytest.mark.parametrize("row", ["x", "-1", "9" * 5000, "\u0663", ""])
def test_a_row_that_is_none_is_told_in_words(client, capsys, row):
    answer = client.get("/api/studies/s/cells", params={"row": row}).json()
    assert "has to be a whole number" in answer["errors"][0]["said"]
    assert capsys.readouterr().err == ""


def test_what_nobody_has_foreseen_is_told_in_words_and_where_it_came_from(capsys):
    """An error of this program's own: the answer says so, and the desk's terminal has its place."""
    for error, status in ((ZeroDivisionError("by 0"), 500), (TypeError("a list"), 400)):
        try:
            raise error
        except Exception as raised:
            no = refused(raised)
        assert no.status == status
        assert str(error) in no.answer["errors"][0]["said"]
        assert "test_routes.py" in capsys.readouterr().err


def test_a_formula_is_read_by_pitplan_and_runs_nothing(client, study):
    made = study.parent / "made"
    text = f"__import__('os').system('touch {made}')"
    change = {"path": ["economics", "mining"], "value": text}
    assert client.patch("/api/studies/s", json={"changes": [change]}).status_code == 200
    answer = client.get("/api/studies/s/check").json()["errors"]
    assert ["economics", "mining"] in [error["key"] for error in answer]
    assert not made.exists()


def broken_off(study):
    return next(iter(()))


def test_an_error_that_no_process_can_tell_another_one_is_an_answer():
    """A future takes no StopIteration: whoever waits for it would wait for ever."""
    answer = worker.answered(broken_off, "s")
    assert "StopIteration" in answer["errors"][0]["said"]


def test_dates_half_letters_and_numbers_that_are_none_are_answered(client, study):
    text = (study / "study.toml").read_text()
    odd = "\n[other]\nday = 2024-01-01\nhour = 07:00:00\nmost = inf\nwide = 1" + "0" * 400 + "\n"
    (study / "study.toml").write_text(text + odd)
    (study / "out").mkdir()
    Path(os.fsdecode(bytes(study / "out") + b"/caf\xe9.csv")).write_text("x")
    answer = client.get("/api/studies/s")
    assert answer.status_code == 200, answer.text
    assert answer.json()["values"]["other"]["day"] == "2024-01-01"
    assert answer.json()["values"]["other"]["most"] is None
    assert answer.json()["files"][0]["path"] == "out/caf?.csv"


def test_files_that_a_run_moves_meanwhile_cost_no_answer(client, study):
    """As an export does: a folder beside its place, which is renamed once it is whole."""
    out, done = study / "out", threading.Event()
    out.mkdir()
    for n in range(30):
        (out / f"{n}.csv").write_text("x")

    def moves():
        while not done.is_set():
            (out / ".part" / "plans").mkdir(parents=True)
            (out / ".part").rename(out / "compare")
            shutil.rmtree(out / "compare")

    mover = threading.Thread(target=moves)
    mover.start()
    try:
        for _ in range(200):
            assert len(Folder(study.parent).results(study)) == 30
    finally:
        done.set()
        mover.join()
    assert client.get("/api/studies/s").status_code == 200

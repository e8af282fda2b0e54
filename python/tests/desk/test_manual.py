"""The manual at the desk: its own files, as what they are, and nothing beside it."""
import pytest

pytest.importorskip("starlette")
from starlette.applications import Starlette
from starlette.testclient import TestClient

from pitplan.desk import manual
from pitplan.desk.folder import Folder
from pitplan.desk.guard import Guard
from pitplan.desk.routes import Desk

ORIGIN = "http://desk"


@pytest.fixture
def desk(root):
    here = Desk(Folder(root), 10**9)
    app = Guard(Starlette(routes=here.routes()), "t", {"desk": ORIGIN}, "c")
    client = TestClient(app, base_url=ORIGIN)
    client.cookies.set("c", "t")
    yield client
    here.end()


def test_the_manual_is_served_and_nothing_beside_it(desk, tmp_path, monkeypatch):
    site = tmp_path / "doc" / "manual"
    site.mkdir(parents=True)
    (site / "index.html").write_text("<p>the manual</p>")
    (tmp_path / "doc" / "secret.html").write_text("secret")
    (site / "away.html").symlink_to(tmp_path / "doc" / "secret.html")
    monkeypatch.setattr(manual, "PLACES", (tmp_path / "no.html", site / "index.html"))
    assert desk.get("/api/folder").json()["manual"] == "/manual/index.html"
    assert "the manual" in desk.get("/manual/index.html").text
    for path in ("away.html", "..%2fsecret.html", "%2e%2e/secret.html", "/etc/passwd", ""):
        assert desk.get(f"/manual/{path}").status_code in (403, 404), path
    monkeypatch.setattr(manual, "PLACES", ())
    assert desk.get("/api/folder").json()["manual"] is None
    assert desk.get("/manual/index.html").status_code == 404


def test_a_page_is_sent_as_what_it_is_and_may_load_nothing_from_elsewhere(
    desk, tmp_path, monkeypatch
):
    page = tmp_path / "DESK.md"
    page.write_text("# The desk")
    (tmp_path / "style.css").write_text("p { color: red }")
    monkeypatch.setattr(manual, "PLACES", (page,))
    assert manual.address() == "/manual/DESK.md"
    for name, kind in (("DESK.md", "text/plain"), ("style.css", "text/css")):
        answer = desk.get(f"/manual/{name}")
        assert answer.status_code == 200
        assert answer.headers["content-type"].split(";")[0] == kind
        assert "default-src 'self'" in answer.headers["content-security-policy"]


def test_the_first_place_that_has_it_counts(tmp_path, monkeypatch):
    places = [tmp_path / name for name in ("package.html", "repository.html", "DESK.md")]
    monkeypatch.setattr(manual, "PLACES", tuple(places))
    found = [manual.address()]
    for path in reversed(places):
        path.write_text("x")
        found.append(manual.address())
    names = ("/manual/DESK.md", "/manual/repository.html", "/manual/package.html")
    assert found == [None, *names]

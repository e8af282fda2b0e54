"""Who may talk to the desk, and what they may reach: a test for each row of docs/DESK.md's table of
dangers."""
import re
import shutil
import subprocess
import sys
from pathlib import Path

import pytest

pytest.importorskip("starlette")
from starlette.applications import Starlette
from starlette.testclient import TestClient

from pitplan.desk import routes
from pitplan.desk.folder import Folder
from pitplan.desk.guard import Guard
from hill import HILL, STUDY
from processes import TOP

HOST, ORIGIN, TOKEN = "desk:1", "http://desk:1", "the-token"
LIMIT = 1_000_000


@pytest.fixture
def app(root):
    desk = routes.Desk(Folder(root), LIMIT)
    names = {HOST: ORIGIN, "mine.example": "https://mine.example"}
    yield Guard(Starlette(routes=desk.routes()), TOKEN, names, "kept")
    desk.end()


@pytest.fixture
def desk(app):
    """Who has the cookie, from the desk's own pages."""
    client = TestClient(app, base_url=ORIGIN)
    client.headers.update({"origin": ORIGIN})
    client.cookies.set("kept", TOKEN)
    return client


@pytest.fixture
def stranger(app):
    return TestClient(app, base_url=ORIGIN)


ALL = ("/", "/desk.js", "/api/folder", "/api/studies/hill", "/files/hill/out/pits.html")


@pytest.mark.parametrize("path", ALL)
def test_nobody_comes_in_without_the_token(stranger, path):
    assert stranger.get(path).status_code == 403
    assert stranger.get(f"{path}?token=wrong").status_code == 403
    stranger.cookies.set("kept", "wrong")
    assert stranger.get(path).status_code == 403


def test_the_token_becomes_a_cookie_that_no_script_and_no_other_page_has(stranger):
    answer = stranger.get(f"/?token={TOKEN}")
    words = {word.strip() for word in answer.headers["set-cookie"].split(";")}
    assert {"HttpOnly", "SameSite=Strict", "Path=/"} <= words
    assert "Secure" not in words
    assert TOKEN not in answer.text
    assert TOKEN not in str(answer.url.copy_remove_param("token"))
    assert stranger.get("/api/studies/hill/pulse").status_code == 200
    secure = stranger.get(f"/?token={TOKEN}", headers={"host": "mine.example"})
    assert "Secure" in secure.headers["set-cookie"]


def test_the_token_opens_the_first_page_alone(stranger):
    assert stranger.get(f"/api/folder?token={TOKEN}").status_code == 403


@pytest.mark.parametrize("host", ["evil.example", "evil.example:1", "desk", "desk:2", ""])
def test_another_name_of_this_address_is_refused(desk, host):
    """As DNS rebinding makes one: the cookie would be there, were it the same name."""
    assert desk.get("/api/studies/hill/pulse", headers={"host": host}).status_code == 421


@pytest.mark.parametrize(
    "origin", ["http://evil.example", "null", "http://desk:2", "https://desk:1"]
)
def test_another_page_is_refused(desk, origin):
    assert desk.get("/api/studies/hill/pulse", headers={"origin": origin}).status_code == 403
    answer = desk.request("DELETE", "/api/studies/hill/runs/1", headers={"origin": origin})
    assert answer.status_code == 403


def test_what_writes_has_to_say_where_it_comes_from(stranger):
    stranger.cookies.set("kept", TOKEN)
    assert stranger.get("/api/studies/hill/pulse").status_code == 200
    for method, path in (
        ("POST", "/api/studies"),
        ("PATCH", "/api/studies/hill"),
        ("PUT", "/api/tables/new.csv"),
        ("POST", "/api/studies/hill/runs"),
        ("DELETE", "/api/studies/hill/runs/1"),
    ):
        assert stranger.request(method, path, json={}).status_code == 403, path
    for site in ("cross-site", "same-site"):
        answer = stranger.get("/api/studies/hill/pulse", headers={"sec-fetch-site": site})
        assert answer.status_code == 403


@pytest.mark.parametrize("kind", ["text/plain", "application/x-www-form-urlencoded", ""])
def test_json_alone_writes(desk, kind):
    """A form of another page can't send JSON."""
    for method, path in (("POST", "/api/studies"), ("PATCH", "/api/studies/hill")):
        answer = desk.request(method, path, content=b"{}", headers={"content-type": kind})
        assert answer.status_code == 415


def test_pages_run_scripts_of_the_desk_alone(desk):
    policy = desk.get("/").headers["content-security-policy"]
    rules = dict(rule.strip().split(" ", 1) for rule in policy.split(";"))
    assert rules["default-src"] == rules["base-uri"] == rules["form-action"] == "'none'"
    assert rules["script-src"] == rules["style-src"] == rules["connect-src"] == "'self'"
    assert rules["frame-ancestors"] == "'none'"
    assert "unsafe" not in policy
    assert rules["require-trusted-types-for"] == "'script'"
    assert desk.get("/").headers["x-content-type-options"] == "nosniff"


def test_no_script_of_the_desk_makes_markup_of_text():
    wrong = (
        r"innerHTML|outerHTML|insertAdjacentHTML|document\.write|srcdoc|DOMParser|eval\(|Function\("
    )
    for path in routes.STATIC.glob("*.js"):
        assert not re.search(wrong, path.read_text()), path.name
    page = (routes.STATIC / "desk.html").read_text()
    assert re.findall(r"<script[^>]*>", page) == ['<script type="module" src="desk.js">']
    assert not re.search(r"\son\w+=|style=", page)


def test_a_page_of_a_study_is_a_stranger(desk, root):
    answer = desk.get("/files/hill/out/pits.html")
    assert answer.status_code == 200
    assert answer.headers["content-type"].startswith("text/html")
    policy = answer.headers["content-security-policy"]
    assert policy.startswith("sandbox allow-scripts allow-downloads;")
    assert "allow-same-origin" not in policy
    assert "default-src 'none'" in policy
    assert "connect-src" not in policy.replace("default-src 'none'", "")
    (root / "hill" / "out" / "more.svg").write_text("<svg onload='1'/>")
    answer = desk.get("/files/hill/out/more.svg")
    assert answer.headers["content-type"] == "application/octet-stream"
    assert answer.headers["content-disposition"].startswith("attachment")


NAMES = [
    "../root2",
    ".hidden",
    "-x",
    "--help",
    "a/b",
    "..",
    "away",
    "a\nb",
    "a" * 81,
    "x ",
    "secret.csv",
]


@pytest.mark.parametrize("name", NAMES)
def test_a_name_is_one_of_a_pattern_and_followed_to_its_end(desk, root, name):
    (root / "away").symlink_to(root.parent)
    (root / "secret.csv").symlink_to(root.parent / "secret.csv")
    answer = desk.post("/api/studies", json={"table": "hill.csv", "name": name})
    assert answer.status_code in (403, 404, 409), answer.text
    assert sorted(path.name for path in root.parent.iterdir()) == ["root", "secret.csv"]


LEAD_OUT = (
    "out/link.csv",
    "out/../../../secret.csv",
    "%2e%2e/%2e%2e/secret.csv",
    "out/%2e%2e/%2e%2e/%2e%2e/secret.csv",
    "/etc/passwd",
    "out//etc/passwd",
    "model/manifest.json",
    "study.toml/../../hill.csv",
    "log/../../hill.csv",
    "bundle-x.zip",
    "bundle-..%2f..zip",
)


@pytest.mark.parametrize("path", LEAD_OUT)
def test_no_path_leads_out_of_a_study(desk, root, path):
    (root / "hill" / "out" / "link.csv").symlink_to(root.parent / "secret.csv")
    (root / "hill" / "model").mkdir()
    (root / "hill" / "model" / "manifest.json").write_text("{}")
    (root / "hill" / "log").mkdir()
    answer = desk.get(f"/files/hill/{path}")
    assert answer.status_code in (403, 404)
    assert "1,2,3" not in answer.text


def test_a_study_that_is_a_link_to_another_folder_is_none(desk, root):
    away = root.parent / "away"
    away.mkdir()
    (away / "study.toml").write_text(STUDY)
    (root / "linked").symlink_to(away)
    assert desk.get("/api/studies/linked").status_code == 403
    (root / "deep").mkdir()
    (root / "deep" / "inner").mkdir()
    (root / "deep" / "inner" / "study.toml").write_text(STUDY)
    (root / "other").symlink_to(root / "deep" / "inner")
    assert desk.get("/api/studies/other").status_code == 403
    assert Folder(root).studies() == ["hill"]


def test_a_table_outside_of_the_folder_is_neither_read_nor_run(desk, root):
    change = {"path": ["model", "table"], "was": "../hill.csv", "value": "../../secret.csv"}
    (root / "hill" / "study.toml").write_text(STUDY.replace("../hill", "../../secret"))
    answer = desk.get("/api/studies/hill").json()
    assert "lies outside" in answer["outside"][0]["said"]
    assert answer["outside"][0]["key"] == ["model", "table"]
    for what in ("look", "check", "rose", "ground", "cells?row=1"):
        assert desk.get(f"/api/studies/hill/{what}").status_code == 403, what
    assert desk.post("/api/studies/hill/runs", json={"what": "build"}).status_code == 403
    assert change["value"] not in str(list((root / "hill").rglob("asked.json")))


def test_uploads_have_a_limit_and_lose_nothing(desk, root):
    assert desk.put("/api/tables/hill.csv", content=b"x").status_code == 409
    assert (root / "hill.csv").read_bytes() == HILL.read_bytes()
    assert desk.put("/api/tables/big.csv", content=b"x" * (LIMIT + 1)).status_code == 413
    untold = (b"x" * 100_000 for _ in range(11))
    assert desk.put("/api/tables/big.csv", content=untold).status_code == 413
    over = desk.put("/api/tables/hill.csv?over=1", content=b"a,b\n")
    assert over.json()["bytes"] == 4
    assert (root / "hill.csv").read_bytes() == b"a,b\n"
    assert sorted(path.name for path in root.iterdir()) == ["hill", "hill.csv"]


@pytest.mark.parametrize(
    "name", ["x.html", ".x.csv", "-x.csv", "%2e%2e%2fx.csv", "x.csv.exe", "x.toml"]
)
def test_an_upload_is_a_table_in_the_folder(desk, root, name):
    assert desk.put(f"/api/tables/{name}", content=b"x").status_code in (403, 404, 405, 415)
    assert sorted(path.name for path in root.iterdir()) == ["hill", "hill.csv"]


def test_json_has_a_limit_and_has_to_be_a_table(desk):
    answer = desk.post(
        "/api/studies", content=b" " * 2_000_001, headers={"content-type": "application/json"}
    )
    assert answer.status_code == 413
    for body in (b"[" * 100_000, b"{", b"[]", b'"x"', b"\xff"):
        answer = desk.post(
            "/api/studies", content=body, headers={"content-type": "application/json"}
        )
        assert answer.status_code == 400, body[:9]


LINES = {".py": 1700, ".js": 1300, ".html .css": 300}  # all that there may be, at most so wide
WIDEST = 100


@pytest.mark.parametrize("kinds", LINES)
def test_the_desk_stays_small_enough_to_be_read(kinds):
    top = Path(routes.__file__).parent
    files = [path for path in top.rglob("*") if path.suffix in kinds.split()]
    lines = [line for path in files for line in path.read_text().splitlines()]
    assert 0 < len(lines) <= LINES[kinds]
    if kinds == ".js":
        assert [line for line in lines if len(line) > WIDEST] == []


@pytest.mark.parametrize("path", sorted(routes.STATIC.glob("*.js")), ids=lambda path: path.name)
def test_each_script_is_whole(path):
    node = shutil.which("node")
    if node is None:
        pytest.skip("node isn't there")
    words = [node, "--input-type=module", "--check"]
    ran = subprocess.run(words, input=path.read_text(), capture_output=True, text=True)
    assert ran.returncode == 0, ran.stderr


def test_no_shell_reads_anything():
    for path in Path(routes.__file__).parent.glob("*.py"):
        assert not re.search(r"shell=True|os\.system|os\.popen|getoutput", path.read_text()), path


LIGHT = """import sys; sys.path.insert(0, {python!r})
import pitplan.desk.serve
print([name for name in ("numpy", "pandas", "matplotlib") if name in sys.modules])
"""


def test_the_server_and_the_runs_load_no_tables():
    code = LIGHT.format(python=str(TOP / "python"))
    ran = subprocess.run([sys.executable, "-c", code], capture_output=True, text=True)
    assert ran.stdout == "[]\n", ran.stdout + ran.stderr

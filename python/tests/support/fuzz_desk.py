"""Requests to the desk that no browser sends, for `fuzzing`.

A desk is served in a thread of this process, over a folder with a study, tables and files to be fetched.
A request is sent as bytes: of a sound one the method, the path, words of the address, headers or the body
is another. Each is answered with a status that the desk means to give, in words; no traceback comes on its
terminal, no file outside its folder is read or written, what the folder keeps of a secret isn't told, and
it answers a sound request afterwards.
"""
import asyncio
import gzip
import io
import json
import os
import re
import shutil
import socket
import sys
import threading
import tomllib
from contextlib import contextmanager, redirect_stderr, suppress
from pathlib import Path
from urllib.parse import quote

import uvicorn
from starlette.applications import Starlette

import fuzzing
import mines
import served
from fuzz_studies import changed_table
from pitplan.base.within import NAME as WITHIN
from pitplan.desk import runs, worker
from pitplan.desk.folder import Folder
from pitplan.desk.guard import Guard
from pitplan.desk.routes import Desk
from pitplan.desk.serve import SERVED
from pitplan.table.study_keys import KEYS, LISTS

TOKEN, COOKIE, LIMIT = "the-token", "kept", 1_000_000
SECRET = "nobody may read this"
MEANT = {200, 304, 400, 403, 404, 405, 409, 413, 415, 421, 422}
MOST_SAID = 200  # bytes of an answer that are shown
TABLE = mines.table(7, 6, 4, 3).to_csv(index=False).encode()
SOUND = ["/api/folder", "/desk.html", "/files/s/out/pits.html", "/files/s/bundle-1.zip"]
SOUND += [
    f"/api/studies/s{it}"
    for it in ("", "/look", "/check", "/rose", "/rose.png", "/ground?what=CU", "/cells?row=3")
]
METHODS = "GET HEAD POST PUT PATCH DELETE OPTIONS TRACE get FOO".split()
NAMES = (
    "s",
    "t",
    "t.csv",
    "u.csv.gz",
    "d.dxf",
    "d.txt",
    "d.csv",
    "..",
    ".",
    "",
    "-x",
    "a/b",
    "link",
    "study.toml",
)
NAMES += (
    "é",
    "\ud800",
    "\0",
    "x" * 90,
    "x" * 300,
    "x" * 9000,
    "out/x",
    "out/pits.html",
    "log/",
    "bundle-1.zip",
)
NAMES += (
    "../secret.csv",
    "../../etc/passwd",
    "/etc/passwd",
    "out/../../secret.csv",
    "link/secret.csv",
    "CON",
)
NAMES += (
    "out/link.csv",
    "log/desk/0001-build/log",
    "designs/..",
    "%2e%2e",
    "desk.html",
    "desk.js",
    "con\n",
)
QUERIES = (
    "",
    "what=CU",
    "what=",
    "what=ROCK&what=x",
    "row=3",
    "row=-1",
    "row=x",
    "row=" + "9" * 5000,
    "from=0",
)
QUERIES += (
    "from=-5",
    "from=x",
    "from=" + "9" * 400,
    "over=1",
    "save",
    "token=the-token",
    "token=%ff",
    "%",
    "&=&",
)
QUERIES += ("a" * 9000, "%ed%a0%80=1", "what=%00", "what=\xff")
BUTTONS = (
    "build slopes shells all schedule risk page phases compare vary plot export bundle x".split()
)
FIELDS = {
    "factors": [0.6, 1.0],
    "mining_width": 40,
    "gap": 0.1,
    "minutes": 1,
    "design": "d.dxf",
    "as": "ids",
    "factor": 1,
    "changes": [["price", -20, 20]],
    "cut": "bench",
    "at": 100,
    "kinds": ["csv"],
    "crs": "EPSG:32719",
    "schedule": True,
    "who": "me",
}


class Here:
    """A worker that does all in this process."""

    def __init__(self, root):
        self.root = root

    async def __call__(self, do, *words):
        near = [it.relative_to(self.root) if isinstance(it, Path) else it for it in words]
        return worker.answered(do, *near)

    def end(self):
        pass


class Served:
    """A desk in a thread, what it prints, and the files that it opens outside of its folder."""

    def __init__(self, folder):
        self.sound, self.root, self.log, self.outside = (
            folder / "sound",
            folder / "root",
            io.StringIO(),
            [],
        )
        (folder / "secret.csv").write_text(f"x,y,z\n{SECRET},2,3\n")
        _written(self.sound)
        self.again()
        self.listens = socket.create_server(("127.0.0.1", 0))
        self.port = self.listens.getsockname()[1]
        self.host = f"127.0.0.1:{self.port}"
        desk = Desk(Folder(self.root), LIMIT)
        desk.quick = desk.heavy = Here(desk.folder.root)
        self.app = Guard(Starlette(routes=desk.routes()), TOKEN, {self.host: self.origin}, COOKIE)
        self.server = None
        self.thread = threading.Thread(target=self.serves, daemon=True)
        places = (fuzzing.HERE.parents[2], sys.prefix, "/proc", "/sys", "~/.config/ezdxf")
        self.ours = [str(self.root), *(os.path.realpath(os.path.expanduser(it)) for it in places)]

    @property
    def origin(self):
        return f"http://{self.host}"

    def again(self):
        """The folder as it was."""
        for path in self.root.glob("*") if self.root.exists() else ():
            shutil.rmtree(path) if path.is_dir() and not path.is_symlink() else path.unlink()
        shutil.copytree(self.sound, self.root, symlinks=True, dirs_exist_ok=True)

    def serves(self):
        self.server = uvicorn.Server(
            uvicorn.Config(self.app, **SERVED)
        )  # whose log is the error output as it is now
        asyncio.run(self.server.serve(sockets=[self.listens]))

    def hears(self, event, words):
        """Notes a file that the desk opens outside of its folder, and a process that it starts."""
        if threading.current_thread() is not threading.main_thread() and event in EVENTS:
            name = words[0] if event != "subprocess.Popen" else None
            if isinstance(name, (str, bytes)):
                path = os.path.realpath(os.fsdecode(name))
                if path.startswith(tuple(self.ours)) or path in ("/dev/null", "/etc/mime.types"):
                    return
            if not isinstance(name, int):
                self.outside.append((event, words))


EVENTS = (
    "open",
    "os.mkdir",
    "os.rename",
    "os.remove",
    "os.rmdir",
    "os.symlink",
    "subprocess.Popen",
    "os.system",
)
_heard = []  # the desk that is heard: an audit hook can't be taken away


def _hear_of(held):
    """From now on this desk is told of what is opened; none where it is None."""
    if not _heard:
        sys.addaudithook(lambda *words: _heard[0] and _heard[0].hears(*words))
    _heard[:] = [held]


def _written(root):
    """A folder with tables, a study that has files to fetch, and links that lead out of it."""
    mines.written_study(root / "s", mines.table(7, 6, 4, 3))
    (root / "t.csv").write_bytes(TABLE)
    (root / "u.csv.gz").write_bytes(gzip.compress(TABLE))
    for name in (
        "out/pits.html",
        "out/a.csv",
        "designs/d.txt",
        "bundle-1/a.txt",
        "log/desk/0001-build/log",
    ):
        (root / "s" / name).parent.mkdir(parents=True, exist_ok=True)
        (root / "s" / name).write_text("0\n")
    asked = {"what": "build", "steps": [["build", "s"]], "who": "me", "asked": {"what": "build"}}
    asked |= {"typed": ["pitplan build s"], "began": 1.5}
    home = root / "s" / "log" / "desk" / "0001-build"
    (home / "asked.json").write_text(json.dumps(asked))
    (home / "events.jsonl").write_text('{"event": "begin"}\n')
    (home / "study.toml").write_text(mines.STUDY_TOML)
    (home / "ended-0-1").touch()
    (root / "link").symlink_to("..")
    (root / "s" / "out" / "link.csv").symlink_to("../../../secret.csv")


@contextmanager
def room(folder):
    """A served desk."""
    before, starts, within = os.getcwd(), runs.start, os.environ.get(WITHIN)
    held = Served(folder)
    os.chdir(held.root)  # as its workers do
    os.environ[WITHIN], runs.start = str(held.root), lambda *_: 1  # no command is begun
    served.load_all()
    try:
        with redirect_stderr(held.log):
            held.thread.start()
            while not (held.server and held.server.started):
                assert held.thread.is_alive(), held.log.getvalue()
            for path in SOUND:  # once before files are heard: libraries read their own
                status, said = asked(held, of(held, "GET", path))
                assert status == 200, (path, said)
            _hear_of(held)
            yield held
    finally:
        held.server.should_exit = True
        held.thread.join(10)
        _hear_of(None)
        os.chdir(before)
        runs.start = starts
        os.environ.update({WITHIN: within} if within else {})
        os.environ.pop(WITHIN) if within is None else None


def of(held, method, target, body=b"", kind="application/json", headers=None):
    """A request as bytes, of the desk's own page unless its headers are others."""
    own = {
        "host": held.host,
        "origin": held.origin,
        "cookie": f"{COOKIE}={TOKEN}",
        "content-type": kind,
    }
    own |= {"content-length": str(len(body)), "connection": "close"} | (headers or {})
    lines = [
        f"{method} {target} HTTP/1.1",
        *(f"{name}: {it}" for name, it in own.items() if it is not None),
    ]
    return "\r\n".join([*lines, "", ""]).encode("utf-8", "surrogatepass") + body


def asked(held, sent, ends=False):
    """The status of what is answered, and its body; 0 where there is none since the request `ends`
    before all of it has come."""
    with socket.create_connection(("127.0.0.1", held.port), timeout=fuzzing.PATIENCE) as it:
        found = b""
        with suppress(OSError):  # it was answered, and the connection ended, before all was sent
            it.sendall(sent)
            if ends:
                it.shutdown(socket.SHUT_WR)
        with suppress(ConnectionResetError):
            while piece := it.recv(1 << 16):
                found += piece
    found = found.removeprefix(b"HTTP/1.1 100 Continue\r\n\r\n")
    status = re.match(rb"HTTP/1\.1 (\d{3})", found)
    return int(status[1]) if status else 0, found.partition(b"\r\n\r\n")[2]


def sample(r):
    """A request: its method, target, body and kind, and headers that are others."""
    method, target, body = r.choice(ROUTES)(r)
    headers, kind = {}, "application/json"
    if method == "PUT":
        kind = "text/csv"
    elif body is not None:
        body = json.dumps(body).encode("utf-8", "surrogatepass")
    if r.random() < 0.1:
        method = r.choice(METHODS)
    if r.random() < 0.15:
        target = changed_target(target, r)
    if r.random() < 0.15 and body:
        body = changed_body(body, r)
    for _ in range(r.choice((0, 0, 0, 0, 0, 1, 2))):
        headers |= changed_header(r)
    return method, target, body or b"", kind, headers


def shown(sample):
    return "\n".join(map(repr, sample))


ENDING = {"content-length", "transfer-encoding"}  # by which it may wait for more than comes


def answer(held, sample):
    """The method and the status of an answer. Raises where it is none that the desk means to give."""
    method, target, body, kind, headers = sample
    said_before, ends = len(held.log.getvalue()), not ENDING.isdisjoint(headers)
    with redirect_stderr(held.log):
        status, said = asked(held, of(held, method, target, body, kind, headers), ends)
    log = held.log.getvalue()[said_before:]
    assert not re.search("Traceback|Warning", log), log
    assert status in MEANT or ends and not status, (status, said[:MOST_SAID])
    assert SECRET.encode() not in said, said[:MOST_SAID]
    outside, held.outside = held.outside, []
    assert not outside, outside
    assert sorted(path.name for path in held.root.parent.iterdir()) == [
        "root",
        "secret.csv",
        "sound",
    ]
    if b"{" == said[:1] and status >= 400:
        errors = json.loads(said)["errors"]
        assert all([each["said"].strip() for each in errors] or [""]), said[:MOST_SAID]
    if method not in ("GET", "HEAD"):
        tomllib.loads((held.root / "s" / "study.toml").read_text("utf-8"))
        held.again()
    status_after, said = asked(held, of(held, "GET", "/api/studies/s/pulse"))
    assert status_after == 200, (status_after, said[:MOST_SAID])
    return f"{method if method in METHODS[:6] else 'other'} {status}"


def changed_target(target, r):
    """An address with a part that is another."""
    parts = target.split("/")
    kind = r.randrange(6)
    if kind == 0:
        parts[r.randrange(len(parts))] = _quoted(r.choice(NAMES), r)
    elif kind == 1:
        parts.insert(r.randrange(len(parts) + 1), _quoted(r.choice(NAMES), r))
    elif kind == 2:
        del parts[r.randrange(len(parts))]
    elif kind == 3:
        return target.partition("?")[0] + "?" + r.choice(QUERIES)
    elif kind == 4:
        at = r.randrange(len(target) + 1)
        return (
            target[:at]
            + r.choice(("%00", "%ff", "%2f", "%", "//", "\\", ";", "#", "*", "é", "%0d%0a"))
            + target[at:]
        )
    else:
        return r.choice(
            ("*", "http://evil.example/", "//evil.example/x", "", "/" * 500, "/" + "a/" * 3000)
        )
    return "/".join(parts)


def _quoted(name, r):
    """A name within an address: as a browser writes it, all of it encoded, or as it is."""
    name = name.encode("utf-8", "surrogatepass")
    plain = name.decode("latin-1").replace("\0", "").replace("\n", "")
    return r.choice((quote(name), quote(name, ""), "".join(f"%{c:02x}" for c in name), plain))


def changed_body(body, r):
    """A body with other bytes, cut off, nested deep, or none of JSON."""
    deep = r.choice((10, 900, 100_000))
    odd = [
        b"[" * deep,
        b'{"changes":' * deep,
        b"NaN",
        b"1e999",
        b"9" * 5000,
        b'"' + b"x" * 50_000 + b'"',
        b"{}",
        b"[]",
    ]
    odd += [
        b'{"changes": [{"path": ["a"], "value": NaN}]}',
        b'{"what": "vary", "changes": [["price", -1e999, 1]]}',
    ]
    return r.choice(odd) if r.random() < 0.4 else fuzzing.changed_bytes(body, r)


def changed_header(r):
    """A header that is another, there twice, or gone."""
    odd = (
        "",
        "x",
        "null",
        "é",
        "http://evil.example",
        "evil.example",
        "desk:99999",
        "a" * 9000,
        "*",
        None,
        "localhost",
    )
    odd += (
        "-1",
        "9" * 30,
        "1_0",
        "+5",
        "chunked",
        "\x7f",
        "text/plain",
        "application/json; charset=x",
        f"{COOKIE}=",
    )
    odd += (
        f"{COOKIE}=é",
        f"{COOKIE}={TOKEN}x",
        f"x=1; {COOKIE}={TOKEN}",
        "bytes=0-1",
        "bytes=9-1",
        "bytes=x",
    )
    names = "host origin cookie content-type content-length sec-fetch-site range if-range transfer-encoding expect"
    names += " if-none-match if-modified-since accept-encoding upgrade x-forwarded-for x"
    return {r.choice(names.split()): r.choice(odd)}


def value(r, depth=0):
    """A value of JSON, of any type."""
    kind = r.random()
    if depth > 2 or kind < 0.6:
        return r.choice(fuzzing.JUNK)
    if kind < 0.8:
        return [value(r, depth + 1) for _ in range(r.randrange(4))]
    names = ("name", "cost", "rate", "from", "to", "step", "rocks", "grade", "copper", "tonnes")
    return {r.choice(names): value(r, depth + 1) for _ in range(r.randrange(4))}


def _process(r, name):
    """A way to treat a block; often a wrong one."""
    more = {"rate": r.choice((1e6, "1e6", 0, -1)), "rocks": r.choice((["OXI"], [], "OXI"))}
    kept = {key: it for key, it in more.items() if r.random() < 0.5}
    return {"name": f"p{name}", "cost": r.choice((4.0, 1, "4,5", "x")), **kept}


STEPS = ("economics", "slopes", "price", "NORTH", "from", "columns", "x", "mill", 0, 1, 9, "", '"')


def change(r):
    """A change of a key, or of something within it."""
    key = r.choice(KEYS)
    path = [key.section, key.name]
    if key.section in LISTS:
        path = ["economics", key.section, r.choice((0, 1, 2, "copper", "p0")), key.name]
    wanted = value(r) if r.random() < 0.7 else key.form.get("start", key.default)
    if r.random() < 0.15:
        path, wanted = ["shells", "mill_rate"], r.choice((1e6, None, "1e6"))
    elif r.random() < 0.3:
        at = r.choice((None, 0, 1, 2, 3))
        path = ["economics", "processes"] + [at] * (at is not None)
        wanted = [_process(r, 0)] if at is None else _process(r, at)
    path += [r.choice(STEPS) for _ in range(r.choice((0, 0, 0, 1)))]
    found = {"path": path, "value": wanted, "was": value(r)}
    if r.random() < 0.9:
        del found["was"]
    return found if r.random() < 0.95 else r.choice((found["path"], {"path": []}, None))


def _patch(r):
    changes = [change(r) for _ in range(r.choice((1, 1, 2, 3)))]
    if r.random() < 0.9:
        return "PATCH", "/api/studies/s", {"changes": changes}
    return (
        "PATCH",
        "/api/studies/s",
        {r.choice(("run", "etag", "changes", "text", "keeps")): value(r)},
    )


def _begin(r):
    asked = {
        "table": r.choice(("t.csv", "u.csv.gz")),
        "name": "n",
        "columns": {"x": "XC"},
        "encoding": "utf-8",
    }
    asked = r.choice(({"copy": "s"}, {key: it for key, it in asked.items() if r.random() < 0.7}))
    return "POST", "/api/studies", {**asked, **{key: value(r) for key in asked if r.random() < 0.2}}


def _button(r):
    fields = {
        key: it if r.random() < 0.8 else value(r) for key, it in FIELDS.items() if r.random() < 0.7
    }
    where = r.choice(("commands", "runs"))
    return "POST", f"/api/studies/s/{where}", {"what": r.choice(BUTTONS), **fields}


def _upload(r):
    where, table = r.choice(("/api/tables/", "/api/studies/s/designs/")), TABLE
    for _ in range(r.randint(0, 3)):
        table = changed_table(table, r)
    odd = (
        b"0\nSECTION\n",
        b"x,y,z\n1,2,3\n",
        b"id\n1\n",
        b"\0\xff",
        b"",
        gzip.compress(table),
        b"x" * (LIMIT + 1),
    )
    name = _quoted(
        r.choice(("new.csv", "new.csv.gz", "t.csv", "d.dxf", "d.txt", r.choice(NAMES))), r
    )
    return "PUT", where + name + r.choice(("", "?over=1")), r.choice((table, r.choice(odd)))


def _file(r):
    where = r.choice(("/files/s/", "/files/", "/manual/", "/", "/api/studies/"))
    return (
        "GET",
        where + _quoted(r.choice(NAMES), r) + r.choice(("", "?" + r.choice(QUERIES))),
        None,
    )


def _question(r):
    what = r.choice(
        (
            "",
            "/pulse",
            "/look",
            "/check",
            "/rose",
            "/rose.png",
            "/ground",
            "/cells",
            "/runs/1",
            "/runs/x",
        )
    )
    words = r.choice(("", "?" + r.choice(QUERIES)))
    return r.choice(("GET", "GET", "GET", "DELETE")), f"/api/studies/s{what}{words}", None


ROUTES = (_patch, _patch, _begin, _button, _upload, _file, _question, _question)

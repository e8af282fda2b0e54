"""What the desk answers. Of all of it nothing is kept between two requests but in files."""
from __future__ import annotations

import asyncio
import inspect
import itertools
import json
import math
import re
import shutil
import tomllib
from collections.abc import Awaitable, Callable
from contextlib import suppress
from dataclasses import asdict
from pathlib import Path
from typing import IO, Any

from starlette.requests import ClientDisconnect, Request
from starlette.responses import FileResponse, JSONResponse, Response
from starlette.routing import Route

from ..base import events
from ..base.files import put_aside, whole_file, write_bytes, write_json
from ..base.study_lines import lines_of
from ..base.typed_numbers import as_number, count_of
from ..study import study_lock
from ..table.study_keys import KEYS, LISTS, Key
from . import runs, toml_text
from .button_commands import Commands
from .folder import BUNDLE, DESIGNS, HOME, TABLES, Folder, Refused
from .folder import etag, refusal, refused, stamp, writing
from .guard import SANDBOX
from .manual import address, page_of
from .worker import Worker

STATIC = Path(__file__).resolve().parent / "static"
_MOST_BYTES = 2_000_000  # bytes of what is told in JSON
_SHOWN_TYPES = {".html": "text/html", ".png": "image/png"}  # all else is saved
# of the files of the desk's own page
_STATIC_TYPES = {".html": "text/html", ".css": "text/css", ".js": "text/javascript"}
_LARGER = "copy it into the folder, or start the desk with a larger --upload-limit"
_CHANGED = "changed.json"  # in a study's HOME: who wrote study.toml last, and what it was then
# kinds of keys that have no numbers
_WORDS = "text file column choice words rocks formulas columns units metals processes".split()
_LONGEST_NAME = 40  # letters of who somebody says to be
_Json = dict[str, Any]
_Answer = Callable[[Request], Awaitable[Any]]


class Desk:
    """The routes over a folder; a table or a design that is dropped has at most `upload_limit` bytes."""

    def __init__(self, folder: Folder, upload_limit: int) -> None:
        self.folder, self.upload_limit = folder, upload_limit
        # what is answered at once doesn't wait for what reads tables
        self.quick, self.heavy = Worker(folder.root), Worker(folder.root)

    def routes(self) -> list[Route]:
        """All of them."""
        at = "/api/studies/{study}"
        run = at + "/runs/{number}"
        table: list[tuple[str, str, _Answer]] = [
            ("GET", "/api/folder", self.home),
            ("PUT", "/api/tables/{name}", self.upload),
            ("POST", "/api/studies", self.begin),
            ("GET", at, self.of_study(self.whole)),
            ("PATCH", at, self.change),
            ("GET", at + "/pulse", self.of_study(self.beat)),
            ("GET", at + "/look", self.asks(self.heavy, "look")),
            ("GET", at + "/check", self.asks(self.heavy, "check")),
            ("GET", at + "/rose", self.asks(self.quick, "rose")),
            ("GET", at + "/ground", self.asks(self.heavy, "ground", "what")),
            ("GET", at + "/rose.png", self.asks(self.heavy, "rose_picture")),
            ("GET", at + "/cells", self.asks(self.heavy, "cells", "row")),
            ("PUT", at + "/designs/{name}", self.upload),
            ("POST", at + "/commands", self.typed),
            ("POST", at + "/runs", self.start),
            ("GET", run, self.of_run(_run_from)),
            ("DELETE", run, self.of_run(lambda it, _: {"stopped": runs.stop(it)})),
            ("GET", "/files/{study}/{path:path}", self.file),
            ("GET", "/manual/{path:path}", page_of),
            ("GET", "/{name:path}", _own),
        ]
        return [Route(path, _answering(do), methods=[method]) for method, path, do in table]

    def end(self) -> None:
        """Ends the processes that answer; runs go on."""
        self.quick.end()
        self.heavy.end()

    def named(self, request: Request) -> Path:
        """The study that a request names."""
        return self.folder.study(request.path_params["study"])

    def readable(self, request: Request) -> Path:
        """The same, whose table lies within the folder."""
        study = self.named(request)
        self.folder.table_of(study)
        return study

    def of_study(self, do: Callable[[Path], Any]) -> _Answer:
        """A route that has a function of a study's folder answer."""

        async def answer(request: Request) -> Any:
            found = do(self.named(request))
            return await found if inspect.isawaitable(found) else found

        return answer

    def asks(self, worker: Worker, do: str, *words: str) -> _Answer:
        """A route that has a function of `work` answer, with these words of the address."""

        async def answer(request: Request) -> Any:
            study = self.readable(request)
            return await worker(do, study, *(request.query_params.get(word, "") for word in words))

        return answer

    async def home(self, request: Request) -> _Json:
        """The folder, and how studies are described."""
        found = [
            {"name": name, **await self.quick("overview", self.folder.root / name)}
            for name in self.folder.studies()
        ]
        keys = [{**asdict(key), **key.form} for key in KEYS]
        facts = {"studies": found, "tables": self.folder.tables(), "manual": address()}
        return {"folder": str(self.folder.root), "keys": keys, **facts}

    async def upload(self, request: Request) -> _Json:
        """Takes a file as it comes, into one beside its place; nothing that is there is lost before all of it has come.
        Raises Refused where one is there already, or it is none that the study takes."""
        is_design = "study" in request.path_params
        where = self.named(request) / "designs" if is_design else self.folder.root
        endings = DESIGNS if is_design else TABLES
        path = self.folder.file(request.path_params["name"], endings, where)
        if path.exists() and "over" not in request.query_params:
            raise Refused(409, f"{path.name} is there already", "another name", exists=True)
        where.mkdir(exist_ok=True)
        with whole_file(path) as part:
            with open(part, "wb") as file:
                size = await self.taken(request, file, path.name)
            kind: _Json = {}
            if is_design:
                kind = await self.heavy("kind_of", part, path.name, where.parent)
                if "errors" in kind:
                    raise Refused(422, kind["errors"][0]["said"], kind["errors"][0]["try"])
            part.chmod(0o664)
        return {"name": path.name, "bytes": size, **kind}

    async def taken(self, request: Request, file: IO[bytes], name: str) -> int:
        """Writes what comes with a request, and gives its bytes. Raises Refused where these are too many."""
        size, announced = 0, int(request.headers.get("content-length") or 0)
        async for piece in request.stream():
            size += len(piece)
            if max(size, announced) > self.upload_limit:
                raise Refused(413, f"{name} has more than {self.upload_limit:,} bytes", _LARGER)
            file.write(piece)
        return size

    async def begin(self, request: Request) -> Any:
        """A study over a table, as `pitplan init`; or a copy of a study's study.toml."""
        asked = await _json_in(request)
        if "copy" in asked:
            name = str(asked["copy"])
            text = (self.folder.study(name) / "study.toml").read_bytes()
            names = (f"{name}-{n}" for n in itertools.count(2))
            name = next(it for it in names if not self.folder.place(it).exists())
            write_bytes(self.folder.new_study(name) / "study.toml", text)
            return {"study": name}
        table = str(asked.get("table", ""))
        name = str(asked.get("name") or re.sub(r"(?i)(\.csv)?(\.gz)?$", "", table))
        study = self.folder.new_study(name)
        said = asked.get("columns")
        columns = {str(it): str(said[it]) for it in said} if isinstance(said, dict) else {}
        encoding = str(asked.get("encoding") or "") or None
        return await self.heavy("begin", study, self.folder.file(table, TABLES), columns, encoding)

    async def whole(self, study: Path) -> _Json:
        """All of a study that stands in its folder. Raises Refused where memory was short."""
        before = (study / "study.toml").read_bytes()
        # of this very text, whatever is written while the rest is found: the page sees that it is old
        pulse = {**self.beat(study), "etag": etag(before)}
        values: _Json | None = None
        outside, text = list[_Json](), before.decode("utf-8-sig", "replace")
        with suppress(ValueError, RecursionError):
            values = tomllib.loads(before.decode("utf-8-sig"))
        try:
            self.folder.table_of(study)
        except Refused as refused:
            outside = [{**refused.answer["errors"][0], "key": ["model", "table"]}]
        facts = {"name": study.name, "text": text, "values": values, "lines": lines_of(text)}
        facts |= {"runs": list(map(_shown, runs.of(study))), "files": self.folder.results(study)}
        state = await self.quick("overview", study)
        if "errors" in state:
            raise Refused(503, state["errors"][0]["said"], state["errors"][0]["try"])
        return {**facts, "outside": outside, "state": state, "pulse": pulse}

    def beat(self, study: Path) -> _Json:
        """What study.toml, the table, the designs and the latest run are now, and who has the study."""
        found, holder, table = runs.of(study), study_lock.is_held(study), ""
        with suppress(OSError, Refused):
            table = str(stamp(self.folder.table_of(study) or study / "no table"))
        latest = {key: found[0][key] for key in ("number", "state")} if found else None
        now = {"etag": etag((study / "study.toml").read_bytes()), "table": table, "run": latest}
        designs = sorted(it.name for it in (study / "designs").glob("[!.]*"))
        return {**now, "designs": designs, "held": str(holder) if holder else None}

    async def change(self, request: Request) -> _Json:
        """Writes study.toml: some keys, or the whole text. Refused where somebody has changed the same meanwhile."""
        study, asked = self.named(request), await _json_in(request)
        path, kept = study / "study.toml", None
        with writing(study):
            before = path.read_bytes()
            if "etag" in asked:
                if etag(before) != asked["etag"]:
                    raise _stale("study.toml", study)
                new = _text_of(asked, study)
                kept = put_aside(path).name if asked.get("keeps") else None
            else:
                new = _changed(before, asked.get("changes"), study)
            write_bytes(path, new)
            with suppress(OSError):  # who it was may be lost on a full disk, and no more
                write_json(study / HOME / _CHANGED, {"etag": etag(new), "who": _who(asked)})
        return {**await self.whole(study), "kept": kept}

    async def wanted(self, request: Request) -> runs.Wanted:
        """What is asked for, as commands."""
        study, asked = self.readable(request), await _json_in(request)
        steps = Commands(self.folder, study, runs.of(study)).steps(asked)
        kept = {key: value for key, value in asked.items() if key != "who"}
        return runs.Wanted(str(asked["what"]), steps, _who(asked), kept)

    async def typed(self, request: Request) -> _Json:
        """What a button would run, as it is typed."""
        return {"typed": (await self.wanted(request)).typed}

    async def start(self, request: Request) -> _Json:
        """Starts a run. Raises Refused where another command has the study, or nothing can be written."""
        wanted, study = await self.wanted(request), self.named(request)
        try:
            number = await asyncio.to_thread(runs.start, self.folder.root, study, wanted)
        except study_lock.Held as held:
            raise Refused(409, held.said, "stop it, or the same when it is done") from None
        except OSError as error:
            raise refusal(error, "the run wasn't begun") from None
        return {"number": number}

    def of_run(self, do: Callable[[_Json, Request], _Json]) -> _Answer:
        """A route that has a function of a run answer."""

        async def answer(request: Request) -> _Json:
            return do(_numbered(self.named(request), request.path_params["number"]), request)

        return answer

    async def file(self, request: Request) -> Response:
        """A file of a study: a page or a picture to be looked at, as a stranger's, all else to be saved."""
        study, path = self.named(request), request.path_params["path"]
        if path.startswith(BUNDLE) and path.endswith(".zip") and "/" not in path:
            return await asyncio.to_thread(self.zipped, study, path.removesuffix(".zip"))
        found = self.folder.shown(study, path)
        kind = None if "save" in request.query_params else _SHOWN_TYPES.get(found.suffix)
        return _sent(found, kind, path.removeprefix("out/"))

    def zipped(self, study: Path, name: str) -> Response:
        """A bundle in one file. Raises Refused where there is none of this name."""
        whole = self.folder.within(study / name)
        if not whole.is_dir() or whole.parent != study:
            raise Refused(404, f"there is no {name}")
        with whole_file(study / f"{name}.zip") as part:
            shutil.make_archive(str(part.with_suffix("")), "zip", study, name)
        return _sent(study / f"{name}.zip", None, f"{name}.zip")


def _sent(path: Path, kind: str | None, called: str) -> FileResponse:
    """A file, shown as a stranger's where it has a kind, and else saved under a name that says where it was."""
    how = "inline" if kind else "attachment"
    name = re.sub(r"[^\w .+-]", "_", called.replace("/", "-"), flags=re.ASCII)
    name += "" if path.suffix else ".txt"
    disposition = f'{how}; filename="{name}"'
    headers = {"content-security-policy": SANDBOX, "content-disposition": disposition}
    return FileResponse(path, media_type=kind or "application/octet-stream", headers=headers)


def _who(body: _Json) -> str:
    """Who says to ask, as a line shows it."""
    said = "".join(c for c in str(body.get("who", "")) if c.isprintable())[:_LONGEST_NAME]
    return said.strip() or "somebody"


def _text_of(body: _Json, study: Path) -> bytes:
    """The text that is asked for: that of a run of before, or one that is told."""
    if "text" in body:
        return str(body["text"]).encode()
    return Path(_numbered(study, body.get("run"))["folder"], "study.toml").read_bytes()


def _key_of(section: Any, *rest: Any) -> Key | None:
    """The key of study.toml that a path leads to, or into."""
    place = (rest[0], rest[2]) if rest[0] in LISTS and len(rest) > 2 else (section, rest[0])
    return next((key for key in KEYS if (key.section, key.name) == place), None)


def _read(key: Key | None, value: Any) -> Any:
    """What was typed, as a number where its key takes one and it can be read in one way."""
    if isinstance(value, list):
        return [_read(key, each) for each in value]
    return as_number(value) if key is not None and key.kind not in _WORDS else value


def _changed(before: bytes, changes: Any, study: Path) -> bytes:
    """study.toml with some keys changed."""
    mark = "\ufeff" if before.startswith(b"\xef\xbb\xbf") else ""
    try:
        changes = [{**it, "value": _read(_key_of(*it["path"]), it["value"])} for it in changes]
        return (mark + toml_text.changed(before.decode("utf-8-sig"), changes)).encode()
    except toml_text.Conflict as conflict:
        key = _key_of(*conflict.path)
        said = f"{key.label} ({conflict})" if key else str(conflict)
        raise _stale(said, study) from None
    except (ValueError, LookupError, TypeError) as error:
        raise Refused(422, f"study.toml can't be changed so: {error}") from None


def _stale(what: str, study: Path) -> Refused:
    """The refusal of a change after another one: by whom, where that was done on a desk."""
    last = runs.read(study / HOME / _CHANGED) or {}
    is_desk = last.get("etag") == etag((study / "study.toml").read_bytes())
    who = f"by {last['who']} on the desk" if is_desk else "by an editor or a command"
    said = f"{what} was changed meanwhile, {who}; yours isn't written"
    return Refused(409, said, "look at what stands there now, and change it again", stale=True)


def _numbered(study: Path, number: Any) -> _Json:
    """A run of a study."""
    for run in runs.of(study):
        if str(run["number"]) == str(number):
            return run
    raise Refused(404, f"there is no run {str(number)[:80]}")


def _shown(run: _Json) -> _Json:
    """A run as the browser takes it, and how far it is."""
    names = ("number", "what", "typed", "asked", "who", "began", "state", "status", "seconds")
    shown = {name: run[name] for name in names} | {"folder": f"log/desk/{run['folder'].name}"}
    if run["state"] == "running":
        found, _ = events.read_on(run["folder"] / "events.jsonl", 0, _MOST_BYTES)
        shown["far"] = events.progress(found, run["typed"])
    return shown


def _run_from(run: _Json, request: Request) -> _Json:
    """A run, and what it has done since a place."""
    place = count_of(request.query_params.get("from", "0"), "from")
    found, upto = events.read_on(run["folder"] / "events.jsonl", place, _MOST_BYTES)
    return {**_shown(run), "events": found, "upto": upto}


async def _json_in(request: Request) -> _Json:
    """What a request tells in JSON, of a bounded size."""
    if request.headers.get("content-type", "") != "application/json":
        raise Refused(415, "the desk takes JSON here")
    body = b""
    async for piece in request.stream():
        body += piece
        if len(body) > _MOST_BYTES:
            raise Refused(413, f"the desk takes at most {_MOST_BYTES:,} bytes here")
    found = None
    with suppress(ValueError):
        found = json.loads(body)
    if not isinstance(found, dict):
        raise Refused(400, "the desk takes a table of JSON here")
    return found


def _answering(do: _Answer) -> _Answer:
    """Gives what a route answers as JSON, or as a picture, and what it refuses with its words."""

    async def answer(request: Request) -> Response:
        try:
            if "\0" in request.scope["path"]:
                raise Refused(404, "no file has a byte 0 in its name")
            found = await do(request)
            if isinstance(found, bytes):
                return Response(found, media_type="image/png")
            return found if isinstance(found, Response) else JSONResponse(_sayable(found))
        except ClientDisconnect:
            no = Refused(400, "what was sent broke off")
        except Exception as error:
            no = refused(error)
        return JSONResponse(_sayable(no.answer), no.status)

    return answer


def _sayable(value: Any) -> Any:
    """What JSON can say: nothing in place of a number that is none, a date or a strange name as a text."""
    if isinstance(value, dict):
        return {key: _sayable(each) for key, each in value.items()}
    if isinstance(value, (list, tuple)):
        return [_sayable(each) for each in value]
    if isinstance(value, float):
        return value if math.isfinite(value) else None
    is_plain = value is None or isinstance(value, int)
    return value if is_plain else str(value).encode("utf-8", "replace").decode()


async def _own(request: Request) -> Response:
    """The desk's own page, its style and its scripts."""
    name = request.path_params["name"] or "desk.html"
    if name not in {path.name for path in STATIC.iterdir()}:
        raise Refused(404, "there is no such page")
    return FileResponse(STATIC / name, media_type=_STATIC_TYPES[Path(name).suffix])

"""Starts the desk: its routes on a port, its address printed, its end by ctrl-C."""
from __future__ import annotations

import os
import secrets
import socket
import threading
from collections.abc import Sequence
from pathlib import Path
from typing import Any
from urllib.parse import urlsplit

import uvicorn
from starlette.applications import Starlette

from ..base.errors import MachineError, PlanError
from .folder import Folder
from .guard import Guard
from .routes import Desk

_TOKEN = "PITPLAN_DESK_TOKEN"  # in the environment: the token, where a program that starts the desk has to know it
_GRACE = 5.0  # seconds that what is being answered may take once the desk is ended
# what was sent and isn't HTTP is answered so, and isn't told here: uvicorn warns of it by a traceback
SERVED: dict[str, Any] = {"log_level": "error", "access_log": False, "server_header": False}
_HERE = ("localhost", "127.0.0.1", "[::1]")
_TOLD = """pitplan desk over {folder}. Open

    {address}/?token={token}

Ctrl-C ends the desk. What it has started goes on, and is found again when it is started again."""


class _Server(uvicorn.Server):  # type: ignore[misc]  # uvicorn shows mypy no types
    """Ends a while after it is told to, whatever is still asked: what was started goes on."""

    def handle_exit(self, sig: int, frame: Any) -> None:
        """Asks for the end, and takes it where an answer or a process doesn't come to its own."""
        super().handle_exit(sig, frame)
        late = threading.Timer(_GRACE, os._exit, (0,))
        late.daemon = True
        late.start()


def serve(
    folder: Path,
    host: str = "127.0.0.1",
    port: int = 8750,
    addresses: Sequence[str] = (),
    upload_limit: int = 2_000_000_000,
) -> None:
    """Serves a folder at a host and a port until ctrl-C. Browsers may call it by more addresses, as
    "https://desk.mine.example"; what is dropped has at most `upload_limit` bytes. Raises PlanError
    where folder or address is none, MachineError where the port is taken."""
    if not folder.is_dir():
        raise PlanError(f"{folder} is no folder", try_this="one with tables and studies")
    names = names_of(port, addresses)
    try:  # before the address is told, so that it answers
        listens = socket.create_server((host, port))
    except OSError as error:
        said = f"{host}:{port}: {error.strerror}"
        raise MachineError(said, try_this=f"--port {port + 1}") from None
    token = os.environ.pop(_TOKEN, "") or secrets.token_urlsafe(24)
    desk = Desk(Folder(folder), upload_limit)
    app = Guard(Starlette(routes=desk.routes()), token, names, f"pitplan-desk-{port}")
    address = next(iter(addresses), f"http://localhost:{port}")
    print(_TOLD.format(folder=desk.folder.root, address=address, token=token), flush=True)
    desk.heavy.begin()
    desk.quick.begin()
    try:
        _Server(uvicorn.Config(app, **SERVED)).run(sockets=[listens])
    finally:
        desk.end()


def names_of(port: int, addresses: Sequence[str]) -> dict[str, str]:
    """What browsers call the desk, as the header Host has it, and of each the origin of its pages.
    Raises PlanError where a further address is none."""
    found = {f"{name}:{port}": f"http://{name}:{port}" for name in _HERE}
    for address in addresses:
        parts = urlsplit(address)
        if parts.scheme not in ("http", "https") or not parts.netloc or parts.path:
            said = f"--name {address} is no address"
            raise PlanError(said, try_this="https://desk.mine.example")
        found[parts.netloc] = f"{parts.scheme}://{parts.netloc}"
    return found

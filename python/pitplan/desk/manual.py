"""The manual, where it is on this machine: that of the package, or of the repository."""
from __future__ import annotations

import mimetypes
from pathlib import Path

from starlette.requests import Request
from starlette.responses import FileResponse

from .folder import Refused

_REPOSITORY = Path(__file__).resolve().parents[3]
PLACES = (
    Path("/usr/share/doc/pitplan/manual/index.html"),
    _REPOSITORY / "out/manual/index.html",
    _REPOSITORY / "docs/DESK.md",
)
# Its pages are this machine's own, and take nothing from elsewhere.
_POLICY = (
    "default-src 'self'; style-src 'self' 'unsafe-inline'; img-src 'self' data:; "
    "base-uri 'none'; form-action 'self'; frame-ancestors 'none'"
)


def _first_page() -> Path | None:
    """The file of its first page; None where it isn't on this machine."""
    return next((path for path in PLACES if path.is_file()), None)


def address() -> str | None:
    """The address of its first page."""
    first = _first_page()
    return f"/manual/{first.name}" if first else None


async def page_of(request: Request) -> FileResponse:
    """A file of the manual. Raises Refused where it has none of this name."""
    first, path = _first_page(), request.path_params["path"]
    found = (first.parent / path).resolve() if first else Path()
    if first is None or not found.is_relative_to(first.parent.resolve()) or not found.is_file():
        raise Refused(404, f"the manual has no {path}")
    kind = "text/plain" if found.suffix == ".md" else mimetypes.guess_type(found.name)[0]
    return FileResponse(found, media_type=kind, headers={"content-security-policy": _POLICY})

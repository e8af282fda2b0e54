"""Who may talk to the desk: whoever has its token, from its own pages, by one of its own names."""
from __future__ import annotations

import hmac
from collections.abc import Awaitable, Callable, Mapping
from contextlib import suppress
from typing import Any

import h11
from starlette.datastructures import MutableHeaders
from starlette.requests import Request
from starlette.responses import HTMLResponse, PlainTextResponse, Response

_App = Callable[[Any, Any, Any], Awaitable[None]]
# A page of the desk's own goes on to "/": a cookie that is strict isn't sent where another site's page led here.
_WELCOME = (
    '<!doctype html><title>pitplan desk</title><meta http-equiv="refresh" content="0;url=/">'
    '<a href="/">The desk</a>'
)
# The desk's own pages take all they need from here, and no text becomes markup.
_POLICY = (
    "default-src 'none'; script-src 'self'; style-src 'self'; img-src 'self' data:; "
    "connect-src 'self'; frame-src 'self'; base-uri 'none'; form-action 'none'; "
    "frame-ancestors 'none'; require-trusted-types-for 'script'; trusted-types 'none'"
)
# A file of a study, as pits.html, runs its own scripts as a stranger: without cookies, and without any network.
SANDBOX = (
    "sandbox allow-scripts allow-downloads; default-src 'none'; script-src 'unsafe-inline'; "
    "style-src 'unsafe-inline'; img-src data: blob:; base-uri 'none'; form-action 'none'; "
    "frame-ancestors 'self'"
)
_ALWAYS = {
    "x-content-type-options": "nosniff",
    "referrer-policy": "no-referrer",
    "cross-origin-opener-policy": "same-origin",
    "cross-origin-resource-policy": "same-origin",
    "cache-control": "no-store",
    "content-security-policy": _POLICY,
}
_OURS = ("same-origin", "none")  # where a browser says that a request comes from


class Guard:
    """Refuses what doesn't come from the desk's own pages, and hands all else on to `app`. The
    `token` is in the address that the desk prints; then in a `cookie` that no script reads and no
    other site's page sends. Browsers call the desk by `names`, as the header Host has them, each
    with the origin of its pages: one that was bent to this address (DNS rebinding) is none."""

    def __init__(self, app: _App, token: str, names: Mapping[str, str], cookie: str) -> None:
        self.app, self.token, self.names, self.cookie = app, token, names, cookie

    async def __call__(self, scope: Any, receive: Any, send: Any) -> None:
        if scope["type"] == "lifespan":
            await self.app(scope, receive, send)
        if scope["type"] != "http":
            return
        request = Request(scope)
        answer = self.answer(request, request.headers.get("host", ""))
        with suppress(
            h11.LocalProtocolError
        ):  # what came after the request wasn't HTTP: nobody listens
            await (answer or self.app)(scope, receive, _hardened(send))

    def answer(self, request: Request, host: str) -> Response | None:
        """What a stranger gets; None where a request comes from the desk's own pages."""
        if host not in self.names:
            text = f"The desk isn't called {host!r}; --name gives it a name more."
            return PlainTextResponse(text, 421)
        if self.is_token(request.query_params.get("token", "")) and request.url.path == "/":
            secure = "; Secure" if self.names[host].startswith("https:") else ""
            cookie = f"{self.cookie}={self.token}; Path=/; HttpOnly; SameSite=Strict{secure}"
            return HTMLResponse(_WELCOME, headers={"set-cookie": cookie})
        if not self.is_ours(request.method, request.headers, self.names[host]):
            return PlainTextResponse("This comes from another page than the desk's.", 403)
        if not self.is_token(request.cookies.get(self.cookie, "")):
            text = "Open the address that `pitplan desk` has printed: it has ?token=.."
            return PlainTextResponse(text, 403, {"x-desk": "another token"})
        return None

    def is_ours(self, method: str, headers: Mapping[str, str], own: str) -> bool:
        """Whether a request is of a page of the desk's own; one that only reads may say nothing of it."""
        origin = headers.get("origin")
        if headers.get("sec-fetch-site", "none") not in _OURS:
            return False
        return origin == own or (origin is None and method in ("GET", "HEAD"))

    def is_token(self, text: str) -> bool:
        """Whether this is the token, without telling by the time how much of it is right."""
        return hmac.compare_digest(text.encode(), self.token.encode())


def _hardened(send: Any) -> Callable[[Any], Awaitable[None]]:
    """Adds the headers that every answer has, unless it has its own."""

    async def guarded(message: Any) -> None:
        if message["type"] == "http.response.start":
            headers = MutableHeaders(scope=message)
            for name, value in _ALWAYS.items():
                headers.setdefault(name, value)
        await send(message)

    return guarded

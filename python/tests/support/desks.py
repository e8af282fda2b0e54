"""A desk of its own over a folder, and the browsers before it, with what a planner's hands do."""
import http.client
import json
import os
import re
import socket
import subprocess
import time
from pathlib import Path

from browsers import Firefox, chromium
from processes import STARTED, TOP, started

TOKEN = "a-token-of-the-tests"
PATIENCE = int(os.environ.get("DESK_PATIENCE", "600"))  # seconds, on a busy machine

ASKED = """return performance.getEntriesByType('resource').slice(-60)
    .map(e => `${Math.round(e.startTime)} ms, status ${e.responseStatus}: ${e.name}`).join('\\n')"""

OPENED = "return document.documentElement?.dataset.drawn !== undefined"
DRAWN = """return !document.querySelector('#main') || document.body.matches('.away, .shut')
    || document.documentElement.dataset.drawn === location.hash"""

# what of a page is wider than the screen, or than its card
WIDE = """
const wide = [];
const main = document.getElementById("main");
if (document.documentElement.scrollWidth > innerWidth) wide.push("the page");
if (main.scrollWidth > main.clientWidth) wide.push("main");
for (const card of document.querySelectorAll("#main .card")) {
  const right = card.getBoundingClientRect().right;
  for (const e of card.querySelectorAll("*")) {
    if (e.closest(".scroll") && !e.matches(".scroll")) continue;
    const box = e.getBoundingClientRect();
    if (box.width && box.right > right + 1) wide.push(e.outerHTML.slice(0, 120));
  }
}
for (const e of document.querySelectorAll("#top > *, #nav > *")) {
  if (e.getBoundingClientRect().right > innerWidth + 1) wide.push(e.outerHTML.slice(0, 120));
}
return wide.slice(0, 4)
"""

# fields and links without a name
NAMELESS = """
return [...document.querySelectorAll("#main :is(input, select, button, textarea, a, img, iframe), #top input")]
  .filter(e => !(e.getAttribute("aria-label") || e.title || e.alt || e.textContent.trim() || e.labels?.length))
  .map(e => e.outerHTML.slice(0, 120))
"""


def free_port():
    with socket.socket() as free:
        free.bind(("127.0.0.1", 0))
        return free.getsockname()[1]


# keeps what the page says for seconds only
KEEPS = """window.heard ??= [document.getElementById("say").innerText];
window.hears ??= new MutationObserver(all => all.forEach(one => one.addedNodes.forEach(
  node => window.heard.push(node.textContent))));
window.hears.observe(document.getElementById("say"), { childList: true });"""


class Desk:
    """`pitplan desk`, started as a planner starts it."""

    def __init__(self, folder, *words, port=None, **around):
        self.folder, self.port = Path(folder), port or free_port()
        self.address = f"http://127.0.0.1:{self.port}"
        self.process = started(
            [TOP / "bin/pitplan", "desk", folder, "--port", self.port, *words],
            env={**os.environ, "PITPLAN_DESK_TOKEN": TOKEN, **around},
            stderr=subprocess.DEVNULL,
        )
        found = ""
        while "Ctrl-C" not in found:
            line = self.process.stdout.readline()
            assert line, f"the desk didn't start: {found}"
            found += line
        self.greeting = found

    @property
    def door(self):
        return f"{self.address}/?token={TOKEN}"

    def asks(self, method, path, body=None, kind="application/json"):
        """What the desk answers to its own page, and the seconds that it took."""
        began = time.monotonic()
        client = http.client.HTTPConnection("127.0.0.1", self.port, timeout=600)
        headers = {"origin": self.address, "content-type": kind}
        headers["cookie"] = f"pitplan-desk-{self.port}={TOKEN}"
        if hasattr(body, "fileno"):
            headers["content-length"] = str(os.fstat(body.fileno()).st_size)
        elif body is not None:
            body = json.dumps(body)
        client.request(method, path, body, headers)
        answer = client.getresponse()
        reply = json.loads(answer.read())
        assert answer.status == 200, reply
        return reply, time.monotonic() - began

    def end(self):
        self.process.terminate()
        self.process.communicate(timeout=600)
        if self.process in STARTED:
            STARTED.remove(self.process)


class Hands:
    """What a planner does in a browser, in words of the page; a driver's own calls are below."""

    def script(self, code, *words):
        raise NotImplementedError

    def goes(self, address):
        raise NotImplementedError

    def get(self, address):
        """Opens an address; of the desk's page, until what it names is drawn."""
        self.goes(address)
        is_door = "?token=" in address  # whose page goes on to the desk's own
        if is_door or "#/" in address:
            self.until(lambda: self.script(OPENED if is_door else DRAWN), f"{address} drawn")
            self.script("if (document.getElementById('say')) { %s }" % KEEPS)

    def until(self, ask, what):
        end = time.time() + PATIENCE
        while time.time() < end:
            found = ask()
            if found:
                return found
            time.sleep(0.05)
        raise AssertionError(f"{what} never came:\n{self.text()[:3000]}\n{self.script(ASKED)}")

    def text(self, css="body"):
        code = "return document.querySelector(%s)?.innerText ?? ''"
        return self.script(code, css) or ""  # nothing, while a page gives way to another

    def sees(self, words, css="body"):
        """Waits until a text is there."""
        self.until(lambda: words in self.text(css), repr(words))

    def hears(self, words):
        """Waits until the page has said something, be it gone again."""
        code = "return window.heard.some(said => said.includes(%s))"
        self.until(lambda: self.script(code, words), f"it says {words!r}")

    def there(self, css):
        """Waits until an element is there."""
        self.until(lambda: self.script("return Boolean(document.querySelector(%s))", css), css)

    def click(self, css):
        """Clicks an element once it is there and may be pressed."""
        code = "const e = document.querySelector(%s); if (!e || e.disabled) return false; e.click(); return true"
        self.until(lambda: self.script(code, css), f"{css} to press")

    def press_on(self, css, words):
        """Clicks the element of some kind that has these words."""
        code = (
            "const e = [...document.querySelectorAll(%s)].find(e => e.innerText.trim().startsWith(%s)"
            " && !e.disabled); e?.click(); return Boolean(e)"
        )
        self.until(lambda: self.script(code, css, words), words)

    def types(self, ident, text):
        """Types into a field and leaves it, and waits until it is written or refused, and what
        follows is drawn."""
        self.fills(f'[id="{ident}"]', text)
        self.waits(ident)

    def waits(self, what="all"):
        """Waits until what was typed, chosen or pressed is written or refused: the page shows it before."""
        code = "return (document.documentElement.dataset.pending ?? '0') === '0'"
        self.until(lambda: self.script(code), f"{what} written")

    def fills(self, css, text):
        self.there(css)
        self.script(
            "const e = document.querySelector(%s); e.focus(); e.value = %s;"
            " e.dispatchEvent(new Event('change')); e.blur()",
            css,
            text,
        )

    def picks(self, ident, value):
        """Chooses in a list."""
        self.types(ident, value)

    def complaint(self):
        """What the page's own rules of content refused, if anything."""
        return self.script("return document.documentElement?.dataset.complaint")

    def saved(self, words):
        """The bytes of a file that the page offers to save, as many as it has."""
        code = (
            "const a = [...document.querySelectorAll('a[download]')].find(a => a.href.includes(%s));"
            "const x = new XMLHttpRequest(); x.open('GET', a.href, false); x.send();"
            "return Number(x.getResponseHeader('content-length'))"
        )
        self.until(lambda: self.script("return document.body.innerText.includes(%s)", words), words)
        return self.script(code, words)


class Chromium(Hands):
    def __init__(self, size="1280,800"):
        self.driver = chromium(size=size)
        self.resized(*map(int, size.split(",")))

    def resized(self, width, height):
        self.driver.execute_cdp_cmd(
            "Emulation.setDeviceMetricsOverride",
            {"width": width, "height": height, "deviceScaleFactor": 1, "mobile": False},
        )

    def goes(self, address):
        self.driver.get(address)

    def script(self, code, *words):
        for at in range(len(words)):
            code = code.replace("%s", f"arguments[{at}]", 1)
        return self.driver.execute_script(code, *words)

    def gives(self, css, path):
        """Gives a file to a place for files."""
        self.there(css)
        self.driver.find_element("css selector", css).send_keys(str(path))

    def within(self, css, code):
        """What a script gives in a frame, once it gives something."""
        self.there(css)
        self.driver.switch_to.frame(self.driver.find_element("css selector", css))
        try:
            return self.until(lambda: self.driver.execute_script(code), code)
        finally:
            self.driver.switch_to.default_content()

    def keys(self, *keys):
        """Presses keys, wherever the focus is."""
        self.driver.switch_to.active_element.send_keys(*keys)

    def shot(self, path):
        self.driver.save_screenshot(str(path))

    def complaints(self):
        """What its console says, but that a picture or a route was refused."""
        found = [line["message"] for line in self.driver.get_log("browser")]
        return [line for line in found if "Failed to load resource" not in line]

    def close(self):
        self.driver.quit()


class Fox(Hands):
    def __init__(self):
        self.driver = Firefox("--remote-allow-system-access")

    def goes(self, address):
        self.driver.get(address)

    def script(self, code, *words):
        for at in range(len(words)):
            code = code.replace("%s", f"arguments[{at}]", 1)
        found = {"script": code, "args": list(words)}
        return self.driver.call("WebDriver:ExecuteScript", found)["value"]

    def gives(self, css, path):
        self.there(css)
        self.driver.press(css, str(path))

    def within(self, css, code):
        self.there(css)
        words = {"using": "css selector", "value": css}
        found = self.driver.call("WebDriver:FindElement", words)["value"]
        self.driver.call("WebDriver:SwitchToFrame", {"element": next(iter(found.values()))})
        try:
            return self.until(lambda: self.script(code), code)
        finally:
            self.driver.call("WebDriver:SwitchToFrame", {"id": None})

    def complaints(self):
        """What its console has of this page's rules of content."""
        self.driver.call("Marionette:SetContext", {"value": "chrome"})
        code = "return Services.console.getMessageArray().map(m => m.message)"
        found = self.script(code)
        self.driver.call("Marionette:SetContext", {"value": "content"})
        ours = r"Content.Security|/(desk|dom|fields|runs|screens|plans)\.js"
        return [line for line in found if re.search(ours, line)]

    def close(self):
        self.driver.close()

"""The browsers that the page is opened in, without a screen and without a graphics card."""
import json
import os
import shutil
import socket
import subprocess
import tempfile
import time

from selenium import webdriver
from selenium.webdriver.chrome.service import Service

SOFTWARE = (
    "--use-gl=angle",
    "--use-angle=swiftshader",
    "--enable-unsafe-swiftshader",
    "--ignore-gpu-blocklist",
)
PATIENCE = 180  # seconds, on a busy machine


def chromium(*words, size="1300,900"):
    """A Chromium that draws WebGL by software, and keeps what its console says."""
    options = webdriver.ChromeOptions()
    options.binary_location = "/usr/bin/chromium"
    for word in (
        "--headless=new",
        "--no-sandbox",
        "--disable-dev-shm-usage",
        f"--window-size={size}",
        *(words or SOFTWARE),
    ):
        options.add_argument(word)
    options.set_capability("goog:loggingPrefs", {"browser": "ALL"})
    driver = webdriver.Chrome(service=Service("/usr/bin/chromedriver"), options=options)
    driver.set_script_timeout(PATIENCE)
    return driver


def opened(browser, path):
    """Opens a page and waits until it says that it is ready; gives the milliseconds that it took by
    its own clock."""
    browser.get(f"file://{path}")
    return ready(lambda: browser.execute_script("return document.documentElement.dataset.ready"))


def ready(ask):
    end = time.time() + PATIENCE
    while time.time() < end:
        if ask():
            return int(ask())
        time.sleep(0.05)
    raise AssertionError(f"the page wasn't ready in {PATIENCE} s")


class Firefox:
    """Firefox under a virtual screen, by its own protocol (Marionette), since Debian 12 has no
    geckodriver."""

    def __init__(self, *more):
        self.folder = tempfile.mkdtemp()
        with socket.socket() as free:
            free.bind(("127.0.0.1", 0))
            port = free.getsockname()[1]
        with open(f"{self.folder}/user.js", "w") as settings:
            settings.write(
                f'user_pref("marionette.port", {port});\nuser_pref("webgl.force-enabled", true);\n'
            )
        words = [
            "xvfb-run",
            "-a",
            "-s",
            "-screen 0 1300x900x24",
            "firefox-esr",
            "--marionette",
            "--no-remote",
            "--profile",
            self.folder,
            *more,
        ]
        self.process = subprocess.Popen(
            words,
            stdout=subprocess.DEVNULL,
            stderr=subprocess.DEVNULL,
            start_new_session=True,
            env={**os.environ, "HOME": self.folder},
        )
        end = time.time() + PATIENCE
        while True:
            try:
                self.socket = socket.create_connection(("127.0.0.1", port), timeout=PATIENCE)
                break
            except OSError:
                if time.time() > end:
                    self.close()
                    raise
                time.sleep(0.1)
        self.count = 0
        self.answer()  # its greeting
        self.call("WebDriver:NewSession", {})

    def answer(self):
        """A message is its length, a colon, and JSON."""
        length = b""
        while not length.endswith(b":"):
            length += self.socket.recv(1)
        text = b""
        while len(text) < int(length[:-1]):
            text += self.socket.recv(1 << 16)
        return json.loads(text)

    def call(self, command, words):
        self.count += 1
        text = json.dumps([0, self.count, command, words]).encode()
        self.socket.sendall(b"%d:%s" % (len(text), text))
        _, _, fault, value = self.answer()
        assert not fault, fault
        return value

    def get(self, url):
        self.call("WebDriver:Navigate", {"url": url})

    def execute_script(self, code):
        return self.call("WebDriver:ExecuteScript", {"script": code, "args": []})["value"]

    def press(self, selector, keys):
        found = self.call("WebDriver:FindElement", {"using": "css selector", "value": selector})[
            "value"
        ]
        self.call("WebDriver:ElementSendKeys", {"id": next(iter(found.values())), "text": keys})

    def close(self):
        import signal

        try:
            os.killpg(
                self.process.pid, signal.SIGTERM
            )  # xvfb-run, its screen and the browser: a session of their own
            self.process.wait(20)
        except (ProcessLookupError, subprocess.TimeoutExpired):
            pass
        shutil.rmtree(self.folder, ignore_errors=True)

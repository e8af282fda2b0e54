"""The manual's site in a browser, from files: its search finds pages, and each result leads to a
page with the word."""
import subprocess
import sys
import time
from pathlib import Path

import pytest

from browsers import PATIENCE, Firefox, chromium

TOP = Path(__file__).resolve().parents[2]
RESULTS = "return [...document.querySelectorAll('#search-results li a')].map(a => [a.textContent, a.href])"


@pytest.fixture(scope="module")
def manual(tmp_path_factory):
    folder = tmp_path_factory.mktemp("manual") / "site"
    made = subprocess.run(
        [sys.executable, TOP / "tools" / "manual.py", folder], capture_output=True, text=True
    )
    assert made.returncode == 0, made.stdout + made.stderr
    return folder


def searched(browser, manual, word, page):
    """The addresses that a search finds: they are put in one by one, also after it says that it is
    finished."""
    browser.get(f"file://{manual}/search.html?q={word}")
    end, found = time.time() + PATIENCE, []
    while time.time() < end and not any(f"/{page}" in address for address in found):
        time.sleep(0.1)
        found = [address for _, address in browser.execute_script(RESULTS)]
    return found


@pytest.mark.parametrize("kind", [chromium, Firefox])
@pytest.mark.parametrize(
    "word, page",
    [
        ("bearings", "docs/AUDIT.html"),
        ("dilution", "docs/STUDY.html"),
        ("read_table", "reference/model.html"),
    ],
)
def test_the_search_needs_no_server(manual, kind, word, page):
    browser = kind()
    try:
        found = searched(browser, manual, word, page)
        assert any(f"/{page}" in address for address in found), found
        browser.get(next(address for address in found if f"/{page}" in address))
        assert word in browser.execute_script("return document.body.textContent").lower()
    finally:
        browser.close()

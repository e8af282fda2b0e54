"""A short run of the fuzzer over requests; `python3 python/tests/support/fuzzing.py desk 600` is a long
one."""
import pytest

pytest.importorskip("starlette")

import fuzz_desk
import fuzzing
from pitplan.desk import routes
from pitplan.desk.folder import Folder


@pytest.fixture(scope="module")
def held(tmp_path_factory):
    with fuzz_desk.room(tmp_path_factory.mktemp("desk")) as held:
        yield held


def test_each_request_is_answered(held):
    found, bad = fuzzing.tried(fuzz_desk, held, range(250))
    assert bad is None, bad
    assert {"PATCH 200", "PATCH 422", "POST 200", "POST 422", "PUT 200", "GET 200"} <= set(found)


def is_told(held, request, words):
    """Whether a request is told as one that wasn't answered, with these words."""
    with pytest.raises(AssertionError, match=words):
        fuzz_desk.answer(held, request)


ASKS = ("GET", "/api/studies/s", b"", "application/json", {})
FETCHES = ("GET", "/files/s/out/link.csv", b"", "application/json", {})


def test_an_error_of_the_desk_s_own_is_found(held, monkeypatch):
    """One of asking, which is answered by 400 and told on its terminal, too."""
    for error in (KeyError("x"), ZeroDivisionError("x")):

        def failing(text, error=error):
            raise error

        monkeypatch.setattr(routes, "lines_of", failing)
        is_told(held, ASKS, "Traceback")


def test_a_file_outside_of_the_folder_is_found(held, monkeypatch):
    assert fuzz_desk.answer(held, FETCHES) == "GET 403"
    monkeypatch.setattr(Folder, "within", lambda self, path: path)
    is_told(held, FETCHES, fuzz_desk.SECRET)

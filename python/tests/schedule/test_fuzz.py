"""A short run of the fuzzer over damaged files of a plan by years; `python3
python/tests/support/fuzzing.py kept 600` is a long one."""
import pytest

import fuzz_kept
import fuzzing
from pitplan.base import kept_json


@pytest.fixture(scope="module")
def held(tmp_path_factory):
    with fuzz_kept.room(tmp_path_factory.mktemp("kept")) as held:
        yield held


def test_each_damaged_file_is_told_or_read(held):
    found, bad = fuzzing.tried(fuzz_kept, held, range(40))
    assert bad is None, bad
    assert found["read"] > 2, found
    assert found["told by Damaged"] > 2, found


@pytest.mark.parametrize("words", [fuzz_kept.READ, ("status", "s")])
def test_a_reader_that_fails_is_found(held, monkeypatch, words):
    """In this process, and in a command."""

    def failing(*_):
        raise KeyError("x")

    monkeypatch.setattr(kept_json, "read", failing)
    sample = fuzz_kept.sample(fuzzing.generator(1, 1)) | {"words": words}
    with pytest.raises((KeyError, AssertionError), match="KeyError|'x'"):
        fuzz_kept.answer(held, sample)

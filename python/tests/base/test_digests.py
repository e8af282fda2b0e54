"""A file is digested once as long as nobody touches it, and whatever touches it is seen."""
import hashlib
import os
import time

import pytest

from pitplan.base import digests

GRAIN = 0.05  # seconds: more than the grain of the system's clock for files


@pytest.fixture
def at_once(monkeypatch):
    """A digest is kept of a file that was written just now, and the reads are counted."""
    reads, read = [], digests.sha256
    monkeypatch.setattr(digests, "SETTLED", 0)
    monkeypatch.setattr(digests, "sha256", lambda path: reads.append(path) or read(path))
    return reads


def digest(text):
    return hashlib.sha256(text).hexdigest()


def written_again(path, text):
    """Other bytes in the same file, and its time of writing put back."""
    stat = path.stat()
    with open(path, "r+b") as file:
        file.write(text)
    os.utime(path, ns=(stat.st_atime_ns, stat.st_mtime_ns))


def put_in_its_place(path, text):
    """Another file of that name, of the same time of writing."""
    stat, other = path.stat(), path.with_name("other")
    other.write_bytes(text)
    os.utime(other, ns=(stat.st_atime_ns, stat.st_mtime_ns))
    os.replace(other, path)


def linked_elsewhere(path, text):
    """The name leads to another file, of the same time of writing."""
    stat, other = path.stat(), path.with_name("elsewhere")
    other.write_bytes(text)
    os.utime(other, ns=(stat.st_atime_ns, stat.st_mtime_ns))
    path.unlink()
    path.symlink_to(other)


def test_a_file_that_is_left_alone_is_read_once(tmp_path, at_once):
    path = tmp_path / "a"
    path.write_bytes(b"first")
    time.sleep(GRAIN)
    assert [digests.sha256_unless_known(path) for _ in range(3)] == [digest(b"first")] * 3
    assert len(at_once) == 1
    path.read_bytes()  # to read it changes nothing
    assert digests.sha256_unless_known(path) == digest(b"first")
    assert len(at_once) == 1


@pytest.mark.parametrize("change", [written_again, put_in_its_place, linked_elsewhere])
def test_a_file_that_was_changed_is_read_again(tmp_path, at_once, change):
    path = tmp_path / "a"
    path.write_bytes(b"first")
    time.sleep(GRAIN)
    digests.sha256_unless_known(path)
    time.sleep(GRAIN)
    change(path, b"other")
    assert digests.sha256_unless_known(path) == digest(b"other")
    assert len(at_once) == 2


def test_a_file_that_changes_while_it_is_read_isnt_known(tmp_path, at_once, monkeypatch):
    path, read = tmp_path / "a", digests.sha256
    path.write_bytes(b"first")
    time.sleep(GRAIN)
    monkeypatch.setattr(
        digests,
        "sha256",
        lambda name: (read(name), time.sleep(GRAIN), written_again(path, b"other"))[0],
    )
    assert digests.sha256_unless_known(path) == digest(b"first")
    monkeypatch.setattr(digests, "sha256", read)
    assert digests.sha256_unless_known(path) == digest(b"other")


def coarse(monkeypatch):
    """A system whose clock for files tells the same for a thousand seconds."""
    fine = digests.stamp_of
    monkeypatch.setattr(
        digests,
        "stamp_of",
        lambda path: (words := fine(path))._replace(
            written=words.written // 10**12 * 10**12,
            changed=words.changed // 10**12 * 10**12,
        ),
    )


@pytest.mark.parametrize(
    "change", [put_in_its_place, linked_elsewhere, lambda path, text: path.write_bytes(text * 2)]
)
def test_another_file_is_known_by_more_than_its_times(tmp_path, at_once, monkeypatch, change):
    coarse(monkeypatch)
    path = tmp_path / "a"
    path.write_bytes(b"first")
    digests.sha256_unless_known(path)
    change(path, b"other")
    assert digests.sha256_unless_known(path) == digest(path.read_bytes()) != digest(b"first")
    assert len(at_once) == 2


def test_a_change_within_the_grain_of_the_clock_is_seen(tmp_path, monkeypatch):
    """Changes of as many bytes and at the same time, as far as the system tells: what was touched
    so lately isn't known at all."""
    coarse(monkeypatch)
    monkeypatch.setattr(digests, "SETTLED", 10**12)
    path = tmp_path / "a"
    path.write_bytes(b"%06d" % 0)
    for n in range(1, 20):
        assert digests.sha256_unless_known(path) == digest(b"%06d" % (n - 1))
        written_again(path, b"%06d" % n)


def test_what_counts_as_lately_is_more_than_the_grain_of_any_clock_for_files():
    assert digests.SETTLED >= 2 * 10**9


def test_a_file_that_has_an_old_time_of_writing_since_a_moment_ago_isnt_known(tmp_path):
    """As a copy that keeps the times: what changes it next may leave all that the system tells."""
    path = tmp_path / "a"
    path.write_bytes(b"first")
    os.utime(path, (10**9, 10**9))
    digests.sha256_unless_known(path)
    assert path not in digests._known

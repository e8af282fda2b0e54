"""The PIT lines of a certificate, whatever pieces it comes in, and a certificate packed."""
import gzip
import hashlib

import numpy as np
import pytest

import pitplan as pp
from certificates import HEAD, pit_lines
from pitplan.pit.certificate_lines import PitLines, packed, refuse_other_count


def test_lines_that_are_no_pit_lines_are_told():
    for text in (
        HEAD + b"PIT 1\nPUT 2\nSOURCE 1 0 0\nEND\n",
        b"PITCERT 1\nBLOCKS 4\nPRICE OBJECTIVE\nGROUP PAIR\nEND\n",
        b"",
        b"PITCERT",
    ):
        with pytest.raises(pp.NotAccepted):
            pit_lines(text)


@pytest.mark.parametrize("piece", [1, 7, 60, 1 << 20])
def test_pit_lines_across_pieces(piece):
    text = (
        HEAD
        + "".join(f"PIT {b}\n" for b in range(0, 3000, 3)).encode()
        + b"SOURCE 1 0 0\nREST 1 2 0 0\nEND\n"
    )
    size, factor, blocks, digest = pit_lines(text, piece)
    assert (size, factor, digest) == (4000, 850, hashlib.sha256(text).hexdigest())
    assert blocks.tolist() == list(range(0, 3000, 3))
    assert pit_lines(HEAD + b"END\n")[2].tolist() == []


@pytest.mark.parametrize("after", [b"SOURCE 7 0 0\n", b"REST 7 8 0 0\n", b"SINK 7 1 0\n", b"END\n"])
def test_no_number_after_the_pit_lines_is_a_block_of_the_pit(after):
    text = HEAD + b"PIT 5\nPIT 17\n" + after + b"PIT 99\n"
    for piece in range(1, len(text) + 1):
        assert pit_lines(text, piece)[2].tolist() == [5, 17]


@pytest.mark.parametrize(
    "line", [b"PIT 1 2\n", b"PIT \n", b"PIT -1\n", b"PIT 1.5\n", b"pit 1\n", b"\n"]
)
def test_a_line_that_is_no_single_block_is_refused(line):
    with pytest.raises(pp.NotAccepted, match="other lines between its PIT lines"):
        pit_lines(HEAD + b"PIT 3\n" + line + b"END\n")


def test_a_certificate_that_is_cut_has_the_lines_that_are_whole():
    lines = PitLines()
    lines.take(HEAD + b"PIT 12\nPIT 34")
    assert lines.numbers().tolist() == [12]
    assert not lines.is_over
    lines.take(b"5\nEND\n")
    assert lines.numbers().tolist() == [12, 345]
    assert lines.is_over


def test_a_packed_certificate_is_the_same_bytes_each_time(tmp_path):
    text = HEAD + b"PIT 1\nEND\n"
    for name in ("a.cert", "b.cert"):
        with packed(tmp_path / name) as kept:
            kept.write(text)
    one, other = ((tmp_path / f"{name}.cert.gz").read_bytes() for name in "ab")
    assert one == other
    assert gzip.decompress(one) == text
    assert {path.name for path in tmp_path.iterdir()} == {"a.cert.gz", "b.cert.gz"}


def test_another_number_of_lines_than_pit_counts_is_refused():
    refuse_other_count(2, np.array([4, 7]))
    for count in (1, 3):
        with pytest.raises(pp.NotAccepted, match=f"counts {count} blocks, and .* has 2 PIT lines"):
            refuse_other_count(count, np.array([4, 7]))

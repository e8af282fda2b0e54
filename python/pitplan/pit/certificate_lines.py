"""The PIT lines of a certificate, read while its bytes go by, and a certificate packed."""
from __future__ import annotations

import gzip
import hashlib
from collections.abc import Iterator
from contextlib import contextmanager
from pathlib import Path

import numpy as np

from ..base.arrays import Ints
from ..base.errors import NotAccepted

_HEAD = 4  # lines before the PIT lines of a certificate
_AFTER_PITS = (b"SOURCE ", b"REST ", b"SINK ", b"END")


@contextmanager
def packed(certificate: Path) -> Iterator[gzip.GzipFile]:
    """The packed file beside a certificate, for its bytes."""
    with (
        open(certificate.with_name(certificate.name + ".gz"), "wb") as target,
        gzip.GzipFile("", "wb", 1, target, mtime=0) as kept,
    ):
        yield kept


class PitLines:
    """The PIT lines of a certificate that goes by in pieces, and the sha256 of all of it; the flow
    is only digested.

    Attributes
    ----------
    digest : hash object
    """

    def __init__(self) -> None:
        self.digest = hashlib.sha256()
        self.rest, self.head, self.is_over = b"", list[bytes](), False
        self.blocks: list[Ints] = []

    def take(self, data: bytes) -> None:
        """Takes in the next piece."""
        self.digest.update(data)
        if self.is_over:
            return
        data = self.rest + data
        if not self.head:
            if data.count(b"\n") < _HEAD:
                self.rest = data
                return
            *self.head, data = data.split(b"\n", _HEAD)
        cut = data.rfind(b"\n") + 1
        piece, self.rest = data[:cut], data[cut:]
        ends = [at for at in map(piece.find, _AFTER_PITS) if at >= 0]
        if ends:
            piece, self.is_over = piece[: min(ends)], True
        self.blocks.append(_numbers_in(piece))

    def found(self) -> tuple[int, int, Ints]:
        """How many blocks the certificate's model has, its factor in thousandths, and the blocks of
        its PIT lines.

        Raises
        ------
        NotAccepted
            Where its first lines say neither.
        """
        size, factor = (
            self.head[i].split()[-1] if len(self.head) == _HEAD and self.head[i] else b""
            for i in (1, 2)
        )
        if not factor.isdigit() or not size.isdigit():
            raise NotAccepted("a certificate without a factor: is it of another kind of model?")
        return int(size), int(factor), self.numbers()

    def numbers(self) -> Ints:
        """The blocks of the PIT lines."""
        return np.concatenate(self.blocks) if self.blocks else np.empty(0, np.int64)


def refuse_other_count(count: int, blocks: Ints) -> None:
    """Refuses PIT lines of another number than `pit check` counts. Raises NotAccepted."""
    if len(blocks) != count:
        raise NotAccepted(
            f"pit check counts {count} blocks, and the certificate has {len(blocks)} PIT lines"
        )


def _numbers_in(lines: bytes) -> Ints:
    """The numbers of lines ``PIT b``."""
    if lines.translate(None, b"0123456789PIT \n"):
        raise NotAccepted("a certificate has other lines between its PIT lines")
    if not lines:
        return np.empty(0, np.int64)
    found: Ints = np.fromstring(lines.replace(b"PIT ", b"").decode(), dtype=np.int64, sep="\n")
    if len(found) != lines.count(b"\n"):
        raise NotAccepted("a certificate has other lines between its PIT lines")
    return found

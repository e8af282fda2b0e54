"""Certificates as bytes that go by in pieces."""
from pitplan.pit.certificate_lines import PitLines

HEAD = b"PITCERT 2\nBLOCKS 4000\nPRICE MILL 850\nGROUP PAIR\n"


def pit_lines(text, piece=1 << 20):
    """What is read of a certificate in pieces: blocks, factor, the blocks of the pit, the digest."""
    lines = PitLines()
    for at in range(0, len(text), piece):
        lines.take(text[at : at + piece])
    return (*lines.found(), lines.digest.hexdigest())

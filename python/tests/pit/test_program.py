"""What the program is given around it, and what of its words makes an `Accepted`."""
import re
from pathlib import Path

import numpy as np
import pytest

from certificates import HEAD
from pitplan.base.errors import NotAccepted
from pitplan.pit.program import Accepted, Files, Pit
from processes import TOP

LISTED = "#!/bin/sh\nexec %s --list-tunables\n"


@pytest.mark.parametrize(
    "own, wanted",
    [
        (None, {"hugetlb": 1, "top_pad": 0}),
        ("", {"hugetlb": 1, "top_pad": 0}),
        ("glibc.malloc.top_pad=4096", {"hugetlb": 1, "top_pad": 4096}),
        ("glibc.malloc.hugetlb=0", {"hugetlb": 0, "top_pad": 0}),
    ],
)
def test_the_c_library_is_told_and_a_value_of_the_user_stays(tmp_path, monkeypatch, own, wanted):
    program = tmp_path / "pit"
    program.write_text(LISTED % next(Path("/").glob("lib64/ld-linux-*")))
    program.chmod(0o755)
    monkeypatch.delenv("GLIBC_TUNABLES", raising=False)
    if own is not None:
        monkeypatch.setenv("GLIBC_TUNABLES", own)
    lines = re.findall(r"glibc\.malloc\.(hugetlb|top_pad): 0x(\w+)", Pit(program).run(["solve"]))
    assert {name: int(value, 16) for name, value in lines} == wanted


def test_nobody_but_the_check_makes_an_accepted():
    with pytest.raises(TypeError, match="by Pit.check alone"):
        Accepted(1, "5", np.array([0]), 1000, "00", 4)
    makers = [
        (path.name, line)
        for path in (TOP / "python/pitplan").rglob("*.py")
        for line in path.read_text().splitlines()
        if re.search(r"(?<!\w)Accepted\(", line) and "class" not in line
    ]
    assert len(makers) == 1
    assert makers[0][0] == "program.py"
    assert sum("BEGUN" in path.read_text() for path in (TOP / "python/pitplan").rglob("*.py")) == 1


def test_a_pit_of_another_number_of_blocks_than_the_check_counts_is_no_accepted(tmp_path):
    program, certificate = tmp_path / "pit", tmp_path / "c"
    program.write_text("#!/bin/sh\ncat > /dev/null\necho ACCEPTED 3 5\n")
    program.chmod(0o755)
    certificate.write_bytes(HEAD + b"PIT 1\nPIT 2\nEND\n")
    with pytest.raises(NotAccepted, match="counts 3 blocks, and the certificate has 2 PIT lines"):
        Pit(program).check(Files(tmp_path / "b", tmp_path / "s"), certificate)

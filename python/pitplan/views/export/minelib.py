"""The mine as MineLib's files, for programs that read no slopes: a list of what rests on what stands
there, which `pit` itself writes by the slopes of the study's settings."""
from __future__ import annotations

import shutil
from pathlib import Path
from typing import TYPE_CHECKING

from ...base.amounts import THOUSAND, as_text
from ...base.files import whole_file

if TYPE_CHECKING:
    from ...study.study import Study

NAMES = ("mine.blocks", "mine.prec", "mine.upit")


def write(study: Study, folder: Path) -> int:
    """Writes `NAMES` into a folder: where blocks are, what rests on what, and what each is worth.

    Parameters
    ----------
    study : Study
        Its files have to be those of the build.
    folder : Path

    Returns
    -------
    int
        How many pairs of a block and a predecessor mine.prec lists.

    Raises
    ------
    PlanError
        Where a file of the model isn't the one that was built, or there are more pairs than `pit`
        takes.
    """
    study.verify()
    blocks, prec, upit = (folder / name for name in NAMES)
    with whole_file(blocks) as part:
        shutil.copyfile(study.blocks_file, part)
    with whole_file(prec) as part:
        study.program.slopes(study.files, part)
        with open(part, "rb") as file:
            pairs = sum(int(line.split(None, 2)[1]) for line in file)
    worths = study.priced.thousandths(THOUSAND) // THOUSAND
    with whole_file(upit) as part, open(part, "w") as file:
        file.write(f"NAME: mine\nTYPE: UPIT\nNBLOCKS: {len(worths)}\nOBJECTIVE_FUNCTION:\n")
        each = as_text(worths, study.priced.rounding).tolist()
        file.writelines(f"{block} {worth}\n" for block, worth in enumerate(each))
        file.write("EOF\n")
    return pairs

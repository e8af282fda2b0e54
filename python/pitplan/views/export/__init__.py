"""Pits and pushbacks as files for CAD, GIS, ParaView, spreadsheets and other optimisers."""
from __future__ import annotations

from typing import TYPE_CHECKING

from ...base.public_names import door

if TYPE_CHECKING:
    from . import csv as csv, dxf as dxf, gpkg as gpkg, minelib as minelib
    from . import table_back as table_back, vtu as vtu
else:
    __getattr__, __dir__, __all__ = door(__name__, {"": "csv dxf gpkg minelib table_back vtu"})

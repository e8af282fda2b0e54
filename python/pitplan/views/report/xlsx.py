"""A report as a workbook: a sheet for each table, its numbers as numbers, and the pictures."""
from __future__ import annotations

import math
import os
from pathlib import Path
from typing import Any

from openpyxl import Workbook
from openpyxl.drawing.image import Image
from openpyxl.styles import Alignment, Font
from openpyxl.utils import get_column_letter

from ...base.errors import in_a_line
from ...base.files import whole_file
from ...base.units_shown import grade_places
from ..pictures import png_of
from .contents import Column, Report, ReportTable

_FORMATS = {
    "count": "#,##0",
    "amount": "#,##0",
    "metal": "#,##0",
    "factor": "0.00#",
    "ratio": "0.000",
    "length": "#,##0.0",
    "angle": "0.0",
    "error": "+0.0;-0.0;0.0",
    "years": "0.0",
}
_LONGEST = 32_000  # letters of a cell; a workbook takes 32,767
_WIDE = 60  # letters of the widest column
_PIXELS = 900  # of a picture's width


def write(report: Report, target: str | os.PathLike[str]) -> Path:
    """Writes the workbook, as `whole_file` writes.

    Returns
    -------
    Path
        Of the file.
    """
    book = Workbook()
    cover = book.active
    cover.title = "Report"
    _fill_cover(cover, report)
    _fill_text(book.create_sheet("study.toml"), report.asked.expandtabs(4).splitlines())
    for table in report.tables:
        _fill_table(book.create_sheet(table.name), table)
    _fill_proved(book.create_sheet("What is proved", 1), report)
    _add_pictures(book.create_sheet("Pictures"), report)
    for sheet in book:
        sheet.page_setup.orientation, sheet.page_setup.paperSize = "landscape", sheet.PAPERSIZE_A4
        sheet.page_setup.fitToHeight, sheet.sheet_properties.pageSetUpPr.fitToPage = 0, True
    with whole_file(target) as part:
        book.save(part)
    return Path(target)


def _put(sheet: Any, row: int, column: int, value: Any, is_bold: bool = False) -> Any:
    """A cell: a number, or a text that stays one, whatever it begins with."""
    cell = sheet.cell(row, column)
    if isinstance(value, str):
        cell.value = in_a_line(value)[:_LONGEST]
        cell.data_type = "s"  # openpyxl takes what begins with = for a formula
    elif value is not None and math.isfinite(value):
        cell.value = value
    if is_bold:
        cell.font = Font(bold=True)
    return cell


def _fill_cover(sheet: Any, report: Report) -> None:
    """The title and the facts."""
    _put(sheet, 1, 1, report.title).font = Font(bold=True, size=16)
    _put(sheet, 2, 1, f"Ultimate pits, written {report.when}")
    for at, (name, value) in enumerate(report.facts, 4):
        _put(sheet, at, 1, name, True)
        _put(sheet, at, 2, value)
    sheet.column_dimensions["A"].width, sheet.column_dimensions["B"].width = 34, 70


def _fill_text(sheet: Any, lines: list[str]) -> None:
    """Lines of a text, one below the other."""
    for at, line in enumerate(lines, 1):
        _put(sheet, at, 1, line).font = Font(name="Courier New")
    sheet.column_dimensions["A"].width = 120


def _fill_table(sheet: Any, table: ReportTable) -> None:
    """A table: its headings in the first row, so that filters and pivots take it as it is."""
    for at, column in enumerate(table.columns, 1):
        heading = _put(sheet, 1, at, column.heading, True)
        heading.alignment = Alignment(wrap_text=True, vertical="top")
        shown = format_of(column)
        for row, value in enumerate(column.values, 2):
            cell = _put(sheet, row, at, value)
            cell.number_format = shown
        long = max(
            (len(str(value)) for value in column.values if isinstance(value, str)), default=0
        )
        sheet.column_dimensions[get_column_letter(at)].width = min(max(14, long + 2), _WIDE)
    sheet.row_dimensions[1].height = 3 * 15
    sheet.freeze_panes = "B2"
    rows = max((len(column.values) for column in table.columns), default=0)
    sheet.auto_filter.ref = f"A1:{get_column_letter(len(table.columns))}{rows + 1}"


def format_of(column: Column) -> str:
    """How a column's numbers are shown; grades with so many decimals that the greatest has four
    digits."""
    if column.kind == "grade":
        return "#,##0." + "0" * grade_places(column.values, 4)
    return _FORMATS.get(column.kind, "General")


def _fill_proved(sheet: Any, report: Report) -> None:
    """What is proved and what isn't, what each table is, and how far walls are from what was asked
    for."""
    row = 1
    for name, lines in (
        ("Proved or checked", report.proved),
        ("Neither proved nor checked", report.unproved),
        ("Walls", report.walls),
        ("Sheets", [f"{table.name}: {table.caption}" for table in report.tables]),
    ):
        _put(sheet, row, 1, name, True)
        for at, line in enumerate(lines, row + 1):
            _put(sheet, at, 1, line).alignment = Alignment(wrap_text=True, vertical="top")
        row += len(lines) + 2
    sheet.column_dimensions["A"].width = 130


def _add_pictures(sheet: Any, report: Report) -> None:
    """The pictures, one below the other."""
    row = 1
    for name, figure in report.pictures:
        _put(sheet, row, 1, name, True)
        image: Any = Image(png_of(figure, 130))
        image.width, image.height = _PIXELS, round(_PIXELS * image.height / image.width)
        sheet.add_image(image, f"A{row + 1}")
        row += 3 + math.ceil(image.height / 20)  # a row is 20 pixels high

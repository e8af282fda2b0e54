"""A report as PDF: A4 across, with a cover, what was asked for, tables, pictures, and what is
proved."""
from __future__ import annotations

import os
import textwrap
from collections.abc import Sequence
from pathlib import Path
from typing import Any
from xml.sax.saxutils import escape

from matplotlib.font_manager import FontProperties, findfont
from reportlab.lib import colors
from reportlab.lib.pagesizes import A4, landscape
from reportlab.lib.styles import ParagraphStyle
from reportlab.lib.units import mm
from reportlab.pdfbase import pdfmetrics
from reportlab.pdfbase.ttfonts import TTFont
from reportlab.pdfgen.canvas import Canvas
from reportlab.platypus import (
    CondPageBreak,
    Image,
    KeepTogether,
    PageBreak,
    Paragraph,
    Preformatted,
    SimpleDocTemplate,
    Spacer,
)
from reportlab.platypus import Table as PlainGrid

from ...base.amounts import THOUSAND
from ...base.errors import in_a_line
from ...base.files import whole_file
from ...base.units_shown import amount_text, factor_text, lengths, scale_of
from ..page_views import grade_texts, ratio
from ..pictures import png_of
from .contents import Column, Report, ReportTable

# matplotlib brings these; a PDF's own fonts have no letters but those of Western Europe
_FONTS = {
    "Report": ("sans", "normal"),
    "ReportBold": ("sans", "bold"),
    "ReportMono": ("mono", "normal"),
}
_MARGIN = 15 * mm
_WIDTH, _HEIGHT = (side - 2 * _MARGIN for side in landscape(A4))
_LETTERS = 150  # of a line of study.toml
_SMALL = 8.0  # points, of a table's letters
_GAP = 9.0  # points between two columns
_SHORT = 25  # rows of a table that stays on one page, its headings too
_LEAST = 50 * mm  # of a longer one that stands below its name
_DEGREES = 45  # between two bearings of the table of slopes
_HEADING = ParagraphStyle("heading", fontName="ReportBold", fontSize=13, leading=17, spaceAfter=4)
_TITLE = ParagraphStyle("title", fontName="ReportBold", fontSize=24, leading=30)
_TEXT = ParagraphStyle("text", fontName="Report", fontSize=9.5, leading=13, spaceAfter=3)
_NOTE = ParagraphStyle(
    "note", parent=_TEXT, fontSize=8.5, leading=11, textColor=colors.HexColor("#444444")
)
_MONO = ParagraphStyle("mono", fontName="ReportMono", fontSize=7.5, leading=9.5)


class _Grid(PlainGrid):  # type: ignore[misc]
    """A table that repeats its name and its headings on each page that it goes on to."""

    name = ""

    def split(self, wide: float, high: float) -> list[Any]:
        """The parts: what has room here, and the rest on the next page."""
        parts: list[Any] = super().split(wide, high)
        if len(parts) != 2:
            return parts
        parts[1].name = self.name
        going_on = Paragraph(f"{escape(self.name)}, continued", _NOTE)
        return [parts[0], CondPageBreak(_HEIGHT), going_on, parts[1]]


def register_fonts() -> None:
    """Makes the fonts known by the names that tables and paragraphs have for them."""
    for name, (family, weight) in _FONTS.items():
        font = FontProperties(
            family="DejaVu Sans Mono" if family == "mono" else "DejaVu Sans", weight=weight
        )
        pdfmetrics.registerFont(TTFont(name, findfont(font)))


def write(report: Report, target: str | os.PathLike[str]) -> Path:
    """Writes the PDF, as `whole_file` writes.

    Returns
    -------
    Path
        Of the file.
    """
    register_fonts()
    with whole_file(target) as part:
        SimpleDocTemplate(
            str(part),
            pagesize=landscape(A4),
            leftMargin=_MARGIN,
            rightMargin=_MARGIN,
            topMargin=_MARGIN,
            bottomMargin=_MARGIN,
            title=in_a_line(report.title),
            author="pitplan",
        ).build(_story_of(report), canvasmaker=_numbered(report))
    return Path(target)


def _story_of(report: Report) -> list[Any]:
    """All that stands in it, in its order."""
    found: list[Any] = [*_cover(report), PageBreak(), Paragraph("What was asked for", _HEADING)]
    found.append(Preformatted("\n".join(_lines_of(report.asked)), _MONO))
    found.append(PageBreak())
    for table in report.tables:
        if not table.is_long and table.name not in ("Slopes", "Digests"):
            found += [*laid(table), Spacer(1, 6 * mm)]
    for name, figure in report.pictures[:-1]:
        found += [
            PageBreak(),
            Paragraph(escape(name), _HEADING),
            picture(figure, _WIDTH, _HEIGHT - 18 * mm),
        ]
    found += [PageBreak(), *_slopes(report), PageBreak()]
    for name, sentences in (
        ("What is proved or checked", report.proved),
        ("What is neither proved nor checked", report.unproved),
    ):
        found.append(Paragraph(name, _HEADING))
        found += [Paragraph(_shown(line), _TEXT, bulletText="\N{BULLET}") for line in sentences]
        found.append(Spacer(1, 4 * mm))
    return [*found, *laid(report.table("Digests"))]


def _shown(text: str) -> str:
    """A text of a stranger's as a paragraph takes it."""
    return escape(in_a_line(text))


def _lines_of(text: str) -> list[str]:
    """The lines of a text; those that are too long for a page in pieces."""
    whole = textwrap.TextWrapper(
        _LETTERS,
        replace_whitespace=False,
        drop_whitespace=False,
        break_on_hyphens=False,
    )
    lines = [in_a_line(line) for line in text.expandtabs(4).splitlines()]
    return [part for line in lines for part in whole.wrap(line) or [""]]


def _cover(report: Report) -> list[Any]:
    """The title, the facts and what they rest on."""
    rows = [
        [Paragraph(_shown(name), _TEXT), Paragraph(_shown(value), _TEXT)]
        for name, value in report.facts
    ]
    return [
        Spacer(1, 25 * mm),
        Paragraph(_shown(report.title), _TITLE),
        Paragraph(f"Ultimate pits, written {report.when}", _TEXT),
        Spacer(1, 10 * mm),
        PlainGrid(
            rows, colWidths=[65 * mm, _WIDTH - 65 * mm], style=[("VALIGN", (0, 0), (-1, -1), "TOP")]
        ),
        Spacer(1, 8 * mm),
        *(Paragraph(_shown(line), _NOTE) for line in report.proved[:1]),
    ]


def picture(figure: Any, wide: float, high: float) -> Any:
    """A picture with all that belongs to it, as large as there is room."""
    found = Image(png_of(figure, 170))
    share = min(wide / found.imageWidth, high / found.imageHeight)
    found.drawWidth, found.drawHeight = found.imageWidth * share, found.imageHeight * share
    return found


def _slopes(report: Report) -> list[Any]:
    """The angles of walls with their errors, and the rose beside them."""
    table = report.table("Slopes")
    kept = [i for i, bearing in enumerate(table.columns[1].values) if bearing % _DEGREES == 0]
    columns = [
        Column(one.name, one.unit, one.kind, [one.values[i] for i in kept]) for one in table.columns
    ]
    found = laid(ReportTable(table.name, table.caption, columns))
    found += [Spacer(1, 3 * mm), *(Paragraph(_shown(line), _NOTE) for line in report.walls)]
    return [*found, PageBreak(), picture(report.pictures[-1][1], _WIDTH, _HEIGHT - 10 * mm)]


def laid(table: ReportTable) -> list[Any]:
    """A table below its name; in parts below each other where the page has no room for its
    columns."""
    columns = _shown_columns(table.columns)
    names, texts = [name for name, _ in columns], [column for _, column in columns]
    widths = [_width_of(name, column) for name, column in zip(names, texts)]
    head = [Paragraph(escape(table.name), _HEADING), Paragraph(_shown(table.caption), _NOTE)]
    found: list[Any] = []
    for part in _parts_of(widths, _words_of(table)):
        rows = [[_wrapped(names[i], widths[i]) for i in part]]
        rows += [[in_a_line(texts[i][at]) for i in part] for at in range(len(texts[0]))]
        left = [at for at, i in enumerate(part) if table.columns[i].kind == "text"]
        grid = _Grid(
            rows,
            colWidths=[widths[i] for i in part],
            repeatRows=1,
            hAlign="LEFT",
            style=_style_of(left),
        )
        grid.name = table.name
        whole = [Paragraph(escape(f"{table.name}, further columns"), _HEADING)] if found else head
        if len(rows) <= _SHORT:
            found.append(KeepTogether([*whole, grid]))
        else:
            found += [CondPageBreak(_LEAST), *whole, grid]
        found.append(Spacer(1, 2 * mm))
    return found


def _words_of(table: ReportTable) -> int:
    """How many of its first columns say what a row is of: they stand in each part."""
    kinds = [column.kind for column in table.columns]
    return 2 if kinds[:2] == ["factor", "text"] else 1


def _style_of(left: Sequence[int]) -> list[Any]:
    """How a table looks; the columns of `left` have texts."""
    return [
        ("FONT", (0, 0), (-1, 0), "ReportBold", _SMALL),
        ("FONT", (0, 1), (-1, -1), "Report", _SMALL),
        ("ALIGN", (0, 0), (-1, -1), "RIGHT"),
        *(("ALIGN", (at, 0), (at, -1), "LEFT") for at in left),
        ("VALIGN", (0, 0), (-1, 0), "BOTTOM"),
        ("LINEBELOW", (0, 0), (-1, 0), 0.7, colors.black),
        ("ROWBACKGROUNDS", (0, 1), (-1, -1), [colors.white, colors.HexColor("#f3f3f3")]),
        ("LEFTPADDING", (0, 0), (-1, -1), _GAP / 2),
        ("RIGHTPADDING", (0, 0), (-1, -1), _GAP / 2),
        ("TOPPADDING", (0, 0), (-1, -1), 1.2),
        ("BOTTOMPADDING", (0, 0), (-1, -1), 1.8),
    ]


def _shown_columns(columns: Sequence[Column]) -> list[tuple[str, list[str]]]:
    """The heading and the texts of each column; amounts of one unit at one scale, which their
    headings name."""
    found = []
    for column in columns:
        if column.kind not in ("amount", "metal"):
            found.append((column.heading, _texts_of(column)))
            continue
        alike = [one for one in columns if one.kind == "amount" and one.unit == column.unit]
        values = [
            value
            for one in (alike if column.kind == "amount" else [column])
            for value in one.values
        ]
        scale = scale_of(values, column.unit)
        texts = [amount_text(value, scale) for value in column.values]
        found.append((Column(column.name, scale.unit, column.kind, []).heading, texts))
    return found


def _texts_of(column: Column) -> list[str]:
    """The texts of a column that has no amounts."""
    values = column.values
    if column.kind in ("text", "figure"):
        return [str(value) for value in values]
    if column.kind == "factor":
        return [
            one if isinstance(one, str) else factor_text(round(one * THOUSAND)) for one in values
        ]
    if column.kind == "count":
        return [f"{value:,}" for value in values]
    if column.kind == "grade":
        return grade_texts(values)
    if column.kind == "length":
        return lengths(values)
    if column.kind == "error":
        return [f"{round(value, 1) + 0.0:+.1f}" for value in values]
    return ratio(values, ".2f" if column.kind == "ratio" else ".1f")


def _width_of(name: str, texts: Sequence[str]) -> float:
    """The width of a column: no figure and no word of its heading is cut off."""
    words = max(
        (pdfmetrics.stringWidth(word, "ReportBold", _SMALL) for word in name.split()), default=0.0
    )
    longest = max((pdfmetrics.stringWidth(text, "Report", _SMALL) for text in texts), default=0.0)
    return max(words, longest) + _GAP


def _wrapped(name: str, width: float) -> str:
    """A heading over as many lines as its column needs."""
    lines = [""]
    for word in name.split():
        longer = f"{lines[-1]} {word}".strip()
        if pdfmetrics.stringWidth(longer, "ReportBold", _SMALL) + _GAP <= width or not lines[-1]:
            lines[-1] = longer
        else:
            lines.append(word)
    return "\n".join(lines)


def _parts_of(widths: Sequence[float], word_columns: int = 1) -> list[list[int]]:
    """The columns of each part of a table; the first, or so many `word_columns`, stand in each."""
    first, begun = list(range(word_columns)), sum(widths[:word_columns])
    parts, taken = [list(first)], begun
    for at in range(word_columns, len(widths)):
        if taken + widths[at] > _WIDTH and len(parts[-1]) > word_columns:
            parts.append(list(first))
            taken = begun
        parts[-1].append(at)
        taken += widths[at]
    return parts


def _numbered(report: Report) -> type[Canvas]:
    """A canvas that writes each page's number and how many there are."""

    class Numbered(Canvas):  # type: ignore[misc]
        def __init__(self, *words: Any, **more: Any) -> None:
            super().__init__(*words, **more)
            self.pages: list[dict[str, Any]] = []

        def showPage(self) -> None:
            self.pages.append(dict(self.__dict__))
            self._startPage()

        def save(self) -> None:
            for at, page in enumerate(self.pages, 1):
                self.__dict__.update(page)
                self.setFont("Report", 7.5)
                self.drawString(_MARGIN, 8 * mm, in_a_line(report.title)[:100])
                self.drawRightString(_MARGIN + _WIDTH, 8 * mm, f"{at} of {len(self.pages)}")
                super().showPage()
            super().save()

    return Numbered

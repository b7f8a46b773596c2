# SPDX-License-Identifier: MIT OR Apache-2.0
"""A picture as the text of an SVG, which is complete in itself: it has no script, no font and no link."""
from __future__ import annotations

from collections.abc import Iterator, Sequence
from dataclasses import dataclass

from .certificates import MANAGER, NONE, PAGE_SIZE, Row, Run, cells
from .lines import registers_of
from .names import name_of

MOST_LABEL = 56
"""How many characters of a line and of its call's name are shown."""
LEGEND = 64
"""The height of the legend, with the free space above it."""
HEADER = 72
"""The height of a line of addresses."""
ROWS_BELOW = 40
"""How many rows stand below a line of addresses, which is written again behind them."""
LEAST_COLUMN = 8
MOST_COLUMN = 96
BEHIND = 24
"""The free space behind the cells."""
LEAST_WIDTH = 920
MOST_ENDPOINTS = 8

# The colours of the endpoints, by place: those of Okabe and Ito, which colour-blind people tell apart.
STYLE = """\
<style>
text{font-family:monospace;font-size:11px;fill:#222}
.n{text-anchor:end;fill:#666}
.b{fill:#666}
.k{fill:#666}
.r{fill:#b00020}
.d{fill:#b00020}
.c{fill:#fff;stroke:#ccc}
.m{fill:#bbb;stroke:#bbb}
.h{fill:url(#hatched)}
.t{fill:#555}
.x{fill:#222;stroke:#fff;stroke-width:.6}
.e0{fill:#0072b2}
.e1{fill:#e69f00}
.e2{fill:#009e73}
.e3{fill:#cc79a7}
.e4{fill:#d55e00}
.e5{fill:#56b4e9}
.e6{fill:#f0e442}
.e7{fill:#000}
</style>
<defs><pattern id="hatched" width="5" height="5" patternUnits="userSpaceOnUse" patternTransform="rotate(45)">\
<rect width="2" height="5" fill="#fff"/></pattern></defs>
<rect width="100%" height="100%" fill="#fff"/>
"""

# What bands and grounds say, in the first endpoint's colour.
SAMPLES = """\
<g transform="translate(54 34)">
<rect class="e0" y="4" width="30" height="4"/><text x="36" y="9">r</text>
<rect class="e0" x="60" width="30" height="8"/><text x="96" y="9">rw</text>
<rect class="e0" x="126" width="30" height="8"/><rect class="x" x="126" y="3" width="30" height="2"/><text x="162" y="9">with x</text>
<rect class="e0" x="222" width="30" height="8"/><rect class="h" x="222" width="30" height="8"/><text x="258" y="9">not its owner</text>
<rect class="c" x="366" y="-3" width="30" height="14"/><rect class="e0" x="366" y="-3" width="3" height="14"/>\
<text x="402" y="9">its page, out of reach</text>
<rect class="c" x="560" y="-3" width="30" height="14"/><rect class="t" x="560" y="8" width="30" height="2"/>\
<text x="596" y="9">in a transaction</text>
<rect class="m" x="716" y="-3" width="30" height="14"/><text x="752" y="9">the manager's</text>
<rect class="c" x="586" y="-25" width="30" height="14"/><path class="d" d="M610 -24h5v5z"/><text x="622" y="-13">other than above</text>
</g>
"""

REFUSED = '<text class="r" x="804" y="22">a refused call</text>\n'

ESCAPES = {ord("&"): "&amp;", ord("<"): "&lt;", ord(">"): "&gt;", ord('"'): "&quot;"}


def escaped(line: bytes) -> str:
    """Bytes as text that XML takes. A byte that is not a printed character of ASCII is written as its number."""
    return "".join(ESCAPES.get(byte) or (chr(byte) if 0x20 <= byte <= 0x7E else f"\\x{byte:02X}") for byte in line)


@dataclass(frozen=True, slots=True)
class Label:
    """The text of a row: as much of its line as the name of its call leaves room for, and this name."""

    shown: bytes
    is_cut: bool
    name: str

    @classmethod
    def of_line(cls, line: bytes) -> Label:
        """The label of a line."""
        x = registers_of(line)
        name = (x and name_of(x)) or ""
        room = MOST_LABEL - 1 - len(name) if name else MOST_LABEL
        return cls(line[:room], len(line) > room, name)

    def __len__(self) -> int:
        return min(len(self.shown) + (len(self.name) + 1 if self.name else 0), MOST_LABEL)


class Sizes:
    """The sizes of a picture, in pixels, and where its parts stand."""

    def __init__(self, rows: Sequence[Row], across: int, width: int) -> None:
        """The fewer columns there are, the wider they are. If the picture must fit a width, columns are no wider than it lets them be."""
        self.rows, self.across = len(rows), across
        self.endpoints = len(rows[0].certificate.endpoints)
        self.label = max(16, *(len(Label.of_line(row.line)) for row in rows))
        self.refusals = any(row.refused for row in rows)
        self.column = min(max(1200 // max(across, 1), 18), MOST_COLUMN)
        if width:
            room = max(0, width - (self.cells_left + BEHIND))
            self.column = min(self.column, min(max(room // max(across, 1), LEAST_COLUMN), MOST_COLUMN))
        self.row = 7 + 10 * max(1, self.endpoints)

    @property
    def cells_left(self) -> int:
        """Where the cells begin."""
        return 118 + 7 * self.label

    @property
    def runner_left(self) -> int:
        """Where the endpoint that runs is told."""
        return 62 + 7 * self.label

    @property
    def address_left(self) -> int:
        """Where the address of a column stands, from the column's left side."""
        return min(self.column // 2 + 4, 11)

    def column_left(self, index: int) -> int:
        """Where a column begins."""
        return index * self.column + self.cells_left

    def row_top(self, index: int) -> int:
        """Where a row begins, behind the lines of addresses and the rows above it."""
        return index * self.row + (index // ROWS_BELOW + 1) * HEADER + LEGEND

    @property
    def width(self) -> int:
        """The width of the whole picture."""
        return max(self.column_left(self.across) + BEHIND, LEAST_WIDTH)

    @property
    def height(self) -> int:
        """The height of the whole picture."""
        return self.row_top(self.rows - 1) + self.row + 16


def pages(first: int, last: int) -> str:
    """Pages by the addresses of their first and last byte, and by how many they are."""
    count = (last + 1 - first) // PAGE_SIZE
    return f"{first:08X}-{last:08X}, {count} page{'' if count == 1 else 's'}"


def swatch(place: int, endpoint: str, left: int, top: int) -> str:
    """The colour of an endpoint, and the endpoint."""
    square = f'<rect class="e{place}" x="{left}" y="{top}" width="12" height="12"/>'
    return f'{square}<text x="{left + 16}" y="{top + 10}">{endpoint}</text>\n'


def draw(rows: Sequence[Row], across: Sequence[tuple[int, int]], width: int) -> Iterator[str]:
    """The text of a picture. Down stand its rows, with number and text of each line, the name of its call and who runs. Across stand
    its columns, with the address of the first page of each."""
    sizes = Sizes(rows, len(across), width)
    endpoints = rows[0].certificate.endpoints
    box = f'width="{sizes.width}" height="{sizes.height}" viewBox="0 0 {sizes.width} {sizes.height}"'
    yield f'<svg xmlns="http://www.w3.org/2000/svg" {box}>\n'
    yield STYLE
    yield from (swatch(place, it, 54 + 72 * place, 12) for place, it in enumerate(endpoints))
    yield SAMPLES
    yield REFUSED if sizes.refusals else ""
    above: list[Run] = []
    for index, row in enumerate(rows):
        yield from header(endpoints, across, sizes, index)
        here = list(cells(row, across))
        yield f'<g transform="translate(0 {sizes.row_top(index)})">\n'
        yield label(row, endpoints, sizes)
        yield from drawn_cells(endpoints, here, above, sizes)
        yield "</g>\n"
        above = here
    yield "</svg>\n"


def header(endpoints: Sequence[str], across: Sequence[tuple[int, int]], sizes: Sizes, index: int) -> Iterator[str]:
    """The addresses above a row, if they stand there, and above all but the first row, which colour is whose."""
    if index % ROWS_BELOW:
        return
    top = sizes.row_top(index)
    if index:
        for place, endpoint in enumerate(endpoints):
            yield swatch(place, endpoint, 54 + 72 * (place // 4), top - HEADER + 4 + 16 * (place % 4))
    for column, (first, last) in enumerate(across):
        left = sizes.column_left(column) + sizes.address_left
        text = f"{first:08X}<title>{pages(first, last)}</title>"
        yield f'<text transform="translate({left} {top - 6}) rotate(-90)">{text}</text>\n'


def label(row: Row, endpoints: Sequence[str], sizes: Sizes) -> str:
    """Number and text of a row's line with the name of its call, and who runs. The text of a refused call is red."""
    left, place = sizes.runner_left, endpoints.index(row.runner)
    square = f'<rect class="e{place}" x="{left}" y="4" width="10" height="10"/>'
    runner = f'<text x="{left + 14}" y="13">{row.runner}<title>{row.runner} runs</title></text>\n'
    return line_text(row) + square + runner


def line_text(row: Row) -> str:
    """Number and text of a row's line, or that it is the beginning."""
    if row.number == 0:
        return '<text x="54" y="13" class="b">at the beginning</text>\n'
    told = Label.of_line(row.line)
    colour = ' class="r"' if row.refused else ""
    name = f' <tspan class="k">{told.name}</tspan>' if told.name else ""
    title = escaped(row.line) + ("\nrefused" if row.refused else "")
    number = f'<text x="46" y="13" class="n">{row.number}</text>'
    shown = escaped(told.shown) + ("…" if told.is_cut else "")
    return f'{number}<text x="54" y="13"{colour}>{shown}{name}<title>{title}</title></text>\n'


def drawn_cells(endpoints: Sequence[str], here: Sequence[Run], above: Sequence[Run], sizes: Sizes) -> Iterator[str]:
    """The cells of a row. A cell has a mark if it is other than the one above it."""
    for index, cell in enumerate(here):
        yield f'<g transform="translate({sizes.column_left(index)} 0)">\n'
        yield title(endpoints, cell)
        yield ground(endpoints, cell, sizes)
        for place, right in enumerate(cell.rights):
            yield band(place, right, cell.owner == endpoints[place], sizes)
        if above and above[index] != cell:
            yield f'<path class="d" d="M{sizes.column - 6} 1h5v5z"/>\n'
        yield "</g>\n"


def title(endpoints: Sequence[str], cell: Run) -> str:
    """What is said of a cell: its pages, their owner, their transaction and the access of each endpoint."""
    owner = "\nthe manager's" if cell.owner == MANAGER else f"\nowner {cell.owner}"
    handle = "" if cell.handle == "-" else f"\ntransaction {cell.handle}"
    rights = "".join(f"\n{it} {right}" for it, right in zip(endpoints, cell.rights, strict=True))
    return f"<title>{pages(cell.first, cell.last)}{owner}{handle}{rights}</title>\n"


def ground(endpoints: Sequence[str], cell: Run, sizes: Sizes) -> str:
    """What is behind the bands of a cell: grey for the manager's pages, else a bar of the owner's colour, and a line below for pages in
    a transaction."""
    box = f'width="{sizes.column}" height="{sizes.row}"'
    if cell.owner == MANAGER:
        return f'<rect class="m" {box}/>\n'
    bar = f'<rect class="e{endpoints.index(cell.owner)}" width="3" height="{sizes.row}"/>\n'
    line = f'<rect class="t" x="3" y="{sizes.row - 3}" width="{sizes.column}" height="2"/>\n'
    return f'<rect class="c" {box}/>{bar}{"" if cell.handle == "-" else line}'


def band(place: int, right: str, is_owner: bool, sizes: Sizes) -> str:
    """The band of an endpoint that reaches a cell's pages: low without write access, hatched if the endpoint is not the owner, and with
    a line in it if the pages can be executed."""
    if right == NONE:
        return ""
    width, top, height = sizes.column - 6, 3 + 10 * place, 8
    if right[1] == "-":
        top, height = top + 4, 4
    box = f'x="5" y="{top}" width="{width}" height="{height}"'
    hatched = "" if is_owner else f'<rect class="h" {box}/>\n'
    line = f'<rect class="x" x="5" y="{top + height // 2 - 1}" width="{width}" height="2"/>\n' if right[2] == "x" else ""
    return f'<rect class="e{place}" {box}/>\n{hatched}{line}'

# SPDX-License-Identifier: MIT OR Apache-2.0
"""Who owns and reaches which pages: by runs, as a matrix, as lines and as a picture."""
from __future__ import annotations

import ctypes
from dataclasses import dataclass
from typing import Iterable, Iterator, Sequence
from xml.sax.saxutils import escape

from . import _library as c
from .codes import MANAGER, PAGE_SIZE, Right
from .errors import NoSuchEndpoint, NoSuchPage
from .hexadecimal import by_fields
from .misuse import each_of


@dataclass(frozen=True, slots=True)
class Run:
    """Pages in a row with one owner, one open transaction or none, and one right of each endpoint."""

    first: int
    last: int
    owner: int
    handle: int | None
    rights: tuple[Right, ...]

    __repr__ = by_fields

    @property
    def pages(self) -> int:
        """How many pages it has."""
        return self.last - self.first + 1


@dataclass(frozen=True, slots=True)
class Cell:
    """What an endpoint may do with some pages, and whether it is their owner."""

    right: Right
    owns: bool

    __repr__ = by_fields


@dataclass(frozen=True)
class AccessMap:
    """The runs that cover all of RAM, as they are at one moment."""

    ram_base: int
    endpoints: tuple[int, ...]
    runner: int
    runs: tuple[Run, ...]

    __repr__ = by_fields

    @property
    def matrix(self) -> tuple[tuple[Cell, ...], ...]:
        """A row for each endpoint, with a cell for each run."""
        return tuple(
            tuple(Cell(run.rights[place], run.owner == endpoint) for run in self.runs)
            for place, endpoint in enumerate(self.endpoints)
        )

    def run_of(self, address: int) -> Run:
        """The run that has the page of an address."""
        page = (address - self.ram_base) // PAGE_SIZE
        for run in self.runs:
            if run.first <= page <= run.last:
                return run
        raise NoSuchPage(f"{address:08X} is outside RAM")

    def right(self, endpoint: int, address: int) -> Right:
        """What an endpoint may do at an address."""
        if endpoint not in self.endpoints:
            raise NoSuchEndpoint(endpoint)
        return self.run_of(address).rights[self.endpoints.index(endpoint)]

    def changes(self, later: AccessMap) -> Iterator[tuple[int, int, Run, Run]]:
        """First and last page, and both runs, of all pages of which a later map of this machine says something else."""
        ours, theirs = iter(self.runs), iter(later.runs)
        one, other = next(ours, None), next(theirs, None)
        while one is not None and other is not None:
            first, last = max(one.first, other.first), min(one.last, other.last)
            if (one.owner, one.handle, one.rights) != (other.owner, other.handle, other.rights):
                yield first, last, one, other
            one, other = (
                next(ours, None) if one.last == last else one,
                next(theirs, None) if other.last == last else other,
            )

    def span(self, run: Run) -> tuple[int, int]:
        """The addresses of a run's first and last byte."""
        return self.ram_base + PAGE_SIZE * run.first, self.ram_base + PAGE_SIZE * (run.last + 1) - 1

    def show(self) -> list[str]:
        """The lines of `show`, which don't tell transactions apart."""
        return [f"runner {self.runner:04X}", *(self._line(run) for run in _joined(self.runs))]

    def certificate(self) -> list[str]:
        """The lines of `audit` that say what each run is."""
        return [self._line(run, f"{run.handle:016X} " if run.handle is not None else "- ") for run in self.runs]

    def _line(self, run: Run, handle: str = "") -> str:
        first, last = self.span(run)
        rights = " ".join(right.text for right in run.rights)
        return f"pages {first:08X} {last:08X} {run.owner:04X} {handle}{rights}"

    def __str__(self) -> str:
        return "\n".join(self.show())

    def _repr_svg_(self) -> str:
        return draw(self)


def _joined(runs: Sequence[Run]) -> list[Run]:
    """Runs that differ in their transaction alone, as one."""
    joined: list[Run] = []
    for run in runs:
        before = joined[-1] if joined else None
        if before is not None and (before.owner, before.rights) == (run.owner, run.rights):
            joined[-1] = Run(before.first, run.last, run.owner, None, run.rights)
        else:
            joined.append(run)
    return joined


def raw_runs(runs: Iterable[Run]) -> ctypes.Array[c.CertRun]:
    """Runs for the library."""
    told = each_of("runs", runs, Run)
    raw = (c.CertRun * len(told))()
    for place, run in zip(raw, told):
        if (run.first | run.last | run.owner) >> 32 or (run.handle or 0) >> 64 or len(run.rights) > c.MOST_ENDPOINTS:
            raise ValueError(f"no run of a certificate: {run}")
        place.first, place.last, place.owner = run.first, run.last, run.owner
        place.has_handle, place.handle = int(run.handle is not None), run.handle or 0
        place.access[: len(run.rights)] = [int(right) for right in run.rights]
    return raw


def run_of_raw(raw: c.CertRun, endpoints: int) -> Run:
    """A run as the library tells it."""
    rights = tuple(Right(access) for access in raw.access[:endpoints])
    return Run(raw.first, raw.last, raw.owner, raw.handle if raw.has_handle else None, rights)


# THE PICTURE: a column for each run, under its addresses, and a row for each endpoint

_COLUMN, _ROW, _LEFT, _TOP = 84, 26, 64, 96
_COLOURS = {Right.NONE: "#ffffff", Right.RO: "#cfe3f5", Right.RW: "#8fc1ea", Right.ROX: "#f7d9a8", Right.RWX: "#f0a860"}
_STYLE = """<style>
text{font:11px monospace;fill:#222}
.dim{fill:#777}
.cell{stroke:#bbb}
.borrowed{fill:url(#borrowed)}
.open{fill:#7a3db8}
</style>
<defs><pattern id="borrowed" width="6" height="6" patternUnits="userSpaceOnUse" patternTransform="rotate(45)">
<rect width="2" height="6" fill="#fff" fill-opacity=".75"/></pattern></defs>"""


def draw(shown: AccessMap) -> str:
    """The map as an SVG without scripts, fonts and links. What an endpoint reaches without owning it is hatched, and a
    purple bar below a column says that its pages stand in an open transaction."""
    width = _LEFT + _COLUMN * len(shown.runs) + 8
    height = _TOP + _ROW * (1 + len(shown.endpoints)) + 34
    size = f'width="{width}" height="{height}"'
    parts = [f'<svg xmlns="http://www.w3.org/2000/svg" {size} viewBox="0 0 {width} {height}">', _STYLE]
    parts.append(f'<rect {size} fill="#fff"/>')
    parts += [_draw_label(row, name) for row, name in enumerate(_labels(shown))]
    for column, run in enumerate(shown.runs):
        parts += _draw_column(shown, column, run)
    parts += _draw_legend(height - 12)
    return "\n".join([*parts, "</svg>"])


def _labels(shown: AccessMap) -> list[str]:
    return ["owner", *(f"{'▸' if it == shown.runner else ' '}{it:04X}" for it in shown.endpoints)]


def _draw_label(row: int, name: str) -> str:
    return f'<text x="8" y="{_TOP + _ROW * row + 17}">{escape(name)}</text>'


def _draw_column(shown: AccessMap, column: int, run: Run) -> list[str]:
    x = _LEFT + _COLUMN * column
    first, last = shown.span(run)
    count = f"{run.pages} page{'s' if run.pages > 1 else ''}"
    told = f"{first:08X}-{last:08X}, {count}, owner {run.owner:04X}"
    told += f", in the open transaction {run.handle:016X}" if run.handle is not None else ""
    parts = [f"<g><title>{escape(told)}</title>"]
    parts.append(f'<text transform="translate({x + _COLUMN // 2 + 4} {_TOP - 8}) rotate(-60)">{first:08X}</text>')
    owner = "manager" if run.owner == MANAGER else f"{run.owner:04X}"
    parts.append(_draw_cell(x, 0, "#e4e4e4" if run.owner == MANAGER else "#f6f6f6", owner))
    for row, (endpoint, right) in enumerate(zip(shown.endpoints, run.rights), 1):
        is_borrowed = right is not Right.NONE and endpoint != run.owner
        parts.append(_draw_cell(x, row, _COLOURS[right], right.text, is_borrowed))
    if run.handle is not None:
        y = _TOP + _ROW * (1 + len(shown.endpoints)) + 2
        parts.append(f'<rect class="open" x="{x + 1}" y="{y}" width="{_COLUMN - 2}" height="3"/>')
    return [*parts, "</g>"]


def _draw_cell(x: int, row: int, colour: str, word: str, is_borrowed: bool = False) -> str:
    style = ' class="dim"' if word in ("---", "manager") else ""
    text = f'<text{style} x="{x + _COLUMN // 2}" y="{_TOP + _ROW * row + 17}" text-anchor="middle">{word}</text>'
    hatched = _rect(x, row, 'class="borrowed"') if is_borrowed else ""
    return _rect(x, row, f'class="cell" fill="{colour}"') + hatched + text


def _rect(x: int, row: int, style: str) -> str:
    return f'<rect {style} x="{x}" y="{_TOP + _ROW * row}" width="{_COLUMN}" height="{_ROW}"/>'


def _draw_legend(y: int) -> list[str]:
    words = "▸ runs; hatched: reached, not owned; purple: in an open transaction"
    return [f'<text class="dim" x="8" y="{y}">{words}</text>']

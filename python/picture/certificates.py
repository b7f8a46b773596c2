# SPDX-License-Identifier: MIT OR Apache-2.0
"""Certificates as `audit` prints them, and what a picture is made of: rows, columns and cells."""
from __future__ import annotations

from collections.abc import Iterator, Sequence
from dataclasses import dataclass

PAGE_SIZE = 4096
MANAGER = "8000"
NONE = "---"

MOST_CELLS = 20_000
"""A picture of more cells is refused, because a browser would take many seconds for it. One row is always drawn."""


@dataclass(frozen=True, slots=True)
class Run:
    """Pages that follow each other, with one owner, one transaction and one access of each endpoint."""

    first: int
    last: int
    owner: str
    handle: str
    rights: tuple[str, ...]

    @property
    def words(self) -> str:
        """The run as `audit` prints it, without the first word."""
        return " ".join((f"{self.first:08X}", f"{self.last:08X}", self.owner, self.handle, *self.rights))


@dataclass(frozen=True, slots=True)
class Certificate:
    """What `audit` prints: the endpoints in the manifest's order, and the runs, which cover RAM."""

    endpoints: tuple[str, ...]
    runs: tuple[Run, ...]

    def run_at(self, address: int) -> Run:
        """The run that has an address."""
        return next(run for run in self.runs if address <= run.last)


def read(lines: Sequence[str]) -> Certificate:
    """The certificate that these lines print."""
    endpoints, runs = [], []
    for word, *rest in (line.split() for line in lines):
        if word == "root":
            endpoints.append(rest[0])
        elif word == "pages":
            first, last, owner, handle, *rights = rest
            runs.append(Run(int(first, 16), int(last, 16), owner, handle, tuple(rights)))
    return Certificate(tuple(endpoints), tuple(runs))


@dataclass(frozen=True, slots=True)
class Row:
    """A machine behind a line: the number of the line, or 0 at the beginning, who runs, and the certificate."""

    number: int
    line: bytes
    runner: str
    refused: bool
    certificate: Certificate


class TooLarge(Exception):
    """A picture has too many cells. `most` is how many rows would fit."""

    def __init__(self, most: int) -> None:
        super().__init__(most)
        self.most = most


def most_rows(cells: int) -> int:
    """How many rows a picture has at most, if each has so many cells."""
    return max(1, MOST_CELLS // max(1, cells))


def columns(rows: Sequence[Row]) -> list[tuple[int, int]]:
    """The longest runs of pages that no row divides, by their first and last addresses."""
    ends = {run.last for row in rows for run in row.certificate.runs}
    firsts = {run.first for row in rows for run in row.certificate.runs}
    return list(zip(sorted(firsts), sorted(ends), strict=True))


def check_size(rows: Sequence[Row]) -> None:
    """Raises TooLarge for the first row of too many, if each row has as many cells as this one has runs."""
    for count, row in enumerate(rows, 1):
        most = most_rows(len(row.certificate.runs))
        if count > most:
            raise TooLarge(most)


def cells(row: Row, across: Sequence[tuple[int, int]]) -> Iterator[Run]:
    """The cells of a row: for each column, what the row says of its pages."""
    runs = iter(row.certificate.runs)
    run = next(runs)
    for first, last in across:
        while run.last < first:
            run = next(runs)
        yield Run(first, last, run.owner, run.handle, run.rights)

# SPDX-License-Identifier: MIT OR Apache-2.0
"""The reasons of tests/tables.d/explained.table, one for each check of each call: the library's lines are the program's."""
from __future__ import annotations

import re
from dataclasses import replace
from typing import Iterator, NamedTuple

import pytest
from conftest import TOP

from gorseplumb import Call, Fetch, Ffa, HintKind, Load, Machine, Manifest, Store, play
from gorseplumb.trace import Player

TABLE = (TOP / "tests" / "tables.d" / "explained.table").read_text()
MANIFEST = (TOP / "tests" / "rows" / "machine.toml").read_text()


class Row(NamedTuple):
    """A trace, and the reason of its last line, on a machine that serves this version of FF-A."""

    manifest: str
    ffa: Ffa
    lines: list[str]
    told: str


def rows() -> Iterator[Row]:
    """The rows. Of those that change the manifest the first two fields are what stands there, and what shall."""
    for test in TABLE.split("\ntest ")[1:]:
        head, _, body = test.partition("\nrows\n")
        before = re.findall(r"^\| (\w.*)$", head, re.M)
        ffa = Ffa.V1_2 if "--ffa 1.2" in head else Ffa.V1_1
        for row in re.findall(r"^.* => .*$", body, re.M):
            *changed, trace, told = row.split(" => ")
            manifest = MANIFEST.replace(changed[0], changed[1], 1) if changed else MANIFEST
            yield Row(manifest, ffa, [*before, *trace.split("/")], told)


ROWS = list(rows())


def booted(row: Row) -> Machine:
    return Machine(replace(Manifest.read(row.manifest), ffa=row.ffa))


@pytest.mark.parametrize("row", ROWS, ids=range(len(ROWS)))
def test_a_row_is_told_as_the_program_tells_it(row: Row) -> None:
    with booted(row) as machine:
        *_, last = play(machine, row.lines, explain=True)
        assert last == f"# refused: {row.told}"


def test_rows_have_each_kind_of_hint() -> None:
    kinds = set()
    for row in ROWS:
        with booted(row) as machine:
            *_, last = Player(machine).play(row.lines)
            assert isinstance(last.command, (Call, Load, Store, Fetch))
            reason = machine.why(last.command)
            kinds |= {reason.hint.kind} if reason is not None and reason.hint is not None else set()
    assert kinds == set(HintKind)

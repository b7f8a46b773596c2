# SPDX-License-Identifier: MIT OR Apache-2.0
"""Access by runs: matrix, lines, changes and picture."""
from __future__ import annotations

import xml.etree.ElementTree as xml

import pytest

from gorseplumb import AccessMap, Cell, NoSuchEndpoint, NoSuchPage, Right, Run

NONE, RO, RW, ROX = Right.NONE, Right.RO, Right.RW, Right.ROX
HANDLE = 0x0000800100000001
BEFORE = AccessMap(
    0x40000000,
    (0, 0x8001, 0x8002),
    0x8001,
    (
        Run(0, 15, 0x8000, None, (NONE, NONE, NONE)),
        Run(16, 31, 0, None, (RW, NONE, NONE)),
        Run(32, 39, 0x8001, None, (NONE, ROX, NONE)),
        Run(40, 511, 0x8001, None, (NONE, RW, NONE)),
    ),
)
AFTER = AccessMap(
    0x40000000,
    (0, 0x8001, 0x8002),
    0x8002,
    (
        *BEFORE.runs[:3],
        Run(40, 40, 0x8001, HANDLE, (NONE, RW, RO)),
        Run(41, 42, 0x8001, HANDLE + 1, (NONE, RW, NONE)),
        Run(43, 511, 0x8001, None, (NONE, RW, NONE)),
    ),
)


def test_says_who_reaches_what() -> None:
    assert AFTER.right(0x8002, 0x40028FFF) is RO and AFTER.right(0x8002, 0x40029000) is NONE
    assert AFTER.run_of(0x40010000).pages == 16
    assert AFTER.matrix[0][:3] == (Cell(NONE, False), Cell(RW, True), Cell(NONE, False))
    assert AFTER.matrix[2][3] == Cell(RO, False)
    for address in (0x3FFFFFFF, 0x40200000):
        with pytest.raises(NoSuchPage):
            AFTER.run_of(address)
    with pytest.raises(NoSuchEndpoint):
        AFTER.right(0x8003, 0x40010000)


def test_prints_the_lines_of_show_and_audit() -> None:
    # `show` doesn't tell transactions apart, so the two last runs are one
    assert AFTER.show() == [
        "runner 8002",
        "pages 40000000 4000FFFF 8000 --- --- ---",
        "pages 40010000 4001FFFF 0000 rw- --- ---",
        "pages 40020000 40027FFF 8001 --- r-x ---",
        "pages 40028000 40028FFF 8001 --- rw- r--",
        "pages 40029000 401FFFFF 8001 --- rw- ---",
    ]
    assert AFTER.certificate()[3:5] == [
        "pages 40028000 40028FFF 8001 0000800100000001 --- rw- r--",
        "pages 40029000 4002AFFF 8001 0000800100000002 --- rw- ---",
    ]
    assert str(BEFORE) == "\n".join(BEFORE.show())


def test_finds_what_changed() -> None:
    assert list(BEFORE.changes(BEFORE)) == []
    changes = list(BEFORE.changes(AFTER))
    assert [(first, last) for first, last, _, _ in changes] == [(40, 40), (41, 42)]
    assert changes[0][2] is BEFORE.runs[3] and changes[0][3] is AFTER.runs[3]
    assert [(first, last) for first, last, _, _ in AFTER.changes(BEFORE)] == [(40, 40), (41, 42)]


def test_draws_a_picture() -> None:
    root = xml.fromstring(AFTER._repr_svg_())
    space = "{http://www.w3.org/2000/svg}"
    titles = [it.text for it in root.iter(f"{space}title")]
    assert titles[3] == "40028000-40028FFF, 1 page, owner 8001, in the open transaction 0000800100000001"
    assert len(titles) == len(AFTER.runs)
    styles = [it.get("class") for it in root.iter(f"{space}rect")]
    assert (styles.count("cell"), styles.count("borrowed"), styles.count("open")) == (4 * 6, 1, 2)
    words = [it.text for it in root.iter(f"{space}text")]
    assert words.count("r--") == 1 and words.count("r-x") == 1 and "▸8002" in words and " 8001" in words

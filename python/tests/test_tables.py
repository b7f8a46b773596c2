# SPDX-License-Identifier: MIT OR Apache-2.0
"""Machines whose tables stand elsewhere than at RAM's start: RAM is a block, so each of three endpoints has three pages."""
from __future__ import annotations

from dataclasses import replace
from uuid import UUID

import pytest
from conftest import EXAMPLES

from gorseplumb import AccessFault, Cause, Endpoint, Fault, Machine, Manifest, ManifestRefused, Ram, Region, Right

RAM, TABLES, BEHIND = 0x40000000, 256, 256 + 9


def pages(first: int, count: int = 1) -> Region:
    return Region(RAM + 0x1000 * first, count)


AROUND = Manifest(
    RAM,
    1,
    [
        Endpoint([pages(0, 16), pages(BEHIND)]),
        Endpoint([pages(TABLES - 1)], uuid=UUID(int=1)),
        Endpoint([pages(511)], uuid=UUID(int=2)),
    ],
    tables=TABLES,
)


def cause(manifest: Manifest) -> Cause:
    with pytest.raises(ManifestRefused) as refused:
        Machine(manifest)
    return refused.value.cause


def test_stand_amid_ram() -> None:
    with Machine(AROUND) as machine:
        for place, endpoint in enumerate((0, 0x8001, 0x8002)):
            assert machine.root(endpoint) == RAM + 0x1000 * (TABLES + 3 * place)
            assert all(machine.access(endpoint, page) is Right.NONE for page in range(TABLES, BEHIND))
        assert {machine.owner(page) for page in range(TABLES, BEHIND)} == {0x8000}
        assert machine.owner(TABLES - 1) == 0x8001 and machine.owner(BEHIND) == 0
        for page in (0, BEHIND):
            machine.write(RAM + 0x1000 * page, b"hello")
            assert machine.read(RAM + 0x1000 * page, 5) == b"hello"
        with pytest.raises(AccessFault) as fault:
            machine.read(RAM + 0x1000 * TABLES, 1)
        assert fault.value.fault is Fault.TRANSLATION and machine.audit()


def test_keep_bytes_on_both_sides() -> None:
    ram = Ram(1)
    for page in (0, 16, TABLES - 1, BEHIND, BEHIND + 1):
        ram.write(0x1000 * page, b"image")
    with Machine(AROUND, ram, keep=True) as machine:
        kept = [machine.page(page)[:5] == b"image" for page in (0, 16, TABLES - 1, BEHIND, BEHIND + 1)]
    assert kept == [True, False, True, True, False]


def test_stand_in_ram_and_apart_from_regions() -> None:
    assert cause(replace(AROUND, tables=504)) is Cause.TABLES_OUTSIDE
    assert cause(replace(AROUND, tables=-1)) is cause(replace(AROUND, tables=1 << 32)) is Cause.TABLES_OUTSIDE
    assert cause(replace(AROUND, tables=503)) is cause(replace(AROUND, tables=15)) is Cause.REGION_OUTSIDE
    Machine(replace(AROUND, tables=502)).close()


def test_no_text_says_it() -> None:
    one = Manifest.read(EXAMPLES / "machine.toml")
    moved = replace(one, tables=64)
    assert one.tables == 0 and moved.text() == one.text() and moved != one and repr(moved).endswith("tables=0x40)")
    with Machine(moved) as machine:
        assert machine.root(0) == RAM + 0x40000 and machine.manifest.tables == 64

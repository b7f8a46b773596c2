# SPDX-License-Identifier: MIT OR Apache-2.0
"""RAM that is lent: whose its bytes are, and when."""
from __future__ import annotations

import copy
import gc
import pickle
from typing import Callable

import pytest
from conftest import EXAMPLES
from test_machine import MANIFEST, RAM

from gorseplumb import Endpoint, Machine, Manifest, ManifestRefused, Ram, RamLent, Region, Right, WrongRamSize


def test_is_refused_while_it_is_lent() -> None:
    ram = Ram(1)
    ram.write(0x10000, b"stale")
    with Machine(MANIFEST, ram) as machine:
        assert ram.is_lent and machine.read(RAM + 0x10000, 5) == bytes(5)
        machine.write(RAM + 0x10000, b"hello")
        asks: list[Callable[[], object]] = [
            lambda: ram.read(0, 1),
            lambda: ram.write(0, b"x"),
            lambda: Machine(MANIFEST, ram),
        ]
        for asked in asks:
            with pytest.raises(RamLent):
                asked()
    assert not ram.is_lent and ram.read(0x10000, 5) == b"hello"


def test_keeps_the_bytes_of_regions_where_that_is_asked() -> None:
    ram = Ram(1)
    ram.write(0x20000, b"image")
    ram.write(0x80000, b"nobody's")
    with Machine(MANIFEST, ram, keep=True) as machine:
        assert machine.page(0x20)[:5] == b"image" and machine.page(0x80)[:8] == bytes(8)
    with Machine(MANIFEST, ram) as machine:
        assert machine.page(0x20)[:5] == bytes(5)
    with pytest.raises(ValueError, match="give a Ram"):
        Machine(MANIFEST, keep=True)


def test_stays_as_it_is_where_a_boot_is_refused() -> None:
    ram = Ram(1)
    ram.write(0, b"first")
    with pytest.raises(WrongRamSize):
        Machine(EXAMPLES / "partitions.toml", ram)
    with pytest.raises(ManifestRefused):
        Machine("ram_base = 0", ram)
    assert not ram.is_lent and ram.read(0, 5) == b"first"


def test_comes_back_when_nobody_has_the_machine() -> None:
    ram = Ram(1)
    Machine(MANIFEST, ram)
    gc.collect()
    assert not ram.is_lent
    # docs/MANIFEST.md: level 1 of the first endpoint has, in the place of 40000000, the address of level 2, plus 3
    assert ram.read(8, 8) == (RAM + 0x1000 + 3).to_bytes(8, "little")


def test_refuses_bytes_that_are_not_there() -> None:
    ram = Ram(1)
    assert len(ram) == 0x200000 and repr(ram) == "Ram(1)"
    for offset, size in ((-1, 1), (0x200000, 1), (0, 0x200001), (0, -1)):
        with pytest.raises(IndexError):
            ram.read(offset, size)
    with pytest.raises(IndexError):
        ram.write(0x1FFFFF, b"ab")
    for blocks in (0, 33):
        with pytest.raises(ValueError):
            Ram(blocks)


def test_is_not_copied() -> None:
    ram = Ram(1)
    copies: list[Callable[[object], object]] = [copy.copy, copy.deepcopy, pickle.dumps]
    for copied in copies:
        with pytest.raises(TypeError, match="^RAM isn't copied or pickled: make another"):
            copied(ram)


def test_boots_the_largest_machine_many_times() -> None:
    ram = Ram(32)
    first = Region(RAM + 0x100000, 16)
    manifest = Manifest(RAM, 32, [Endpoint([first])])
    for _ in range(3):
        with Machine(manifest, ram) as machine:
            assert machine.owner(16383) == 0x8000 and machine.access(0, 256) is Right.RW

# SPDX-License-Identifier: MIT OR Apache-2.0
"""Runs, grants and roots of a machine, and the judgement of its tables."""
from __future__ import annotations

from dataclasses import replace
from typing import Any, Callable

import pytest
from conftest import EXAMPLES, Program

from gorseplumb import Grant, GrantKind, Machine, NoSuchEndpoint, NoSuchPage, Ram, Right, Run, play

MANIFEST = EXAMPLES / "partitions.toml"
HANDLE = 0x0000800100000001


def shared(machine: Machine) -> Machine:
    """Plays the manual's shared page up to where 8002 holds it, which is line 31."""
    for _ in play(machine, (EXAMPLES / "sharing.trace").read_text().splitlines()[:30]):
        pass
    return machine


def test_tells_of_ram(partitions: Machine) -> None:
    assert (partitions.ram_base, partitions.ram_blocks, partitions.pages) == (0x40000000, 2, 1024)
    assert partitions.page_of(0x403FFFFF) == 1023
    with pytest.raises(NoSuchPage):
        partitions.page_of(0x40400000)
    partitions.write(0x40010FFF, b"ab")
    assert partitions.peek(0x40010FFF, 2) == b"ab" and partitions.peek(0x40010FFF, 0) == b""


def test_tells_of_roots(partitions: Machine) -> None:
    # docs/MANIFEST.md, `layout` of this manifest
    assert [partitions.root(endpoint) for endpoint in partitions.endpoints] == [0x40000000, 0x40004000, 0x40008000]
    with pytest.raises(NoSuchEndpoint):
        partitions.root(0x8003)


def test_runs_cover_all_pages(partitions: Machine) -> None:
    shared(partitions)
    runs = list(partitions.runs())
    assert runs[0].first == 0 and runs[-1].last == 1023
    assert all(one.last + 1 == other.first for one, other in zip(runs, runs[1:]))
    for run in runs:
        for page in (run.first, run.last):
            assert partitions.owner(page) == run.owner
            assert tuple(partitions.access(endpoint, page) for endpoint in partitions.endpoints) == run.rights
    with pytest.raises(NoSuchPage, match="^RAM has no page 0x400: it has 0x400 pages$"):
        partitions.run_at(1024)
    with pytest.raises(NoSuchPage, match=r"0x400 pages; page_of\(0x40021000\) is the page of that address$"):
        partitions.owner(0x40021000)


def test_tells_the_open_transaction(partitions: Machine) -> None:
    shared(partitions)
    assert partitions.run_at(0x28) == Run(0x28, 0x28, 0x8001, HANDLE, (Right.NONE, Right.RW, Right.RO))


def test_tells_by_what_a_page_is_reached(partitions: Machine) -> None:
    shared(partitions)
    assert partitions.granted(0x8001, 0x28) == Grant(GrantKind.SHARED, HANDLE)
    assert partitions.granted(0x8002, 0x28) == Grant(GrantKind.HELD, HANDLE)
    assert partitions.granted(0x8001, 0x29) == Grant(GrantKind.OWN, None)
    assert partitions.granted(0, 0x28) == Grant(GrantKind.NONE, None)


def test_judges_certificates(partitions: Machine) -> None:
    shared(partitions)
    runs = list(partitions.runs())
    assert partitions.audit() and partitions.audit(runs)
    place = next(at for at, run in enumerate(runs) if run.first == 0x28)
    wrong = replace(runs[place], rights=(Right.NONE, Right.RW, Right.RW))
    assert not partitions.audit([*runs[:place], wrong, *runs[place + 1 :]])
    assert not partitions.audit(runs[1:]) and not partitions.audit([])
    with pytest.raises(ValueError, match="no run of a certificate"):
        partitions.audit([replace(runs[0], last=-1)])


def test_judges_what_any_iterable_gives(partitions: Machine) -> None:
    shared(partitions)
    assert partitions.audit(partitions.runs()) and partitions.audit(partitions.access_map().runs)
    assert partitions.audit(run for run in partitions.runs())
    assert not partitions.audit(run for run in partitions.runs() if run.first != 0x28)
    assert not partitions.audit(iter(()))


def test_says_what_are_no_runs(partitions: Machine) -> None:
    run = partitions.run_at(0)
    given: list[tuple[Any, str]] = [  # a type checker refuses these
        (run, f"runs is an iterable of Run, and not {run!r}"[:60]),
        (partitions.access_map(), "runs is an iterable of Run, and not AccessMap("),
        (5, "runs is an iterable of Run, and not the int 5"),
        ([run, 1], "runs[1] is a Run, and not the int 1"),
        ("run", "runs[0] is a Run, and not the str 'r'"),
    ]
    for odd, told in given:
        asks: list[Callable[[], object]] = [
            lambda: partitions.audit(odd),
            lambda: Ram(2).audit(0x40000000, [0x40000000], odd),
        ]
        for asked in asks:
            with pytest.raises(TypeError) as wrong:
                asked()
            assert str(wrong.value).startswith(told)
    with pytest.raises(TypeError, match=r": give \[Run\(\.\.\)\]$"):
        partitions.audit(untyped(run))
    with pytest.raises(TypeError, match=": give its runs$"):
        partitions.audit(untyped(partitions.access_map()))
    with pytest.raises(TypeError, match="^an address is a number, and not the str '40000000': give 0x40000000$"):
        Ram(2).audit(0x40000000, untyped(["40000000"]), [run])


def untyped(value: object) -> Any:
    """A value of which no type checker knows what it is."""
    return value


def test_prints_what_the_program_audits(program: Program) -> None:
    trace = (EXAMPLES / "sharing.trace").read_text().replace("show\n", "audit\nshow\n") + "audit\n"
    with Machine(MANIFEST) as machine:
        assert list(play(machine, trace)) == program.lines("run", MANIFEST, "-", text=trace.encode())


def test_judges_the_tables_in_any_bytes() -> None:
    ram = Ram(2)
    with Machine(MANIFEST, ram) as machine:
        shared(machine)
        runs, roots = list(machine.runs()), [machine.root(endpoint) for endpoint in machine.endpoints]
    assert ram.audit(0x40000000, roots, runs)
    assert not ram.audit(0x44000000, roots, runs)
    assert ram.audit(0x40000000, iter(roots), iter(runs)) and not ram.audit(0x40000000, iter(roots), iter(runs[1:]))
    reading = (run for run in runs if ram.read(0, 1) is not None)
    assert ram.audit(0x40000000, roots, reading), "an iterable may ask the RAM that is judged"
    word = bytearray(ram.read(0xA000 + 8 * 0x28, 8))
    assert word != bytes(8), "8002's level 3 table has the page that it holds"
    ram.write(0xA000 + 8 * 0x28, bytes(8))
    assert not ram.audit(0x40000000, roots, runs)
    with pytest.raises(ValueError, match="below 4 GiB"):
        ram.audit(1 << 32, roots, runs)
    assert not ram.is_lent


def test_draws_the_machines_access(partitions: Machine) -> None:
    shown = shared(partitions).access_map()
    assert shown.right(0x8002, 0x40028000) is Right.RO
    assert "40028000-40028FFF, 1 page, owner 8001" in shown._repr_svg_()
    assert [line.split()[:2] for line in shown.show()[1:]] == [
        ["pages", f"{shown.span(run)[0]:08X}"] for run in shown.runs
    ]

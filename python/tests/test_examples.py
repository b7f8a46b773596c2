# SPDX-License-Identifier: MIT OR Apache-2.0
"""The manual's worked examples, each byte."""
from __future__ import annotations

import pytest
from conftest import BUILT_IN, EXAMPLES, TOP, Program

from gorseplumb import Machine, play


@pytest.mark.parametrize("name", ["accesses", "messages", "sharing"])
def test_prints_what_the_manual_has(partitions: Machine, name: str) -> None:
    printed = [f"{line}\n" for line in play(partitions, EXAMPLES / f"{name}.trace")]
    assert "".join(printed) == (EXAMPLES / f"{name}.out").read_text()


def test_prints_what_is_refused(partitions: Machine) -> None:
    told = (EXAMPLES / "refused.out").read_text().splitlines()
    wanted = [line for line in told if not line.startswith("# refused: ")]
    assert list(play(partitions, EXAMPLES / "refused.trace")) == wanted


def test_prints_what_the_front_page_has() -> None:
    with Machine(BUILT_IN) as machine:
        printed = list(play(machine, EXAMPLES / "first.trace"))
    quoted = [line[4:] for line in (TOP / "README.md").read_text().splitlines() if line.startswith("    ")]
    at = next(place for place, line in enumerate(quoted) if line.startswith("regs 0000 "))
    wanted = quoted[at : at + len(printed)]
    assert printed[1:] == wanted[1:]
    assert printed[0].startswith(wanted[0].removesuffix(" .."))


@pytest.mark.parametrize("name", ["calls", "first", "guards"])
def test_prints_what_the_program_prints(program: Program, name: str) -> None:
    manifest, trace = EXAMPLES / "machine.toml", EXAMPLES / f"{name}.trace"
    with Machine(manifest) as machine:
        assert list(play(machine, trace)) == program.lines("run", manifest, trace)
    with Machine(manifest) as machine:
        told = program.lines("run", "--number", "--names", manifest, trace)
        assert list(play(machine, trace, numbers=True, names=True)) == told

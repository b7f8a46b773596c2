# SPDX-License-Identifier: MIT OR Apache-2.0
"""Traces that the program generates: the machine's text is the program's, byte by byte."""
from __future__ import annotations

import re
from typing import NamedTuple

import pytest
from conftest import EXAMPLES, TOP, Program

from gorseplumb import Machine, Ram, play

LINES = 140_000
MANIFEST = EXAMPLES / "partitions.toml"


class Played(NamedTuple):
    """A trace, and what the program prints of it."""

    trace: bytes
    text: bytes


@pytest.fixture(scope="module")
def operations(program: Program) -> Played:
    """Calls, loads, stores and fetches of a generated trace."""
    lines = program("generate", "--seed", 7, "--lines", LINES, MANIFEST).stdout
    assert lines.count(b"\n") == LINES
    trace = re.sub(rb"^(?:show|audit|#.*)\n", b"", lines, flags=re.M)
    assert trace.count(b"\n") >= 100_000
    return Played(trace, program("run", MANIFEST, "-", text=trace).stdout)


@pytest.mark.parametrize("blocks", [0, 2])
def test_operations_give_the_programs_bytes(operations: Played, blocks: int) -> None:
    with Machine(MANIFEST, Ram(blocks) if blocks else None) as machine:
        assert text_of(machine, operations.trace) == operations.text


@pytest.mark.parametrize("name", ["examples/partitions.toml", "board/scenes/generators.toml"])
def test_lines_give_the_programs_bytes(program: Program, name: str) -> None:
    trace = program("generate", "--seed", 11, "--lines", LINES, TOP / name).stdout
    with Machine(TOP / name) as machine:
        assert text_of(machine, trace) == program("run", TOP / name, "-", text=trace).stdout


def text_of(machine: Machine, trace: bytes) -> bytes:
    """What is printed of a trace."""
    return "".join(f"{line}\n" for line in play(machine, trace)).encode()

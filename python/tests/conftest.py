# SPDX-License-Identifier: MIT OR Apache-2.0
"""What all tests share."""
from __future__ import annotations

import os
import shutil
import subprocess
from pathlib import Path
from typing import Iterator
from uuid import UUID

import pytest

from gorseplumb import Endpoint, Machine, Manifest, Properties, Ram, Region, Right

TOP = Path(__file__).resolve().parents[2]
EXAMPLES = TOP / "examples"
PROGRAM = os.environ.get("FFAPLAY")

BUILT_IN = Manifest(
    0x40000000,
    1,
    [
        Endpoint([Region(0x40010000, 16, Right.RW)], Properties(6)),
        Endpoint(
            [Region(0x40020000, 16, Right.RWX)],
            Properties(15),
            UUID("00112233-4455-6677-8899-aabbccddeeff"),
        ),
    ],
)
"""The machine of `ffaplay demo` (docs/COMMANDS.md)."""


class Program:
    """The program `ffaplay`."""

    def __init__(self, path: str) -> None:
        self.path = path

    def __call__(self, *words: object, text: bytes = b"") -> subprocess.CompletedProcess[bytes]:
        return subprocess.run([self.path, *map(str, words)], input=text, capture_output=True, check=False)

    def lines(self, *words: object, text: bytes = b"") -> list[str]:
        """What it prints, which is done without a fault."""
        done = self(*words, text=text)
        assert done.returncode == 0, done.stderr.decode()
        return done.stdout.decode().splitlines()


@pytest.fixture(scope="session")
def program() -> Program:
    if PROGRAM is None or shutil.which(PROGRAM) is None:
        pytest.skip("FFAPLAY names no program")
    return Program(PROGRAM)


@pytest.fixture(params=["heap", "lent"])
def partitions(request: pytest.FixtureRequest) -> Iterator[Machine]:
    """The manual's machine, on the heap's RAM and on lent RAM."""
    ram = Ram(2) if request.param == "lent" else None
    with Machine(EXAMPLES / "partitions.toml", ram) as machine:
        yield machine

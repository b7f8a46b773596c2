# SPDX-License-Identifier: MIT OR Apache-2.0
"""The worked rows of tests/rows: the library answers each line as its guard wants, on the heap's RAM and on lent RAM."""
from __future__ import annotations

import re
from dataclasses import replace
from importlib.machinery import SourceFileLoader
from importlib.util import module_from_spec, spec_from_loader
from types import ModuleType

import pytest
from conftest import TOP

from gorseplumb import Ffa, Form, Machine, Manifest, Properties, Ram, play


def play_rows() -> ModuleType:
    """The script that plays rows by the program."""
    loader = SourceFileLoader("play_rows", str(TOP / "tests" / "play-rows"))
    spec = spec_from_loader(loader.name, loader)
    assert spec is not None
    module = module_from_spec(spec)
    loader.exec_module(module)
    return module


SCRIPT = play_rows()
ROWS = {row: SCRIPT.joined(row) for row in SCRIPT.every_row()}


def whole(guard: str) -> str:
    """The line that a guard wants, whose registers may lack zeros in front, and the last ones that are 0."""
    word, *numbers = guard.split(" ")
    if word != "regs":
        return guard
    runner, *x = numbers
    return " ".join([word, runner.zfill(4), *(it.zfill(16) for it in x + ["0"] * (8 - len(x)))])


def manifest_of(name: str, ffa: Ffa) -> Manifest:
    """The manifest of a row. The library reads a text for FF-A 1.1, so an endpoint of 1.2 gets its form and properties after that."""
    text = (TOP / "tests" / "rows" / name).read_text(encoding="utf-8")
    of_1_1 = re.sub("^properties = (.*)$", lambda found: f"properties = {int(found[1], 0) & 15}", text, flags=re.M)
    read = Manifest.read(of_1_1.replace('"1.2"', '"1.1"'))
    forms = [Form.FFA_1_2 if it == "1.2" else None for it in re.findall('^version = "(.*)"$', text, re.M)]
    properties = [Properties(int(it, 0)) for it in re.findall("^properties = (.*)$", text, re.M)]
    endpoints = [
        replace(it, form=form or it.form, properties=has)
        for it, form, has in zip(read.endpoints, forms, properties, strict=True)
    ]
    return replace(read, endpoints=endpoints, ffa=ffa)


@pytest.mark.parametrize("blocks", [0, 1], ids=["heap", "lent"])
@pytest.mark.parametrize("row", ROWS)
def test_a_row_gives_what_it_wants(row: str, blocks: int) -> None:
    lines = ROWS[row]
    wanted = [whole(line.removeprefix("#= ")) for line in lines if line.startswith("#= ")]
    ffa = Ffa.V1_2 if "--ffa" in SCRIPT.named(lines, "with") else Ffa.V1_1
    for name in SCRIPT.named(lines, "on"):
        with Machine(manifest_of(name, ffa), Ram(blocks) if blocks else None) as machine:
            assert list(play(machine, lines)) == wanted

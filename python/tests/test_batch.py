# SPDX-License-Identifier: MIT OR Apache-2.0
"""Many operations by one call: the outcomes are those of one call for each."""
from __future__ import annotations

import pytest
from conftest import EXAMPLES, Program

from gorseplumb import Batch, Call, Data, Done, Fault, Faulted, Fetch, Function, Load, Machine, MachineEnded
from gorseplumb import Operation, Store
from gorseplumb.trace import lines, parse

MANIFEST = EXAMPLES / "partitions.toml"


def test_gives_each_outcome(partitions: Machine) -> None:
    identity = Call((Function.FFA_ID_GET,))
    asked: list[Operation] = [Store(0x40010000, 2, 0xABCD), Load(0x40010001, 1), Fetch(0x40010000), identity]
    told = partitions.run(asked)
    assert list(told[:3]) == [Done(), Data(0xAB, 1), Faulted(Fault.PERMISSION)]
    assert str(told[-1]).startswith("regs 0000 0000000084000061 ") and len(told) == 4
    with pytest.raises(IndexError):
        told[4]
    assert len(partitions.run([])) == 0 and not partitions.is_fresh


def test_shows_what_is_in_it(partitions: Machine) -> None:
    batch = Batch([Load(0x40010000, 2), Load(0x40200000, 1)])
    assert repr(batch) == "Batch([Load(address=0x40010000, size=2), Load(address=0x40200000, size=1)])"
    assert repr(partitions.run(batch)) == "<Outcomes: [Data(value=0, size=2), Faulted(fault=Fault.TRANSLATION)]>"


def test_gives_the_outcomes_of_a_generated_trace(program: Program) -> None:
    trace = program("generate", "--seed", 3, "--lines", 100_000, MANIFEST).stdout
    commands = [parse(line) for _, line in lines(trace)]
    batch = Batch(it for it in commands if isinstance(it, (Call, Load, Store, Fetch)))
    plain = b"".join(f"{it}\n".encode() for it in batch.operations)
    with Machine(MANIFEST) as machine:
        assert [str(it) for it in machine.run(batch)] == program.lines("run", MANIFEST, "-", text=plain)


def test_is_recorded_and_refused_as_one_by_one() -> None:
    machine = Machine(MANIFEST)
    with machine.record() as recording:
        machine.run([Load(0x40010000, 1), Call((Function.FFA_RUN, 0x80010000)), Load(0x40010000, 1)])
    assert recording.text.splitlines()[-3:] == ["#@ 8001", "load 40010000 1", "#= fault translation"]
    machine.close()
    with pytest.raises(MachineEnded):
        machine.run([Load(0x40010000, 1)])

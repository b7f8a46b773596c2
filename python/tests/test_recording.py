# SPDX-License-Identifier: MIT OR Apache-2.0
"""Recordings: a trace that the program plays to the same answers, and lines of JSON."""
from __future__ import annotations

from pathlib import Path

import pytest
from conftest import EXAMPLES, Program

from gorseplumb import Call, DataAccess, Fault, Faulted, Function, IndirectMessage, Kind, Machine, NotRecordable
from gorseplumb import Interrupt, Offer, PageRange, Receiver, jsonlines, play

MANIFEST = EXAMPLES / "partitions.toml"
STRICT = ("run", "--strict")


def bench(machine: Machine) -> None:
    """What a test bench may do: calls, messages, a lend, and accesses that fault."""
    machine.write(0x40010003, b"hello")
    machine.do(Function.FFA_RUN, partition=0x8002)
    machine.do(Function.FFA_RXTX_MAP, tx=0x40206000, rx=0x40207000, pages=1)
    machine.do(Function.FFA_MSG_WAIT)
    machine.do(Function.FFA_RUN, partition=0x8001)
    machine.do(Function.FFA_RXTX_MAP, tx=0x4002E000, rx=0x4002F000, pages=1)
    machine.send(IndirectMessage(0x8001, 0x8002, b"a message"), 0x4002E000)
    offer = Offer(Kind.LEND, 0x8001, (Receiver(0x8002, DataAccess.RW),), (PageRange(0x40029000, 1),))
    machine.send(offer, 0x4002E000)
    assert machine.load(0x40029000, 1) == Faulted(Fault.TRANSLATION)
    machine.call(0x84000083, (1 << 64) - 1)


def test_is_played_by_the_program_to_the_same_answers(program: Program, tmp_path: Path) -> None:
    path = tmp_path / "recorded.trace"
    with Machine(MANIFEST) as machine, machine.record(path) as recording:
        recording.note("made by a test\n= no guard, \x80 no ASCII")
        bench(machine)
    text = path.read_text()
    assert text.count("#= ") > 25 and "#@ 8002" in text
    assert program(*STRICT, MANIFEST, path).returncode == 0
    changed = text.replace("#= fault translation", "#= data 00", 1)
    done = program(*STRICT, MANIFEST, "-", text=changed.encode())
    assert done.returncode == 5 and b'expected "data 00", found "fault translation"' in done.stderr


def test_has_what_show_and_audit_print(program: Program) -> None:
    with Machine(MANIFEST) as machine, machine.record() as recording:
        bench(machine)
        shown, audited = recording.show(), recording.audit()
    assert shown[0] == "runner 8001" and audited[-1] == "agrees"
    assert program(*STRICT, MANIFEST, "-", text=recording.text.encode()).returncode == 0
    changed = recording.text.replace("#= agrees", "#= differs").encode()
    assert program(*STRICT, MANIFEST, "-", text=changed).returncode == 5


def test_is_played_by_the_package_to_the_same_answers(partitions: Machine) -> None:
    with partitions.record() as recording:
        bench(partitions)
    with Machine(MANIFEST) as machine:
        played = list(play(machine, recording.text, strict=True))
    assert played == [line[3:] for line in recording.text.splitlines() if line.startswith("#= ")]


def test_begins_at_the_boot_and_ends_where_it_is_stopped() -> None:
    with Machine(MANIFEST) as machine:
        with machine.record() as recording:
            machine.store(0x40010000, 1, 1)
        assert recording.text == "#@ 0000\nstore 40010000 01\n#= done\n"
        machine.store(0x40010000, 1, 2)
        assert "store 40010000 02" not in recording.text
        with pytest.raises(NotRecordable, match="begins at the boot"):
            machine.record()


def test_lines_of_json_are_read_as_they_were_written(partitions: Machine, tmp_path: Path) -> None:
    path = tmp_path / "recorded.json"
    with partitions.record() as trace, partitions.record_json(path):
        bench(partitions)
    entries = [jsonlines.loads(line) for line in path.read_text().splitlines()]
    assert [str(it.outcome) for it in entries] == [
        line[3:] for line in trace.text.splitlines() if line.startswith("#= ")
    ]
    assert {it.processor for it in entries} == {0}
    with Machine(MANIFEST) as machine:
        for entry in entries:
            assert not isinstance(entry.operation, Interrupt)
            assert machine.perform(entry.operation) == entry.outcome


def test_a_line_of_json_is_as_documented() -> None:
    with Machine(MANIFEST) as machine:
        call = Call((Function.FFA_RUN, 0x80010000))
        line = jsonlines.dumps(call, machine.perform(call))
    assert line == (
        '{"call": ["8400006D", "80010000", "0", "0", "0", "0", "0", "0"], "outcome": {"runner": "8001", '
        '"regs": ["8400006D", "80010000", "0", "0", "0", "0", "0", "0"]}}'
    )
    no_call, no_fault = '{"call": [], "outcome": {"done": true}}', '{"fetch": "4", "outcome": {"fault": "x"}}'
    for wrong in ("", "{}", "[]", no_call, no_fault):
        with pytest.raises(ValueError, match="no operation with its outcome"):
            jsonlines.loads(wrong)

# SPDX-License-Identifier: MIT OR Apache-2.0
"""Interrupts, and a machine that several processors run."""
from __future__ import annotations

from dataclasses import replace
from pathlib import Path

import pytest
from conftest import EXAMPLES, Program

from gorseplumb import Act, Busy, Call, Check, Data, Done, Fault, Faulted, Fetch, Ffa, Function, Interrupt, Load, Machine
from gorseplumb import MachineEnded, Manifest, NoData, NoSuchProcessor, Outcome, Registers, Resumed, Store, Watcher, jsonlines, play
from gorseplumb.log import play as play_log
from gorseplumb.log import read_log
from gorseplumb.session import Session

RUN_8001 = (Function.FFA_RUN, 0x80010000)
RUN_8002 = (Function.FFA_RUN, 0x80020000)


def told(runner: int, *x: int) -> Registers:
    return Registers(runner, (*x, *(0,) * (8 - len(x))))


BUSY = told(0, Function.FFA_ERROR, 0, 0xFFFFFFFC)


def on(machine: Machine, processor: int) -> Machine:
    machine.select(processor)
    return machine


def runners(machine: Machine) -> list[int]:
    return [on(machine, processor).runner for processor in range(8)]


def test_a_partition_is_preempted_and_goes_on_elsewhere(partitions: Machine) -> None:
    assert partitions.processor == 0 and partitions.interrupt() == Done()
    assert partitions.call(*RUN_8001) == told(0x8001, *RUN_8001)
    assert partitions.store(0x40028000, 4, 0x12345678) == Done()
    assert partitions.interrupt() == told(0, Function.FFA_INTERRUPT, 0x80010000)
    with pytest.raises(Busy, match="the receiver is not waiting: endpoint 8001, which is preempted"):
        partitions.do(Function.FFA_MSG_SEND_DIRECT_REQ, sender=0, receiver=0x8001)
    assert partitions.why(Call(RUN_8001)) is None
    resumed = on(partitions, 1).call(*RUN_8001)
    assert resumed == Resumed(0x8001) and str(resumed) == "resumed 8001" and repr(resumed) == "Resumed(runner=0x8001)"
    assert resumed != told(0x8001) and resumed.x == (0,) * 8 and resumed.function is None and resumed.ok() is resumed
    assert partitions.processor == 1 and partitions.runner == 0x8001
    assert runners(partitions) == [0, 0x8001, 0, 0, 0, 0, 0, 0]
    assert on(partitions, 0).call(*RUN_8001) == BUSY and partitions.runner == 0
    assert on(partitions, 1).load(0x40028000, 4) == Data(0x12345678, 4)
    assert partitions.fetch(0x40020000) == Data(0, 4)
    assert on(partitions, 0).load(0x40028000, 4) == Faulted(Fault.TRANSLATION)


def test_each_processor_runs_a_partition(partitions: Machine) -> None:
    partitions.call(*RUN_8001)
    assert on(partitions, 7).call(*RUN_8002) == told(0x8002, *RUN_8002)
    assert runners(partitions) == [0x8001, 0, 0, 0, 0, 0, 0, 0x8002]
    assert on(partitions, 3).call(*RUN_8002) == BUSY
    assert on(partitions, 7).interrupt() == told(0, Function.FFA_INTERRUPT, 0x80020000)
    assert on(partitions, 0).call(Function.FFA_MSG_WAIT) == told(0, Function.FFA_MSG_WAIT, 0x80010000)
    assert list(partitions.run([Call(RUN_8002)])) == [Resumed(0x8002)]


INFO_GET, INFO_GET_64 = Function.FFA_NOTIFICATION_INFO_GET, Function.FFA_NOTIFICATION_INFO_GET_64


def test_the_normal_world_is_told_once_whose_notifications_are_pending() -> None:
    success_64 = Function.FFA_SUCCESS_64
    assert (INFO_GET, INFO_GET_64, success_64) == (0x84000083, 0xC4000083, 0xC4000061)
    no_data = told(0, Function.FFA_ERROR, 0, 0xFFFFFFF7)
    done = told(0, Function.FFA_SUCCESS)
    with Machine(replace(Manifest.read(EXAMPLES / "partitions.toml"), ffa=Ffa.V1_2)) as machine:
        assert on(machine, 2).call(Function.FFA_FEATURES, INFO_GET_64) == done
        assert machine.call(Function.FFA_NOTIFICATION_BITMAP_CREATE, 0, 4) == done
        assert machine.call(INFO_GET) == no_data and not machine.sri_pending()
        assert machine.call(Function.FFA_NOTIFICATION_BIND, 0x80010000, 0, 1) == done
        on(machine, 0).call(*RUN_8001)
        machine.call(Function.FFA_NOTIFICATION_SET, 0x80010000, 0, 1)
        assert machine.sri_pending()
        assert on(machine, 2).call(INFO_GET_64) == told(0, success_64, 0, 0x80)
        assert machine.call(INFO_GET_64) == no_data and not machine.sri_pending()
        with pytest.raises(NoData, match="check 2: the normal world has been told of all pending notifications$") as nothing:
            machine.do(INFO_GET)
        assert nothing.value.reason is not None and nothing.value.reason.check is Check.NOTHING_TO_TELL
        assert machine.call(Function.FFA_NOTIFICATION_GET, 0x00020000, 7) == told(0, Function.FFA_SUCCESS, 0, 1)
        on(machine, 0).call(Function.FFA_NOTIFICATION_SET, 0x80010000, 0, 1)
        assert on(machine, 2).call(INFO_GET) == told(0, Function.FFA_SUCCESS, 0, 0x80)


def test_on_a_machine_of_ffa_1_1_nobody_is_told(partitions: Machine) -> None:
    unsupported = told(0, Function.FFA_ERROR, 0, 0xFFFFFFFF)
    invalid = told(0, Function.FFA_ERROR, 0, 0xFFFFFFFE)
    assert on(partitions, 2).call(Function.FFA_FEATURES, INFO_GET) == unsupported
    assert partitions.call(Function.FFA_NOTIFICATION_BITMAP_CREATE, 0, 2) == invalid
    partitions.do(Function.FFA_NOTIFICATION_BITMAP_CREATE, endpoint=0, contexts=1)
    partitions.do(Function.FFA_NOTIFICATION_BIND, sender=0x8001, receiver=0, bits=1)
    on(partitions, 0).call(*RUN_8001)
    partitions.do(Function.FFA_NOTIFICATION_SET, sender=0x8001, receiver=0, bits=1)
    assert partitions.npi_pending(0) and not partitions.sri_pending()
    assert on(partitions, 2).call(INFO_GET_64) == unsupported
    assert partitions.call(Function.FFA_NOTIFICATION_GET, 0x00010000, 7) == invalid


def test_there_are_eight_processors(partitions: Machine) -> None:
    partitions.select(7)
    for processor in (8, -1, 1 << 32):
        with pytest.raises(NoSuchProcessor, match="they are 0 to 7"):
            partitions.select(processor)
    with pytest.raises(TypeError):
        partitions.select("0")  # type: ignore[arg-type]
    assert partitions.is_fresh and partitions.processor == 7
    partitions.close()
    with pytest.raises(MachineEnded):
        partitions.select(0)
    with pytest.raises(MachineEnded):
        partitions.interrupt()


ACTS: tuple[tuple[int, Act], ...] = (
    (0, Call(RUN_8001)),
    (0, Store(0x40028000, 2, 0xABCD)),
    (0, Interrupt()),
    (1, Call(RUN_8001)),
    (1, Load(0x40028000, 2)),
    (1, Fetch(0x40020000)),
    (0, Load(0x40028000, 2)),
)


def test_they_are_written_as_lines_of_json(partitions: Machine, tmp_path: Path) -> None:
    path = tmp_path / "recorded.json"
    with partitions.record_json(path):
        outcomes = [on(partitions, processor).perform(act) for processor, act in ACTS]
    lines = path.read_text().splitlines()
    entries = [jsonlines.loads(line) for line in lines]
    assert [(it.processor, it.operation, it.outcome) for it in entries] == [
        (processor, act, outcome) for (processor, act), outcome in zip(ACTS, outcomes)
    ]
    assert lines[2].startswith('{"interrupt": true, "outcome": {"runner": "0000"')
    assert lines[3].startswith('{"on": 1, "call": ') and lines[3].endswith('"outcome": {"resumed": "8001"}}')


TRACE = """#@ 0000
call 8400006D 80010000
#= regs 8001 000000008400006D 0000000080010000 {zeros}
#@ 8001
store 40028000 ABCD
#= done
interrupt
#= regs 0000 0000000084000062 0000000080010000 {zeros}
on 1
#@ 0000
call 8400006D 80010000
#= resumed 8001
#@ 8001
load 40028000 2
#= data ABCD
fetch 40020000
#= data 00000000
on 0
#@ 0000
load 40028000 2
#= fault translation
on 1
show
""".format(zeros=" ".join(["0" * 16] * 6))


def test_they_are_written_as_a_trace(partitions: Machine) -> None:
    with partitions.record() as recording:
        for processor, act in ACTS:
            on(partitions, processor).perform(act)
        on(partitions, 1)
        shown = recording.show()
    assert shown[0] == "runner 8001"
    assert recording.text == TRACE + "".join(f"#= {line}\n" for line in shown)
    with Machine(EXAMPLES / "partitions.toml") as machine:
        played = list(play(machine, recording.text, strict=True))
        assert played == [line[3:] for line in recording.text.splitlines() if line.startswith("#= ")]
        assert machine.processor == 1


def test_the_program_plays_the_trace_to_the_same_answers(program: Program, partitions: Machine) -> None:
    with partitions.record() as recording:
        for processor, act in ACTS:
            on(partitions, processor).perform(act)
    words = ("run", "--strict", "--processors", 2, EXAMPLES / "partitions.toml", "-")
    assert program(*words, text=recording.text.encode()).returncode == 0
    assert program(*words, text=recording.text.replace("resumed 8001", "resumed 8002").encode()).returncode == 5


def test_a_log_has_them(partitions: Machine) -> None:
    log = "84000069\n0000: 8400006D 80010000\ninterrupt -> 0000: 84000062 80010000\non 3\n8400006D 80010000 -> resumed 8001\n"
    assert play_log(partitions, read_log(log)) is None
    assert partitions.processor == 3 and partitions.runner == 0x8001
    with Machine(EXAMPLES / "partitions.toml") as machine:
        difference = play_log(machine, read_log(log.replace("resumed 8001", "resumed 8002")))
        assert difference is not None and (difference.expected, difference.found) == ("resumed 8002", "resumed 8001")


def test_a_session_takes_them_back(program: Program, tmp_path: Path) -> None:
    session = Session(EXAMPLES / "partitions.toml")
    for line in ("FFA_RUN partition=8001", "on 1", "FFA_RUN partition=8002", "on 0"):
        session.line(line)
    assert session.line("interrupt")[0].startswith("regs 0000 0000000084000062 0000000080010000 ")
    assert session.line("on 1") == [] and session.line("who") == ["runner 8002, of 0000 8001 8002"]
    assert session.line("on 8") == ["error: column 4: the processor's number must be less than 8"]
    path = tmp_path / "saved.trace"
    assert session.line(f"save {path}") == ["3 operations"]
    assert program("run", "--strict", "--processors", 2, EXAMPLES / "partitions.toml", path).returncode == 0
    assert session.line("undo 2") == ["undone: FFA_RUN partition=8002", "undone: interrupt"]
    assert session.line("who") == ["runner 0000, of 0000 8001 8002"]
    session.line("on 0")
    assert session.line("who") == ["runner 8001, of 0000 8001 8002"]


def test_a_watcher_is_told_of_them(partitions: Machine) -> None:
    class Noting(Watcher):
        def __init__(self) -> None:
            self.noted: list[tuple[int, Act, Outcome]] = []

        def after(self, machine: Machine, act: Act, outcome: Outcome) -> None:
            self.noted.append((machine.processor, act, outcome))

    watcher = Noting()
    partitions.watch(watcher)
    on(partitions, 5).interrupt()
    on(partitions, 2).load(0x40010000, 1)
    assert watcher.noted == [(5, Interrupt(), Done()), (2, Load(0x40010000, 1), Data(0, 1))]

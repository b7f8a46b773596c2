# SPDX-License-Identifier: MIT OR Apache-2.0
"""Copies of a machine: each is the same, and each its own from then on."""
from __future__ import annotations

import copy
import gc
from dataclasses import replace
from typing import Callable

import pytest
from conftest import EXAMPLES
from test_machine import MANIFEST, RAM

from gorseplumb import Act, Call, Data, Fetch, Ffa, Function, Load, Machine, MachineEnded, Manifest, NotRecordable, Operation
from gorseplumb import Outcome, Ram, RamLent, Store, Watcher, WrongRamSize
from gorseplumb.trace import parse

COPIES: list[Callable[[Machine], Machine]] = [
    Machine.fork,
    lambda machine: machine.fork(Ram(machine.ram_blocks)),
    copy.copy,
    copy.deepcopy,
]
PLACE = RAM + 0x10000


def told(machine: Machine) -> list[object]:
    """What a machine tells where it is asked, and each byte of its RAM."""
    selected, runner = machine.processor, machine.runner
    bytes_of = [machine.page(page) for page in range(machine.pages)]
    running = [runner_of(machine, processor) for processor in range(8)]
    machine.select(selected)
    return [selected, runner, running, machine.endpoints, list(machine.runs()), bytes_of, machine.manifest]


def runner_of(machine: Machine, processor: int) -> int:
    machine.select(processor)
    return machine.runner


@pytest.mark.parametrize("copied", COPIES)
def test_are_the_machine_in_each_state(partitions: Machine, copied: Callable[[Machine], Machine]) -> None:
    lines = [parse(line) for line in (EXAMPLES / "sharing.trace").read_text("utf-8").splitlines()]
    operations: list[Operation] = [it for it in lines if isinstance(it, (Call, Load, Store, Fetch))]
    forks, outcomes = [], []
    for operation in operations:
        forks.append(copied(partitions))
        outcomes.append(partitions.perform(operation))
        with copied(partitions) as fork:
            assert fork.take_change() == partitions.take_change() and fork.take_change() is None
    last = told(partitions)
    for place, fork in enumerate(forks):
        assert list(fork.run(operations[place:])) == outcomes[place:]
        assert told(fork) == last and fork.audit()
        fork.close()
    assert told(partitions) == last


@pytest.mark.parametrize("copied", COPIES)
def test_have_their_own(copied: Callable[[Machine], Machine]) -> None:
    machine = Machine(MANIFEST)
    machine.store(PLACE, 1, 1)
    fork = copied(machine)
    fork.store(PLACE, 1, 2)
    assert machine.load(PLACE, 1) == Data(1, 1)
    machine.close()
    assert fork.load(PLACE, 1) == Data(2, 1)
    with pytest.raises(MachineEnded):
        copied(machine)


def test_keep_what_the_normal_world_was_told() -> None:
    with Machine(replace(Manifest.read(EXAMPLES / "machine.toml"), ffa=Ffa.V1_2)) as machine:
        machine.call(Function.FFA_RUN, 0x80010000)
        machine.call(Function.FFA_NOTIFICATION_BIND, 0x00008001, 0, 8)
        machine.call(Function.FFA_MSG_WAIT)
        machine.call(Function.FFA_NOTIFICATION_SET, 0x00008001, 0, 8)
        with machine.fork() as untold:
            assert machine.sri_pending() and untold.sri_pending()
            machine.call(0x84000083)
            with machine.fork() as fork:
                assert untold.sri_pending() and not machine.sri_pending() and not fork.sri_pending()
                assert fork.npi_pending(0x8001)


def test_keep_which_processor_is_selected(partitions: Machine) -> None:
    partitions.select(5)
    partitions.call(Function.FFA_RUN, 0x80010000)
    with partitions.fork() as fork:
        assert fork.processor == 5 and fork.runner == 0x8001
        fork.select(0)
        assert fork.runner == 0 and partitions.processor == 5 and partitions.runner == 0x8001


def test_go_back_into_a_ram() -> None:
    ram = Ram(1)
    machine = Machine(MANIFEST, ram)
    machine.store(PLACE, 1, 1)
    with machine.fork() as saved:
        for _ in range(3):
            machine.store(PLACE, 1, 2)
            with pytest.raises(RamLent):
                saved.fork(ram)
            machine.close()
            machine = saved.fork(ram)
            assert machine.load(PLACE, 1) == Data(1, 1)
        machine.close()
    assert not ram.is_lent and ram.read(0x10000, 1) == b"\1"


def test_are_refused_other_ram() -> None:
    ram = Ram(2)
    ram.write(0, b"first")
    with Machine(MANIFEST) as machine:
        with pytest.raises(WrongRamSize):
            machine.fork(ram)
        with pytest.raises(TypeError, match="a Ram"):
            machine.fork(2)  # type: ignore[arg-type]
    assert not ram.is_lent and ram.read(0, 5) == b"first"


def test_end_where_nobody_has_them() -> None:
    ram = Ram(1)
    with Machine(MANIFEST) as machine:
        machine.fork(ram)
        gc.collect()
        assert not ram.is_lent


def test_are_watched_by_nobody_and_fresh_as_the_machine_is() -> None:
    class Counter(Watcher):
        count = 0

        def after(self, machine: Machine, act: Act, outcome: Outcome) -> None:
            self.count += 1

    counter = Counter()
    with Machine(MANIFEST) as machine, machine.fork() as fresh:
        machine.watch(counter)
        with machine.fork() as fork, fork.record() as recorded:
            fork.store(PLACE, 1, 1)
            assert fresh.is_fresh and machine.is_fresh and not fork.is_fresh and counter.count == 0
        assert "store 40010000 01" in recorded.text
        machine.store(PLACE, 1, 1)
        assert counter.count == 1
        with machine.fork() as fork:
            assert not fork.is_fresh
            with pytest.raises(NotRecordable):
                fork.record()

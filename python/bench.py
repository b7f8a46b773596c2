# SPDX-License-Identifier: MIT OR Apache-2.0
"""How long operations take from Python, beside what ctypes itself takes for a call that does next to nothing.

usage: python3 python/bench.py [--check]

Each number is the best of many short turns, so that what else the processors do is seen least. ctypes' own time is that
of gorseplumb_runner(byref(machine)), which does next to nothing. With --check the status is 1 where a call takes more
than three times that.
"""
from __future__ import annotations

import sys
import time
from ctypes import byref
from typing import Callable
from uuid import UUID

from gorseplumb import Batch, Call, Endpoint, Function, Machine, Manifest, Properties, Region
from gorseplumb import _library as c
from gorseplumb._library import library

RAM = 0x40000000
PAGE = RAM + 0x10000
MANIFEST = Manifest(
    RAM,
    1,
    [
        Endpoint([Region(PAGE, 16)], Properties.SENDS_REQUESTS),
        Endpoint([Region(PAGE + 0x10000, 16)], Properties.RECEIVES_REQUESTS, UUID(int=1)),
    ],
)
TURNS = 200
MOST = 3.0


def best(do: Callable[[], object], count: int = 500, turns: int = TURNS) -> float:
    """Nanoseconds of one call of a function, without the loop's own time."""
    return (_best(do, count, turns) - _best(_nothing, count, turns)) / count


def _best(do: Callable[[], object], count: int, turns: int) -> int:
    times = []
    for _ in range(turns):
        start = time.perf_counter_ns()
        for _ in range(count):
            do()
        times.append(time.perf_counter_ns() - start)
    return min(times)


def _nothing() -> None:
    pass


def show(name: str, nanoseconds: float, of: float | None = None) -> None:
    beside = f"  {nanoseconds / of:.1f} times ctypes' own" if of else ""
    print(f"{name:<44} {nanoseconds:>10,.0f} ns{beside}")


def main() -> int:
    with Machine(MANIFEST) as machine:
        ratio = measure_operations(machine)
        measure_more(machine)
    show("boot and close", best(lambda: Machine(MANIFEST).close(), 10, 20))
    return int("--check" in sys.argv and ratio > MOST)


def measure_operations(machine: Machine) -> float:
    """Operations, one by one. The answer is how many times ctypes' own time a call takes."""
    raw, registers = c.Held(), bytes(64)
    runner, bare_call = library.runner, library.call
    own = best(lambda: runner(byref(raw)))
    show("ctypes alone: gorseplumb_runner of no machine", own)
    show("ctypes alone: gorseplumb_call of no machine", best(lambda: bare_call(raw, registers)), own)
    machine.load(PAGE, 8)
    call, identity = machine.call, int(Function.FFA_ID_GET)
    taken = best(lambda: call(identity))
    show("call, FFA_ID_GET", taken, own)
    show("load of 8 bytes", best(lambda: machine.load(PAGE, 8)), own)
    show("store of 8 bytes", best(lambda: machine.store(PAGE, 8, 42)), own)
    show("who runs", best(lambda: machine.runner), own)
    show("read of 4096 bytes", best(lambda: machine.read(PAGE, 4096), 1))
    return taken / own


def measure_more(machine: Machine) -> None:
    """What is done by many at once."""
    batch = Batch([Call((Function.FFA_ID_GET,))] * 1000)
    show("call in a batch of 1000", best(lambda: machine.run(batch), 1) / len(batch))
    show("the same, with its outcome read", best(lambda: list(machine.run(batch)), 1) / len(batch))
    show("who reaches each of 512 pages", best(machine.access_map, 10))


if __name__ == "__main__":
    sys.exit(main())

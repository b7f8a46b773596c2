# SPDX-License-Identifier: MIT OR Apache-2.0
"""How long the gate takes, reckoned from the seconds in the file bench/seconds and proving nothing: `tools/gate --model`.

The parts of the gate: `rt ci`, with all tests unproved beside it; the libraries for C; the tests over the proved program and libraries. Tasks
of `rt ci` stand side by side as there, on processors that are never idle where a task is ready. The landings are this one and the nine
behind it, where no crate changes.
"""
import copy
import os
import sys

sys.dont_write_bytecode = True
TOP = os.path.dirname(os.path.dirname(os.path.realpath(__file__)))
sys.path.insert(0, f"{TOP}/tools")
import costs  # noqa: E402
import listed  # noqa: E402
import toolchain  # noqa: E402

TESTS = ("ffa_machine_tests", "play_tests", "ffa_tests")


def crates():
    """The crates, lowest first, and all that each stands on."""
    below = {}
    for name, crate in listed.crates().items():
        below[name] = [*dict.fromkeys(it for low in crate.uses if low in below for it in [*below[low], low])]
    return below


def rows_of(kind):
    """The rows of a kind, by whose they are."""
    return {whose: seconds for (what, whose), seconds in costs.rows().items() if what == kind}


def proofs():
    """The proofs of `rt ci`: what each waits for, its work in lines, by which it is taken, and its seconds."""
    tasks = {}
    for crate, lows in crates().items():
        lines, waits = costs.lines(crate), [(it, "proof") for it in lows]
        tasks[crate, "proof"] = waits, lines, costs.rows().get(("proof", crate), 0) if crate in TESTS else costs.proof(crate)
        tasks[crate, "tests"] = waits, lines * (crate in TESTS), costs.tests(crate) if crate in TESTS else 0
    tasks["rt ci", "rest"] = [], 0, rows_of("rest").get("rt-ci", 0)
    return tasks


def wrong_bodies(bodies):
    """The wrong bodies of a landing as tasks of `rt ci`, which fill what its proofs leave free."""
    names = {}
    for body in bodies:
        crate, name = body.split("/")
        names.setdefault(crate, []).append(name)
    return {(it, "wrong bodies"): ([(it, "proof"), (it, "tests")], 0, costs.bodies(it, of)) for it, of in names.items()}


def jobs(kind):
    """The jobs of tests/all: what compiles comes first."""
    rows = rows_of(kind)
    compiling = [(it, kind) for it in rows if it.startswith("compile-")]
    return {(it, kind): ([] if (it, kind) in compiling else compiling, 10**9, seconds) for it, seconds in rows.items()}


def by_the_clock(tasks, lanes):
    """The seconds until all tasks are done, so many at a time: first those with the longest chain of lines behind them."""
    behind = {it: 0 for it in tasks}
    for task in reversed([*tasks]):
        behind[task] += tasks[task][1]
        for it in tasks[task][0]:
            behind[it] = max(behind[it], behind[task])
    left, running, done, now = sorted(tasks, key=lambda it: -behind[it]), {}, set(), 0
    while left or running:
        ready = [it for it in left if done.issuperset(tasks[it][0])]
        for task in ready[: lanes - len(running)]:
            left.remove(task)
            running[task] = now + tasks[task][2]
        task = min(running, key=running.get)
        now = running.pop(task)
        done.add(task)
    return now


def sum_of(tasks):
    return sum(seconds for *_, seconds in tasks.values())


def next_landings(turn, count):
    """This landing and those behind it, where no crate changes."""
    landing = turn.Landing()
    for _ in range(count):
        yield landing
        landed = copy.copy(landing.landed)
        landed.number, landed.behind, landed.left = landed.number + 1, landing.behind(), landing.left
        landed.crates = {name: (it.sources, [*it.bodies.values()]) for name, it in landing.crates.items()}
        landing = turn.Landing(landed)


class Gate:
    """The parts of the gate at one landing."""

    def __init__(self, landing):
        self.proofs, self.bodies = proofs(), wrong_bodies(landing.tried())
        self.before, self.behind, self.archives = jobs("unproved"), jobs("on-proved"), rows_of("archive")

    def of_rt_ci(self):
        return sum_of(self.proofs) + sum_of(self.bodies)

    def of_rest(self):
        return sum_of(self.before) + sum_of(self.behind) + sum(self.archives.values())

    def clock(self, lanes):
        first = by_the_clock({**self.proofs, **self.bodies, **self.before}, lanes)
        return first + sum(self.archives.values()) / lanes + by_the_clock(self.behind, lanes)


def minutes(values):
    low, high = (f"{it / 60:.0f}" for it in (min(values), max(values)))
    return low if low == high else f"{low} to {high}"


def main():
    turn = toolchain.loaded("turn", f"{TOP}/tools/turn")
    gates = [Gate(it) for it in next_landings(turn, 10)]
    number, first = turn.Landing().landed.number, gates[0]
    print(f"minutes of processor time at landing {number}, and at it and the nine behind it where no crate changes:")
    for name, part in (
        ("proofs of crates", lambda it: sum(seconds for (_, what), (*_, seconds) in it.proofs.items() if what == "proof")),
        ("proofs of tests", lambda it: sum(seconds for (_, what), (*_, seconds) in it.proofs.items() if what == "tests")),
        ("wrong bodies", lambda it: sum_of(it.bodies)),
        ("rt ci", Gate.of_rt_ci),
        ("tests unproved, libraries, tests over what is proved", Gate.of_rest),
    ):
        print(f"  {name}: {minutes([part(first)])}; {minutes([part(it) for it in gates])}")
    print("minutes by the clock of the whole gate:")
    for lanes in (4, 2):
        found = [it.clock(lanes) for it in gates]
        print(f"  {lanes} processors: {minutes(found[:1])}; {minutes(found)}; at half this speed {minutes([2 * found[0]])}; {minutes([2 * it for it in found])}")


if __name__ == "__main__":
    main()

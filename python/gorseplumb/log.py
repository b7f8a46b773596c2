# SPDX-License-Identifier: MIT OR Apache-2.0
"""Logs of calls that were made elsewhere: read from a text or from ftrace, and played (docs/PYTHON.md)."""
from __future__ import annotations

import re
from dataclasses import dataclass, replace
from itertools import zip_longest
from typing import Callable, Iterable, Iterator, Mapping

from .codes import NORMAL_WORLD, Fault
from .errors import BadLine
from .machine import Machine
from .outcomes import DONE, FAULTED, Act, Call, Data, Faulted, Interrupt, Outcome, Registers, Resumed
from .trace import Command, Difference, Select, Trace, lines, parse

Behaviour = Callable[[Machine, Registers], Registers]
"""What a partition does while it runs: from the registers that it sees, to the answer of the call by which it stops."""

MOST_TURNS = 1000
"""How often partitions may run on in a row before one call of the log is answered."""

_ENDPOINT = re.compile(r"([0-9A-Fa-f]{4}): *")
_NUMBERS = re.compile(r"(?:0[xX])?[0-9A-Fa-f]+(?:\s+(?:0[xX])?[0-9A-Fa-f]+)*")
_FAULTS = {fault.text: fault for fault in Fault}
_EVENT = re.compile(r"\s*(.+)-(\d+)\s+(?:\(\s*[-\d]+\)\s+)?\[\d+\]\s+(?:\S+\s+)?\d+\.\d+: ([\w.]+): (.*)")
_FIELD = re.compile(r"\b[xwar]([0-7])=(?:0[xX])?([0-9A-Fa-f]{1,16})\b")
_LISTED = re.compile(r"\(((?:0[xX])?[0-9A-Fa-f]+(?:, *(?:0[xX])?[0-9A-Fa-f]+)+)\)")
_ANSWER_NAME = re.compile(r"_(?:ret|return|exit|end)$")


@dataclass(frozen=True)
class Expected:
    """What a log tells of an answer: an outcome that is told whole, or registers of which some aren't told."""

    outcome: Outcome | None = None
    runner: int | None = None
    x: tuple[int | None, ...] = ()

    def beside(self, found: Outcome) -> Outcome:
        """The outcome that is expected, with what isn't told as it was found."""
        if self.outcome is not None:
            return self.outcome
        ours = found if isinstance(found, Registers) else Registers(0, (0,) * 8)
        runner = self.runner if self.runner is not None else ours.runner
        told = zip((*self.x, *(None,) * 8), ours.x)
        return Registers(runner, tuple(register if register is not None else other for register, other in told))


@dataclass(frozen=True)
class Entry:
    """An operation of a log: by whom, where that is told, and what came of it, where that is told, which is lines of
    `show` and `audit`."""

    number: int
    line: str
    command: Command
    by: int | None = None
    expected: Expected | None = None
    shown: tuple[str, ...] = ()


# THE TEXT


def read_log(log: Trace) -> Iterator[Entry]:
    """The operations of a text. Where lines begin with `> `, those that begin with neither that nor `< ` are no part of
    the log."""
    told = [(number, line.strip()) for number, line in lines(log)]
    is_marked = any(line.startswith("> ") for _, line in told)
    last: Entry | None = None
    for number, line in told:
        if not line or line.startswith("#") or is_marked and not line.startswith(("> ", "< ")):
            continue
        try:
            following = _read_answer(last, line[1:].strip()) if line.startswith("<") else _read_entry(number, line)
        except BadLine as wrong:
            raise BadLine(wrong.why, number=number) from None
        if last is not None and not line.startswith("<"):
            yield last
        last = following
    if last is not None:
        yield last


def _read_entry(number: int, line: str) -> Entry:
    asked, arrow, answer = line.removeprefix(">").partition("->")
    by, words = _split_endpoint(asked.strip())
    expected = _read_outcome(answer.strip()) if arrow else None
    return Entry(number, line, _read_command(words), by, expected)


def _read_answer(last: Entry | None, words: str) -> Entry:
    """The operation with what came of it."""
    if last is not None and isinstance(last.command, str):
        return replace(last, shown=(*last.shown, words))
    if last is None or last.expected is not None:
        raise BadLine("an answer to no operation")
    return replace(last, expected=_read_outcome(words))


def _split_endpoint(words: str) -> tuple[int | None, str]:
    match = _ENDPOINT.match(words)
    return (int(match[1], 16), words[match.end() :]) if match else (None, words)


def _read_command(words: str) -> Command:
    if _NUMBERS.fullmatch(words):
        words = f"call {words}"
    command = parse(" ".join(re.sub(r"^0[xX](?=[0-9A-Fa-f])", "", word) for word in words.split()))
    if command is None:
        raise BadLine("no operation")
    return command


def _read_outcome(words: str) -> Expected:
    if words == "done":
        return Expected(DONE)
    kind, _, rest = words.partition(" ")
    if kind == "fault" and rest in _FAULTS:
        return Expected(FAULTED[_FAULTS[rest]])
    if kind == "data" and len(rest) in (2, 4, 8, 16) and _NUMBERS.fullmatch(rest):
        return Expected(Data(int(rest, 16), len(rest) // 2))
    if kind == "resumed" and re.fullmatch("[0-9A-Fa-f]{4}", rest):
        return Expected(Resumed(int(rest, 16)))
    if kind == "regs":
        words = f"{rest[:4]}:{rest[4:]}"
    return _read_registers(words)


def _read_registers(words: str) -> Expected:
    runner, rest = _split_endpoint(words)
    is_open = rest.endswith("..")
    rest = rest.removesuffix("..").strip()
    if not _NUMBERS.fullmatch(rest) or len(rest.split()) > 8:
        raise BadLine(f"no answer: {words!r}")
    x = [int(word, 16) for word in rest.split()]
    return Expected(None, runner, (*x, *((None if is_open else 0),) * (8 - len(x))))


# FTRACE


def read_ftrace(log: Trace, caller: int = NORMAL_WORLD) -> Iterator[Entry]:
    """The calls of ftrace's lines, all of one endpoint. An answer is that of its task's last call. Events that have no
    registers are left out, and so is each line that is no event."""
    entries: list[Entry] = []
    open_calls: dict[str, int] = {}
    for number, line in lines(log):
        match = _EVENT.match(line)
        if line.startswith("#") or match is None:
            continue
        x = _registers_of(match[4])
        task = f"{match[1]}-{match[2]}"
        if not x:
            continue
        if _ANSWER_NAME.search(match[3]) or " <- " in match[4]:
            at = open_calls.pop(task, None)
            if at is not None:
                told = tuple(x.get(place) for place in range(8))
                entries[at] = replace(entries[at], expected=Expected(None, caller, told))
        elif 0 in x:
            open_calls[task] = len(entries)
            entries.append(Entry(number, line.strip(), Call(tuple(x.get(place, 0) for place in range(8))), caller))
    return iter(entries)


def _registers_of(fields: str) -> dict[int, int]:
    named = {int(place): int(value, 16) for place, value in _FIELD.findall(fields)}
    listed = _LISTED.search(fields)
    if named or listed is None:
        return named
    return {place: int(word, 16) for place, word in enumerate(listed[1].replace(" ", "").split(",")) if place < 8}


# PLAYING


def play(
    machine: Machine,
    entries: Iterable[Entry],
    partitions: Mapping[int, Behaviour] | None = None,
    *,
    explain: bool = False,
) -> Difference | None:
    """Plays a log, and tells where the machine first answers something else. Where the log doesn't tell what a
    partition did, `partitions` says it: it is asked until the endpoint runs that the log expects."""
    others = partitions or {}
    for entry in entries:
        if isinstance(entry.command, Select):
            machine.select(entry.command.processor)
            continue
        runner = machine.runner
        if entry.by is not None and entry.by != runner:
            return Difference(entry.number, entry.line, f"runner {entry.by:04X}", f"runner {runner:04X}")
        if entry.command == "show" or entry.command == "audit":
            difference = _compare_lines(machine, entry)
        else:
            assert not isinstance(entry.command, str)
            difference = _compare_outcome(machine, entry, entry.command, others, explain)
        if difference is not None:
            return difference
    return None


def _compare_lines(machine: Machine, entry: Entry) -> Difference | None:
    found = machine.show() if entry.command == "show" else machine.certificate()
    for one, other in zip_longest(entry.shown, found):
        if one != other and entry.shown:
            return Difference(entry.number, entry.line, one, other)
    return None


def _compare_outcome(
    machine: Machine, entry: Entry, act: Act, others: Mapping[int, Behaviour], explain: bool
) -> Difference | None:
    outcome = machine.perform(act)
    if entry.expected is None:
        return None
    found = _run_on(machine, outcome, entry.expected.runner, others)
    expected = entry.expected.beside(found)
    if found == expected:
        return None
    reason = _reason(machine, act, found) if explain else None
    return Difference(entry.number, entry.line, str(expected), str(found), reason)


def _run_on(machine: Machine, found: Outcome, wanted: int | None, others: Mapping[int, Behaviour]) -> Outcome:
    """Lets partitions run until the endpoint that is wanted runs, or one of which nothing is known."""
    for _ in range(MOST_TURNS):
        if not isinstance(found, Registers) or wanted is None or found.runner == wanted or found.runner not in others:
            return found
        found = others[found.runner](machine, found)
    raise RuntimeError(f"partitions ran on {MOST_TURNS} times, and {wanted or 0:04X} didn't run")


def _reason(machine: Machine, act: Act, found: Outcome) -> str | None:
    is_refused = isinstance(found, Faulted) or isinstance(found, Registers) and found.is_error
    if not is_refused or isinstance(act, Interrupt):
        return None
    reason = machine.why(act)
    return str(reason) if reason is not None else None

# SPDX-License-Identifier: MIT OR Apache-2.0
"""Traces: lines that a machine plays, what they print, and what they are compared with."""
from __future__ import annotations

import os
import re
from dataclasses import dataclass
from pathlib import Path
from typing import Iterable, Iterator, Literal, Union

from . import _library as c
from .codes import Function
from .errors import BadLine, GuardUnmet
from .machine import Machine
from .misuse import file_hint
from .outcomes import INTERRUPT, Act, Call, Faulted, Fetch, Interrupt, Load, Registers, Store



@dataclass(frozen=True, slots=True)
class Select:
    """The line of a trace that selects a processor."""

    processor: int

    def __str__(self) -> str:
        return f"on {self.processor}"


Question = Literal["show", "audit"]
Command = Union[Act, Select, Question]
Trace = Union[str, bytes, "os.PathLike[str]", Iterable[str]]
"""A whole trace as a text, its path, or lines, such as a file's."""

_HEX = "[0-9A-Fa-f]"
_WORDS = re.compile(
    f"call((?: {_HEX}{{1,16}}){{1,8}})"
    f"|load ({_HEX}{{1,16}}) ([1248])"
    f"|store ({_HEX}{{1,16}}) ({_HEX}{{2}}|{_HEX}{{4}}|{_HEX}{{8}}|{_HEX}{{16}})"
    f"|fetch ({_HEX}{{1,16}})"
    "|on (0{0,15}[0-7])"
)
_NUMBER = re.compile(f"{_HEX}+")
_PREFIXED = re.compile(f"0[xX]{_HEX}+")
_OF_SESSIONS = {
    "help": "a line is call X0 .. X7, load A N, store A V, fetch A, show, audit, on N or interrupt, in hexadecimal; quit ends "
    "a session",
    "quit": "to end a session, end the input, as Ctrl+D does",
}
_RUNNER = re.compile("[0-9A-F]{4}")
_CHECK = re.compile(r"\.\.|[1-9][0-9]*")
_OPENINGS = frozenset({"regs", "resumed", "data", "done", "fault", "runner", "pages", "cert", "root", "agrees", "differs"})
_REGISTERS = ("regs", "runner", *(f"x{place}" for place in range(8)))


def _can_be_met(text: str) -> bool:
    """Whether some line that the program prints may meet a guard's text, by its first words."""
    if text.startswith("check "):
        return bool(_CHECK.fullmatch(text.removeprefix("check ").partition(" ")[0]))
    word = text.partition(" ")[0]
    if text.startswith("FFA_"):
        return any(word == function.call_name for function in Function)
    return word in _OPENINGS


def parse(line: str) -> Command | None:
    """What a line of a trace asks; none where it is empty or a comment."""
    match = _WORDS.fullmatch(line)
    if match is None:
        return _parse_other(line)
    kind = match.lastindex
    if kind == 1:
        return Call(tuple(int(word, 16) for word in match[1].split()))
    if kind == 3:
        return Load(int(match[2], 16), int(match[3]))
    if kind == 5:
        return Store(int(match[4], 16), len(match[5]) // 2, int(match[5], 16))
    return Fetch(int(match[6], 16)) if kind == 6 else Select(int(match[7], 16))


def _parse_other(line: str) -> Question | Interrupt | None:
    if not line or line.startswith("#"):
        return None
    if line == "interrupt":
        return INTERRUPT
    if line == "show" or line == "audit":
        return "show" if line == "show" else "audit"
    raise _fault(line)


def _fault(line: str) -> BadLine:
    """What is wrong with a line, and where, in the words of `ffaplay --verbose`."""
    if line.endswith("\r"):
        return BadLine("the line ends in CR LF; it must end in LF")
    command, *words = line.split(" ")
    if command not in ("call", "load", "store", "fetch", "show", "audit", "on", "interrupt"):
        return BadLine(_OF_SESSIONS.get(command, "unknown command") if command else "empty word", 1)
    column = len(command) + 2
    for place, word in enumerate(words, 1):
        why = _word_fault(command, place, word)
        if why is None and command == "call" and place == 9:
            why = f"a call needs 1 to 8 registers, found {len(words)}"
        if why is not None:
            return BadLine(why, column)
        column += len(word) + 1
    missing = "a call needs 1 to 8 registers, found 0" if command == "call" else "missing word"
    return BadLine(missing, len(line) + 1)


def _word_fault(command: str, place: int, word: str) -> str | None:
    most = {"call": len(word) + 8, "load": 2, "store": 2, "fetch": 1, "on": 1}.get(command, 0)
    if not word:
        return "empty word"
    if place > most and command != "call":
        return "unexpected word"
    if command == "load" and place == 2:
        return None if word in ("1", "2", "4", "8") else "the size must be 1, 2, 4 or 8"
    if _NUMBER.fullmatch(word) is None:
        prefixed = _PREFIXED.fullmatch(word) is not None
        return "a number must not begin with 0x" if prefixed else "not a hexadecimal number"
    if command == "store" and place == 2:
        return None if len(word) in (2, 4, 8, 16) else _digits_fault(len(word))
    if len(word) > 16:
        return f"the number has {len(word)} digits; it must have at most 16"
    is_processor = command != "on" or int(word, 16) < c.MOST_PROCESSORS
    return None if is_processor else f"the processor's number must be less than {c.MOST_PROCESSORS}"


def _digits_fault(digits: int) -> str:
    if digits == 1:
        return "the value has 1 digit; it must have 2, 4, 8 or 16"
    return f"the value has {digits} digits; it must have 2, 4, 8 or 16"


def lines(trace: Trace) -> Iterator[tuple[int, str]]:
    """The lines of a trace with their numbers. Of a whole text each has to end with LF."""
    if isinstance(trace, os.PathLike):
        trace = Path(trace).read_bytes()
    text = trace.decode("latin-1") if isinstance(trace, bytes) else trace
    if not isinstance(text, str):
        yield from enumerate((line.removesuffix("\n") for line in text), 1)
        return
    *whole, rest = text.split("\n")
    yield from enumerate(whole, 1)
    if rest:
        hint = file_hint(rest, "the text itself", _may_be_name(rest)) if isinstance(trace, str) and not whole else ""
        raise BadLine("the line does not end in LF", number=len(whole) + 1, hint=hint)


def _may_be_name(line: str) -> bool:
    """Whether a line has what names of files have, and lines of traces only in comments."""
    return not line.startswith("#") and ("." in line or "/" in line)


@dataclass(frozen=True)
class Printed:
    """A line of a trace that printed something: its number, what it asked, and the plain text, a line each."""

    number: int
    line: str
    command: Command
    text: list[str]
    answer: Registers | None = None
    reason: str | None = None


class Player:
    """Plays the lines of a trace on a machine, one after the other."""

    def __init__(self, machine: Machine, *, strict: bool = False, explain: bool = False) -> None:
        self.machine, self.strict, self.explain = machine, strict, explain
        self._unasked: list[str] = []
        self._printed = False

    def play(self, trace: Trace) -> Iterator[Printed]:
        """What each line gives that prints something. A bad line is raised when it is reached, and with `strict` so is
        a guard that isn't met: what stands before it was done."""
        for number, line in lines(trace):
            try:
                command = parse(line)
            except BadLine as wrong:
                raise BadLine(wrong.why, wrong.column, number) from None
            if isinstance(command, Select):
                self.machine.select(command.processor)
            elif command is not None:
                printed = self._do(number, line, command)
                self._unasked, self._printed = list(printed.text), True
                yield printed
            elif self.strict:
                self._guard(number, line)

    def _do(self, number: int, line: str, command: Act | Question) -> Printed:
        machine = self.machine
        if command == "show":
            return Printed(number, line, command, machine.show())
        if command == "audit":
            return Printed(number, line, command, machine.certificate())
        assert not isinstance(command, str)
        outcome = machine.perform(command)
        answer = outcome if isinstance(outcome, Registers) else None
        refused = isinstance(outcome, Faulted) or answer is not None and answer.is_error
        explained = self.explain and refused
        reason = machine.why(command) if explained and not isinstance(command, Interrupt) else None
        return Printed(number, line, command, [str(outcome)], answer, str(reason) if reason is not None else None)

    def _guard(self, number: int, line: str) -> None:
        if line.startswith("#="):
            wanted = line[2:].removeprefix(" ")
            got = self._unasked.pop(0) if self._unasked else None
        elif line.startswith("#@"):
            wanted, got = line[2:].removeprefix(" "), f"{self.machine.runner:04X}"
        else:
            return
        if got != wanted:
            raise self._unmet(number, line.startswith("#@"), wanted, got)

    def _unmet(self, number: int, asks_runner: bool, wanted: str, got: str | None) -> GuardUnmet:
        can_be_met = bool(_RUNNER.fullmatch(wanted)) if asks_runner else _can_be_met(wanted)
        hint = None
        if not can_be_met:
            hint = "this guard can never pass"
        elif got is None and self._printed:
            hint = "an earlier guard checked that line"
        return GuardUnmet(number, wanted, got, is_bad=not can_be_met, hint=hint)


def play(
    machine: Machine,
    trace: Trace,
    *,
    strict: bool = False,
    explain: bool = False,
    names: bool = False,
    numbers: bool = False,
) -> Iterator[str]:
    """The lines that the program prints of a trace with `--processors 8`, and with the same flags."""
    for printed in Player(machine, strict=strict, explain=explain).play(trace):
        first, *others = printed.text
        if names and printed.answer is not None and printed.answer.names:
            first += f" # {printed.answer.names}"
        yield f"{printed.number}: {first}" if numbers else first
        yield from others
        if printed.reason is not None:
            yield f"# refused: {printed.reason}"


@dataclass(frozen=True)
class Difference:
    """Where a machine answers something else than is expected. None stands for the end."""

    number: int
    line: str | None
    expected: str | None
    found: str | None
    reason: str | None = None
    expected_number: int = 0

    def __str__(self) -> str:
        wanted = f"expected, line {self.expected_number}: " if self.expected_number else "expected: "
        told = [
            f"line {self.number}: {self.line if self.line is not None else '(the end)'}",
            wanted + (self.expected if self.expected is not None else "(the end)"),
            "found: ".ljust(len(wanted)) + (self.found if self.found is not None else "(the end)"),
        ]
        if self.differing:
            told.append("differ: ".ljust(len(wanted)) + ", ".join(self.differing))
        if self.reason is not None:
            told.append(f"# refused: {self.reason}")
        return "\n".join(told)

    @property
    def differing(self) -> list[str]:
        """Which registers differ, where both are registers."""
        one, other = self.expected or "", self.found or ""
        if not one.startswith("regs ") or not other.startswith("regs "):
            return []
        words = zip(_REGISTERS, one.split(" "), other.split(" "))
        return [name for name, expected, found in words if expected != found]


def compare(machine: Machine, trace: Trace, expected: Trace, *, explain: bool = False) -> Difference | None:
    """The first line that prints something else than is expected, as `ffaplay compare` finds it."""
    wanted = (line for _, line in lines(expected))
    number, row = 0, 0
    for printed in Player(machine, explain=explain).play(trace):
        number = printed.number
        for found in printed.text:
            line, row = next(wanted, None), row + 1
            if line != found:
                return Difference(number, printed.line, line, found, printed.reason, row)
    more = next(wanted, None)
    return Difference(number + 1, None, more, None, None, row + 1) if more is not None else None

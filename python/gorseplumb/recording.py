# SPDX-License-Identifier: MIT OR Apache-2.0
"""What is done with a machine, written down: as a trace with guards, or as lines of JSON."""
from __future__ import annotations

import io
import os
from pathlib import Path
from typing import Self, TextIO

from . import jsonlines
from .codes import NORMAL_WORLD
from .errors import NotRecordable
from .machine import Machine, Watcher
from .outcomes import Act, Outcome, Registers


class Recording(Watcher):
    """Writes each operation of a machine as it is done, until it is stopped: to a path, or to `text`."""

    def __init__(self, machine: Machine, path: os.PathLike[str] | str | None = None) -> None:
        self.machine = machine
        self._file = _opened(path)
        self._is_watching = True
        machine.watch(self)

    @property
    def text(self) -> str:
        """What was written so far, where it wasn't written to a path."""
        if not isinstance(self._file, io.StringIO):
            raise ValueError("it was written to a path")
        return self._file.getvalue()

    def stop(self) -> None:
        """Nothing more is written. What was is in the file."""
        if not self._is_watching:
            return
        self._is_watching = False
        self.machine.unwatch(self)
        if not isinstance(self._file, io.StringIO):
            self._file.close()

    def __enter__(self) -> Self:
        return self

    def __exit__(self, *_: object) -> None:
        self.stop()

    def _put(self, line: str) -> None:
        self._file.write(line + "\n")


def _opened(path: os.PathLike[str] | str | None) -> TextIO:
    # Line by line, so that what was done is there even where the process doesn't end well.
    return io.StringIO() if path is None else Path(path).open("w", 1, encoding="ascii", newline="\n")


class TraceRecording(Recording):
    """A trace in which each answer is a guard: `ffaplay run --strict --processors 8` plays it where it answers the same."""

    def __init__(self, machine: Machine, path: os.PathLike[str] | str | None = None) -> None:
        if not machine.is_fresh:
            raise NotRecordable("a trace begins at the boot, and this machine has done something already")
        super().__init__(machine, path)
        self._told: int | None = None
        self._processor = 0
        self._runners: dict[int, int] = {}

    def after(self, machine: Machine, act: Act, outcome: Outcome) -> None:
        """Writes the operation or the interrupt, with its outcome as a guard."""
        self._turn()
        runner = self._runners.get(machine.processor, NORMAL_WORLD)
        if self._told != runner:
            self._put(f"#@ {runner:04X}")
            self._told = runner
        self._put(str(act))
        self._put(f"#= {outcome}")
        if isinstance(outcome, Registers):
            self._runners[machine.processor] = outcome.runner

    def _turn(self) -> None:
        """Writes which processor is selected, where that is another than before."""
        if self._processor != self.machine.processor:
            self._processor = self.machine.processor
            self._put(f"on {self._processor}")

    def note(self, words: str) -> None:
        """A comment."""
        for line in words.splitlines():
            self._put(f"# {line}".encode("ascii", "backslashreplace").decode())

    def show(self) -> list[str]:
        """Asks `show`, and writes it with what it prints."""
        return self._ask("show", self.machine.show())

    def audit(self) -> list[str]:
        """Asks `audit`, and writes it with what it prints."""
        return self._ask("audit", self.machine.certificate())

    def _ask(self, question: str, told: list[str]) -> list[str]:
        self._turn()
        self._put(question)
        for line in told:
            self._put(f"#= {line}")
        return told


class JsonRecording(Recording):
    """Lines of JSON, one for each operation or interrupt and its outcome."""

    def after(self, machine: Machine, act: Act, outcome: Outcome) -> None:
        """Writes a line."""
        self._put(jsonlines.dumps(act, outcome, machine.processor))



# SPDX-License-Identifier: MIT OR Apache-2.0
"""Runs the program `ffaplay`, and reads what it prints."""
from __future__ import annotations

import os
import re
import stat
import subprocess
import sys
from dataclasses import dataclass, field
from pathlib import Path

from .command_line import Options

TOP = Path(__file__).resolve().parent.parent.parent
NUMBERED = re.compile(rb"(\d+): (.*)")
REFUSED = "# refused: "


class Failed(Exception):
    """The program ended with another status than 0, and has told why on standard error."""

    def __init__(self, status: int) -> None:
        super().__init__(status)
        self.status = status


@dataclass(slots=True)
class Printed:
    """What a line of a trace prints, and why its operation is refused, if it is."""

    text: list[str] = field(default_factory=list)
    reason: str = ""


def program() -> str:
    """The path of the program: FFAPLAY, or the script at the top of the repository."""
    return os.environ.get("FFAPLAY") or str(TOP / "ffaplay")


class Machine:
    """A machine on which traces are played: the program, with the manifest and the options of a command line. Its files stay in `room`."""

    def __init__(self, options: Options, room: Path) -> None:
        self.options, self.room = options, room
        self.manifest = self.kept(options.manifest, "manifest")
        self.trace = self.kept(options.trace, "trace")

    def kept(self, path: str, name: str) -> str:
        """The path of a file that can be read several times: a copy of standard input or of a pipe. A file that cannot be read keeps its
        path, so that the program says so."""
        try:
            if path != "-" and stat.S_ISREG(os.stat(path).st_mode):
                return os.path.abspath(path) if path.startswith("-") else path
            with open(0 if path == "-" else path, "rb", closefd=path != "-") as file:
                text = file.read()
        except OSError:
            return path
        copy = self.room / name
        copy.write_bytes(text)
        return str(copy)

    def words(self, command: str, *flags: str) -> list[str]:
        """The words of a command that plays a trace."""
        its = self.options
        asked = [word for name, value in (("--processors", its.processors), ("--ffa", its.ffa)) if value for word in (name, value)]
        return [program(), command, *flags, *asked]

    def play(self, trace: str, *flags: str) -> tuple[dict[int, Printed], int, bytes]:
        """What each line of a trace prints, by its number, the status, and what the program says on standard error."""
        words = [*self.words("run", "--number", *flags), self.manifest, trace]
        done = subprocess.run(words, stdin=subprocess.DEVNULL, capture_output=True, check=False)
        return read(done.stdout), done.returncode, done.stderr

    def plain(self) -> bytes:
        """The trace in the plain format, up to a line that is bad."""
        if not self.options.words:
            return Path(self.trace).read_bytes()
        words = [program(), "lower", self.trace]
        return subprocess.run(words, stdin=subprocess.DEVNULL, capture_output=True, check=False).stdout


def read(output: bytes) -> dict[int, Printed]:
    """What each line of a trace prints, by its number, in the output of a play with numbers and reasons."""
    printed: dict[int, Printed] = {}
    now = Printed()
    for line in output.split(b"\n")[:-1]:
        numbered = NUMBERED.fullmatch(line)
        if numbered:
            now = printed.setdefault(int(numbered[1]), Printed())
            now.text.append(numbered[2].decode("ascii"))
        elif line.startswith(REFUSED.encode()):
            now.reason = line.decode("ascii").removeprefix(REFUSED)
        else:
            now.text.append(line.decode("ascii"))
    return printed


def tell(said: bytes) -> None:
    """Passes on what the program says on standard error."""
    sys.stderr.buffer.write(said)
    sys.stderr.buffer.flush()

# SPDX-License-Identifier: MIT OR Apache-2.0
"""Follows a trace: what each of its lines does, and which certificates it leaves.

The program plays the trace twice. The first play says what each line prints. In the second play, further lines stand among those of the
trace, and change nothing: `audit` where the picture needs a certificate, and loads of a send's descriptor."""
from __future__ import annotations

from collections.abc import Callable, Iterator
from dataclasses import dataclass, field

from .certificates import Certificate, Row, check_size, read
from .command_line import Options
from .lines import is_on_memory, registers_of, reply_of, sends
from .names import FFA_ERROR, FFA_RXTX_MAP, LOW, Registers, narrow
from .offers import Ceilings, ceilings, own_rights
from .program import Failed, Machine, Printed, tell

NORMAL_WORLD = "0000"
WORD = 8
BAD_LINE = 2
NOTHING = Printed()


@dataclass(slots=True)
class Line:
    """A line of a trace that was done: its number and bytes, what it prints, who runs before it and behind it, and its registers and
    the reply's, if it has them."""

    number: int
    text: bytes
    printed: Printed
    actor: str
    runner: str
    call: Registers | None
    reply: Registers | None

    @property
    def is_refused_call(self) -> bool:
        """Whether it is a call that is refused."""
        return self.call is not None and self.reply is not None and self.reply[0] == FFA_ERROR

    @property
    def changes_access(self) -> bool:
        """Whether it is a call on memory that is done. Nothing else changes a certificate."""
        return self.call is not None and is_on_memory(self.call) and not self.is_refused_call


@dataclass(slots=True)
class Followed:
    """A trace that was played: its lines, the certificates by the number of their line, and what the receivers of each transaction may
    get at most."""

    lines: list[Line]
    certificates: dict[int, Certificate]
    opened: dict[str, Ceilings] = field(default_factory=dict)

    def rows(self, every: int, refused: bool) -> Iterator[Row]:
        """The beginning, and the lines that have a row: those that change the certificate or, if `every` is not 0, those whose number is
        a multiple of it; and refused calls, if they are to have rows."""
        latest = self.certificates[0]
        yield Row(0, b"", NORMAL_WORLD, False, latest)
        for line in self.lines:
            before, latest = latest, self.certificates.get(line.number, latest)
            is_due = line.number % every == 0 if every else before != latest
            if is_due or (refused and line.is_refused_call):
                yield Row(line.number, line.text, line.runner, line.is_refused_call, latest)


def follow(machine: Machine, options: Options) -> Followed:
    """Plays a trace. Raises Failed if the play does not reach the trace's end. Raises TooLarge if the lines before a bad line already make
    too large a picture."""
    words = ["--words"] if options.words else []
    printed, status, said = machine.play(machine.trace, "--explain", *options.told, *words)
    if status == 0:
        return look(machine, list(done(machine.plain(), printed, None)), options)
    if status == BAD_LINE and not options.page:
        before = look(machine, list(done(machine.plain(), printed, number_of(said))), options)
        check_size(list(before.rows(options.every, options.refused)))
    tell(said)
    raise Failed(status)


def number_of(said: bytes) -> int:
    """The number of the bad line that the program names."""
    return int(said.split(b"line ", 1)[1].split(b":", 1)[0])


def done(trace: bytes, printed: dict[int, Printed], bad: int | None) -> Iterator[Line]:
    """The lines of a trace before a bad one, each with what it prints."""
    runners: dict[int, str] = {}
    processor = 0
    for number, text in enumerate(trace.split(b"\n")[:-1], 1):
        if number == bad:
            return
        actor = runners.get(processor, NORMAL_WORLD)
        told = printed.get(number, NOTHING)
        first = told.text[0] if told.text else ""
        if first.startswith(("regs ", "resumed ")):
            runners[processor] = first.split(" ")[1]
        elif text.startswith(b"on "):
            processor = int(text[3:], 16)
        runner = runners.get(processor, NORMAL_WORLD)
        yield Line(number, text, told, actor, runner, registers_of(text), reply_of(first))


class Questions:
    """A trace with further lines that change nothing. What these lines print is passed on, once the trace was played."""

    def __init__(self) -> None:
        self.text: list[bytes] = []
        self.asked: dict[int, Callable[[list[str]], None]] = {}

    def add(self, line: bytes) -> None:
        """Adds a line of the trace."""
        self.text.append(line)

    def ask(self, line: bytes, answer: Callable[[list[str]], None]) -> None:
        """Adds a further line. What it prints goes to `answer`."""
        self.add(line)
        self.asked[len(self.text)] = answer

    def put(self, machine: Machine) -> None:
        """Plays the trace, and passes on the answers."""
        trace = machine.room / "asked.trace"
        trace.write_bytes(b"".join(line + b"\n" for line in self.text))
        printed, status, said = machine.play(str(trace))
        if status:
            tell(said)
            raise Failed(status)
        for number, answer in self.asked.items():
            answer(printed[number].text)


def look(machine: Machine, lines: list[Line], options: Options) -> Followed:
    """The certificates that a picture or a page needs. A page needs descriptors of sends, too."""
    followed = Followed(lines, {})
    questions, descriptors = Questions(), dict[int, bytearray]()
    tx: dict[str, int] = {}
    audit(questions, followed, 0)
    for line in lines:
        if options.page and line.call and sends(line.call) and line.changes_access:
            descriptors[line.number] = load(questions, tx[line.actor], line.call[1] & LOW)
        questions.add(line.text)
        if line.call and narrow(line.call) == FFA_RXTX_MAP and not line.is_refused_call:
            tx[line.actor] = line.call[1]
        if needs_certificate(line, options):
            audit(questions, followed, line.number)
    questions.put(machine)
    open_all(followed, descriptors)
    return followed


def needs_certificate(line: Line, options: Options) -> bool:
    """Whether the certificate behind a line is needed. If each row is one that is asked for by its number, or a refused call, then only
    these rows need theirs."""
    if options.page or not options.every:
        return line.changes_access
    return line.number % options.every == 0 or (options.refused and line.is_refused_call)


def audit(questions: Questions, followed: Followed, number: int) -> None:
    """Asks for the certificate behind the line of this number, or for that of the beginning."""
    def keep(text: list[str]) -> None:
        followed.certificates[number] = read(text)

    questions.ask(b"audit", keep)


def load(questions: Questions, address: int, length: int) -> bytearray:
    """Asks for so many bytes at an address, which the answers fill in."""
    held = bytearray()

    def keep(text: list[str]) -> None:
        held.extend(bytes.fromhex(text[0].removeprefix("data "))[::-1])

    for place in range(0, length, WORD):
        questions.ask(b"load %X %d" % (address + place, WORD), keep)
    return held


def open_all(followed: Followed, descriptors: dict[int, bytearray]) -> None:
    """Finds what the receivers of each transaction may get, from the descriptor of its send."""
    latest = followed.certificates[0]
    for line in followed.lines:
        before, latest = latest, followed.certificates.get(line.number, latest)
        if line.number not in descriptors or line.call is None or line.reply is None:
            continue
        handle = f"{(line.reply[3] & LOW) << 32 | line.reply[2] & LOW:016X}"
        own = own_rights(before, latest, handle)
        followed.opened[handle] = ceilings(narrow(line.call), bytes(descriptors[line.number]), own)

# SPDX-License-Identifier: MIT OR Apache-2.0
"""A session with a machine: a line is an operation of the runner, or a question. A line with a mistake changes nothing."""
from __future__ import annotations

import os
import shlex
from pathlib import Path
from typing import Callable, Iterable

from .codes import ErrorCode, Function, Kind
from .descriptors import DataAccess, InstructionAccess, Offer, PageRange, Receiver, Relinquish, Retrieve
from .errors import GorseplumbError
from .machine import Machine, Watcher
from .outcomes import Act, Call, Faulted, Fetch, Interrupt, Load, Operation, Outcome, Registers, Store
from .recording import TraceRecording
from .registers import Argument, decode, encode, places, signature
from .trace import Player, Select, parse

_CALLS = {function.name: function for function in Function}
_GRANTS = {
    "": (DataAccess.UNSPECIFIED, InstructionAccess.UNSPECIFIED),
    "ro": (DataAccess.RO, InstructionAccess.UNSPECIFIED),
    "rw": (DataAccess.RW, InstructionAccess.UNSPECIFIED),
    "rox": (DataAccess.RO, InstructionAccess.X),
    "rwx": (DataAccess.RW, InstructionAccess.X),
    "x": (DataAccess.UNSPECIFIED, InstructionAccess.X),
}
_HELP = 26  # where lines of `help` say what a command does
_TRACE_WORDS = ("call", "load", "store", "fetch", "on", "interrupt", "show", "audit")


class Session:
    """A machine, and what was done with it, so that it can be undone and saved."""

    def __init__(self, manifest: Path) -> None:
        self._manifest = manifest.read_bytes()
        self.machine = Machine(self._manifest)
        self._done: list[tuple[int, Act]] = []  # with the processor that did it
        self._lines: list[tuple[str, int]] = []  # those that did something, and how much was done before
        self._commands: dict[str, Callable[[list[str]], Iterable[str]]] = {
            "help": self._help,
            "who": self._who,
            "access": self._access,
            "read": self._read,
            "write": self._write,
            "peek": self._peek,
            "decode": self._decode,
            "share": self._share,
            "lend": self._lend,
            "donate": self._donate,
            "retrieve": self._retrieve,
            "relinquish": self._relinquish,
            "why": self._why,
            "undo": self._undo,
            "play": self._play,
            "save": self._save,
        }

    # LINES

    def line(self, line: str) -> list[str]:
        """What a line gives. A mistake is a line that begins with `error: `."""
        before = len(self._done)
        try:
            told = list(self._line(line.strip()))
        except (GorseplumbError, ValueError, LookupError, TypeError, OSError) as wrong:
            told = [f"error: {_words_of(wrong)}"]
        if len(self._done) > before:
            self._lines.append((line.strip(), before))
        return told

    def _line(self, line: str) -> Iterable[str]:
        if not line or line.startswith("#"):
            return []
        word, *words = shlex.split(line)
        if word in self._commands:
            return self._commands[word](words)
        if word in _CALLS:
            return self._perform(Call(_encoded(_CALLS[word], words)))
        if word not in _TRACE_WORDS:
            raise ValueError(f"no such command: {word}; `help` lists them")
        command = parse(" ".join(line.split()))
        if command == "show":
            return self.machine.show()
        if command == "audit":
            return self.machine.certificate()
        if isinstance(command, Select):
            self.machine.select(command.processor)
            return []
        assert command is not None and not isinstance(command, str)
        return self._perform(command)

    def _perform(self, act: Act) -> list[str]:
        outcome = self.machine.perform(act)
        self._done.append((self.machine.processor, act))
        told = [str(outcome)]
        if isinstance(outcome, Registers):
            named = decode(outcome.x, act.x[0] if isinstance(act, Call) else None)
            told += [f"# {outcome.runner:04X} sees {named}"] if named is not None else []
        is_refused = isinstance(outcome, Faulted) or isinstance(outcome, Registers) and outcome.is_error
        reason = self.machine.why(act) if is_refused and not isinstance(act, Interrupt) else None
        return told if reason is None else [*told, f"# refused: {reason}"]

    def _repeat(self, machine: Machine) -> None:
        """Does on a machine what was done."""
        for processor, act in self._done:
            machine.select(processor)
            machine.perform(act)

    # COMMANDS

    def _help(self, words: list[str]) -> list[str]:
        """help [WORD]               these lines, or that of a command, or the arguments of a call"""
        told = [
            "call X0 .. X7             a call, by its registers",
            "load A N, store A V       a load of N bytes, a store",
            "fetch A, show, audit      as in a trace",
            "on N, interrupt           another processor is selected; it takes an interrupt",
            "FFA_NAME NAME=N ..        a call, by the names of its arguments: `help FFA_RUN` says which",
        ]
        told += [command.__doc__ for command in self._commands.values() if command.__doc__]
        told.append("quit                      ends the session; numbers are hexadecimal, as in a trace")
        return [_help_of(words[0], told)] if words else told

    def _who(self, words: list[str]) -> list[str]:
        """who                       who runs, and which endpoints there are"""
        others = " ".join(f"{endpoint:04X}" for endpoint in self.machine.endpoints)
        return [f"runner {self.machine.runner:04X}, of {others}"]

    def _access(self, words: list[str]) -> list[str]:
        """access A                  who owns and who reaches the page of an address"""
        (address,) = _numbers(words, 1)
        page = self.machine.page_of(address)
        rights = [f"{endpoint:04X} {self.machine.access(endpoint, page).text}" for endpoint in self.machine.endpoints]
        return [f"owner {self.machine.owner(page):04X}", *rights]

    def _read(self, words: list[str]) -> list[str]:
        """read A N                  N bytes as the runner loads them"""
        address, size = _numbers(words, 2)
        return _dump(address, self.machine.read(address, size))

    def _peek(self, words: list[str]) -> list[str]:
        """peek A N                  N bytes of RAM, whoever reaches them"""
        address, size = _numbers(words, 2)
        return _dump(address, self.machine.peek(address, size))

    def _write(self, words: list[str]) -> list[str]:
        """write A 'TEXT'            bytes as the runner stores them: a text, or digits behind 0x"""
        if len(words) != 2:
            raise ValueError("write takes an address and a text")
        (address,) = _numbers(words[:1], 1)
        data = bytes.fromhex(words[1][2:]) if words[1].startswith("0x") else words[1].encode()
        recorded = _Operations()
        self.machine.watch(recorded)
        try:
            self.machine.write(address, data)
        finally:
            self.machine.unwatch(recorded)
            self._done += recorded.operations
        return [f"{len(data)} bytes"]

    def _decode(self, words: list[str]) -> list[str]:
        """decode X0 .. X7           what registers hold, by name"""
        numbers = _numbers(words, len(words))
        named = decode(Call(tuple(numbers)).x)
        return [str(named) if named is not None else "no call"]

    def _share(self, words: list[str]) -> list[str]:
        """share TX E:R,.. A+N,..    a share of pages to receivers, each with `ro` or `rw`"""
        return self._offer(Kind.SHARE, words)

    def _lend(self, words: list[str]) -> list[str]:
        """lend TX E:R,.. A+N,..     a lend, of which all is as of a share"""
        return self._offer(Kind.LEND, words)

    def _donate(self, words: list[str]) -> list[str]:
        """donate TX E A+N,..        a donate, to one receiver"""
        return self._offer(Kind.DONATE, words)

    def _offer(self, kind: Kind, words: list[str]) -> list[str]:
        tx, to, pages = _exactly(words, "TX", "receivers", "pages")
        receivers = tuple(_receiver(word) for word in to.split(","))
        ranges = tuple(PageRange(*_numbers(word.split("+"), 2)) for word in pages.split(","))
        return self._send(Offer(kind, self.machine.runner, receivers, ranges), tx)

    def _retrieve(self, words: list[str]) -> list[str]:
        """retrieve TX E H [R]       takes what E offered by the handle H, with the right R or the greatest"""
        tx, sender, handle, *right = words if 3 <= len(words) <= 4 else _exactly(words, "TX", "a sender", "a handle")
        receiver = _receiver(":".join([f"{self.machine.runner:04X}", *right]))
        (of,), (named,) = _numbers([sender], 1), _numbers([handle], 1)
        return self._send(Retrieve(of, named, receiver), tx)

    def _relinquish(self, words: list[str]) -> list[str]:
        """relinquish TX H           gives the handle H up"""
        tx, handle = _exactly(words, "TX", "a handle")
        (named,) = _numbers([handle], 1)
        return self._send(Relinquish(named, self.machine.runner), tx)

    def _send(self, request: Offer | Retrieve | Relinquish, tx: str) -> list[str]:
        (address,) = _numbers([tx], 1)
        told: list[str] = []
        for operation in request.operations(address, self.machine.form(self.machine.runner)):
            told = self._perform(operation)
            if told[0].startswith("fault "):
                return told
        return told

    def _why(self, words: list[str]) -> list[str]:
        """why OPERATION             why it would be refused now; it isn't done"""
        if words and words[0] in _CALLS:
            operation: Operation = Call(_encoded(_CALLS[words[0]], words[1:]))
        else:
            command = parse(" ".join(words))
            if not isinstance(command, (Call, Load, Store, Fetch)):
                raise ValueError("why takes a call, a load, a store or a fetch")
            operation = command
        reason = self.machine.why(operation)
        return [str(reason) if reason is not None else "it would be done"]

    def _undo(self, words: list[str]) -> list[str]:
        """undo [N]                  takes the last line back that did something, or the last N"""
        (count,) = _numbers(words, 1) if words else [1]
        if not 1 <= count <= len(self._lines):
            raise ValueError(f"{len(self._lines):X} lines did something")
        undone, machine = self._lines[-count:], Machine(self._manifest)
        self._done, self._lines = self._done[: undone[0][1]], self._lines[:-count]
        self._repeat(machine)
        machine.select(self.machine.processor)
        self.machine.close()
        self.machine = machine
        return [f"undone: {line}" for line, _ in undone]

    def _play(self, words: list[str]) -> Iterable[str]:
        """play FILE                 plays a trace, with its guards"""
        (path,) = _exactly(words, "a file")
        recorded = _Operations()
        self.machine.watch(recorded)
        told: list[str] = []
        try:
            for printed in Player(self.machine, strict=True).play(Path(path).read_bytes()):
                told += printed.text
        except GorseplumbError as wrong:
            told.append(f"error: {_words_of(wrong)}")
        finally:
            self.machine.unwatch(recorded)
            self._done += recorded.operations
        return told

    def _save(self, words: list[str]) -> list[str]:
        """save FILE                 writes what was done as a trace with guards"""
        (path,) = _exactly(words, "a file")
        with Machine(self._manifest) as machine, TraceRecording(machine, path):
            self._repeat(machine)
        return [f"{len(self._done)} operations"]

    # COMPLETION

    def complete(self, line: str, word: str) -> list[str]:
        """What a word can be made of, of the line up to where it ends."""
        before = line[: len(line) - len(word)].split()
        if not before:
            return [it for it in [*self._commands, *_TRACE_WORDS, "quit", *sorted(_CALLS)] if it.startswith(word)]
        if before[0] in ("play", "save"):
            return [str(it) for it in sorted(Path(word).parent.glob(f"{Path(word).name}*"))] if word else []
        if before[0] in ("help", "why") and len(before) == 1:
            commands = [*self._commands, *_TRACE_WORDS, "quit"] if before[0] == "help" else []
            return [it for it in [*commands, *sorted(_CALLS)] if it.startswith(word)]
        named = next((it for it in before if it in _CALLS), None)
        return self._complete_argument(_CALLS[named], before, word) if named else []

    def _complete_argument(self, function: Function, before: list[str], word: str) -> list[str]:
        name, is_given, start = word.partition("=")
        if is_given:
            values = [f"{endpoint:04X}" for endpoint in self.machine.endpoints]
            return [f"{name}={value}" for value in values if value.startswith(start.upper())]
        given = {it.partition("=")[0] for it in before}
        return [f"{it}=" for it in places(function) if it.startswith(word) and it not in given]


class _Operations(Watcher):
    """Keeps what is done."""

    def __init__(self) -> None:
        self.operations: list[tuple[int, Act]] = []

    def after(self, machine: Machine, act: Act, outcome: Outcome) -> None:
        self.operations.append((machine.processor, act))


def _exactly(words: list[str], *names: str) -> list[str]:
    if len(words) != len(names):
        raise ValueError(f"wanted {'are' if len(names) > 1 else 'is'} {', '.join(names)}")
    return words


def _receiver(word: str) -> Receiver:
    endpoint, _, right = word.partition(":")
    (named,) = _numbers([endpoint], 1)
    if right not in _GRANTS:
        raise ValueError(f"a right is none of {', '.join(it for it in _GRANTS if it)}: {right}")
    return Receiver(named, *_GRANTS[right])


def _help_of(word: str, told: list[str]) -> str:
    """What `help` says of one command, of whose lines each begins with the commands that it is about; or of a call."""
    if word in _CALLS:
        return f"{word} {signature(_CALLS[word], '=..', ' ')}".rstrip()
    for line in told:
        if word in [command.split(" ")[0] for command in line[:_HELP].rstrip().split(", ")]:
            return line
    raise ValueError(f"no such command or call: {word}; `help` lists them")


def _words_of(wrong: Exception) -> str:
    return str(wrong) or type(wrong).__name__


def _numbers(words: list[str], count: int) -> list[int]:
    if len(words) != count:
        wanted = "1 number is" if count == 1 else f"{count} numbers are"
        raise ValueError(f"{wanted} wanted, and not {len(words)}")
    try:
        return [int(word.removeprefix("0x"), 16) for word in words]
    except ValueError:
        raise ValueError(f"no hexadecimal numbers: {' '.join(words)}") from None


def _encoded(function: Function, words: list[str]) -> tuple[int, ...]:
    arguments: dict[str, Argument] = {}
    for word in words:
        name, is_given, value = word.partition("=")
        if not is_given:
            raise ValueError(f"an argument is NAME=NUMBER, and not {word!r}: `help {function.name}` lists them")
        is_text = name == "uuid" or value.startswith("FFA_") or value in ErrorCode.__members__
        arguments[name] = value if is_text else _numbers([value], 1)[0]
    return encode(function, **arguments)


def _dump(address: int, data: bytes) -> list[str]:
    rows = range(0, len(data), 16)
    return [f"{address + at:08X}: {data[at : at + 16].hex(' ').upper()}" for at in rows]


# THE TERMINAL


def interact(session: Session) -> None:
    """Reads lines from the terminal until `quit` or the end, with completion and a history that is kept."""
    import readline

    history = Path(os.environ.get("GORSEPLUMB_HISTORY") or Path.home() / ".gorseplumb_history")
    readline.set_completer_delims(" ")
    readline.parse_and_bind("tab: complete")
    readline.set_completer(lambda _, state: _completion(session, state))
    try:
        readline.read_history_file(history)
    except OSError:
        pass
    try:
        _loop(session)
    finally:
        try:
            readline.write_history_file(history)
        except OSError as wrong:
            print(f"the history wasn't kept: {wrong}")


def _completion(session: Session, state: int) -> str | None:
    import readline

    line = readline.get_line_buffer()[: readline.get_endidx()]
    found = session.complete(line, line[readline.get_begidx() :])
    return found[state] if state < len(found) else None


def _loop(session: Session) -> None:
    print(f"{session.machine.runner:04X} runs. `help` lists what there is, `quit` ends.")
    while True:
        try:
            line = input(f"{session.machine.runner:04X}> ")
        except KeyboardInterrupt:
            print()
            continue
        except EOFError:
            print()
            return
        if line.strip() in ("quit", "exit"):
            return
        for told in session.line(line):
            print(told)


def read_all(session: Session, lines: Iterable[str]) -> bool:
    """Plays lines of no terminal, and prints what they give. Whether none was a mistake."""
    is_good = True
    for line in lines:
        if line.strip() in ("quit", "exit"):
            break
        for told in session.line(line):
            print(told)
            is_good = is_good and not told.startswith("error: ")
    return is_good

# SPDX-License-Identifier: MIT OR Apache-2.0
"""Operations, and what comes of them. `str` of each is its line: that of a trace, or that which the program prints.

An operation whose numbers have no room is a ValueError when it is made, and one of what are no numbers a TypeError."""
from __future__ import annotations

from dataclasses import dataclass
from typing import Any, Sequence, Union, overload

from .codes import ErrorCode, Fault, Function
from .errors import call_refused
from .hexadecimal import by_fields, shown
from .misuse import check_number, check_registers, is_number

SIZES = (1, 2, 4, 8)


def _check_access(address: int, size: int) -> None:
    try:
        is_wide = address >> 64
    except TypeError:
        check_number("an address", address)
        raise
    if is_wide:
        raise ValueError(f"an address has 64 bits, and is {address:#x}")
    if size not in SIZES:
        raise ValueError(f"an access has 1, 2, 4 or 8 bytes, and not {size!r}")


@dataclass(frozen=True, slots=True, init=False)
class Call:
    """A call with these registers, x0 first: one to eight numbers, or a tuple of them. Those that aren't given are 0."""

    x: tuple[int, ...]

    __repr__ = by_fields

    @overload
    def __init__(self, x: Sequence[int]) -> None: ...

    @overload
    def __init__(self, *x: int) -> None: ...

    def __init__(self, *given: Any, x: Any = None) -> None:
        registers: Any = given if x is None else (*given, x)
        if len(registers) == 1 and not is_number(registers[0]) and not isinstance(registers[0], str):
            registers = registers[0]
        try:
            self._check(registers)
        except TypeError:
            check_registers(registers)
            raise
        object.__setattr__(self, "x", (*registers, *(0,) * (8 - len(registers))))

    @staticmethod
    def _check(registers: Sequence[int]) -> None:
        if not 1 <= len(registers) <= 8:
            raise ValueError(f"a call has one to eight registers, and not {len(registers)}")
        for place, register in enumerate(registers):
            if register >> 64:
                raise ValueError(f"x{place} has 64 bits, and is {register:#x}")

    def __str__(self) -> str:
        used = max((place for place, register in enumerate(self.x, 1) if register), default=1)
        return "call " + " ".join(f"{register:X}" for register in self.x[:used])


@dataclass(frozen=True, slots=True)
class Load:
    """A load of 1, 2, 4 or 8 bytes."""

    address: int
    size: int

    __repr__ = by_fields

    def __post_init__(self) -> None:
        _check_access(self.address, self.size)

    def __str__(self) -> str:
        return f"load {self.address:08X} {self.size}"


@dataclass(frozen=True, slots=True)
class Store:
    """A store of the lowest 1, 2, 4 or 8 bytes of a value."""

    address: int
    size: int
    value: int

    __repr__ = by_fields

    def __post_init__(self) -> None:
        _check_access(self.address, self.size)
        try:
            is_wide = self.value >> 8 * self.size
        except TypeError:
            check_number("a value", self.value)
            raise
        if is_wide:
            raise ValueError(f"{self.value:#x} doesn't fit in {self.size} bytes")

    def __str__(self) -> str:
        return f"store {self.address:08X} {self.value:0{2 * self.size}X}"


@dataclass(frozen=True, slots=True)
class Fetch:
    """A fetch of one instruction, which is 4 bytes."""

    address: int

    __repr__ = by_fields

    def __post_init__(self) -> None:
        _check_access(self.address, 4)

    def __str__(self) -> str:
        return f"fetch {self.address:08X}"


@dataclass(frozen=True, slots=True)
class Interrupt:
    """An interrupt that the selected processor takes, and that the normal world is to handle."""

    def __str__(self) -> str:
        return "interrupt"


Operation = Union[Call, Load, Store, Fetch]
"""What an endpoint can do."""
Act = Union[Call, Load, Store, Fetch, Interrupt]
"""What a processor can do."""
KINDS = "a Call, a Load, a Store or a Fetch"


@dataclass(frozen=True, slots=True)
class Registers:
    """What a call gives: `runner` runs next, and sees the eight registers `x`."""

    runner: int
    x: tuple[int, ...]

    __repr__ = by_fields

    def __str__(self) -> str:
        return f"regs {self.runner:04X} " + " ".join(f"{register:016X}" for register in self.x)

    @property
    def function(self) -> Function | None:
        """What w0 names."""
        return Function.of(self.x[0])

    @property
    def code(self) -> ErrorCode | int | None:
        """The code of an FFA_ERROR, as a plain number where the standard has none such; else none."""
        if self.x[0] & 0xFFFFFFFF != Function.FFA_ERROR:
            return None
        code = ErrorCode.of(self.x[2])
        return code if code is not None else self.x[2] & 0xFFFFFFFF

    @property
    def is_error(self) -> bool:
        """Whether w0 is that of FFA_ERROR."""
        return self.x[0] & 0xFFFFFFFF == Function.FFA_ERROR

    @property
    def handle(self) -> int:
        """The handle in w2 and w3, where this answers an offer of memory."""
        return self.x[2] & 0xFFFFFFFF | (self.x[3] & 0xFFFFFFFF) << 32

    @property
    def names(self) -> str:
        """The names of the call that these registers are and of its error, as `--names` has them, or an empty text."""
        function = self.function
        if function is None:
            return ""
        code = ErrorCode.of(self.x[2]) if self.is_error else None
        return function.call_name + (f" {code.name}" if code is not None else "")

    def ok(self) -> Registers:
        """Itself, where it is no FFA_ERROR; else the exception of its code, which names the caller, who sees it.

        It has no reason, since registers know no machine. `Machine.require` and `Machine.do` make a call and raise what
        is refused with its reason; else `Machine.why` tells it, asked of that call before anything else is done."""
        code = self.code
        if code is not None:
            raise call_refused(code, caller=self.runner)
        return self


def _as_resumed(value: Any) -> str:
    return f"Resumed(runner={shown(value.runner)})"


@dataclass(frozen=True, slots=True, init=False)
class Resumed(Registers):
    """The partition `runner`, which an interrupt had stopped, runs next and goes on where it was, with its own registers: `x`
    is zeros, and isn't for it."""

    def __init__(self, runner: int) -> None:
        object.__setattr__(self, "runner", runner)
        object.__setattr__(self, "x", (0,) * 8)

    __repr__ = _as_resumed

    def __str__(self) -> str:
        return f"resumed {self.runner:04X}"


@dataclass(frozen=True, slots=True)
class Data:
    """What a load or a fetch gives: `size` bytes, the lowest first."""

    value: int
    size: int

    __repr__ = by_fields

    def __str__(self) -> str:
        return f"data {self.value:0{2 * self.size}X}"

    def __bytes__(self) -> bytes:
        return self.value.to_bytes(self.size, "little")


@dataclass(frozen=True, slots=True)
class Done:
    """A store was done."""

    def __str__(self) -> str:
        return "done"


@dataclass(frozen=True, slots=True)
class Faulted:
    """An access wasn't done, and changed nothing."""

    fault: Fault

    __repr__ = by_fields

    def __str__(self) -> str:
        return f"fault {self.fault.text}"


Outcome = Union[Registers, Data, Done, Faulted]
"""What comes of an operation or an interrupt."""
DONE = Done()
INTERRUPT = Interrupt()
FAULTED = {fault: Faulted(fault) for fault in Fault}

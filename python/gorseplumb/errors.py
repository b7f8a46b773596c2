# SPDX-License-Identifier: MIT OR Apache-2.0
"""What may go wrong, as exceptions by name. All are GorseplumbError.

`args` of an exception are what it was made of, and `str` is its message: so it is copied, and goes from one process to
another, as it is."""
from __future__ import annotations

from typing import TYPE_CHECKING

from .checks import Check, Flaw
from .codes import Cause, ErrorCode, Fault, Function
from .hexadecimal import address_text, short_text, shown

if TYPE_CHECKING:
    from .reasons import Reason


class GorseplumbError(Exception):
    """Any error of this package."""

    def __repr__(self) -> str:
        return f"{type(self).__name__}({', '.join(map(shown, self.args))})"


class LibraryError(GorseplumbError):
    """The shared library can't be used: it isn't there, has other declarations, or lacks what is asked."""


class MachineEnded(GorseplumbError):
    """The machine was closed."""


class RamLent(GorseplumbError):
    """The RAM is lent to a machine, which has it alone until it ends."""


class OutOfMemory(GorseplumbError, MemoryError):
    """An allocation was refused. Nothing has changed."""


class ManifestRefused(GorseplumbError, ValueError):
    """A manifest makes no machine: `cause` is the first that applies. Where it does: `endpoint`, an identifier, and its
    `region`, counted from 1; of a text that is no UTF-8 or no TOML `line` and `column`, counted from 1; None is none.
    `words`, of a text, are the program's. `hint` says what was given in a manifest's place, where that can be told."""

    def __init__(
        self,
        cause: Cause,
        hint: str = "",
        *,
        words: str = "",
        endpoint: int | None = None,
        region: int | None = None,
        line: int | None = None,
        column: int | None = None,
    ) -> None:
        super().__init__(cause, hint)
        self.cause, self.hint, self.words = cause, hint, words
        self.endpoint, self.region, self.line, self.column = endpoint, region, line, column

    def __str__(self) -> str:
        places = [] if self.endpoint is None else [f"endpoint {self.endpoint:04X}"]
        places += [] if self.region is None else [f"region {self.region}"]
        told = self.hint or self.words or ", ".join(places)
        return f"{self.cause.text}: {told}" if told else self.cause.text


class WrongRamSize(GorseplumbError, ValueError):
    """The RAM that was given has another size than the manifest's."""


class NoSuchEndpoint(GorseplumbError, LookupError):
    """The machine has no endpoint of this identifier."""

    def __init__(self, endpoint: int) -> None:
        super().__init__(endpoint)
        self.endpoint = endpoint

    def __str__(self) -> str:
        return f"the machine has no endpoint {self.endpoint:04X}"


class NoSuchProcessor(GorseplumbError, LookupError):
    """There is no processor of this number, which counts from 0."""

    def __init__(self, processor: int) -> None:
        super().__init__(processor)
        self.processor = processor

    def __str__(self) -> str:
        return f"there is no processor {self.processor}: they are 0 to 7"


class NoSuchPage(GorseplumbError, IndexError):
    """RAM has no page of this number, which counts from RAM's first page, or none that has this address."""


class BadLine(GorseplumbError, ValueError):
    """A line is none of a trace or of a log. `number` and `column` count from 1; 0 is none. `hint`, which the message
    ends in, says that the name of a file was given in a text's place, where that can be told."""

    def __init__(self, why: str, column: int = 0, number: int = 0, hint: str = "") -> None:
        super().__init__(why, column, number, hint)
        self.why, self.column, self.number, self.hint = why, column, number, hint

    def __str__(self) -> str:
        places = [f"line {self.number}"] if self.number else []
        places += [f"column {self.column}"] if self.column else []
        told = [", ".join(places), self.why, self.hint]
        return ": ".join(it for it in told if it)


class GuardUnmet(GorseplumbError, AssertionError):
    """A guard of a trace asks for another text than there is. It `is_bad` where nothing that is printed meets it; `hint` is
    what more there is to say."""

    def __init__(self, number: int, wanted: str, got: str | None, *, is_bad: bool = False, hint: str | None = None) -> None:
        super().__init__(number, wanted, got)
        self.number, self.wanted, self.got = number, wanted, got
        self.is_bad, self.hint = is_bad, hint

    def __str__(self) -> str:
        told = "nothing" if self.got is None else f'"{self.got}"'
        name = "bad guard: " if self.is_bad else ""
        hint = f": {self.hint}" if self.hint else ""
        return f'line {self.number}: {name}expected "{self.wanted}", found {told}{hint}'


class NotRecordable(GorseplumbError):
    """A trace can't have what is asked. Nothing was done."""


class MalformedDescriptor(GorseplumbError, ValueError):
    """Bytes are no descriptor: `flaw` is the first condition that they break, and `index` tells whose."""

    def __init__(self, flaw: Flaw, index: int = 0) -> None:
        super().__init__(flaw, index)
        self.flaw, self.index = flaw, index

    def __str__(self) -> str:
        return flaw_text(self.flaw, self.index)


def flaw_text(flaw: Flaw, index: int) -> str:
    """The words of a flaw, behind the access descriptor or the range of which they are."""
    if Flaw.ACCESS_PERMISSIONS <= flaw <= Flaw.ACCESS_RECEIVER_TWICE:
        return f"access descriptor {short_text(index)}: {flaw.words}"
    if Flaw.RANGE_EMPTY <= flaw <= Flaw.RANGE_OVERLAP:
        return f"range {short_text(index)}: {flaw.words}"
    return flaw.words


class AccessFault(GorseplumbError):
    """A load, a store or a fetch that wasn't done. There is a class for each kind of fault."""

    def __init__(self, fault: Fault, address: int, endpoint: int, reason: Reason | None = None) -> None:
        super().__init__(fault, address, endpoint, reason)
        self.fault, self.address, self.endpoint, self.reason = fault, address, endpoint, reason

    def __str__(self) -> str:
        words = f", which {self.reason.words}" if self.reason is not None else ""
        return f"{self.fault.text} fault of {self.endpoint:04X} at {address_text(self.address)}{words}"


class TranslationFault(AccessFault):
    """The endpoint doesn't reach the page."""


class PermissionFault(AccessFault):
    """The endpoint reaches the page, without the right to do this."""


class AlignmentFault(AccessFault):
    """The address is no multiple of the size."""


class AccessFlagFault(AccessFault):
    """A leaf lacks the access flag. No table that the machine writes has such a leaf."""


class OutsideRamFault(AccessFault):
    """A leaf points out of RAM. No table that the machine writes has such a leaf."""


class CallRefused(GorseplumbError):
    """A call that was answered FFA_ERROR. There is a class for each code, with the code's name."""

    def __init__(
        self, code: ErrorCode | int, x0: int | None = None, caller: int | None = None, reason: Reason | None = None
    ) -> None:
        super().__init__(code, x0, caller, reason)
        self.code, self.x0, self.caller, self.reason = code, x0, caller, reason

    def __str__(self) -> str:
        told = [f"{self.caller:04X}"] if self.caller is not None else []
        told += [call_name(self.x0)] if self.x0 is not None else []
        told.append(self.code.name if isinstance(self.code, ErrorCode) else f"error {self.code}")
        if self.reason is not None:  # which names the call, where that isn't told yet
            told.append(str(self.reason) if self.x0 is None else self.reason.words)
        return ": ".join(told)

    @property
    def check(self) -> Check | None:
        """The check that failed, where the library told it."""
        return self.reason.check if self.reason is not None else None

    @property
    def check_number(self) -> int | None:
        """Its number in the manual's list of the call, as the message has it."""
        return self.reason.check_number if self.reason is not None else None


class NotSupported(CallRefused):
    """The function is not supported, or FFA_FEATURES knows no such feature."""


class InvalidParameters(CallRefused):
    """What the call is given, in registers or in TX, isn't what it may be, or the caller has no buffers."""


class NoMemory(CallRefused):
    """A limit is reached, or RX is too small. (The host's memory is OutOfMemory.)"""


class Busy(CallRefused):
    """A buffer is full, or an endpoint isn't ready: later the same call may be done."""


class Interrupted(CallRefused):
    """The standard has this code; the machine never answers it."""


class Denied(CallRefused):
    """The caller may not do this, by its manifest or as things stand: `reason` says what stands in the way."""


class Retry(CallRefused):
    """The standard has this code; the machine never answers it."""


class Aborted(CallRefused):
    """The standard has this code; the machine never answers it."""


class NoData(CallRefused):
    """The normal world has been told of all pending notifications. Only FFA_NOTIFICATION_INFO_GET is answered so."""


_FAULTS: dict[Fault, type[AccessFault]] = {
    Fault.TRANSLATION: TranslationFault,
    Fault.PERMISSION: PermissionFault,
    Fault.ALIGNMENT: AlignmentFault,
    Fault.ACCESS_FLAG: AccessFlagFault,
    Fault.OUTSIDE_RAM: OutsideRamFault,
}

_REFUSALS: dict[ErrorCode, type[CallRefused]] = {
    ErrorCode.NOT_SUPPORTED: NotSupported,
    ErrorCode.INVALID_PARAMETERS: InvalidParameters,
    ErrorCode.NO_MEMORY: NoMemory,
    ErrorCode.BUSY: Busy,
    ErrorCode.INTERRUPTED: Interrupted,
    ErrorCode.DENIED: Denied,
    ErrorCode.RETRY: Retry,
    ErrorCode.ABORTED: Aborted,
    ErrorCode.NO_DATA: NoData,
}


def call_name(x0: int) -> str:
    """The name of the call that x0 holds, or its number."""
    function = Function.of(x0)
    return function.call_name if function is not None else f"{x0 & 0xFFFFFFFF:08X}"


def access_fault(fault: Fault, address: int, endpoint: int, reason: Reason | None = None) -> AccessFault:
    """The exception of a fault."""
    return _FAULTS[fault](fault, address, endpoint, reason)


def call_refused(
    code: ErrorCode | int, x0: int | None = None, caller: int | None = None, reason: Reason | None = None
) -> CallRefused:
    """The exception of an error code."""
    kind: type[CallRefused] = _REFUSALS[code] if isinstance(code, ErrorCode) else CallRefused
    return kind(code, x0, caller, reason)

# SPDX-License-Identifier: MIT OR Apache-2.0
"""Why an operation is refused."""
from __future__ import annotations

from dataclasses import dataclass, field

from .checks import Check, Flaw
from .closer import closer_text
from .codes import MANAGER, About, ErrorCode, Fault, Function, Obstacle, RunState
from .errors import call_name, flaw_text
from .hexadecimal import DECIMAL, address_text, by_fields, short_text
from .hints import Hint
from .outcomes import Call, Fetch, Load, Operation, Store
from .registers import is_read_whole


@dataclass(frozen=True, slots=True)
class Hindrance:
    """Why an endpoint does not reach a page: who owns the page, or the open transaction that the page is in."""

    obstacle: Obstacle
    owner: int = MANAGER
    transaction: int = 0

    __repr__ = by_fields

    def __str__(self) -> str:
        return {
            Obstacle.NONE: "",
            Obstacle.OUTSIDE_RAM: "is outside RAM",
            Obstacle.MANAGERS_PAGE: "belongs to the manager",
            Obstacle.OWNED_BY: f"belongs to {self.owner:04X}",
            Obstacle.IN_TRANSACTION: f"is in the open transaction {self.transaction:016X}",
        }[self.obstacle]


@dataclass(frozen=True, slots=True)
class Subject:
    """The subject of a check that fails. Only the fields that belong to `about` have a meaning."""

    about: About
    address: int = 0
    """PAGE: the address of the first byte of the page"""
    endpoint: int = 0
    state: RunState = RunState.NONE
    """ENDPOINT: its run state, if it is not ready for the call"""
    awaits: int = 0
    """BLOCKED: the endpoint whose response it awaits, or 0"""
    handle: int = 0
    number: int = 0
    """REGISTER, BIT: the number of the register or of the bit; FIELD: the index of the access descriptor or of the range"""
    flaw: Flaw | None = None
    value: int | None = None
    """REGISTER, FIELD: the number that the register or the field has, if it is known"""
    first: int = 0
    size: int = 0
    allowed: range | None = None
    """REGISTER, FIELD: the numbers that the register or the field may have instead, if they are known"""

    __repr__ = by_fields


@dataclass(frozen=True, slots=True)
class Reason:
    """Why an operation is refused. `str` is the line that the program prints with `--explain`."""

    operation: Operation
    fault: Fault | None
    check: Check | None
    check_number: int = field(metadata=DECIMAL)
    """The number of the check in the manual's list of the call, or 0 if there is none"""
    code: ErrorCode | None
    subject: Subject
    hindrance: Hindrance
    hint: Hint | None = None
    """What to change, if that is known"""

    __repr__ = by_fields

    def __str__(self) -> str:
        if not isinstance(self.operation, Call):
            return f"{address_text(self.operation.address)} {self.words}".rstrip()
        x0 = self.operation.x[0]
        return f"{call_name(x0)} {self.words}" if Function.of(x0) is not None else self.words

    @property
    def words(self) -> str:
        """The text of `str` without the name of the call, or without the address, at its start."""
        hint = str(self.hint) if self.hint is not None else ""
        if isinstance(self.operation, Call):
            return _call_words(self.operation, self) + hint
        return _access_words(self.operation, self) + hint


def _call_words(call: Call, reason: Reason) -> str:
    number = f"check {reason.check_number}: " if reason.check_number else ""
    words = reason.check.words if reason.check is not None else ""
    told = _subject_text(call, reason)
    closer = closer_text(call, reason.check, reason.subject)
    return f"{number}{words}" + (f": {told}" if told else "") + closer + _detail_text(reason.subject)


def _subject_text(call: Call, reason: Reason) -> str:
    it = reason.subject
    if it.about is About.PAGE:
        return f"{address_text(it.address)} {reason.hindrance}".rstrip()
    if it.about is About.ENDPOINT:
        return f"endpoint {it.endpoint:04X}"
    if it.about is About.HANDLE:
        return f"handle {it.handle:016X}"
    if it.about is About.REGISTER:
        letter = "x" if is_read_whole(call.x[0], it.number) else "w"
        return f"{letter}{it.number} is {address_text(it.value or 0)}"
    if it.about is About.BIT:
        return f"bit {short_text(it.number)}"
    return _field_text(it) if it.about is About.FIELD else ""


def _detail_text(it: Subject) -> str:
    """The run state of the endpoint, or the numbers that may be in the register or the field."""
    digits = 2 * min(it.size, 8) if it.about is About.FIELD else 8
    return _state_text(it) + _allowed_text(it.allowed, digits)


def _state_text(it: Subject) -> str:
    words = {
        RunState.NONE: "",
        RunState.RUNNING: ", which is running",
        RunState.WAITING: ", which is waiting",
        RunState.YIELDED: ", which has yielded",
        RunState.BLOCKED: ", which is blocked",
        RunState.PREEMPTED: ", which is preempted",
        RunState.RUNS_ELSEWHERE: ", which is running on another processor",
    }[it.state]
    return words + (f" by its direct request to {it.awaits:04X}" if it.awaits else "")


def _allowed_text(allowed: range | None, digits: int) -> str:
    if allowed is None:
        return ""
    least, most = f"{allowed[0]:0{digits}X}", f"{allowed[-1]:0{digits}X}"
    if len(allowed) == 1:
        return f", and must be {least}"
    if allowed.step == 1 or len(allowed) > 2:
        steps = f" in steps of {allowed.step:0{digits}X}" if allowed.step != 1 else ""
        return f", and must be {least} to {most}{steps}"
    return f", and must be {least} or {most}"


def _field_text(it: Subject) -> str:
    words = flaw_text(it.flaw, it.number) if it.flaw is not None else ""
    size, number = it.size, it.value
    if it.flaw is Flaw.HEADER_ARRAY_OUTSIDE and size == 8:
        # Only the number of access descriptors is printed: the first four bytes.
        size, number = 4, None if number is None else number % 2**32
    if size <= 1:
        place, verb = f"byte {short_text(it.first)}", "is"
    else:
        place, verb = f"bytes {short_text(it.first)} to {short_text(it.first + size - 1)}", "are"
    value = f" {verb} {number:0{2 * size}X}" if number is not None else ""
    return f"{words}: {place}{value}"


def _access_words(operation: Load | Store | Fetch, reason: Reason) -> str:
    size = 4 if isinstance(operation, Fetch) else operation.size
    verb = {Load: "read", Store: "written", Fetch: "executed"}[type(operation)]
    words = {
        Fault.TRANSLATION: str(reason.hindrance) or "is above FFFFFFFF",
        Fault.PERMISSION: f"may not be {verb}",
        Fault.ALIGNMENT: f"is not a multiple of {size}",
        Fault.ACCESS_FLAG: "has no access flag",
        Fault.OUTSIDE_RAM: "leads out of RAM",
    }
    return words[reason.fault] if reason.fault is not None else ""

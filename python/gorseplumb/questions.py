# SPDX-License-Identifier: MIT OR Apache-2.0
"""What a machine can be asked. A question changes nothing."""
from __future__ import annotations

import ctypes
from dataclasses import dataclass
from typing import Iterable, Iterator, NoReturn, Protocol

from . import _library as c
from ._library import library
from .access import AccessMap, Run, raw_runs, run_of_raw
from .checks import Check, Flaw
from .codes import BLOCK_SIZE, MANAGER, PAGE_SIZE, PAGES_OF_BLOCK
from .codes import About, Answer, ErrorCode, Fault, GrantKind, Obstacle, Right, RunState
from .errors import MachineEnded, NoSuchEndpoint, NoSuchPage, NoSuchProcessor, OutOfMemory
from .hexadecimal import by_fields
from .hints import hint_of_raw
from .misuse import check_number, refuse
from .outcomes import KINDS, Call, Fetch, Load, Operation, Store
from .reasons import Hindrance, Reason, Subject


@dataclass(frozen=True, slots=True)
class Grant:
    """By what an endpoint has its access to a page, and the transaction where it has it by one."""

    kind: GrantKind
    handle: int | None

    __repr__ = by_fields


@dataclass(frozen=True, slots=True)
class Change:
    """Whose access to which pages changed: ranges by the address of the first byte, and the size in bytes."""

    endpoint: int
    ranges: tuple[tuple[int, int], ...]

    __repr__ = by_fields


class Ending(Protocol):
    """What ends a machine, once."""

    @property
    def alive(self) -> bool:
        """Whether it didn't yet."""

    def __call__(self, _: object = None) -> object:
        """Ends it."""


class Questions:
    """The questions to a machine."""

    __slots__ = ("_raw", "_end", "_endpoints")

    _raw: c.Held
    _end: Ending
    _endpoints: tuple[int, ...]

    @property
    def runner(self) -> int:
        """The endpoint that runs on the selected processor."""
        return self._some(library.runner(self._raw))

    @property
    def endpoints(self) -> tuple[int, ...]:
        """The endpoints' identifiers, in the manifest's order."""
        return self._endpoints

    @property
    def ram_base(self) -> int:
        """The address of RAM's first byte."""
        return self._some(library.ram_base(self._raw))

    @property
    def ram_blocks(self) -> int:
        """How many blocks of 2 MiB RAM has."""
        return self._some(library.ram_blocks(self._raw))

    @property
    def pages(self) -> int:
        """How many pages RAM has."""
        return PAGES_OF_BLOCK * self.ram_blocks

    def page_of(self, address: int) -> int:
        """The number of the page that has an address."""
        check_number("an address", address)
        page = (address - self.ram_base) // PAGE_SIZE
        if not 0 <= page < self.pages:
            raise NoSuchPage(f"{address:08X} is outside RAM")
        return page

    def owner(self, page: int) -> int:
        """Who owns a page: an endpoint, or the manager."""
        owner = library.owner(self._raw, page) if _has_room(page) else c.NOTHING
        if owner == c.NOTHING:
            self._refuse_page(page)
        return int(owner)

    def access(self, endpoint: int, page: int) -> Right:
        """What an endpoint may do with a page."""
        self._check_endpoint(endpoint)
        self.owner(page)
        return Right(library.access(self._raw, endpoint, page))

    def granted(self, endpoint: int, page: int) -> Grant:
        """By what an endpoint has its access to a page."""
        self._check_endpoint(endpoint)
        self.owner(page)
        told = library.granted(self._raw, endpoint, page)
        kind = GrantKind(told.kind)
        return Grant(kind, told.handle if kind in (GrantKind.SHARED, GrantKind.HELD) else None)

    def npi_pending(self, endpoint: int) -> bool:
        """Whether an endpoint has a notification pending."""
        self._check_alive()
        self._check_endpoint(endpoint)
        return bool(library.npi_pending(self._raw, endpoint))

    def sri_pending(self) -> bool:
        """Whether the normal world's schedule receiver interrupt is to be pending: its next FFA_NOTIFICATION_INFO_GET would name
        an endpoint. Always False on a machine of `Ffa.V1_1`, which does not serve that call."""
        self._check_alive()
        return bool(library.sri_pending(self._raw))

    def root(self, endpoint: int) -> int:
        """The address of an endpoint's level 1 table."""
        self._check_endpoint(endpoint)
        return self._some(library.root(self._raw, endpoint))

    def page(self, page: int) -> bytes:
        """The bytes of a page, whoever reaches it."""
        found = ctypes.create_string_buffer(PAGE_SIZE)
        if not (_has_room(page) and library.read_page(self._raw, page, found)):
            self._refuse_page(page)
        return found.raw

    def peek(self, address: int, size: int) -> bytes:
        """Bytes of RAM, whoever reaches them."""
        if size < 1:
            return b""
        first, last = self.page_of(address), self.page_of(address + size - 1)
        at = (address - self.ram_base) % PAGE_SIZE
        return b"".join(self.page(page) for page in range(first, last + 1))[at : at + size]

    def run_at(self, page: int) -> Run:
        """The longest run of pages from this one on with one owner, one transaction or none, and the same rights."""
        raw = c.CertRun()
        if not (_has_room(page) and library.cert_run(self._raw, page, raw)):
            self._refuse_page(page)
        return run_of_raw(raw, len(self._endpoints))

    def runs(self) -> Iterator[Run]:
        """The runs that cover all of RAM."""
        page, pages = 0, self.pages
        while page < pages:
            run = self.run_at(page)
            yield run
            page = run.last + 1

    def access_map(self) -> AccessMap:
        """Who owns and reaches which pages now."""
        return AccessMap(self.ram_base, self._endpoints, self.runner, tuple(self.runs()))

    def _repr_svg_(self) -> str | None:
        return self.access_map()._repr_svg_() if self._end.alive else None

    def show(self) -> list[str]:
        """What the program prints for `show`."""
        return self.access_map().show()

    def audit(self, runs: Iterable[Run] | None = None) -> bool:
        """Whether the tables in RAM give just the access that these runs say, which may be a list, a generator or any
        other iterable: the machine's own, if none are given."""
        told = raw_runs(self.runs() if runs is None else runs)
        answer = library.audit(self._raw, told, len(told))
        if answer == Answer.NO_MEMORY:
            raise OutOfMemory("an allocation was refused")
        if answer == Answer.NO_MACHINE:
            self._refuse_ended()
        return bool(answer == Answer.OK)

    def certificate(self) -> list[str]:
        """What the program prints for `audit`."""
        shown = self.access_map()
        last = shown.ram_base + self.ram_blocks * BLOCK_SIZE - 1
        lines = [f"cert {shown.ram_base:08X} {last:08X} {len(self._endpoints):X}"]
        lines += [f"root {endpoint:04X} {self.root(endpoint):08X}" for endpoint in self._endpoints]
        return [*lines, *shown.certificate(), "agrees" if self.audit(shown.runs) else "differs"]

    def take_change(self) -> Change | None:
        """What the last call on memory that was done has changed of access. It is told once."""
        self._check_alive()
        raw = c.Change()
        if not library.take_change(self._raw, raw):
            return None
        return Change(raw.endpoint, tuple((it.address, it.size) for it in raw.ranges[: raw.range_count]))

    def why(self, operation: Operation) -> Reason | None:
        """Why an operation of the runner would be refused now, or was refused just before; none where it isn't."""
        self._check_alive()
        raw = c.Reason()
        if isinstance(operation, Call):
            refused = library.why_call(self._raw, c.REGISTERS.pack(*operation.x), raw)
        elif isinstance(operation, Load):
            refused = library.why_load(self._raw, operation.address, operation.size, raw)
        elif isinstance(operation, Store):
            refused = library.why_store(self._raw, operation.address, operation.size, raw)
        elif isinstance(operation, Fetch):
            refused = library.why_fetch(self._raw, operation.address, raw)
        else:
            refuse("an operation", KINDS, operation)
        return self._reason(operation, raw) if refused else None

    def _reason(self, operation: Operation, raw: c.Reason) -> Reason:
        number = 0
        if isinstance(operation, Call):
            number = library.check_number(operation.x[0] & 0xFFFFFFFF, raw.check)
        return Reason(
            operation,
            Fault(raw.fault) if raw.fault else None,
            Check(raw.check) if raw.check else None,
            number,
            ErrorCode(raw.error) if raw.error else None,
            self._subject(raw),
            _hindrance(raw),
            hint_of_raw(raw.hint),
        )

    def _subject(self, raw: c.Reason) -> Subject:
        about = About(raw.about)
        address = self.ram_base + PAGE_SIZE * raw.page if about is About.PAGE else 0
        flaw = Flaw(raw.flaw) if raw.flaw else None
        value = raw.value if raw.has_value else None
        number = raw.index if about is About.FIELD else raw.number
        state = RunState(raw.state)
        allowed = range(raw.least, raw.most + 1, raw.step) if raw.step else None
        return Subject(
            about, address, raw.endpoint, state, raw.awaits, raw.handle, number, flaw, value, raw.first, raw.size, allowed
        )

    def _some(self, number: int) -> int:
        if number == c.NOTHING:
            self._refuse_ended()
        return number

    def _check_alive(self) -> None:
        if not self._end.alive:
            self._refuse_ended()

    def _check_endpoint(self, endpoint: int) -> None:
        if endpoint not in self._endpoints:
            check_number("an endpoint", endpoint)
            raise NoSuchEndpoint(endpoint)

    def _check_processor(self, processor: int) -> None:
        check_number("a processor", processor)
        if not 0 <= processor < c.MOST_PROCESSORS:
            raise NoSuchProcessor(processor)

    def _refuse_page(self, page: int) -> NoReturn:
        if library.runner(self._raw) == c.NOTHING:
            self._refuse_ended()
        is_address = self.ram_base <= page < self.ram_base + PAGE_SIZE * self.pages
        hint = f"; page_of({page:#x}) is the page of that address" if is_address else ""
        raise NoSuchPage(f"RAM has no page {page:#x}: it has {self.pages:#x} pages{hint}")

    def _refuse_ended(self) -> NoReturn:
        raise MachineEnded("the machine was closed")


def _has_room(page: int) -> bool:
    """Whether the library can be asked of a page of this number."""
    try:
        return page >> 32 == 0
    except TypeError:
        check_number("a page", page)
        raise


def _hindrance(raw: c.Reason) -> Hindrance:
    obstacle = Obstacle(raw.obstacle)
    owner = raw.owner if obstacle is Obstacle.OWNED_BY else MANAGER
    return Hindrance(obstacle, owner, raw.transaction)

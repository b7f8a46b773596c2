# SPDX-License-Identifier: MIT OR Apache-2.0
"""Many operations by one call of the library."""
from __future__ import annotations

import ctypes
from collections.abc import Iterable, Iterator, Sequence
from typing import overload

from . import _library as c
from .codes import Fault
from .hexadecimal import shown
from .misuse import refuse
from .outcomes import DONE, FAULTED, KINDS, Call, Data, Fetch, Load, Operation, Outcome, Registers, Resumed, Store

_NO_REGISTERS = (0,) * 8


class Batch:
    """Operations as the library takes them, packed once, which may be run as often as one likes."""

    def __init__(self, operations: Iterable[Operation]) -> None:
        if not isinstance(operations, Iterable):
            refuse("what is run", "a list of operations", operations, f"[{operations!r}]")
        self.operations: tuple[Operation, ...] = tuple(operations)
        self.packed = b"".join(map(_pack, self.operations))
        self.sizes = tuple(4 if isinstance(it, Fetch) else getattr(it, "size", 0) for it in self.operations)

    def __len__(self) -> int:
        return len(self.operations)

    def __repr__(self) -> str:
        return f"Batch({shown(list(self.operations))})"


def _pack(operation: Operation) -> bytes:
    if isinstance(operation, Call):
        return c.OPERATION.pack(c.OPERATION_CALL, 0, 0, 0, *operation.x)
    if isinstance(operation, Fetch):
        return c.OPERATION.pack(c.OPERATION_FETCH, 0, operation.address, 0, *_NO_REGISTERS)
    if isinstance(operation, Load):
        return c.OPERATION.pack(c.OPERATION_LOAD, operation.size, operation.address, 0, *_NO_REGISTERS)
    if isinstance(operation, Store):
        return c.OPERATION.pack(c.OPERATION_STORE, operation.size, operation.address, operation.value, *_NO_REGISTERS)
    refuse("an operation", KINDS, operation)


class Outcomes(Sequence[Outcome]):
    """What came of a batch, read from the library's bytes when it is asked for."""

    def __init__(self, batch: Batch) -> None:
        self._sizes = batch.sizes
        self.raw = ctypes.create_string_buffer(c.OUTCOME.size * len(batch))

    def __len__(self) -> int:
        return len(self._sizes)

    @overload
    def __getitem__(self, place: int) -> Outcome: ...

    @overload
    def __getitem__(self, place: slice) -> Sequence[Outcome]: ...

    def __getitem__(self, place: int | slice) -> Outcome | Sequence[Outcome]:
        if isinstance(place, slice):
            return [self[it] for it in range(*place.indices(len(self)))]
        at = range(len(self))[place]
        return _outcome(c.OUTCOME.unpack_from(self.raw, c.OUTCOME.size * at), self._sizes[at])

    def __iter__(self) -> Iterator[Outcome]:
        told = memoryview(self.raw)[: c.OUTCOME.size * len(self)]
        return map(_outcome, c.OUTCOME.iter_unpack(told), self._sizes)

    def __repr__(self) -> str:
        return f"<Outcomes: {shown(list(self))}>"


def _outcome(told: tuple[int, ...], size: int) -> Outcome:
    kind = told[0]
    if kind == c.KIND_REGISTERS:
        return Registers(told[1], told[3:])
    if kind == c.KIND_DATA:
        return Data(told[2], size)
    if kind == c.KIND_RESUMED:
        return Resumed(told[1])
    return DONE if kind == c.KIND_DONE else FAULTED[Fault(told[2])]

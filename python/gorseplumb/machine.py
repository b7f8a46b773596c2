# SPDX-License-Identifier: MIT OR Apache-2.0
"""The machine."""
from __future__ import annotations

import ctypes
import os
import struct
import weakref
from typing import TYPE_CHECKING, Callable, Iterable, Iterator, NoReturn, SupportsIndex

from . import _library as c
from ._library import library
from .batch import Batch, Outcomes
from .codes import Answer, Fault, Form, Function
from .descriptors import Offer, ReadBack, Relinquish, Retrieve, stores
from .errors import LibraryError, access_fault, call_refused
from .hexadecimal import shown
from .manifest import Manifest, checked_boot, text_of
from .messages import IndirectMessage
from .misuse import check_member, check_number, refuse
from .outcomes import DONE, FAULTED, INTERRUPT, KINDS, SIZES
from .outcomes import Act, Call, Data, Done, Faulted, Fetch, Interrupt, Load, Operation, Outcome, Registers, Resumed
from .outcomes import Store
from .questions import Questions
from .ram import Ram
from .registers import Argument, encode

if TYPE_CHECKING:
    from .recording import JsonRecording, TraceRecording


class Watcher:
    """Who is told of each operation of a machine, and of each interrupt."""

    def after(self, machine: Machine, act: Act, outcome: Outcome) -> None:
        """An operation or an interrupt was done by `machine.processor`, or an operation was refused."""


class _First(Watcher):
    """Sees that a machine isn't as it booted any more."""

    def after(self, machine: Machine, act: Act, outcome: Outcome) -> None:
        machine.unwatch(self)


_FIRST = _First()

# What one operation needs, as it takes least time: a frozen dataclass is filled by its slots, and a call is handed its
# two addresses as they are.
_call = library.bare("call")
_load, _store, _fetch = library.load, library.store, library.fetch
_pack = c.REGISTERS.pack
_unpack = struct.Struct("<16x8Q").unpack
_new = object.__new__
_set_runner: Callable[[Registers, int], None] = Registers.__dict__["runner"].__set__
_set_x: Callable[[Registers, tuple[int, ...]], None] = Registers.__dict__["x"].__set__
_set_value: Callable[[Data, int], None] = Data.__dict__["value"].__set__
_set_size: Callable[[Data, int], None] = Data.__dict__["size"].__set__


class Machine(Questions):
    """A machine, of which one endpoint runs. It ends by `close`, at the end of a `with`, or when nobody has it.

    Its manifest is a text, a path to one (a str is a text, so give a `pathlib.Path`), or a Manifest. Its RAM is of the
    heap, or a Ram, of which all is zeros then but the tables; with `keep` the pages of regions keep the bytes that they
    have. `fork` makes the same machine once more, as `copy` does; it isn't pickled."""

    __slots__ = ("_at", "_ram", "_manifest", "_values", "_processor", "_watchers", "__weakref__")

    def __init__(
        self, manifest: str | bytes | os.PathLike[str] | Manifest, ram: Ram | None = None, *, keep: bool = False
    ) -> None:
        if keep and ram is None:
            raise ValueError("RAM of the heap has no bytes to keep: give a Ram")
        _check_ram(ram)
        if not isinstance(manifest, (str, Manifest)):
            manifest = text_of(manifest, "a text, a path or a Manifest")
        self._manifest = manifest
        self._values = self._manifest if isinstance(self._manifest, Manifest) else None
        self._boot(self._manifest, ram, keep)
        self._watchers: list[Watcher] = [_FIRST]

    def _boot(self, manifest: str | bytes | Manifest, ram: Ram | None, keep: bool) -> None:
        kind = "boot" if ram is None else "boot_preloaded" if keep else "boot_lent"
        told: tuple[object, ...]
        if isinstance(manifest, Manifest):
            kind, told = f"{kind}_manifest", (manifest.raw(),)
        else:
            text = text_of(manifest)
            told = (text, len(text))
        self._begin(getattr(library, kind), ram, *told, given=manifest)

    def _begin(self, make: Callable[..., int], ram: Ram | None, *told: object, given: object = None) -> None:
        """Has the library make the machine of what it is told, in RAM of the heap or in a Ram."""
        self._raw, self._ram = c.Held(), ram
        if ram is None:
            checked_boot(make(self._raw, *told), given, told[0])
        else:
            lent = ram.lend()
            try:
                checked_boot(make(self._raw, lent, *told), given, told[0])
            except BaseException:
                ram.take_back()
                raise
        self._processor = 0
        self._end = weakref.finalize(self, _end, self._raw, ram)
        self._at = ctypes.byref(self._raw)
        self._endpoints = tuple(place and 0x8000 + place for place in range(library.endpoints(self._raw)))

    def fork(self, ram: Ram | None = None) -> Machine:
        """The same machine once more, with RAM of the heap or a Ram, whichever this one has: each operation gives the
        same in both from then on, and neither changes the other. Nobody watches it."""
        self._check_alive()
        _check_ram(ram)
        other = _new(Machine)
        other._manifest, other._values = self._manifest, self._values
        other._begin(library.copy if ram is None else library.copy_lent, ram, self._raw)
        other._processor = self._processor
        other._watchers = [_FIRST] if self.is_fresh else []
        return other

    def __copy__(self) -> Machine:
        return self.fork()

    def __deepcopy__(self, _: object) -> Machine:
        return self.fork()

    def close(self) -> None:
        """Ends the machine. A Ram that was lent is the caller's again, with the bytes that it has in the end."""
        self._end()

    def __enter__(self) -> Machine:
        return self

    def __exit__(self, *_: object) -> None:
        self.close()

    def __reduce_ex__(self, protocol: SupportsIndex) -> NoReturn:
        raise TypeError("a machine isn't pickled: boot another, and do on it what was done, or `fork` it")

    def __repr__(self) -> str:
        if not self._end.alive:
            return "<Machine, ended>"
        return f"<Machine of {len(self._endpoints)} endpoints, {self.runner:04X} runs>"

    @property
    def manifest_text(self) -> bytes:
        """The text of its manifest, as the program takes it."""
        manifest = self._manifest
        return text_of(manifest.text() if isinstance(manifest, Manifest) else manifest)

    @property
    def manifest(self) -> Manifest:
        """Its manifest, as values."""
        if self._values is None:
            self._values = Manifest.read(self.manifest_text)
        return self._values

    def form(self, endpoint: int) -> Form:
        """The form of an endpoint's descriptors by the manifest. On a machine of FF-A 1.2 FFA_VERSION changes it."""
        self._check_endpoint(endpoint)
        return self.manifest.endpoints[self._endpoints.index(endpoint)].form

    # OPERATIONS of the endpoint that runs on the selected processor. One that is refused is an outcome, and no exception.

    def call(
        self, x0: int, x1: int = 0, x2: int = 0, x3: int = 0, x4: int = 0, x5: int = 0, x6: int = 0, x7: int = 0
    ) -> Registers:
        """A call with these registers. Of a partition that an interrupt had stopped, and that goes on, the answer is Resumed."""
        try:
            told = _call(self._at, _pack(x0, x1, x2, x3, x4, x5, x6, x7))
        except struct.error:
            Call((x0, x1, x2, x3, x4, x5, x6, x7))  # says which has no room
            raise
        if told.kind:
            answer = self._resumed(told)
        else:
            answer = _new(Registers)
            _set_runner(answer, told.runner)
            _set_x(answer, _unpack(told))
        if self._watchers:
            self._tell(Call((x0, x1, x2, x3, x4, x5, x6, x7)), answer)
        return answer

    def load(self, address: int, size: int) -> Data | Faulted:
        """A load of 1, 2, 4 or 8 bytes."""
        try:
            is_wrong = address >> 64 or size not in SIZES
        except TypeError:
            is_wrong = True
        if is_wrong:
            Load(address, size)  # says which is wrong
        found = self._accessed(_load(self._raw, address, size), size)
        if self._watchers:
            self._tell(Load(address, size), found)
        return found

    def store(self, address: int, size: int, value: int) -> Done | Faulted:
        """A store of a value of 1, 2, 4 or 8 bytes."""
        try:
            is_wrong = address >> 64 or size not in SIZES or value >> 8 * size
        except TypeError:
            is_wrong = True
        if is_wrong:
            Store(address, size, value)
        found = self._stored(_store(self._raw, address, size, value))
        if self._watchers:
            self._tell(Store(address, size, value), found)
        return found

    def fetch(self, address: int) -> Data | Faulted:
        """A fetch of one instruction, which is 4 bytes."""
        try:
            is_wrong = address >> 64
        except TypeError:
            is_wrong = True
        if is_wrong:
            Fetch(address)
        found = self._accessed(_fetch(self._raw, address), 4)
        if self._watchers:
            self._tell(Fetch(address), found)
        return found

    # SEVERAL PROCESSORS and interrupts

    @property
    def processor(self) -> int:
        """The selected processor: operations, interrupts and questions are of whoever runs there."""
        return self._processor

    def select(self, processor: int) -> None:
        """Selects a processor, from 0 to 7. It is 0 at first. A partition that another processor runs is busy."""
        self._check_processor(processor)
        self._check_alive()
        if not library.select(self._raw, processor):
            raise LibraryError(f"the library doesn't select processor {processor}")
        self._processor = processor

    def interrupt(self) -> Registers | Done:
        """An interrupt that the selected processor takes, and that the normal world is to handle: a partition that runs there
        stops where it is, and the normal world sees FFA_INTERRUPT, which names it. Done: the normal world runs there
        already, and takes it by itself."""
        told = library.interrupt(self._raw)
        found: Registers | Done
        if told.kind == c.KIND_REGISTERS:
            found = Registers(told.runner, tuple(told.x))
        elif told.kind == c.KIND_DONE:
            found = DONE
        else:
            self._refuse_kind(told.kind)
        if self._watchers:
            self._tell(INTERRUPT, found)
        return found

    # MANY OPERATIONS, and operations that raise where they are refused

    def perform(self, act: Act) -> Outcome:
        """One operation of the endpoint that runs, or an interrupt."""
        if isinstance(act, Call):
            return self.call(*act.x)
        if isinstance(act, Load):
            return self.load(act.address, act.size)
        if isinstance(act, Store):
            return self.store(act.address, act.size, act.value)
        if isinstance(act, Fetch):
            return self.fetch(act.address)
        if isinstance(act, Interrupt):
            return self.interrupt()
        refuse("an operation", KINDS, act)

    def run(self, operations: Batch | Iterable[Operation]) -> Outcomes:
        """Operations one behind the other, by one call of the library."""
        batch = operations if isinstance(operations, Batch) else Batch(operations)
        self._check_alive()
        outcomes = Outcomes(batch)
        done = library.run(self._raw, batch.packed, len(batch), outcomes.raw, len(batch))
        if done != len(batch):
            raise LibraryError(f"{done} of {len(batch)} operations were done")
        if self._watchers:
            for operation, outcome in zip(batch.operations, outcomes):
                self._tell(operation, outcome)
        return outcomes

    def do(self, function: Function, /, **arguments: Argument) -> Registers:
        """A call by the names of its arguments. Where it is refused, that is raised. These are the calls:

            FFA_VERSION                      major, minor
            FFA_FEATURES                     feature
            FFA_RX_RELEASE                   -
            FFA_RXTX_MAP*                    tx, rx, pages
            FFA_RXTX_UNMAP                   [endpoint]
            FFA_PARTITION_INFO_GET           [uuid], [count_only]
            FFA_ID_GET                       -
            FFA_MSG_WAIT                     [partition], [context], [flags]
            FFA_YIELD                        [partition], [context]
            FFA_RUN                          partition, [context]
            FFA_MSG_SEND_DIRECT_REQ*         sender, receiver, [flags], [payload0] .. [payload4]
            FFA_MSG_SEND_DIRECT_RESP*        sender, receiver, [flags], [payload0] .. [payload4]
            FFA_MEM_DONATE*                  length, [fragment], [address], [pages]
            FFA_MEM_LEND*                    length, [fragment], [address], [pages]
            FFA_MEM_SHARE*                   length, [fragment], [address], [pages]
            FFA_MEM_RETRIEVE_REQ*            length, [fragment], [address], [pages]
            FFA_MEM_RELINQUISH               -
            FFA_MEM_RECLAIM                  handle, [flags]
            FFA_NOTIFICATION_BITMAP_CREATE   endpoint, contexts
            FFA_NOTIFICATION_BITMAP_DESTROY  endpoint
            FFA_NOTIFICATION_BIND            sender, receiver, [flags], bits
            FFA_NOTIFICATION_UNBIND          sender, receiver, [flags], bits
            FFA_NOTIFICATION_SET             sender, receiver, [flags], bits
            FFA_NOTIFICATION_GET             receiver, [context], flags
            FFA_NOTIFICATION_INFO_GET*       -
            FFA_SPM_ID_GET                   -
            FFA_MSG_SEND2                    -

        What stands in brackets may be left out, and is 0 then, but for `fragment`, which is `length`. A call with a
        star has a 64-bit form too, whose name ends in `_64`. A `uuid` is a `uuid.UUID`, or a str of 32 hexadecimal
        digits, with hyphens or without; a number is the one that these digits write, as in `UUID.int`. A `feature` may
        be the name of a call. Descriptors and messages go by `send`, and registers as they are by `call`."""
        return self.require(Call(encode(function, **arguments)))

    def require(self, call: Call) -> Registers:
        """A call which, where it is refused, is raised with its reason."""
        if not isinstance(call, Call):
            refuse("a call", "a Call", call, f"Call({shown(call)})" if isinstance(call, int) else None)
        caller = self.runner
        answer = self.call(*call.x)
        code = answer.code
        if code is not None:
            raise call_refused(code, call.x[0], caller, self.why(call))
        return answer

    def send(
        self, request: Offer | Retrieve | ReadBack | Relinquish | IndirectMessage, tx: int, form: Form | None = None
    ) -> Registers:
        """Writes a descriptor or a message to TX of the runner, in its form, and makes its call. Where a store or the
        call is refused, that is raised. The form is that of the manifest; give another one if the runner has asked for it
        by FFA_VERSION."""
        if not hasattr(request, "operations"):
            refuse("a request", "an Offer, a Retrieve, a ReadBack, a Relinquish or an IndirectMessage", request)
        check_number("tx", tx)
        if form is not None:
            check_member("form", form, Form)
        for operation in request.operations(tx, self.form(self.runner) if form is None else form):
            if isinstance(operation, Call):
                answer = self.require(operation)
            elif isinstance(operation, Store):
                self._require_store(operation)
        return answer

    def read(self, address: int, size: int) -> bytes:
        """Bytes of any place and length, by the runner's loads, each as large as it can be. A fault is raised."""
        found = bytearray()
        for at, piece in _pieces(address, size):
            told = self.load(at, piece)
            if isinstance(told, Faulted):
                raise access_fault(told.fault, at, self.runner, self.why(Load(at, piece)))
            found += bytes(told)
        return bytes(found)

    def write(self, address: int, data: bytes) -> None:
        """Stores bytes to any place, as `read` reads them. A fault is raised; what stands before it was stored."""
        check_number("an address", address)
        if isinstance(data, str):
            refuse("data", "bytes", data, "its encode()")
        if address < 0 or address + len(data) > 1 << 64:
            raise ValueError(f"{len(data)} bytes at {address:#x} aren't all in 64 bits")
        for store in stores(address, data):
            self._require_store(store)

    def _require_store(self, store: Store) -> None:
        told = self.store(store.address, store.size, store.value)
        if isinstance(told, Faulted):
            raise access_fault(told.fault, store.address, self.runner, self.why(store))

    # WATCHING

    @property
    def is_fresh(self) -> bool:
        """Whether nothing was done since the boot."""
        return _FIRST in self._watchers

    def watch(self, watcher: Watcher) -> None:
        """From now on the watcher is told of each operation."""
        self._watchers.append(watcher)

    def unwatch(self, watcher: Watcher) -> None:
        """It isn't told any more."""
        self._watchers.remove(watcher)

    def record(self, path: os.PathLike[str] | str | None = None) -> TraceRecording:
        """Writes what is done from now on as a trace with guards, to a path or to its `text`."""
        from .recording import TraceRecording

        return TraceRecording(self, path)

    def record_json(self, path: os.PathLike[str] | str | None = None) -> JsonRecording:
        """Writes what is done from now on as lines of JSON."""
        from .recording import JsonRecording

        return JsonRecording(self, path)

    def _tell(self, act: Act, outcome: Outcome) -> None:
        for watcher in tuple(self._watchers):
            watcher.after(self, act, outcome)

    def _resumed(self, told: c.Outcome) -> Registers:
        if told.kind != c.KIND_RESUMED:
            self._refuse_kind(told.kind)
        return Resumed(told.runner)

    def _accessed(self, told: c.Outcome, size: int) -> Data | Faulted:
        if told.kind == c.KIND_DATA:
            found = _new(Data)
            _set_value(found, told.value)
            _set_size(found, size)
            return found
        if told.kind != c.KIND_FAULT:
            self._refuse_kind(told.kind)
        return FAULTED[Fault(told.value)]

    def _stored(self, told: c.Outcome) -> Done | Faulted:
        if told.kind == c.KIND_DONE:
            return DONE
        if told.kind != c.KIND_FAULT:
            self._refuse_kind(told.kind)
        return FAULTED[Fault(told.value)]

    def _refuse_kind(self, kind: int) -> NoReturn:
        if kind == c.KIND_NO_MACHINE:
            self._refuse_ended()
        raise LibraryError(f"the library answers an outcome of kind {kind}")


def _check_ram(ram: object) -> None:
    if ram is not None and not isinstance(ram, Ram):
        refuse("ram", "a Ram", ram, f"Ram({ram})" if isinstance(ram, int) else None)


def _end(raw: c.Held, ram: Ram | None) -> None:
    answer = library.end_heap(raw) if ram is None else library.end(raw, ram.lent)
    if answer != Answer.OK:
        raise LibraryError(f"the end of a machine answers {answer}")
    if ram is not None:
        ram.take_back()


def _pieces(address: int, size: int) -> Iterator[tuple[int, int]]:
    """Where the largest aligned accesses begin that make up these bytes, and how large each is."""
    check_number("an address", address)
    check_number("a size", size)
    if size < 0 or address < 0 or address + size > 1 << 64:
        raise ValueError(f"{size} bytes at {address:#x} aren't all in 64 bits")
    end = address + size
    while address < end:
        piece = 8
        while address % piece or address + piece > end:
            piece //= 2
        yield address, piece
        address += piece

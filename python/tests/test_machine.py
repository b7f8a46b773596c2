# SPDX-License-Identifier: MIT OR Apache-2.0
"""The machine: operations, questions, and what is refused, on the machine of the manual's worked example."""
from __future__ import annotations

import gc
import pickle
import uuid
from pathlib import Path
from typing import Any, Callable

import pytest
from conftest import EXAMPLES

from gorseplumb import AccessFault, Act, AlignmentFault, Busy, Call, CallRefused, Cause, Change, Data, DataAccess, Denied
from gorseplumb import Done, Endpoint, ErrorCode, Fault, Faulted, Fetch, Function, InstructionAccess
from gorseplumb import InvalidParameters, Kind, Load, Machine, MachineEnded, Manifest, ManifestRefused, NoSuchEndpoint
from gorseplumb import NoSuchPage, NotSupported, Offer, Operation, Outcome, PageRange, PermissionFault, Properties
from gorseplumb import Ram, Receiver, Region, Registers, Relinquish, Retrieve, RetrieveResponse, Right, Store
from gorseplumb import TranslationFault, Watcher

RAM = 0x40000000
MANUALS = EXAMPLES / "partitions.toml"
MANIFEST = Manifest(
    RAM,
    1,
    [
        Endpoint([Region(RAM + 0x10000, 16)], Properties.SENDS_REQUESTS),
        Endpoint([Region(RAM + 0x20000, 16, Right.RWX)], Properties(15), uuid.UUID(int=1)),
    ],
)


def test_tells_who_is_there(partitions: Machine) -> None:
    assert partitions.endpoints == (0, 0x8001, 0x8002)
    assert partitions.runner == 0
    assert (partitions.owner(0), partitions.owner(16), partitions.owner(1023)) == (0x8000, 0, 0x8000)
    assert partitions.access(0x8001, 0x20) is Right.ROX
    assert partitions.access(0x8002, 0x200) is Right.RWX
    assert partitions.access(0, 0x20) is Right.NONE
    assert "0000 runs" in repr(partitions)


def test_does_loads_stores_and_fetches(partitions: Machine) -> None:
    assert partitions.store(0x40010008, 8, 0x0123456789ABCDEF) == Done()
    assert partitions.load(0x40010008, 8) == Data(0x0123456789ABCDEF, 8)
    assert partitions.load(0x40010008, 2) == Data(0xCDEF, 2)
    assert bytes(Data(0xCDEF, 2)) == b"\xef\xcd"
    assert partitions.fetch(0x40010000) == Faulted(Fault.PERMISSION)
    assert partitions.load(0x40020000, 1) == Faulted(Fault.TRANSLATION)
    assert partitions.load(0x100000000, 1) == Faulted(Fault.TRANSLATION)
    assert partitions.load(0x40020001, 2) == Faulted(Fault.ALIGNMENT)
    assert partitions.load((1 << 64) - 8, 8) == Faulted(Fault.TRANSLATION)


def test_does_calls(partitions: Machine) -> None:
    answer = partitions.call(Function.FFA_RUN, 0x80010000)
    assert answer == Registers(0x8001, (0x8400006D, 0x80010000, 0, 0, 0, 0, 0, 0))
    assert partitions.runner == 0x8001
    assert answer.function is Function.FFA_RUN and answer.code is None and answer.ok() is answer
    refused = partitions.call(Function.FFA_RUN, 0x80020000)
    assert refused.code is ErrorCode.DENIED and refused.is_error
    with pytest.raises(Denied, match="^8001: DENIED$") as wrong:
        refused.ok()
    assert (wrong.value.caller, wrong.value.reason) == (0x8001, None)
    assert partitions.fetch(0x40020000) == Data(0, 4)
    with pytest.raises(AttributeError):
        refused.runner = 1  # type: ignore[misc]


def test_raises_what_is_refused_where_that_is_asked(partitions: Machine) -> None:
    with pytest.raises(InvalidParameters, match="^0000: FFA_RUN: INVALID_PARAMETERS") as refused:
        partitions.do(Function.FFA_RUN, partition=0x8009)
    assert (refused.value.code, refused.value.caller) == (ErrorCode.INVALID_PARAMETERS, 0)
    assert refused.value.x0 == Function.FFA_RUN
    with pytest.raises(NotSupported, match="8400008F"):
        partitions.require(Call((0x8400008F,)))
    assert partitions.do(Function.FFA_ID_GET).x[2] == 0
    assert issubclass(NotSupported, CallRefused)


def test_reads_and_writes_any_bytes(partitions: Machine) -> None:
    data = bytes(range(1, 42))
    partitions.write(0x40010FF3, data)
    assert partitions.read(0x40010FF3, len(data)) == data
    assert partitions.page(16)[0xFF3:] + partitions.page(17)[: 41 - 13] == data
    assert partitions.read(0x40010000, 0) == b""
    with pytest.raises(TranslationFault, match="translation fault of 0000 at 40020000") as refused:
        partitions.read(0x4001FFFE, 4)
    assert (refused.value.address, refused.value.endpoint, refused.value.fault) == (0x40020000, 0, Fault.TRANSLATION)
    partitions.do(Function.FFA_RUN, partition=0x8001)
    with pytest.raises(PermissionFault):
        partitions.write(0x40020000, b"x")
    assert issubclass(AlignmentFault, AccessFault)


def test_tells_of_changes_and_notifications(partitions: Machine) -> None:
    assert partitions.take_change() is None
    assert not any(partitions.npi_pending(endpoint) for endpoint in partitions.endpoints)
    partitions.do(Function.FFA_RUN, partition=0x8001)
    partitions.do(Function.FFA_RXTX_MAP, tx=0x4002E000, rx=0x4002F000, pages=1)
    ranges = (PageRange(0x40028000, 2), PageRange(0x4002C000, 1))
    offer = Offer(Kind.LEND, 0x8001, (Receiver(0x8002, DataAccess.RW),), ranges)
    answer = partitions.send(offer, 0x4002E000)
    assert answer.handle == 0x0000800100000001
    assert partitions.take_change() == Change(0x8001, ((0x40028000, 8192), (0x4002C000, 4096)))
    assert partitions.take_change() is None
    partitions.do(Function.FFA_MSG_WAIT)
    partitions.do(Function.FFA_RUN, partition=0x8002)
    partitions.do(Function.FFA_RXTX_MAP, tx=0x40206000, rx=0x40207000, pages=1)
    told = partitions.send(Retrieve(0x8001, answer.handle, Receiver(0x8002)), 0x40206000)
    assert told.function is Function.FFA_MEM_RETRIEVE_RESP
    response = RetrieveResponse.from_bytes(partitions.read(0x40207000, told.x[1]))
    held = Receiver(0x8002, DataAccess.RW, InstructionAccess.NX)
    assert response == RetrieveResponse(Kind.LEND, 0x8001, answer.handle, (held,), ranges)
    assert response.to_bytes() == partitions.read(0x40207000, told.x[1])
    with pytest.raises(Busy, match="8002: FFA_PARTITION_INFO_GET: BUSY"):
        partitions.do(Function.FFA_PARTITION_INFO_GET)
    assert partitions.access(0x8002, 0x28) is Right.RW and partitions.access(0x8001, 0x28) is Right.NONE


def test_refuses_numbers_that_have_no_room() -> None:
    with Machine(MANIFEST) as machine:
        for count in (0, 9):
            with pytest.raises(ValueError, match=f"one to eight registers, and not {count}"):
                machine.perform(Call(*[1] * count))
            with pytest.raises(TypeError):
                machine.call(*[1] * count)
        with pytest.raises(ValueError, match="x1 has 64 bits, and is -0x1"):
            machine.call(Function.FFA_RUN, -1)
        with pytest.raises(TypeError):
            machine.call(Function.FFA_RUN, "a")  # type: ignore[arg-type]
        with pytest.raises(ValueError, match="1, 2, 4 or 8 bytes, and not 3"):
            machine.load(RAM, 3)
        with pytest.raises(ValueError, match="an address has 64 bits"):
            machine.fetch(1 << 64)
        with pytest.raises(ValueError, match="0x100 doesn't fit in 1 bytes"):
            machine.store(RAM + 0x10000, 1, 0x100)
        with pytest.raises(ValueError):
            machine.read(-1, 1)
        assert machine.is_fresh and machine.load(RAM + 0x10000, 8) == Data(0, 8) and not machine.is_fresh


def test_an_operation_has_room_for_its_numbers() -> None:
    makes: list[Callable[[], Operation]] = [
        lambda: Call(()),
        lambda: Call((1,) * 9),
        lambda: Call((-1,)),
        lambda: Load(0, 3),
        lambda: Load(-1, 1),
        lambda: Store(0, 1, 0x100),
        lambda: Store(0, 1, -1),
        lambda: Fetch(1 << 64),
    ]
    for make in makes:
        with pytest.raises(ValueError):
            make()
    assert Call((1,)) == Call((1, 0, 0, 0, 0, 0, 0, 0))


def test_says_what_is_no_number_and_no_operation() -> None:
    # a type checker refuses these
    text: Any = "40010000"
    run: Any = Function.FFA_RUN
    nothing: Any = None
    half: Any = 1.5
    load: Any = Load(RAM, 1)
    number = "a number, and not the str '40010000': give 0x40010000"
    kinds = "an operation is a Call, a Load, a Store or a Fetch, and not"
    with Machine(MANIFEST) as machine:
        asks: list[tuple[Callable[[], object], str]] = [
            (lambda: machine.call(text), f"x0 is {number}"),
            (lambda: machine.call(1, text), f"x1 is {number}"),
            (lambda: machine.load(text, 1), f"an address is {number}"),
            (lambda: machine.fetch(text), f"an address is {number}"),
            (lambda: machine.fetch(half), "an address is a number, and not the float 1.5"),
            (lambda: machine.store(RAM, 1, text), f"a value is {number}"),
            (lambda: machine.read(text, 1), f"an address is {number}"),
            (lambda: machine.write(text, b""), f"an address is {number}"),
            (lambda: machine.write(RAM, text), "data is bytes, and not the str '40010000': give its encode()"),
            (lambda: machine.access(text, 0), f"an endpoint is {number}"),
            (lambda: machine.owner(text), f"a page is {number}"),
            (lambda: machine.page(text), f"a page is {number}"),
            (lambda: machine.run_at(text), f"a page is {number}"),
            (lambda: machine.page_of(text), f"an address is {number}"),
            (lambda: Ram(text), f"blocks is {number}"),
            (lambda: Machine(Manifest(text, 1, [])), f"ram_base is {number}"),
            (lambda: Machine(Manifest(RAM, 1, [Endpoint([Region(text, 1)])])), f"base is {number}"),
            (lambda: machine.send(Relinquish(1, 0), text), f"tx is {number}"),
            (lambda: Call(text), "x0 is a number, and not the str '40010000': give 0x40010000"),
            (lambda: Call(nothing), "x is a tuple of registers, and not None"),
            (lambda: machine.perform(text), f"{kinds} the str '40010000'"),
            (lambda: machine.run(text), f"{kinds} the str '4'"),
            (lambda: machine.why(run), f"{kinds} Function.FFA_RUN"),
            (
                lambda: machine.require(run),
                "a call is a Call, and not Function.FFA_RUN: give Call(Function.FFA_RUN)",
            ),
            (
                lambda: machine.send(run, RAM),
                "a request is an Offer, a Retrieve, a ReadBack, a Relinquish or an IndirectMessage, and not Function.FFA_RUN",
            ),
            (
                lambda: machine.run(load),
                "what is run is a list of operations, and not Load(address=0x40000000, size=1): "
                "give [Load(address=0x40000000, size=1)]",
            ),
        ]
        for asked, told in asks:
            with pytest.raises(TypeError) as wrong:
                asked()
            assert str(wrong.value) == told
        with pytest.raises(ValueError, match="^an access has 1, 2, 4 or 8 bytes, and not '40010000'$"):
            machine.load(RAM, text)
        with pytest.raises(ValueError, match="^an access has 1, 2, 4 or 8 bytes, and not '40010000'$"):
            machine.store(RAM, text, 0)
        assert machine.is_fresh


def test_refuses_pages_and_endpoints_that_are_not_there() -> None:
    with Machine(MANIFEST) as machine:
        for page in (-1, 512, 1 << 32):
            for asked in (machine.owner, machine.page):
                with pytest.raises(NoSuchPage):
                    asked(page)
        with pytest.raises(NoSuchEndpoint):
            machine.access(0x8002, 0)
        with pytest.raises(NoSuchEndpoint):
            machine.npi_pending(0x8000)


CAUSES = [
    (("ram_base", "base"), Cause.UNKNOWN_KEY),
    (("ram_blocks = 2", ""), Cause.MISSING_KEY),
    (("ram_blocks = 2", "ram_blocks = '2'"), Cause.WRONG_KIND),
    (("0x40000000", "0x40000001"), Cause.RAM_BASE),
    (("ram_blocks = 2", "ram_blocks = 33"), Cause.RAM_BLOCKS),
    (("[[endpoint]]", "[endpoint]"), Cause.TOML),
    (("00112233", "0011223"), Cause.UUID),
    (("properties = 6", "properties = 7"), Cause.PROPERTY),
    (("pages = 16", "pages = 0"), Cause.REGION_OUTSIDE),
    (("0x40028000, pages = 8", "0x40020000, pages = 9"), Cause.REGION_OVERLAP),
    (('version = "1.1"', 'version = "1.2"'), Cause.VERSION),
]


@pytest.mark.parametrize("change, cause", CAUSES)
def test_says_why_a_text_is_refused(change: tuple[str, str], cause: Cause) -> None:
    text = (EXAMPLES / "partitions.toml").read_text()
    with pytest.raises(ManifestRefused) as refused:
        Machine(text.replace(*change))
    assert refused.value.cause is cause and str(refused.value) == f"{cause.text}: {refused.value.words}"


def test_says_that_a_str_is_no_path(tmp_path: Path) -> None:
    is_text = "and a str is a manifest's text: give a pathlib.Path, or what it holds"
    odd = tmp_path / "a=[1] #.toml"
    odd.touch()
    booting: list[Callable[[str], object]] = [Machine, lambda name: Machine(name, Ram(1)), Manifest.read]
    for asked in booting:
        for name in (str(MANUALS), str(odd), "bench.toml", "a\0b"):
            told = "is" if name in (str(MANUALS), str(odd)) else "looks like"
            with pytest.raises(ManifestRefused) as refused:
                asked(name)
            said = f"M2 Toml: {name!r} {told} the name of a file, {is_text}"
            assert str(refused.value) == said and refused.value.cause is Cause.TOML
        with pytest.raises(ManifestRefused) as refused:
            asked("x" * 5000)
        assert len(str(refused.value)) < 400 and "xx..'" in str(refused.value)
        for text in ("", " ", "# nothing", "[endpoint", "ram_base 1\nram_blocks", "ram_base = x"):
            with pytest.raises(ManifestRefused) as refused:
                asked(text)
            assert not refused.value.hint and refused.value.words and str(refused.value).endswith(refused.value.words)


def test_says_why_values_are_refused() -> None:
    first = MANIFEST.endpoints[0]
    many = Endpoint([Region(RAM + 0x10000 + 4096 * place, 1) for place in range(17)])
    for manifest, cause in [
        (Manifest(RAM, 1, []), Cause.ENDPOINT_COUNT),
        (Manifest(RAM, 1, [first] * 9), Cause.ENDPOINT_COUNT),
        (Manifest(-1, 1, [first]), Cause.RAM_BASE),
        (Manifest(RAM, 1 << 32, [first]), Cause.RAM_BLOCKS),
        (Manifest(RAM, 1, [many]), Cause.REGION_COUNT),
        (Manifest(RAM, 1, [Endpoint([Region(RAM + 0x10000, 1, Right.NONE)])]), Cause.WRONG_KIND),
        (Manifest(RAM, 1, [first, first]), Cause.UUID),
    ]:
        with pytest.raises(ManifestRefused) as refused:
            Machine(manifest)
        assert refused.value.cause is cause


def test_boots_the_same_from_values_and_from_their_text() -> None:
    with Machine(MANIFEST) as machine, Machine(MANIFEST.text()) as other, Machine(machine.manifest_text) as third:
        for page in range(512):
            told = [(it.owner(page), it.access(0, page), it.access(0x8001, page)) for it in (machine, other, third)]
            assert told[0] == told[1] == told[2]


def test_ends_once() -> None:
    machine = Machine(MANIFEST)
    machine.close()
    machine.close()
    asks: list[Callable[[], object]] = [
        lambda: machine.load(RAM, 1),
        lambda: machine.call(1),
        lambda: machine.runner,
        lambda: machine.owner(0),
        lambda: machine.page(0),
        lambda: machine.npi_pending(0),
        lambda: machine.take_change(),
        lambda: machine.access(0, 0),
        lambda: machine.why(Load(RAM, 1)),
        lambda: machine.run([]),
    ]
    for asked in asks:
        with pytest.raises(MachineEnded):
            asked()
    assert repr(machine) == "<Machine, ended>"


def test_is_not_pickled() -> None:
    with Machine(MANIFEST) as machine:
        with pytest.raises(TypeError, match="^a machine isn't pickled: boot another, and do .*, or `fork` it$"):
            pickle.dumps(machine)
        assert machine.is_fresh and machine.store(RAM + 0x10000, 1, 42) == Done()


def test_tells_its_watchers(partitions: Machine) -> None:
    class Keeper(Watcher):
        def __init__(self) -> None:
            self.told: list[tuple[Act, Outcome]] = []

        def after(self, machine: Machine, act: Act, outcome: Outcome) -> None:
            self.told.append((act, outcome))

    keeper = Keeper()
    partitions.watch(keeper)
    partitions.call(Function.FFA_ID_GET)
    partitions.store(0x40010000, 1, 1)
    partitions.fetch(0x40010000)
    partitions.unwatch(keeper)
    partitions.load(0x40010000, 1)
    assert keeper.told == [
        (Call((Function.FFA_ID_GET,)), Registers(0, (Function.FFA_SUCCESS, 0, 0, 0, 0, 0, 0, 0))),
        (Store(0x40010000, 1, 1), Done()),
        (Fetch(0x40010000), Faulted(Fault.PERMISSION)),
    ]
    assert str(Load(0x40010000, 1)) == "load 40010000 1"


def test_gives_its_memory_back_when_nobody_has_it() -> None:
    for _ in range(100):
        Machine(MANIFEST)
    gc.collect()

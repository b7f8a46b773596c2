# SPDX-License-Identifier: MIT OR Apache-2.0
"""Reasons: why an operation is refused, in the program's words."""
from __future__ import annotations

import re
from dataclasses import replace

import pytest
from conftest import EXAMPLES, Program

from gorseplumb import About, AccessFault, Call, Check, DataAccess, Denied, ErrorCode, Fault, Fetch, Ffa, Flaw, Form
from gorseplumb import Function, Hindrance, Hint, HintKind, InstructionAccess, InvalidParameters, Kind, Load, Machine
from gorseplumb import MalformedDescriptor, Manifest, Obstacle, Offer, Operation, PageRange, Reason, Receiver, Relinquish
from gorseplumb import Retrieve, Right, RunState, Store, Subject, play
from gorseplumb.errors import call_refused

NOBODY = Hindrance(Obstacle.NONE)
MANIFEST = EXAMPLES / "partitions.toml"


def refused(call: Call, check: Check, number: int, subject: Subject, hindrance: Hindrance = NOBODY) -> str:
    return str(Reason(call, None, check, number, None, subject, hindrance))


def test_has_the_programs_words() -> None:
    # docs/COMMANDS.md, "Reasons"
    in_way = Hindrance(Obstacle.IN_TRANSACTION, 0, 0x0000800100000001)
    lend = Call((Function.FFA_MEM_LEND, 0x60, 0x60))
    page = Subject(About.PAGE, address=0x40029000)
    assert refused(lend, Check.PAGE_UNSENDABLE, 10, page, in_way) == (
        "FFA_MEM_LEND check 10: a page does not belong to the caller, or is in an open transaction or a buffer: "
        "40029000 is in the open transaction 0000800100000001"
    )
    mapped = Call((Function.FFA_RXTX_MAP, 0, 0, 5))
    told = "FFA_RXTX_MAP check 2: a buffer has no pages, or too many: w3 is 00000005"
    assert refused(mapped, Check.BUFFER_PAGE_COUNT, 2, Subject(About.REGISTER, number=3, value=5)) == told
    may_be = Subject(About.REGISTER, number=3, value=5, allowed=range(1, 5))
    assert refused(mapped, Check.BUFFER_PAGE_COUNT, 2, may_be) == f"{told}, and must be 00000001 to 00000004"
    wide = Call((Function.FFA_RXTX_MAP_64, 0x14001E000))
    x1 = Subject(About.REGISTER, number=1, value=0x14001E000)
    assert refused(wide, Check.TX_MISPLACED, 3, x1).endswith("x1 is 000000014001E000, and the buffer is not entirely in RAM")
    field = Subject(About.FIELD, number=0, flaw=Flaw.ACCESS_PERMISSIONS, value=0x0F, first=50, size=1)
    assert refused(lend, Check.DESCRIPTOR_MALFORMED, 6, field).endswith(
        "access descriptor 00: this call does not allow these permissions: byte 32 is 0F"
    )
    field = Subject(About.FIELD, number=10, flaw=Flaw.RANGE_RESERVED, value=1, first=252, size=8)
    told = "range 0A: reserved bytes of the range are not 0: bytes FC to 0103 are 0000000000000001"
    assert refused(lend, Check.DESCRIPTOR_MALFORMED, 6, field).endswith(told)
    # Where they begin stands in the high half of the same eight bytes.
    field = Subject(About.FIELD, number=0, flaw=Flaw.HEADER_ARRAY_OUTSIDE, value=0x3000000005, first=28, size=8)
    told = ": bytes 1C to 1F are 00000005 (the access descriptors end at 80, but the descriptor has 60 bytes)"
    assert refused(lend, Check.DESCRIPTOR_MALFORMED, 6, field).endswith(told)
    unknown = Call((0x8400008F,))
    w0 = Subject(About.REGISTER, number=0, value=0x8400008F)
    assert refused(unknown, Check.FUNCTION_UNKNOWN, 1, w0) == "check 1: the function is not supported: w0 is 8400008F"
    handle, bit = Subject(About.HANDLE, handle=0x0000800100000001), Subject(About.BIT, number=18)
    assert refused(lend, Check.HANDLE_UNKNOWN, 7, handle).endswith(": handle 0000800100000001")
    assert refused(lend, Check.BITS_TAKEN, 7, bit).endswith(": bit 12")
    endpoint = Subject(About.ENDPOINT, endpoint=0x8003)
    assert refused(lend, Check.RECEIVER_UNKNOWN, 8, endpoint).endswith(": endpoint 8003")
    asked = Subject(About.ENDPOINT, endpoint=0x8001, state=RunState.BLOCKED, awaits=0x8002)
    told = ": the receiver is not waiting: endpoint 8001, which is blocked by its direct request to 8002"
    assert refused(lend, Check.RECEIVER_NOT_WAITING, 8, asked).endswith(told)
    w0 = Subject(About.REGISTER, number=0, value=0xC400006D)
    told = "check 1: the function is not supported: w0 is C400006D, and FFA_RUN has no 64-bit form"
    assert refused(Call((0xC400006D,)), Check.FUNCTION_UNKNOWN, 1, w0) == told
    unknown_uuid = refused(Call((Function.FFA_PARTITION_INFO_GET, 1, 2)), Check.UUID_UNKNOWN, 1, Subject(About.NOTHING))
    assert unknown_uuid.endswith(f": w1 to w4 hold 0100000002000000{16 * '0'}")
    nothing = refused(lend, Check.BUFFERS_MISSING, 1, Subject(About.NOTHING))
    assert nothing == "FFA_MEM_LEND check 1: the caller has no RX and TX"


@pytest.mark.parametrize(
    "operation, fault, hindrance, told",
    [
        (Load(0x40200000, 1), Fault.TRANSLATION, Hindrance(Obstacle.OWNED_BY, 0x8002), "40200000 belongs to 8002"),
        (Load(0x40000000, 1), Fault.TRANSLATION, Hindrance(Obstacle.MANAGERS_PAGE), "40000000 belongs to the manager"),
        (Load(0x3FFFFFFC, 1), Fault.TRANSLATION, Hindrance(Obstacle.OUTSIDE_RAM), "3FFFFFFC is outside RAM"),
        (Load(0x100000000, 1), Fault.TRANSLATION, NOBODY, "0000000100000000 is above FFFFFFFF"),
        (Store(0x40020000, 1, 0), Fault.PERMISSION, NOBODY, "40020000 may not be written"),
        (Fetch(0x40028000), Fault.PERMISSION, NOBODY, "40028000 may not be executed"),
        (Load(0x40028001, 2), Fault.ALIGNMENT, NOBODY, "40028001 is not a multiple of 2"),
        (Fetch(0x40028002), Fault.ALIGNMENT, NOBODY, "40028002 is not a multiple of 4"),
    ],
)
def test_has_the_programs_words_of_faults(
    operation: Load | Store | Fetch, fault: Fault, hindrance: Hindrance, told: str
) -> None:
    assert str(Reason(operation, fault, None, 0, None, Subject(About.NOTHING), hindrance)) == told


def test_prints_the_refused_example(partitions: Machine) -> None:
    played = list(play(partitions, EXAMPLES / "refused.trace", explain=True))
    assert played == (EXAMPLES / "refused.out").read_text().splitlines()


def test_prints_what_the_program_explains(program: Program) -> None:
    for manifest in (MANIFEST, EXAMPLES / "machine.toml"):
        lines = program("generate", "--seed", 5, "--lines", 20_000, manifest).stdout
        trace = re.sub(rb"^(?:show|audit|#.*)\n", b"", lines, flags=re.M)
        wanted = program.lines("run", "--explain", manifest, "-", text=trace)
        assert sum(line.startswith("# refused: ") for line in wanted) > 1000
        with Machine(manifest) as machine:
            assert list(play(machine, trace, explain=True)) == wanted


@pytest.mark.parametrize(
    "hint, told",
    [
        (Hint(HintKind.TX_PAGE, 0x8001), " is in TX of 8001"),
        (Hint(HintKind.RX_PAGE, 0x8001), " is in RX of 8001"),
        (Hint(HintKind.OWN_RIGHT, right=Right.ROX), ", and the owner's own right is r-x"),
        (Hint(HintKind.GRANTED, right=Right.RO), ", where rw- is granted, but the owner's own right is r--"),
        (Hint(HintKind.ACCESS, 0x8001, Right.ROX), ": 8001 has r-x"),
        (Hint(HintKind.CALLER, 0x8002), ", and the caller is 8002"),
        (Hint(HintKind.SENDER, 0x8002), ", and the transaction's sender is 8002"),
        (
            Hint(HintKind.TAG, found=1, wanted=0xAB),
            ", whose tag is 00000000000000AB, but the descriptor says 0000000000000001",
        ),
        (Hint(HintKind.KIND, found=Kind.DONATE, wanted=Kind.LEND), ", whose kind is lend, but the descriptor says donate"),
        (
            Hint(HintKind.RIGHT, right=Right.RW, most=Right.RO),
            ", where rw- is requested, and r-- is the most allowed",
        ),
        (Hint(HintKind.HELD, right=Right.RO), ", which the caller holds with r--"),
        (Hint(HintKind.ROOM, room=0x1000), ", and the buffer has 00001000 bytes"),
        (Hint(HintKind.VALUE, value=0x80010000), ", and must be 80010000"),
        (Hint(HintKind.FORM, 0x8001, form=Form.COMPACT), ", and must be 00000000, because 8001 uses the compact form"),
        (Hint(HintKind.FORM, 0, form=Form.FFA_1_1), ", and must be 00000010, because 0000 uses version 1.1"),
        (Hint(HintKind.FORM, 0x8001, form=Form.FFA_1_2), ", and must be 00000020, because 8001 uses version 1.2"),
        (Hint(HintKind.WORD, offset=8, value=0x14), ": bytes 08 to 0B are 00000014"),
        (
            Hint(HintKind.MESSAGE, offset=0x14, size=0x1000, room=0x1000),
            ": bytes 08 to 0B are 00000014, and bytes 10 to 13 are 00001000, and the buffer has 00001000 bytes",
        ),
        (Hint(HintKind.OUTSIDE, address=0x40200000), ": 40200000 is outside RAM"),
        (Hint(HintKind.OUTSIDE, address=1 << 32), ": 0000000100000000 is above FFFFFFFF"),
        (Hint(HintKind.HOLDER, 0x8002), ", which 8002 holds"),
        (Hint(HintKind.RUN), ": it is processing an FFA_RUN"),
        (Hint(HintKind.REQUEST, 0x8001), ": it is processing a direct request from 8001"),
        (Hint(HintKind.PENDING, bit=18), ": bit 12"),
        (Hint(HintKind.BIT_TAKEN), ", which is bound to another sender"),
    ],
)
def test_has_the_programs_words_of_hints(hint: Hint, told: str) -> None:
    assert str(hint) == told
    reason = Reason(Load(0x40020000, 1), Fault.PERMISSION, None, 0, None, Subject(About.NOTHING), NOBODY, hint)
    assert str(reason) == f"40020000 may not be read{told}"


def test_has_the_librarys_hints(partitions: Machine) -> None:
    def hint(operation: Operation) -> Hint | None:
        reason = partitions.why(operation)
        assert reason is not None
        return reason.hint

    assert hint(Call((Function.FFA_RX_RELEASE,))) == Hint(HintKind.BUFFERS_MISSING)
    assert hint(Call((Function.FFA_RXTX_MAP, 0x40010000, 0x40010000, 1))) is None
    assert hint(Call((Function.FFA_MEM_RECLAIM, 1))) == Hint(HintKind.HANDLE_UNKNOWN)
    partitions.do(Function.FFA_RUN, partition=0x8001)
    assert hint(Store(0x40020000, 1, 1)) == Hint(HintKind.ACCESS, 0x8001, Right.ROX)
    assert hint(Call((Function.FFA_MSG_SEND_DIRECT_RESP, 0x80010000))) == Hint(HintKind.RUN)


def test_says_which_numbers_may_be_there(partitions: Machine) -> None:
    def allowed(*x: int) -> tuple[range | None, str]:
        reason = partitions.why(Call(x))
        assert reason is not None
        return reason.subject.allowed, str(reason).rpartition(", and ")[2]

    assert allowed(Function.FFA_RXTX_MAP, 0, 0, 5) == (range(1, 5), "must be 00000001 to 00000004")
    assert allowed(Function.FFA_MEM_RECLAIM, 1, 0, 2) == (range(2), "must be 00000000 to 00000001")
    assert allowed(Function.FFA_NOTIFICATION_SET, 0x8001, 1) == (range(0, 3, 2), "must be 00000000 or 00000002")
    assert allowed(Function.FFA_RUN, 0x80010001) == (range(0x80010000, 0x80010001), "must be 80010000")
    assert allowed(Function.FFA_NOTIFICATION_BITMAP_CREATE, 0, 9) == (range(1, 2), "must be 00000001")
    assert allowed(Function.FFA_RUN, 0x90000000)[0] is None


def test_raises_with_the_reason(partitions: Machine) -> None:
    words = "check 2: no partition has the target's identifier: endpoint 8009"
    with pytest.raises(InvalidParameters, match=f"^0000: FFA_RUN: INVALID_PARAMETERS: {words}$") as wrong:
        partitions.do(Function.FFA_RUN, partition=0x8009)
    assert wrong.value.check is Check.TARGET_UNKNOWN
    assert str(wrong.value.reason) == f"FFA_RUN {words}"
    assert str(call_refused(wrong.value.code, reason=wrong.value.reason)) == f"INVALID_PARAMETERS: FFA_RUN {words}"
    with pytest.raises(AccessFault, match="^translation fault of 0000 at 40020000, which belongs to 8001$") as fault:
        partitions.read(0x40020000, 1)
    assert str(fault.value.reason) == "40020000 belongs to 8001"
    with pytest.raises(AccessFault, match="at 0000000100000000, which is above FFFFFFFF$"):
        partitions.write(1 << 32, b"x")
    assert fault.value.reason is not None
    assert fault.value.reason.hindrance == Hindrance(Obstacle.OWNED_BY, 0x8001)
    with pytest.raises(Denied) as denied:
        partitions.do(Function.FFA_MSG_WAIT)
    assert denied.value.reason is not None and denied.value.reason.code is ErrorCode.DENIED


def test_says_why_before_it_is_done(partitions: Machine) -> None:
    assert partitions.why(Load(0x40010000, 8)) is None and partitions.why(Store(0x40010000, 1, 1)) is None
    assert partitions.why(Call((Function.FFA_ID_GET,))) is None
    reason = partitions.why(Fetch(0x40010000))
    assert reason is not None and reason.fault is Fault.PERMISSION and partitions.is_fresh


SHARE = Offer(
    Kind.SHARE,
    0x8001,
    (Receiver(0x8002, DataAccess.RW), Receiver(0x0000, DataAccess.RO)),
    (PageRange(0x40028000, 1), PageRange(0x4002A000, 2)),
)
LEND = Offer(Kind.LEND, 0x8001, (Receiver(0x8002, DataAccess.RW),), (PageRange(0x40028000, 1),), zero=True)
DONATE = Offer(Kind.DONATE, 0x8001, (Receiver(0x8002),), (PageRange(0x40028000, 1),))
RETRIEVE = Retrieve(0x8002, 1, Receiver(0x8001, DataAccess.RW, InstructionAccess.NX), kind=Kind.LEND)
TX = 0x4002E000


def ours(request: Offer | Retrieve, data: bytes, form: Form, ffa: Ffa) -> tuple[Flaw, int] | None:
    """The first condition that our reader finds broken."""
    try:
        if isinstance(request, Offer):
            Offer.from_bytes(data, request.kind, form, ffa)
        else:
            Retrieve.from_bytes(data, request.receiver.endpoint, form)
    except MalformedDescriptor as wrong:
        return wrong.flaw, wrong.index
    return None


def cores(machine: Machine, call: Operation) -> tuple[Flaw | None, int] | None:
    """The first condition that the core finds broken."""
    reason = machine.why(call)
    is_about_bytes = reason is not None and reason.check is Check.DESCRIPTOR_MALFORMED
    return (reason.subject.flaw, reason.subject.number) if reason is not None and is_about_bytes else None


SERVED = [(Form.FFA_1_1, Ffa.V1_1), (Form.COMPACT, Ffa.V1_1), *((form, Ffa.V1_2) for form in Form)]


@pytest.mark.parametrize("form, ffa", SERVED)
@pytest.mark.parametrize("request_of", [SHARE, LEND, DONATE, RETRIEVE])
def test_readers_find_the_condition_that_the_core_finds(request_of: Offer | Retrieve, form: Form, ffa: Ffa) -> None:
    told_by = Manifest.read(MANIFEST)
    world, first, *others = told_by.endpoints
    found = set()
    with Machine(replace(told_by, endpoints=[world, replace(first, form=form), *others], ffa=ffa)) as machine:
        machine.do(Function.FFA_RUN, partition=0x8001)
        machine.do(Function.FFA_RXTX_MAP, tx=TX, rx=0x4002F000, pages=1)
        *_, call = request_of.operations(TX, form)
        whole = request_of.to_bytes(form)
        for place in range(len(whole)):
            for value in (0, 1, 2, 3, 8, 9, 0x0F, 0x10, 0x18, 0x20, 0x2F, 0x30, 0x80, 0xFF):
                data = whole[:place] + bytes([value]) + whole[place + 1 :]
                machine.write(TX, data)
                told = ours(request_of, data, form, ffa)
                assert told == cores(machine, call), (place, value)
                found.add(told[0] if told is not None else None)
    assert len(found) > 10


def test_reader_of_relinquish_finds_the_condition_that_the_core_finds(partitions: Machine) -> None:
    partitions.do(Function.FFA_RUN, partition=0x8001)
    partitions.do(Function.FFA_RXTX_MAP, tx=TX, rx=0x4002F000, pages=1)
    call = Call((Function.FFA_MEM_RELINQUISH,))
    whole = Relinquish(1, 0x8001).to_bytes()
    for place in range(len(whole)):
        for value in (0, 1, 2, 0xFF):
            data = whole[:place] + bytes([value]) + whole[place + 1 :]
            partitions.write(TX, data)
            try:
                Relinquish.from_bytes(data)
                told = None
            except MalformedDescriptor as wrong:
                told = wrong.flaw, wrong.index
            assert told == cores(partitions, call)

# SPDX-License-Identifier: MIT OR Apache-2.0
"""Registers by name, messages and partition information: values from the manual's pages."""
from __future__ import annotations

import struct
import uuid
from typing import Any, Callable

import pytest
from conftest import BUILT_IN

from gorseplumb import Call, ErrorCode, Form, Function, IndirectMessage, Machine, PartitionInfo, Properties
from gorseplumb import Registers, decode, encode, read_partitions
from gorseplumb.registers import ARGUMENTS, OPTIONAL, Argument, is_read_whole, signature


@pytest.mark.parametrize(
    "line, function, arguments",
    [
        ("call 8400006D 80010000", Function.FFA_RUN, {"partition": 0x8001}),
        ("call 84000066 4001E000 4001F000 1", Function.FFA_RXTX_MAP, {"tx": 0x4001E000, "rx": 0x4001F000, "pages": 1}),
        ("call 84000072 60 60", Function.FFA_MEM_LEND, {"length": 0x60}),
        ("call 84000077 1 8001", Function.FFA_MEM_RECLAIM, {"handle": 0x0000800100000001}),
        (
            "call 8400006F 8001 0 AA BB",
            Function.FFA_MSG_SEND_DIRECT_REQ,
            {"sender": 0, "receiver": 0x8001, "payload0": 0xAA, "payload1": 0xBB},
        ),
        (
            "call 84000070 80010000 0 CC",
            Function.FFA_MSG_SEND_DIRECT_RESP,
            {"sender": 0x8001, "receiver": 0, "payload0": 0xCC},
        ),
        (
            "call 84000068 33221100 77665544 BBAA9988 FFEEDDCC 1",
            Function.FFA_PARTITION_INFO_GET,
            {"uuid": 0x00112233445566778899AABBCCDDEEFF, "count_only": 1},
        ),
        (
            "call 8400007F 80028001 0 3 40000000",
            Function.FFA_NOTIFICATION_BIND,
            {"sender": 0x8002, "receiver": 0x8001, "bits": 0x4000000000000003},
        ),
    ],
)
def test_writes_and_reads_what_a_call_takes(line: str, function: Function, arguments: dict[str, int]) -> None:
    x = encode(function, **arguments)
    assert str(Call(x)) == line
    named = decode(x)
    assert named is not None and named.function is function
    told = {name: value for name, value in named.arguments.items() if value and name != "fragment"}
    assert told == {name: value for name, value in arguments.items() if value}


def test_a_uuid_is_read_and_told_as_it_is_written() -> None:
    # docs/CALLS.md: w1 has the first four bytes, the lowest first
    x = (0x84000068, 0x33221100, 0x77665544, 0xBBAA9988, 0xFFEEDDCC, 0, 0, 0)
    digits = "00112233445566778899aabbccddeeff"
    written = "00112233-4455-6677-8899-aabbccddeeff"
    given: list[Argument] = [digits, written, digits.upper(), written.upper(), uuid.UUID(written), uuid.UUID(written).int]
    for it in given:
        assert encode(Function.FFA_PARTITION_INFO_GET, uuid=it) == x, it
    named = decode(x)
    assert named is not None and str(named) == f"FFA_PARTITION_INFO_GET uuid={digits} count_only=0"
    assert uuid.UUID(int=named.arguments["uuid"]) == uuid.UUID(written)
    assert encode(named.function, **named.arguments) == x
    for wrong in (digits[1:], digits + "0", "0011-" + digits[4:], f"{{{written}}}", f"urn:uuid:{written}", "g" * 32, ""):
        with pytest.raises(ValueError, match=f"^uuid is 32 hexadecimal digits, as {written} with its hyphens or"):
            encode(Function.FFA_PARTITION_INFO_GET, uuid=wrong)
    nothing: Any = uuid.UUID(written).bytes
    with pytest.raises(TypeError, match="^uuid is a uuid.UUID, or a str of its 32 digits, and not the bytes"):
        encode(Function.FFA_PARTITION_INFO_GET, uuid=nothing)
    with pytest.raises(ValueError, match="^uuid has 128 bits, and is 0x1"):
        encode(Function.FFA_PARTITION_INFO_GET, uuid=1 << 128)


def test_finds_a_partition_by_its_uuid_as_the_manifest_has_it() -> None:
    assert BUILT_IN.endpoints[1].uuid == uuid.UUID("00112233-4455-6677-8899-aabbccddeeff")
    with Machine(BUILT_IN) as machine:
        written = "00112233-4455-6677-8899-aabbccddeeff"
        given: list[Argument] = [written, uuid.UUID(written)]
        for named in given:
            answer = machine.do(Function.FFA_PARTITION_INFO_GET, uuid=named, count_only=1)
            assert answer.x[2] == 1


def test_what_is_told_is_read_again() -> None:
    for x in (
        (0x84000064, 0xC4000066, 0, 0, 0, 0, 0, 0),
        (0x84000064, 0x84000066, 0, 0, 0, 0, 0, 0),
        (0x84000064, 0x00000002, 0, 0, 0, 0, 0, 0),
        (0x84000060, 0, 0xFFFFFFFA, 0, 0, 0, 0, 0),
        (0xC400006F, 0x8001, 0, (1 << 64) - 1, 2, 0, 0, 0),
        (0x84000068, 0x33221100, 0x77665544, 0xBBAA9988, 0xFFEEDDCC, 1, 0, 0),
        (0x84000083, 0, 0, 0, 0, 0, 0, 0),
        (0x8400006B, 0x80010000, 1, 0, 0, 0, 0, 0),
    ):
        name, *words = str(decode(x)).split(" ")
        texts = dict(word.split("=") for word in words)
        known = {*Function.__members__, *ErrorCode.__members__}
        arguments: dict[str, Argument] = {
            name: text if name == "uuid" or text in known else int(text, 16) for name, text in texts.items()
        }
        assert encode(Function[name], **arguments) == x
    feature = encode(Function.FFA_FEATURES, feature="FFA_RXTX_MAP_64")
    assert feature[1] == 0xC4000066 == encode(Function.FFA_FEATURES, feature=Function.FFA_RXTX_MAP_64)[1]
    told = "^feature is a Function, and not the str 'FFA_RXTX_MAPP': give Function.FFA_RXTX_MAP$"
    with pytest.raises(TypeError, match=told):
        encode(Function.FFA_FEATURES, feature="FFA_RXTX_MAPP")


def test_who_is_to_run_by_name() -> None:
    # DEN0077A, 16: bit 0 of w2 tells of more, bits 11 to 7 the number of lists, and two bits for each from bit 12 on
    called, asked = encode(Function.FFA_NOTIFICATION_INFO_GET), Function.FFA_NOTIFICATION_INFO_GET
    assert called == (0x84000083, *(0,) * 7) and str(decode(called)) == "FFA_NOTIFICATION_INFO_GET"
    assert encode(Function.FFA_NOTIFICATION_INFO_GET_64)[0] == 0xC4000083
    answer = (0x84000061, 0, 0x4181, 0x80020000, 0x8003, 0, 0, 0)
    told = "FFA_SUCCESS more=1 lists=3 counts=4 ids0=80020000 ids1=8003 ids2=0 ids3=0 ids4=0"
    assert str(decode(answer, asked)) == told
    wide = (0xC4000061, 0, 0x180, 0x800380020000, 0, 0, 0, 0)
    told = "FFA_SUCCESS_64 more=0 lists=3 counts=0 ids0=800380020000 ids1=0 ids2=0 ids3=0 ids4=0"
    assert str(decode(wide, Function.FFA_NOTIFICATION_INFO_GET_64)) == told


def test_reads_what_an_answer_holds_by_the_call_that_it_answers() -> None:
    success = (Function.FFA_SUCCESS, 0, 1, 0x8001, 0, 0, 0, 0)
    for_share = decode(success, Function.FFA_MEM_SHARE)
    assert for_share is not None and for_share.arguments == {"handle": 0x0000800100000001}
    for_list = decode((Function.FFA_SUCCESS, 0, 2, 0x18, 0, 0, 0, 0), Function.FFA_PARTITION_INFO_GET)
    assert str(for_list) == "FFA_SUCCESS count=2 size=18"
    assert str(decode((Function.FFA_ERROR, 0, 0xFFFFFFFA, 0, 0, 0, 0, 0))) == "FFA_ERROR code=DENIED"
    assert str(decode((0x8400006B, 0x80010000, 0, 0, 0, 0, 0, 0))) == "FFA_MSG_WAIT partition=8001 context=0 flags=0"
    assert decode((0x00010001, 0, 0, 0, 0, 0, 0, 0)) is None
    answer: Any = Registers(0, success)
    with pytest.raises(TypeError, match=r"^x is a tuple of registers, and not Registers\(.*\): give its x$"):
        decode(answer)


def test_reads_all_of_a_register_where_the_64_bit_form_does() -> None:
    x = encode(Function.FFA_RXTX_MAP_64, tx=0x140000000, rx=0x4001F000, pages=1)
    assert x[1] == 0x140000000
    assert is_read_whole(0xC4000066, 1) and not is_read_whole(0xC4000066, 3) and not is_read_whole(0x84000066, 1)
    with pytest.raises(ValueError, match="tx has 32 bits"):
        encode(Function.FFA_RXTX_MAP, tx=0x140000000, rx=0x4001F000, pages=1)


def test_refuses_what_a_call_does_not_take() -> None:
    with pytest.raises(TypeError, match=r"FFA_RUN has no argument 'endpoint': it has partition, \[context\]$"):
        encode(Function.FFA_RUN, endpoint=0x8001)
    with pytest.raises(ValueError, match="partition has 16 bits, and is 0x10000"):
        encode(Function.FFA_RUN, partition=0x10000)
    with pytest.raises(ValueError):
        encode(Function.FFA_RUN, partition=-1)


def test_refuses_a_call_that_lacks_arguments() -> None:
    cases: list[tuple[Function, dict[str, int], str]] = [
        (Function.FFA_RUN, {}, "lacks the argument partition: it has partition, [context]"),
        (Function.FFA_RUN, {"context": 0}, "lacks the argument partition: it has partition, [context]"),
        (Function.FFA_RXTX_MAP_64, {"rx": 0}, "lacks the arguments tx, pages: it has tx, rx, pages"),
        (Function.FFA_MEM_SHARE, {}, "lacks the argument length: it has length, [fragment], [address], [pages]"),
        (Function.FFA_MEM_RECLAIM, {"flags": 0}, "lacks the argument handle: it has handle, [flags]"),
    ]
    for function, given, told in cases:
        with pytest.raises(TypeError) as wrong:
            encode(function, **given)
        assert str(wrong.value) == f"{function.call_name} {told}"
    with Machine(BUILT_IN) as machine:
        with pytest.raises(TypeError, match="FFA_RUN lacks the argument partition"):
            machine.do(Function.FFA_RUN)
        assert machine.is_fresh and machine.runner == 0


def test_refuses_what_is_no_function() -> None:
    cases: list[tuple[object, str]] = [
        ("FFA_RUN", "the str 'FFA_RUN': give Function.FFA_RUN"),
        ("Function.FFA_RUN", "the str 'Function.FFA_RUN': give Function.FFA_RUN"),
        ("mem_lend_64", "the str 'mem_lend_64': give Function.FFA_MEM_LEND_64"),
        ("FFA_RNU", "the str 'FFA_RNU': give Function.FFA_RUN"),
        ("FFA_NOTHING_ALIKE", "the str 'FFA_NOTHING_ALIKE'"),
        (0x8400006D, "the int 0x8400006D: give Function.FFA_RUN"),
        (0x84000083, "the int 0x84000083: give Function.FFA_NOTIFICATION_INFO_GET"),
        (0x8400008F, "the int 0x8400008F"),
        (ErrorCode.DENIED, "ErrorCode.DENIED"),
        (None, "None"),
    ]
    with Machine(BUILT_IN) as machine:
        for given, told in cases:
            asks: list[Callable[[], object]] = [
                lambda: machine.do(given, partition=0x8001),  # type: ignore[arg-type]
                lambda: encode(given),  # type: ignore[arg-type]
            ]
            for asked in asks:
                with pytest.raises(TypeError) as wrong:
                    asked()
                assert str(wrong.value) == f"a call is a Function, and not {told}"
        with pytest.raises(TypeError, match="^partition is a number, and not the str '8001': give 0x8001$"):
            machine.do(Function.FFA_RUN, partition="8001")
        assert machine.is_fresh and machine.runner == 0


def test_arguments_that_may_be_left_out_are_zero() -> None:
    assert encode(Function.FFA_RUN, partition=0x8001) == encode(Function.FFA_RUN, partition=0x8001, context=0)
    assert encode(Function.FFA_MSG_WAIT) == (Function.FFA_MSG_WAIT, *(0,) * 7)
    assert encode(Function.FFA_MSG_WAIT, flags=1) == (0x8400006B, 0, 1, *(0,) * 5)
    assert encode(Function.FFA_MEM_LEND, length=0x60)[1:5] == (0x60, 0x60, 0, 0)
    for function, names in OPTIONAL.items():
        assert names and names <= ARGUMENTS[function].keys()
        needed = {name: 0 for name in ARGUMENTS[function] if name not in names}
        assert encode(function, **needed) == (function, *(0,) * 7)


def test_help_has_the_arguments_of_each_call() -> None:
    answers = (Function.FFA_ERROR, Function.FFA_SUCCESS, Function.FFA_INTERRUPT, Function.FFA_MEM_RETRIEVE_RESP)
    names = [function.name for function in Function]
    wanted = [
        [function.name + ("*" if f"{function.name}_64" in names else ""), signature(function) or "-"]
        for function in Function
        if not function.is_wide and function not in answers
    ]
    table = (Machine.do.__doc__ or "").replace("] .. [payload4]", "], [payload1], [payload2], [payload3], [payload4]")
    told = [line.split(maxsplit=1) for line in table.splitlines() if "    FFA_" in line]
    assert told == wanted


def test_names_registers_as_the_program_does() -> None:
    # docs/COMMANDS.md, "Numbers and names"
    assert Registers(0, (0x84000061, 0, 0, 0, 0, 0, 0, 0)).names == "FFA_SUCCESS"
    assert Registers(0, (0x84000060, 0, 0xFFFFFFFE, 0, 0, 0, 0, 0)).names == "FFA_ERROR INVALID_PARAMETERS"
    assert Registers(0, (0xC4000072, 0, 0, 0, 0, 0, 0, 0)).names == "FFA_MEM_LEND"
    assert Registers(0, (0x00010001, 0, 0, 0, 0, 0, 0, 0)).names == ""


def test_every_call_has_its_arguments() -> None:
    assert {function.call_name for function in Function} == {function.name for function in ARGUMENTS}


def test_writes_the_message_of_the_worked_example() -> None:
    # examples/messages.trace: offset 24, receiver 8002, sender 8001, 8 bytes
    message = IndirectMessage(0x8001, 0x8002, (0x1122334455667788).to_bytes(8, "little"), 24)
    data = message.to_bytes()
    assert len(data) == 32
    assert int.from_bytes(data[8:16], "little") == 0x8001800200000018
    assert IndirectMessage.from_bytes(data + b"rest") == message
    with pytest.raises(ValueError, match="inside its header, which has 20 bytes: offset 19"):
        IndirectMessage(1, 2, b"x", 19).to_bytes()
    assert IndirectMessage(1, 2, b"x").to_bytes() == IndirectMessage(1, 2, b"x", 20).to_bytes(Form.COMPACT)
    for wrong in (data[:19], b"\1" + data[1:], data[:31], data[:16] + b"\0\0\0\0" + data[20:]):
        with pytest.raises(ValueError):
            IndirectMessage.from_bytes(wrong)


def test_the_header_of_a_message_of_ffa_1_2_has_40_bytes() -> None:
    service = uuid.UUID("00112233-4455-6677-8899-aabbccddeeff")
    plain, named = IndirectMessage(0x8001, 0x8002, b"message"), IndirectMessage(0x8001, 0x8002, b"message", 48, service)
    data = plain.to_bytes(Form.FFA_1_2)
    assert data == struct.pack("<IIIHHI20x", 0, 0, 40, 0x8002, 0x8001, 7) + b"message"
    assert IndirectMessage.from_bytes(data, Form.FFA_1_2) == IndirectMessage(0x8001, 0x8002, b"message", 40)
    data = named.to_bytes(Form.FFA_1_2)
    assert data == struct.pack("<IIIHHI4x16s8x", 0, 0, 48, 0x8002, 0x8001, 7, service.bytes) + b"message"
    assert IndirectMessage.from_bytes(data + b"rest", Form.FFA_1_2) == named
    # In the others the header is shorter, and has no UUID.
    assert IndirectMessage.from_bytes(data) == IndirectMessage(0x8001, 0x8002, b"message", 48)
    for short in (20, 39):
        with pytest.raises(ValueError, match=f"inside its header, which has 40 bytes: offset {short}"):
            IndirectMessage(0x8001, 0x8002, b"message", short).to_bytes(Form.FFA_1_2)
        data = IndirectMessage(0x8001, 0x8002, b"a message of 24 or more", short).to_bytes()
        with pytest.raises(ValueError, match="the message begins inside its header"):
            IndirectMessage.from_bytes(data, Form.FFA_1_2)
    with pytest.raises(ValueError, match="a header has 40 bytes, and there are 39"):
        IndirectMessage.from_bytes(bytes(39), Form.FFA_1_2)
    for form in (Form.FFA_1_1, Form.COMPACT):
        with pytest.raises(ValueError, match=f"has no UUID in {form!r}: give Form.FFA_1_2"):
            named.to_bytes(form)


def test_reads_the_partitions_of_the_worked_example() -> None:
    # docs/EXAMPLE.md: data 0000010700018001 and 0000010500018002 are the first eight bytes of each
    named = [uuid.UUID("00112233-4455-6677-8899-aabbccddeeff"), uuid.UUID("10112233-4455-6677-8899-aabbccddeeff")]
    first = (0x0000010700018001).to_bytes(8, "little") + named[0].bytes
    second = (0x0000010500018002).to_bytes(8, "little") + named[1].bytes
    told = read_partitions(first + second + b"rest", 2)
    assert told == (
        PartitionInfo(0x8001, Properties(7), named[0]),
        PartitionInfo(0x8002, Properties(5), named[1]),
    )
    assert [it.to_bytes() for it in told] == [first, second]
    assert read_partitions(first + second, 2, Form.FFA_1_2) == told
    assert [it.to_bytes(Form.FFA_1_2) for it in told] == [first, second]
    sender = PartitionInfo(0x8001, Properties.SENDS_REQUESTS | Properties.SENDS_SECOND_REQUESTS, named[0])
    assert PartitionInfo.from_bytes(sender.to_bytes(Form.FFA_1_2), Form.FFA_1_2) == sender
    assert sender.to_bytes(Form.FFA_1_2)[:8] == (0x0000050200018001).to_bytes(8, "little")
    assert sender.to_bytes(Form.FFA_1_1)[:8] == (0x0000010200018001).to_bytes(8, "little")
    compact = PartitionInfo(0x8001, Properties(7))
    assert compact.to_bytes(Form.COMPACT) == (0x0000000700018001).to_bytes(8, "little")
    assert PartitionInfo.from_bytes(compact.to_bytes(Form.COMPACT), Form.COMPACT) == compact
    with pytest.raises(ValueError, match="has 24 bytes, and there are 23"):
        PartitionInfo.from_bytes(first[:23])

# SPDX-License-Identifier: MIT OR Apache-2.0
"""The tool that draws traces: who may still retrieve, columns, and the size of a picture."""
from __future__ import annotations

import pytest
from picture.certificates import Certificate, Row, Run, TooLarge, check_size, columns, read
from picture.command_line import Misuse
from picture.command_line import read as read_words
from picture.names import FFA_MEM_DONATE, FFA_MEM_LEND, FFA_MEM_SHARE
from picture.offers import ceilings, of_run, own_rights, receivers
from picture.page import quoted
from picture.svg import escaped

AUDIT = """cert 40000000 401FFFFF 3
root 0000 40000000
root 8001 40003000
root 8002 40006000
pages 40000000 4000FFFF 8000 - --- --- ---
pages 40010000 4001FFFF 0000 - rw- --- ---
pages 40020000 401FFFFF 8001 - --- rwx ---
agrees"""
LENT = AUDIT.replace(
    "pages 40010000 4001FFFF 0000 - rw- --- ---",
    "pages 40010000 40010FFF 0000 0000000000000001 --- r-- ---\npages 40011000 4001FFFF 0000 - rw- --- ---",
)


def certificate(text: str) -> Certificate:
    return read(text.splitlines())


def little(value: int, size: int) -> bytes:
    return value.to_bytes(size, "little")


def descriptor(header: bytes, size: int, *grants: tuple[int, int]) -> bytes:
    """A descriptor with a header whose count of access descriptors is 0, of access descriptors of this size."""
    accesses = (little(endpoint, 2) + bytes([permission]) + bytes(size - 3) for endpoint, permission in grants)
    return header[:28] + little(len(grants), 4) + header[32:] + b"".join(accesses)


def header(size: int) -> bytes:
    """A header of the forms that have the size of an access descriptor. The first access descriptor is at 64."""
    return bytes(24) + little(size, 4) + bytes(4) + little(64, 4) + bytes(28)


@pytest.mark.parametrize("text", [
    descriptor(header(16), 16, (0x8001, 1), (0x8002, 2)),
    descriptor(header(32), 32, (0x8001, 1), (0x8002, 2)),
    descriptor(bytes(32), 16, (0x8001, 1), (0x8002, 2)),
], ids=["1.1", "1.2", "compact"])
def test_receivers_of_each_form(text: bytes) -> None:
    assert receivers(text) == [("8001", 1), ("8002", 2)]


def test_the_most_that_receivers_may_get() -> None:
    one = descriptor(header(16), 16, (0x8001, 1))
    two = descriptor(header(16), 16, (0x8001, 1), (0x8002, 2))
    assert ceilings(FFA_MEM_LEND, one, {"rwx"}) == {"8001": "r-x"}
    assert ceilings(FFA_MEM_LEND, one, {"rwx", "rw-"}) == {"8001": "r--"}
    assert ceilings(FFA_MEM_LEND, two, {"rwx"}) == {"8001": "r--", "8002": "rw-"}
    assert ceilings(FFA_MEM_SHARE, one, {"rwx"}) == {"8001": "r--"}
    assert ceilings(FFA_MEM_DONATE, one, {"rwx"}) == {"8001": "rwx"}
    assert ceilings(FFA_MEM_DONATE, one, {"rwx", "r-x"}) == {"8001": "r-x"}


def test_own_rights_are_those_before_the_send() -> None:
    assert own_rights(certificate(AUDIT), certificate(LENT), "0000000000000001") == {"rw-"}


def test_who_holds_a_transaction_is_offered_nothing() -> None:
    lent = certificate(LENT)
    opened = {"0000000000000001": {"8001": "rw-", "8002": "r--"}}
    assert of_run(lent.endpoints, lent.runs[1], opened) == ("---", "---", "r--")
    assert of_run(lent.endpoints, lent.runs[2], opened) is None


def test_columns_end_wherever_a_run_ends() -> None:
    rows = [Row(number, b"", "0000", False, certificate(text)) for number, text in enumerate((AUDIT, LENT))]
    assert [first for first, _ in columns(rows)] == [0x40000000, 0x40010000, 0x40011000, 0x40020000]


def test_a_picture_has_so_many_rows() -> None:
    row = Row(0, b"", "0000", False, Certificate(("0000",), (Run(0x40000000, 0x401FFFFF, "0000", "-", ("rw-",)),) * 5))
    check_size([row] * 4000)
    with pytest.raises(TooLarge) as wrong:
        check_size([row] * 4001)
    assert wrong.value.most == 4000


def test_bytes_are_text() -> None:
    assert escaped(b'<a b="&">\xff\t') == "&lt;a b=&quot;&amp;&quot;&gt;\\xFF\\x09"
    assert quoted(b"</script>\\'\xff") == "\\u003C/script\\u003E\\\\\\u0027\\\\xFF"


@pytest.mark.parametrize("words", [["m"], ["m", "t", "--every", "08"], ["m", "t", "--ffa", "1"], ["m", "t", "--pages"], ["-", "-"]])
def test_wrong_words(words: list[str]) -> None:
    with pytest.raises(Misuse):
        read_words(words)

# SPDX-License-Identifier: MIT OR Apache-2.0
"""Lines of a trace: what they say, and what is wrong with others, in the program's words."""
from __future__ import annotations

from pathlib import Path
from typing import Callable

import pytest
from conftest import BUILT_IN, EXAMPLES, Program

from gorseplumb import BadLine, Call, Difference, Fetch, GuardUnmet, Load, Machine, Store, compare, play
from gorseplumb.log import read_log
from gorseplumb.trace import Trace, parse


def test_reads_each_kind_of_line() -> None:
    assert parse("call 84000069") == Call((0x84000069, 0, 0, 0, 0, 0, 0, 0))
    assert parse("call 1 2 3 4 5 6 7 FFFFFFFFFFFFFFFF") == Call((1, 2, 3, 4, 5, 6, 7, (1 << 64) - 1))
    assert parse("load 0000000040010000 8") == Load(0x40010000, 8)
    assert parse("store 40010000 aBcD") == Store(0x40010000, 2, 0xABCD)
    assert parse("fetch 4") == Fetch(4)
    assert (parse("show"), parse("audit"), parse(""), parse("#= \x80\r")) == ("show", "audit", None, None)


BAD = [
    ("", None),
    ("call", "a call needs 1 to 8 registers, found 0"),
    ("call 1 2 3 4 5 6 7 8 9", "a call needs 1 to 8 registers, found 9"),
    ("call 12345678901234567", "the number has 17 digits; it must have at most 16"),
    ("call 0x1", "a number must not begin with 0x"),
    ("call 0x", "not a hexadecimal number"),
    ("call 1_0", "not a hexadecimal number"),
    ("call  1", "empty word"),
    ("call 1 ", "empty word"),
    (" call 1", "empty word"),
    ("Call 1", "unknown command"),
    ("call\t1", "unknown command"),
    ("load 1", "missing word"),
    ("load 1 3", "the size must be 1, 2, 4 or 8"),
    ("load 1 1 1", "unexpected word"),
    ("store 1 1", "the value has 1 digit; it must have 2, 4, 8 or 16"),
    ("store 1 123", "the value has 3 digits; it must have 2, 4, 8 or 16"),
    ("fetch 1 2", "unexpected word"),
    ("show 1", "unexpected word"),
    ("on", "missing word"),
    ("on 8", "the processor's number must be less than 8"),
    ("on 00000000000000000", "the number has 17 digits; it must have at most 16"),
    ("on 0x1", "a number must not begin with 0x"),
    ("on 1 1", "unexpected word"),
    ("interrupt 1", "unexpected word"),
    ("show\r", "the line ends in CR LF; it must end in LF"),
]


@pytest.mark.parametrize("line, why", BAD[1:])
def test_says_what_is_wrong_with_a_line(line: str, why: str) -> None:
    with pytest.raises(BadLine) as wrong:
        parse(line)
    assert wrong.value.why == why


@pytest.mark.parametrize("line, why", BAD[1:])
def test_says_it_as_the_program_does(program: Program, line: str, why: str) -> None:
    done = program("demo", "--processors", 8, "--verbose", "-", text=f"show\n{line}\n".encode())
    assert done.returncode == 2
    told = [row for row in done.stderr.decode().splitlines() if row.startswith("ffaplay: ")][-1].removeprefix("ffaplay: ")
    with pytest.raises(BadLine) as wrong:
        parse(line)
    assert str(wrong.value) == told


def test_judges_a_line_when_it_is_reached() -> None:
    with Machine(BUILT_IN) as machine:
        played = play(machine, "store 40010000 2A\nload 40010000 1\nload 40010000\n")
        assert next(played) == "done" and next(played) == "data 2A"
        with pytest.raises(BadLine, match="line 3, column 14: missing word"):
            next(played)
        with pytest.raises(BadLine, match="line 2: the line does not end in LF"):
            list(play(machine, b"# \xff\nload 40010000 1"))
        assert list(play(machine, ["load 40010000 1"], numbers=True)) == ["1: data 2A"]
        named = list(play(machine, ["call 84000069", "call 8400008F", "call 84000063 10001"], names=True))
        assert [line.partition(" #")[2] for line in named] == [" FFA_SUCCESS", " FFA_ERROR NOT_SUPPORTED", ""]


def test_says_that_a_str_is_no_path(tmp_path: Path) -> None:
    is_text = "and a str is the text itself: give a pathlib.Path, or what it holds"
    odd = tmp_path / "load"
    odd.touch()
    with Machine(BUILT_IN) as machine:
        asks: list[Callable[[str], object]] = [
            lambda text: list(play(machine, text)),
            lambda text: compare(machine, text, "done\n"),
            lambda text: compare(machine, "load 40010000 1\n", text),
            lambda text: list(read_log(text)),
        ]
        for asked in asks:
            for name in (str(EXAMPLES / "first.trace"), str(odd), "first.trace", "../bench", "a\0.b"):
                told = "is" if name in (str(EXAMPLES / "first.trace"), str(odd)) else "looks like"
                with pytest.raises(BadLine) as wrong:
                    asked(name)
                hint = f"{name!r} {told} the name of a file, {is_text}"
                assert str(wrong.value) == f"line 1: the line does not end in LF: {hint}" and wrong.value.hint == hint
        texts: list[str | bytes] = ["load 40010000 1", "# see first.trace", "# 1\nfirst.trace", b"first.trace"]
        for text in texts:
            with pytest.raises(BadLine, match="^line [12]: the line does not end in LF$"):
                list(play(machine, text))


def test_stops_at_a_guard_that_is_not_met() -> None:
    text = (EXAMPLES / "guards.trace").read_text().partition("show\n")[0]
    with Machine(BUILT_IN) as machine:
        assert list(play(machine, text, strict=True))
    with Machine(BUILT_IN) as machine:
        with pytest.raises(GuardUnmet, match='line 10: expected "data 00", found "fault translation"'):
            list(play(machine, text.replace("#= fault translation", "#= data 00"), strict=True))
        with pytest.raises(GuardUnmet, match='line 1: expected "done", found nothing'):
            list(play(machine, "#= done\n", strict=True))
        with pytest.raises(GuardUnmet, match='line 1: expected "0000", found "8001"'):
            list(play(machine, "#@ 0000\n", strict=True))
        assert list(play(machine, "#= done\n")) == []


@pytest.mark.parametrize(
    "text",
    [
        "#= done\n",
        "#@ 8001\n",
        "store 40010000 2A\n\n#@ 0000\n#=done\n#= done\n",
        "load 40010000 1\n#=  data 00\n",
        "load 40010000 1\n#=\n",
        "load 40010000 1\n#@0000\n#@ 0\n",
    ],
)
def test_says_which_guard_is_not_met_as_the_program_does(program: Program, text: str) -> None:
    done = program("demo", "--strict", "-", text=text.encode())
    assert done.returncode == 5
    with Machine(BUILT_IN) as machine:
        with pytest.raises(GuardUnmet) as unmet:
            list(play(machine, text, strict=True))
    assert f"ffaplay: {unmet.value}" == done.stderr.decode().splitlines()[-1]


def test_finds_the_first_difference_as_the_program_does(program: Program) -> None:
    manifest, trace = EXAMPLES / "partitions.toml", EXAMPLES / "messages.trace"
    whole = (EXAMPLES / "messages.out").read_text()
    lines = whole.splitlines()
    texts = [
        whole.replace("data 1122334455667788", "data 1122334455667789"),
        whole.replace("regs 8001 0000000084000060", "regs 8002 0000000084000061"),
        "".join(f"{line}\n" for line in lines[:-1]),
        whole + "done\n",
        "",
    ]
    for text in texts:
        done = program("compare", manifest, trace, "-", text=text.encode())
        with Machine(manifest) as machine:
            difference = compare(machine, trace, text)
        assert done.returncode == 4 and f"{difference}\n" == done.stdout.decode()
    same: list[Trace] = [lines, whole, EXAMPLES / "messages.out"]
    for expected in same:
        with Machine(manifest) as machine, trace.open() as file:
            assert compare(machine, file, expected) is None


def test_names_the_registers_that_differ() -> None:
    told = Difference(4, "call 84000069", "regs 8001 01 02 03", "regs 0000 01 02 04")
    assert str(told).endswith("differ:   runner, x2")

# SPDX-License-Identifier: MIT OR Apache-2.0
"""Logs: both formats, and the first difference."""
from __future__ import annotations

import subprocess
import sys
from pathlib import Path

import pytest
from conftest import EXAMPLES

from gorseplumb import BadLine, Call, Function, Load, Machine, Registers, Store, encode
from gorseplumb.log import play, read_ftrace, read_log

MANIFEST = EXAMPLES / "partitions.toml"
TEXT = """# The normal world asks who it is, and runs 8001.
84000069 -> 0000: 84000061 0 0
0000: call 8400006D 80010000 -> 8001: 8400006D 80010000
8001: 0x84000069 -> 84000061 0 0x8001

store 40028000 2A -> done
load 40028000 1 -> data 2A
load 40200000 1 -> fault translation
8400006B -> regs 0000 000000008400006B 0000000080010000 ..
84000083
"""


def test_reads_and_plays_a_text() -> None:
    entries = list(read_log(TEXT))
    assert [it.number for it in entries] == [2, 3, 4, 6, 7, 8, 9, 10]
    assert [it.by for it in entries[:3]] == [None, 0, 0x8001]
    assert entries[3].command == Store(0x40028000, 1, 0x2A) and entries[4].command == Load(0x40028000, 1)
    assert entries[-1].expected is None
    with Machine(MANIFEST) as machine:
        assert play(machine, iter(entries)) is None


@pytest.mark.parametrize(
    "change, told",
    [
        (
            ("-> 84000061 0 0x8001", "-> 84000061 0 0x8002"),
            ["line 4: 8001: 0x84000069 -> ", "expected: regs 8001 ", "found:    regs 8001 ", "differ:   x2"],
        ),
        (("data 2A", "data 2B"), ["line 7: load 40028000 1 -> data 2B", "expected: data 2B", "found:    data 2A"]),
        (("8001: 0x84000069", "8002: 0x84000069"), ["line 4: ", "expected: runner 8002", "found:    runner 8001"]),
        (("0000: 84000061 0 0", "8001: 84000060"), ["line 2: ", "expected: ", "found:    ", "differ:   runner, x0"]),
        (("-> done", "-> fault permission"), ["line 6: ", "expected: fault permission", "found:    done"]),
    ],
)
def test_tells_the_first_difference(change: tuple[str, str], told: list[str]) -> None:
    with Machine(MANIFEST) as machine:
        difference = play(machine, read_log(TEXT.replace(*change)))
    lines = str(difference).splitlines()
    assert len(lines) == len(told) and all(line.startswith(start) for line, start in zip(lines, told))


@pytest.mark.parametrize(
    "line", ["shown", "84000069 -> what", "< done", "1 2 3 4 5 6 7 8 9", "load 1 3", "1 -> data 1"]
)
def test_refuses_what_is_no_line_of_a_log(line: str) -> None:
    with pytest.raises(BadLine, match="^line 2: "):
        list(read_log(f"# one\n{line}\n"))


FTRACE = """# tracer: nop
#
#           TASK-PID     CPU#  |||||  TIMESTAMP  FUNCTION
#              | |         |   |||||     |         |
       insmod-812     [000] d..1.    12.345678: ffa_smc: (arm_smccc_1_2_smc+0x0/0x60) x0=0x84000069 x1=0x0 x2=0x0
       insmod-812     [000] d..1.    12.345690: ffa_back: (ffa_fn+0x30/0x80 <- arm_smccc_1_2_smc) x0=0x84000061 x2=0x0
          <...>-31    [001] d..2.    12.400000: sched_switch: prev_comm=x prev_pid=1
       insmod-812     [000] d..1.    12.500000: ffa_smc: (arm_smccc_1_2_smc+0x0/0x60) x0=0x8400006f x1=0x8001 x3=0x7
       insmod-812     [000] d..1.    12.500100: ffa_smc_ret: x0=0x84000070 x1=0x80010000 x3=0x8
          cat-900     [002] d..1.    12.600000: smc_begin: param=0000000012345678 (84000083, 0, 0, 0, 0, 0, 0, 0)
          cat-900     [002] d..1.    12.600001: smc_end: param=0000000012345678 ret (84000060, 0, fffffffe, 0)
"""


def adder(machine: Machine, seen: Registers) -> Registers:
    """A partition that answers a request with its first word and one more."""
    assert machine.runner == 0x8001
    words = encode(Function.FFA_MSG_SEND_DIRECT_RESP, sender=0x8001, receiver=0, payload0=seen.x[3] + 1)
    return machine.call(*words)


def test_reads_and_plays_ftrace() -> None:
    entries = list(read_ftrace(FTRACE))
    assert [it.command for it in entries] == [
        Call((0x84000069,)),
        Call((0x8400006F, 0x8001, 0, 7)),
        Call((0x84000083,)),
    ]
    with Machine(MANIFEST) as machine:
        difference = play(machine, iter(entries), {0x8001: adder})
    assert str(difference) == "\n".join(
        [
            f"line 10: {FTRACE.splitlines()[9].strip()}",
            "expected: regs 0000 0000000084000060 0000000000000000 00000000FFFFFFFE" + 5 * " 0000000000000000",
            "found:    regs 0000 0000000084000060 0000000000000000 00000000FFFFFFFF" + 5 * " 0000000000000000",
            "differ:   x2",
        ]
    )
    with Machine(MANIFEST) as machine:
        difference = play(machine, read_ftrace(FTRACE))
    assert difference is not None and difference.number == 8 and difference.differing == ["runner", "x0", "x1", "x3"]


BOARD = """a firmware says that it booted
> call 8400006D 80010000
< regs 8001 000000008400006D 0000000080010000 0000000000000000 0000000000000000 0000000000000000 ..
> store 40028000 2A
< done
and more
> show
< runner 8001
< pages 40000000 4000FFFF 8000 --- --- ---
< pages 40010000 4001FFFF 0000 rw- --- ---
< pages 40020000 40027FFF 8001 --- r-x ---
< pages 40028000 4002FFFF 8001 --- rw- ---
< pages 40030000 401FFFFF 8000 --- --- ---
< pages 40200000 40207FFF 8002 --- --- rwx
< pages 40208000 4020FFFF 8002 --- --- r--
< pages 40210000 403FFFFF 8000 --- --- ---
> load 40200000 1
< fault translation
= the end
"""


def test_plays_what_the_board_prints() -> None:
    with Machine(MANIFEST) as machine:
        assert play(machine, read_log(BOARD)) is None
    with Machine(MANIFEST) as machine:
        changed = BOARD.replace("8002 --- --- r--", "8002 --- --- rw-")
        assert str(play(machine, read_log(changed))).splitlines() == [
            "line 7: > show",
            "expected: pages 40208000 4020FFFF 8002 --- --- rw-",
            "found:    pages 40208000 4020FFFF 8002 --- --- r--",
        ]
    with Machine(MANIFEST) as machine:
        difference = play(machine, read_log(BOARD.replace("< pages 40210000 403FFFFF 8000 --- --- ---\n", "")))
        assert difference is not None and (difference.number, difference.expected) == (7, None)


def test_is_a_command(tmp_path: Path) -> None:
    log = tmp_path / "calls.log"
    log.write_text(TEXT)
    words = [sys.executable, "-m", "gorseplumb", "--log", str(log), str(MANIFEST)]
    assert subprocess.run(words, capture_output=True, check=False).returncode == 0
    log.write_text(TEXT.replace("data 2A", "data 2B"))
    done = subprocess.run(words, capture_output=True, text=True, check=False)
    assert done.returncode == 4
    assert done.stdout == "line 7: load 40028000 1 -> data 2B\nexpected: data 2B\nfound:    data 2A\n"
    log.write_text("# nothing\n")
    done = subprocess.run(words, capture_output=True, text=True, check=False)
    assert (done.returncode, done.stderr) == (2, f"gorseplumb: no call is in {log}\n")
    log.write_text("nonsense\n")
    done = subprocess.run(words, capture_output=True, text=True, check=False)
    assert (done.returncode, done.stderr) == (2, "gorseplumb: line 1: unknown command\n")

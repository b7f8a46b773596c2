# SPDX-License-Identifier: MIT OR Apache-2.0
"""The session: lines, mistakes, undoing, completion, and a terminal."""
from __future__ import annotations

import os
import pty
import subprocess
import sys
from pathlib import Path
from typing import Iterator

import pytest
from conftest import EXAMPLES, Program

from gorseplumb.session import Session

MANIFEST = EXAMPLES / "partitions.toml"


@pytest.fixture
def session() -> Iterator[Session]:
    session = Session(MANIFEST)
    yield session
    session.machine.close()


def test_does_operations_and_calls_by_name(session: Session) -> None:
    assert session.line("store 40010000 2A") == ["done"]
    assert session.line("load  40010000   1 ") == ["data 2A"]
    told = session.line("FFA_RUN partition=8001")
    assert told[0].startswith("regs 8001 000000008400006D 0000000080010000 ")
    assert told[1] == "# 8001 sees FFA_RUN partition=8001 context=0"
    assert session.line("who") == ["runner 8001, of 0000 8001 8002"]
    assert session.line("call 84000069")[1] == "# 8001 sees FFA_SUCCESS endpoint=8001"
    assert session.line("write 40028000 'two words'") == ["9 bytes"]
    assert session.line("write 40028009 0x00FF") == ["2 bytes"]
    assert session.line("read 40028000 B") == ["40028000: 74 77 6F 20 77 6F 72 64 73 00 FF"]
    assert session.line("decode 84000077 1 8001") == ["FFA_MEM_RECLAIM handle=0000800100000001 flags=0"]
    assert session.line("help FFA_RUN") == ["FFA_RUN partition=.. [context=..]"]
    assert session.line("help FFA_ID_GET") == ["FFA_ID_GET"]
    told = session.line("help")
    assert len(told) > 10
    for word in ("share", "lend", "call", "load", "store", "audit", "quit", "undo", "help"):
        (line,) = session.line(f"help {word}")
        assert line in told and word in line[:26].replace(",", " ").split(), line
    known = 'FFA_PARTITION_INFO_GET uuid=00112233445566778899aabbccddeeff count_only=1'
    (seen,) = session.line("decode 84000068 33221100 77665544 BBAA9988 FFEEDDCC 1")
    assert seen == known
    hyphenated = known.replace("00112233445566778899aabbccddeeff", "00112233-4455-6677-8899-AABBCCDDEEFF")
    for line in (seen, hyphenated):
        assert session.line(f"why {line}") == ["it would be done"]
    unknown = "# refused: FFA_PARTITION_INFO_GET check 1: no partition has the UUID: w1 to w4 hold ff112233445566778899aabbccddeeff"
    assert session.line(seen.replace("uuid=00", "uuid=ff"))[2] == unknown
    assert session.line("FFA_FEATURES feature=FFA_RXTX_MAP") == session.line("call 84000064 84000066")
    assert session.line("help FFA_RXTX_MAP_64") == ["FFA_RXTX_MAP_64 tx=.. rx=.. pages=.."]
    assert session.line("") == session.line("# a comment") == []


@pytest.mark.parametrize(
    "line, told",
    [
        ("lod 1", "no such command: lod"),
        ("load 40010000", "missing word"),
        ("load 40010000 x", "the size must be 1, 2, 4 or 8"),
        ("FFA_RUN endpoint=8001", "FFA_RUN has no argument 'endpoint'"),
        ("FFA_RUN", "FFA_RUN lacks the argument partition: it has partition, [context]"),
        ("FFA_RUN 8001", "an argument is NAME=NUMBER"),
        ("FFA_RUN partition=x", "no hexadecimal numbers"),
        ("read 40020000 1", "translation fault of 0000 at 40020000"),
        ("write 1", "write takes an address and a text"),
        ("write 40010000 0xZZ", "non-hexadecimal"),
        ("write 'unfinished", "No closing quotation"),
        ("play /nowhere", "No such file"),
        ("undo", "0 lines did something"),
        ("help FFA_NOTHING", "no such command or call: FFA_NOTHING; `help` lists them"),
        ("FFA_PARTITION_INFO_GET uuid=1", "uuid is 32 hexadecimal digits, as 00112233-4455-"),
        ("FFA_FEATURES feature=FFA_RXTX_MAPP", "feature is a Function, and not the str 'FFA_RXTX_MAPP': give Function.FFA_RXTX_MAP"),
        ("save", "wanted is a file"),
        ("play a b", "wanted is a file"),
        ("access", "1 number is wanted, and not 0"),
        ("read 1", "2 numbers are wanted, and not 1"),
    ],
)
def test_survives_a_mistake(session: Session, line: str, told: str) -> None:
    (said,) = session.line(line)
    assert said.startswith("error: ") and told in said
    assert session.machine.is_fresh or line.startswith("read")
    assert session.line("load 40010000 1") == ["data 00"]


def test_takes_back_and_saves_what_was_done(session: Session, program: Program, tmp_path: Path) -> None:
    session.line("store 40010000 2A")
    session.line("FFA_RUN partition=8002")
    session.line("write 40200001 'abc'")
    assert session.line("who") == ["runner 8002, of 0000 8001 8002"]
    assert session.line("undo 2") == ["undone: FFA_RUN partition=8002", "undone: write 40200001 'abc'"]
    assert session.line("who") == ["runner 0000, of 0000 8001 8002"]
    assert session.line("load 40010000 1") == ["data 2A"]
    path = tmp_path / "saved.trace"
    assert session.line(f"save {path}") == ["2 operations"]
    assert program("run", "--strict", MANIFEST, path).returncode == 0
    other = Session(MANIFEST)
    assert other.line(f"play {path}") == ["done", "data 2A"]
    assert other.line("undo") == [f"undone: play {path}"]
    path.write_text("load 40010000 1\n#= data 01\n")
    assert other.line(f"play {path}") == ["data 00", 'error: line 2: expected "data 01", found "data 00"']


def test_sends_descriptors(session: Session, program: Program, tmp_path: Path) -> None:
    for line in ("FFA_RUN partition=8001", "FFA_RXTX_MAP tx=4002E000 rx=4002F000 pages=1"):
        session.line(line)
    shared = session.line("share 4002E000 8002:ro 40028000+1,4002A000+2")
    assert shared[1] == "# 8001 sees FFA_SUCCESS handle=0000800100000001"
    words = "share --tx 4002E000 --from 8001 --to 8002:ro --pages 40028000+1,4002A000+2"
    lines = program.lines("descriptor", *words.split())
    path = tmp_path / "saved.trace"
    session.line(f"save {path}")
    done = [line for line in path.read_text().splitlines() if not line.startswith("#")]
    assert done[-len(lines) :] == lines
    assert session.line("lend 4002E000 8002:rx 40029000+1")[0].startswith("error: a right is none of ro, rw")
    assert session.line("lend 4002E000 8001:ro 40029000+1") == ["error: access descriptor 00: the access descriptor names the sender"]
    assert session.line("donate 40020000 8002 40029000+1")[0] == "fault permission"
    for line in ("FFA_MSG_WAIT", "FFA_RUN partition=8002", "FFA_RXTX_MAP tx=40206000 rx=40207000 pages=1"):
        session.line(line)
    assert session.line("retrieve 40206000 8001 0000800100000001 ro")[1].startswith("# 8002 sees FFA_MEM_RETRIEVE_RESP")
    assert session.line("load 40028000 1") == ["data 00"]
    assert session.line("relinquish 40206000 800100000001")[1] == "# 8002 sees FFA_SUCCESS"
    assert session.line("relinquish 40206000") == ["error: wanted are TX, a handle"]
    assert session.line("retrieve 40206000") == ["error: wanted are TX, a sender, a handle"]


def test_completes_words(session: Session) -> None:
    assert session.complete("FFA_RX_", "FFA_RX_") == ["FFA_RX_RELEASE"]
    assert session.complete("lo", "lo") == ["load"]
    assert session.complete("FFA_RUN ", "") == ["partition=", "context="]
    assert session.complete("FFA_RUN partition=8001 c", "c") == ["context="]
    partitions = session.complete("FFA_RUN partition=", "partition=")
    assert partitions == ["partition=0000", "partition=8001", "partition=8002"]
    assert session.complete("why FFA_RU", "FFA_RU") == ["FFA_RUN"]
    assert session.complete(f"play {MANIFEST}", str(MANIFEST)) == [str(MANIFEST)]
    assert session.complete("load ", "") == []


def test_reads_standard_input() -> None:
    words = [sys.executable, "-m", "gorseplumb", str(MANIFEST)]
    done = subprocess.run(words, input="load 40010000 1\nquit\nwho\n", capture_output=True, text=True, check=False)
    assert (done.returncode, done.stdout) == (0, "data 00\n")
    done = subprocess.run(words, input="wrong\nload 40010000 1\n", capture_output=True, text=True, check=False)
    assert done.returncode == 2 and done.stdout.endswith("\ndata 00\n")
    done = subprocess.run([*words[:3], "/nowhere"], capture_output=True, text=True, check=False)
    assert done.returncode == 3 and "No such file" in done.stderr
    refused = subprocess.run([*words[:3], str(EXAMPLES / "first.trace")], capture_output=True, text=True, check=False)
    told = "gorseplumb: manifest: M2 Toml: TOML parse error at line 1, column 6: "
    assert refused.returncode == 1 and refused.stderr.startswith(told)


def test_completes_and_remembers_on_a_terminal(tmp_path: Path) -> None:
    history = tmp_path / "history"
    told = typed(b"FFA_RUN part\t8001\nlaod 1\nwho\nquit\n", history)
    assert "# 8001 sees FFA_RUN partition=8001 context=0" in told
    assert "error: no such command: laod" in told and "runner 8001, of 0000 8001 8002" in told
    assert history.read_text().splitlines()[0] == "FFA_RUN partition=8001"


def typed(keys: bytes, history: Path) -> str:
    """What a terminal shows of a session in which these keys are pressed."""
    ours, theirs = pty.openpty()
    environment = {**os.environ, "GORSEPLUMB_HISTORY": str(history), "TERM": "dumb"}
    words = [sys.executable, "-m", "gorseplumb", str(MANIFEST)]
    with subprocess.Popen(words, stdin=theirs, stdout=theirs, stderr=theirs, env=environment) as running:
        os.close(theirs)
        os.write(ours, keys)
        shown = b""
        try:
            while read := os.read(ours, 4096):
                shown += read
        except OSError:
            pass
        assert running.wait() == 0
    os.close(ours)
    return shown.decode().replace("\r\n", "\n")

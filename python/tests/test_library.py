# SPDX-License-Identifier: MIT OR Apache-2.0
"""The shared library: which one is taken, and that calls don't overlap."""
from __future__ import annotations

import os
import shutil
import subprocess
import sys
from concurrent.futures import ThreadPoolExecutor
from pathlib import Path

import pytest
from conftest import EXAMPLES

from gorseplumb import Data, Done, Function, LibraryError, Machine, __version__, library_version
from gorseplumb._library import DECLARATIONS, Library


def library_of(folder: Path, code: str) -> Path:
    """A shared library of these lines of C."""
    if shutil.which("cc") is None:
        pytest.skip("there is no C compiler")
    source, made = folder / "other.c", folder / "other.so"
    source.write_text(code)
    subprocess.run(["cc", "-shared", "-fPIC", str(source), "-o", str(made)], check=True)
    return made


def test_says_that_there_is_none(tmp_path: Path) -> None:
    environment = {**os.environ, "GORSEPLUMB_LIBRARY": str(tmp_path / "none.so")}
    words = [sys.executable, "-c", "import gorseplumb"]
    done = subprocess.run(words, env=environment, capture_output=True, text=True, check=False)
    assert done.returncode == 1
    told = done.stderr.splitlines()[-1]
    assert told.startswith(f"gorseplumb.errors.LibraryError: {tmp_path}/none.so can't be loaded: ")
    ways = "c/archive --unproved (about four minutes) or c/archive (proved; 20 minutes)"
    assert told.endswith(f"; make the library for C by {ways}, and this of it by python/backend.py")


def test_says_how_an_archive_is_made(tmp_path: Path) -> None:
    environment = {**os.environ, "GORSEPLUMB_ARCHIVE": str(tmp_path / "none.a")}
    words = [sys.executable, str(EXAMPLES.parent / "python" / "backend.py"), str(tmp_path / "made.so")]
    done = subprocess.run(words, env=environment, capture_output=True, text=True, check=False)
    assert done.returncode == 1
    told = done.stderr.splitlines()[0]
    assert told.startswith(f"there is no archive {tmp_path}/none.a: run c/archive --unproved (about four minutes; ")


def test_tells_its_version() -> None:
    assert library_version() in (__version__, f"{__version__} (not proved)")


def test_refuses_one_with_other_declarations(tmp_path: Path) -> None:
    other = library_of(tmp_path, f"unsigned gorseplumb_declarations(void) {{ return {DECLARATIONS + 1}; }}\n")
    with pytest.raises(LibraryError, match=f"has declarations {DECLARATIONS + 1}, and this package is written for"):
        Library(other)


def test_refuses_one_that_tells_no_number(tmp_path: Path) -> None:
    older = library_of(tmp_path, "int gorseplumb_nothing(void) { return 0; }\n")
    with pytest.raises(LibraryError, match="tells no number of its declarations: it was made from an older archive"):
        Library(older)


def test_calls_of_threads_do_not_meet() -> None:
    with Machine(EXAMPLES / "partitions.toml") as machine:

        def use(place: int) -> bool:
            address = 0x40010000 + 8 * place
            for value in range(2000):
                assert machine.store(address, 8, value << 8 | place) == Done()
                assert machine.call(Function.FFA_ID_GET).x[:3] == (Function.FFA_SUCCESS, 0, 0)
                assert machine.load(address, 8) == Data(value << 8 | place, 8)
            return True

        with ThreadPoolExecutor(8) as threads:
            assert all(threads.map(use, range(8)))

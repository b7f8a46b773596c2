# SPDX-License-Identifier: MIT OR Apache-2.0
"""Structs and functions against C's header, by a C compiler: sizes, places of fields, and counts of parameters."""
from __future__ import annotations

import ctypes
import re
import shutil
import subprocess
from pathlib import Path

import pytest
from conftest import TOP

from gorseplumb import _library as c

HEADER = (TOP / "c" / "gorseplumb.h").read_text()
STRUCTS: dict[str, type[ctypes.Structure]] = {
    "machine": c.Held,
    "lent": c.Held,
    "slot": c.Held,
    "span": c.Span,
    "outcome": c.Outcome,
    "region": c.Region,
    "endpoint": c.Endpoint,
    "manifest": c.Manifest,
    "refusal": c.Refusal,
    "range": c.Range,
    "change": c.Change,
    "grant": c.Grant,
    "cert_run": c.CertRun,
    "hint": c.Hint,
    "reason": c.Reason,
}
PACKED = {"outcome": c.OUTCOME, "operation": c.OPERATION}


def compiled(folder: Path, lines: list[str]) -> list[str]:
    """What a program prints that has these statements."""
    if shutil.which("cc") is None:
        pytest.skip("there is no C compiler")
    source, program = folder / "told.c", folder / "told"
    head = '#include <stdio.h>\n#include "gorseplumb.h"\nint main(void) {\n'
    source.write_text(head + "\n".join(lines) + "\nreturn 0;\n}\n")
    subprocess.run(["cc", f"-I{TOP / 'c'}", str(source), "-o", str(program)], check=True)
    return subprocess.run([str(program)], check=True, capture_output=True, text=True).stdout.split()


@pytest.mark.parametrize("name", STRUCTS)
def test_fields_stand_where_c_has_them(tmp_path: Path, name: str) -> None:
    kind, struct = STRUCTS[name], f"struct gorseplumb_{name}"
    fields = [field[0] for field in kind._fields_]
    body = re.search(rf"{struct} \{{(.*?)\n?\}};", HEADER, re.S)
    assert body is not None
    told = re.findall(r"(\w+)(?:\[\w+\])?[,;]", re.sub(r"/\*.*?\*/", "", body[1], flags=re.S))
    assert told == fields
    lines = [f'printf("%zu\\n", sizeof({struct}));']
    lines += [f'printf("%zu %zu\\n", offsetof({struct}, {it}), sizeof((({struct} *)0)->{it}));' for it in fields]
    ours = [str(ctypes.sizeof(kind))]
    for field in fields:
        ours += [str(getattr(kind, field).offset), str(getattr(kind, field).size)]
    assert compiled(tmp_path, lines) == ours


@pytest.mark.parametrize("name", PACKED)
def test_packed_structs_have_the_size_that_c_has(tmp_path: Path, name: str) -> None:
    told = compiled(tmp_path, [f'printf("%zu\\n", sizeof(struct gorseplumb_{name}));'])
    assert told == [str(PACKED[name].size)]


def test_functions_have_as_many_parameters_as_in_the_header() -> None:
    code = re.sub(r"/\*.*?\*/", "", HEADER, flags=re.S)
    told = dict(re.findall(r"^[\w *]+?\bgorseplumb_(\w+)\(([^)]*)\);", code, re.M))
    counts = {name: 0 if it.strip() == "void" else it.count(",") + 1 for name, it in told.items()}
    left_out = {"settle", "lend"}  # settle is firmware's, and pages are lent by spans
    assert {name: count for name, count in counts.items() if name not in left_out} == {
        name: len(it) - 1 for name, it in c._DECLARED.items()
    }

# SPDX-License-Identifier: MIT OR Apache-2.0
"""Makes the package: links the shared library from the library for C, and builds a wheel for pip (PEP 517 and 660).

usage: python3 python/backend.py [FILE]

As a command it links the shared library into the package's folder, which PYTHONPATH=python has on the path, or to FILE.

The archive is pip's `--config-settings archive=FILE`, GORSEPLUMB_ARCHIVE, or what `c/archive` makes at the top of the
repository. The compiler is CC, or cc. Nothing is fetched.
"""
from __future__ import annotations

import base64
import hashlib
import os
import platform
import subprocess
import sys
import sysconfig
import tempfile
import tomllib
import zipfile
from pathlib import Path
from typing import Any, Mapping

HERE = Path(__file__).resolve().parent
TOP = HERE.parent
PACKAGE = HERE / "gorseplumb"
LIBRARY = "libgorseplumb.so"
Settings = Mapping[str, Any] | None


class UnsupportedOperation(Exception):
    """Asked by name by who builds packages."""


def archive(settings: Settings = None) -> Path:
    """The library for C. Whoever lacks it is told how it is made."""
    named = (settings or {}).get("archive") or os.environ.get("GORSEPLUMB_ARCHIVE")
    made = TOP / "out" / f"{platform.machine()}-unknown-linux-gnu" / "libgorseplumb.a"
    found = Path(named) if named else made
    if not found.is_file():
        ways = "c/archive --unproved (about four minutes; not proved, and slower), or c/archive (proved; 20 minutes)"
        raise SystemExit(f"there is no archive {found}: run {ways}, or name another by GORSEPLUMB_ARCHIVE")
    return found.resolve()


def link(to: Path, settings: Settings = None) -> Path:
    """Links the shared library, in which only the library's own names are seen: those that it asks of the program, as
    its three of memory, can't meet another's in the same process."""
    source = archive(settings)
    with tempfile.TemporaryDirectory() as folder:
        names = Path(folder, "names.map")
        names.write_text("{ global: gorseplumb_*; local: *; };\n")
        whole = ["-Wl,--whole-archive", str(source), "-Wl,--no-whole-archive"]
        flags = ["-shared", "-fPIC", "-O2", f"-Wl,--version-script={names}", "-Wl,-z,defs", "-Wl,-z,text"]
        own = [str(TOP / "c" / name) for name in ("heap.c", "unsettled.c")]  # no processor walks a program's tables
        command = [os.environ.get("CC", "cc"), *flags, "-o", str(to), *whole, *own]
        try:
            subprocess.run(command, check=True)
        except FileNotFoundError:
            raise SystemExit(f"there is no C compiler {command[0]}: install gcc, or name one by CC") from None
        except subprocess.CalledProcessError as wrong:
            raise SystemExit(f"the library wasn't linked: status {wrong.returncode}") from None
    return to


def project() -> dict[str, Any]:
    """What pyproject.toml says."""
    with open(HERE / "pyproject.toml", "rb") as file:
        told: dict[str, Any] = tomllib.load(file)["project"]
    return told


# WHAT PIP ASKS


def get_requires_for_build_wheel(config_settings: Settings = None) -> list[str]:
    return []


def get_requires_for_build_editable(config_settings: Settings = None) -> list[str]:
    return []


def build_wheel(wheel_directory: str, config_settings: Settings = None, metadata_directory: str | None = None) -> str:
    """A wheel with the package and the shared library."""
    with tempfile.TemporaryDirectory() as folder:
        linked = link(Path(folder, LIBRARY), config_settings)
        files = {f"gorseplumb/{it.name}": it.read_bytes() for it in sorted(PACKAGE.glob("*.py"))}
        files["gorseplumb/py.typed"] = b""
        files[f"gorseplumb/{LIBRARY}"] = linked.read_bytes()
    return _write_wheel(Path(wheel_directory), files)


def build_editable(
    wheel_directory: str, config_settings: Settings = None, metadata_directory: str | None = None
) -> str:
    """A wheel that names this folder, in which the shared library is linked."""
    link(PACKAGE / LIBRARY, config_settings)
    return _write_wheel(Path(wheel_directory), {"gorseplumb.pth": f"{HERE}\n".encode()})


def build_sdist(sdist_directory: str, config_settings: Settings = None) -> str:
    raise UnsupportedOperation("the package is built in the repository, beside the library for C")


def _write_wheel(folder: Path, files: Mapping[str, bytes]) -> str:
    told = project()
    tag = "py3-none-" + sysconfig.get_platform().replace("-", "_").replace(".", "_")
    stem = f"{told['name']}-{told['version']}"
    about = f"{stem}.dist-info"
    scripts = "".join(f"{name} = {of}\n" for name, of in told.get("scripts", {}).items())
    every = {
        **files,
        **{f"{about}/{it.name}": it.read_bytes() for it in sorted(TOP.glob("LICENSE-*"))},
        f"{about}/METADATA": _metadata(told).encode(),
        f"{about}/WHEEL": f"Wheel-Version: 1.0\nGenerator: gorseplumb\nRoot-Is-Purelib: false\nTag: {tag}\n".encode(),
        f"{about}/entry_points.txt": f"[console_scripts]\n{scripts}".encode(),
    }
    every[f"{about}/RECORD"] = _record(every, about).encode()
    name = f"{stem}-{tag}.whl"
    with zipfile.ZipFile(folder / name, "w", zipfile.ZIP_DEFLATED) as wheel:
        for path, data in every.items():
            wheel.writestr(zipfile.ZipInfo(path), data, zipfile.ZIP_DEFLATED)
    return name


def _metadata(told: Mapping[str, Any]) -> str:
    return (
        f"Metadata-Version: 2.1\nName: {told['name']}\nVersion: {told['version']}\nSummary: {told['description']}\n"
        f"License: {told['license']}\nRequires-Python: {told['requires-python']}\n"
    )


def _record(files: Mapping[str, bytes], about: str) -> str:
    lines = []
    for path, data in files.items():
        digest = base64.urlsafe_b64encode(hashlib.sha256(data).digest()).rstrip(b"=").decode()
        lines.append(f"{path},sha256={digest},{len(data)}\n")
    return "".join(lines) + f"{about}/RECORD,,\n"


if __name__ == "__main__":
    print(link(Path(sys.argv[1]) if len(sys.argv) > 1 else PACKAGE / LIBRARY))

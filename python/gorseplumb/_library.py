# SPDX-License-Identifier: MIT OR Apache-2.0
"""The shared library, by the declarations of c/gorseplumb.h."""
from __future__ import annotations

import ctypes
import os
import struct
import sys
from ctypes import POINTER, Structure, c_bool, c_char_p, c_size_t, c_void_p
from ctypes import c_int32, c_uint8, c_uint16, c_uint32, c_uint64
from pathlib import Path
from typing import Any, Callable

from .errors import LibraryError

DECLARATIONS = 13
"""The number of the declarations that this file has."""

MOST_REGIONS = 16
MOST_ENDPOINTS = 8
MOST_PROCESSORS = 8
MOST_BLOCKS = 32
MOST_RANGES = 64
NOTHING = 0xFFFFFFFF

KIND_REGISTERS, KIND_DATA, KIND_DONE, KIND_FAULT, KIND_NO_MACHINE, KIND_BAD_SIZE = range(6)
KIND_RESUMED = 7
OPERATION_CALL, OPERATION_LOAD, OPERATION_STORE, OPERATION_FETCH = range(4)

REGISTERS = struct.Struct("<8Q")
"""struct gorseplumb_registers."""
OUTCOME = struct.Struct("<IIQ8Q")
"""struct gorseplumb_outcome."""
OPERATION = struct.Struct("<IIQQ8Q")
"""struct gorseplumb_operation."""


class Held(Structure):
    """struct gorseplumb_machine, gorseplumb_lent and gorseplumb_slot, which begin as zeros."""

    _fields_ = [("live", c_bool), ("at", c_void_p)]


class Span(Structure):
    _fields_ = [("at", c_void_p), ("pages", c_size_t)]


class Outcome(Structure):
    _fields_ = [("kind", c_uint32), ("runner", c_uint32), ("value", c_uint64), ("x", c_uint64 * 8)]


class Region(Structure):
    _fields_ = [("base", c_uint32), ("pages", c_uint32), ("rights", c_uint32)]


class Endpoint(Structure):
    _fields_ = [
        ("version", c_uint32),
        ("properties", c_uint32),
        ("uuid", c_uint8 * 16),
        ("region_count", c_uint32),
        ("regions", Region * MOST_REGIONS),
    ]


class Manifest(Structure):
    _fields_ = [
        ("ram_base", c_uint32),
        ("ram_blocks", c_uint32),
        ("endpoint_count", c_uint32),
        ("endpoints", Endpoint * MOST_ENDPOINTS),
        ("ffa", c_uint32),
        ("tables", c_uint32),
    ]


class Refusal(Structure):
    _fields_ = [
        ("cause", c_uint32),
        ("endpoint", c_uint32),
        ("region", c_uint64),
        ("line", c_uint64),
        ("column", c_uint64),
        ("words", c_uint64),
    ]


class Range(Structure):
    _fields_ = [("address", c_uint64), ("size", c_uint64)]


class Change(Structure):
    _fields_ = [("endpoint", c_uint32), ("range_count", c_uint32), ("ranges", Range * MOST_RANGES)]


class Grant(Structure):
    _fields_ = [("kind", c_uint32), ("handle", c_uint64)]


class CertRun(Structure):
    _fields_ = [
        ("first", c_uint32),
        ("last", c_uint32),
        ("owner", c_uint32),
        ("has_handle", c_uint32),
        ("handle", c_uint64),
        ("access", c_uint32 * MOST_ENDPOINTS),
    ]


class Hint(Structure):
    _fields_ = [("kind", c_uint32), ("numbers", c_uint64 * 3)]


class Reason(Structure):
    _fields_ = [
        ("fault", c_uint32),
        ("check", c_uint32),
        ("error", c_int32),
        ("about", c_uint32),
        ("obstacle", c_uint32),
        ("page", c_uint32),
        ("endpoint", c_uint32),
        ("owner", c_uint32),
        ("number", c_uint32),
        ("flaw", c_uint32),
        ("index", c_uint32),
        ("has_value", c_uint32),
        ("state", c_uint32),
        ("awaits", c_uint32),
        ("handle", c_uint64),
        ("transaction", c_uint64),
        ("value", c_uint64),
        ("first", c_uint64),
        ("size", c_uint64),
        ("least", c_uint64),
        ("most", c_uint64),
        ("step", c_uint64),
        ("hint", Hint),
    ]


_MACHINE = _LENT = _SLOT = POINTER(Held)
_REGISTERS = c_char_p  # eight numbers as bytes, which are packed faster than a struct is made

_DECLARED: dict[str, tuple[Any, ...]] = {
    # its answer, and its parameters
    "declarations": (c_uint32,),
    "version": (c_char_p,),
    "boot": (c_uint32, _MACHINE, c_char_p, c_size_t),
    "boot_manifest": (c_uint32, _MACHINE, POINTER(Manifest)),
    "boot_lent": (c_uint32, _MACHINE, _LENT, c_char_p, c_size_t),
    "boot_lent_manifest": (c_uint32, _MACHINE, _LENT, POINTER(Manifest)),
    "boot_preloaded": (c_uint32, _MACHINE, _LENT, c_char_p, c_size_t),
    "boot_preloaded_manifest": (c_uint32, _MACHINE, _LENT, POINTER(Manifest)),
    "read_manifest": (c_uint32, c_char_p, c_size_t, POINTER(Manifest)),
    "why_text": (c_uint32, c_char_p, c_size_t, POINTER(Refusal), c_void_p, c_size_t),
    "why_manifest": (c_uint32, POINTER(Manifest), POINTER(Refusal)),
    "copy": (c_uint32, _MACHINE, _MACHINE),
    "copy_lent": (c_uint32, _MACHINE, _LENT, _MACHINE),
    "end": (c_uint32, _MACHINE, _LENT),
    "end_heap": (c_uint32, _MACHINE),
    "call": (Outcome, _MACHINE, _REGISTERS),
    "load": (Outcome, _MACHINE, c_uint64, c_uint32),
    "store": (Outcome, _MACHINE, c_uint64, c_uint32, c_uint64),
    "fetch": (Outcome, _MACHINE, c_uint64),
    "select": (c_bool, _MACHINE, c_uint32),
    "interrupt": (Outcome, _MACHINE),
    "run": (c_size_t, _MACHINE, c_char_p, c_size_t, c_void_p, c_size_t),
    "take_change": (c_bool, _MACHINE, POINTER(Change)),
    "runner": (c_uint32, _MACHINE),
    "endpoints": (c_uint32, _MACHINE),
    "owner": (c_uint32, _MACHINE, c_uint32),
    "access": (c_uint32, _MACHINE, c_uint16, c_uint32),
    "npi_pending": (c_bool, _MACHINE, c_uint16),
    "sri_pending": (c_bool, _MACHINE),
    "read_page": (c_bool, _MACHINE, c_uint32, c_void_p),
    "ram_base": (c_uint32, _MACHINE),
    "ram_blocks": (c_uint32, _MACHINE),
    "root": (c_uint32, _MACHINE, c_uint16),
    "granted": (Grant, _MACHINE, c_uint16, c_uint32),
    "cert_run": (c_bool, _MACHINE, c_uint32, POINTER(CertRun)),
    "audit": (c_uint32, _MACHINE, POINTER(CertRun), c_size_t),
    "audit_tables": (c_uint32, _LENT, c_uint32, POINTER(c_uint32), c_size_t, POINTER(CertRun), c_size_t),
    "why_call": (c_bool, _MACHINE, _REGISTERS, POINTER(Reason)),
    "why_load": (c_bool, _MACHINE, c_uint64, c_uint32, POINTER(Reason)),
    "why_store": (c_bool, _MACHINE, c_uint64, c_uint32, POINTER(Reason)),
    "why_fetch": (c_bool, _MACHINE, c_uint64, POINTER(Reason)),
    "begin_lending": (c_uint32, _LENT, c_uint32),
    "lend_span": (c_uint32, _LENT, POINTER(Span)),
    "take_back": (c_uint32, _LENT, _SLOT),
    "lent_pages": (c_uint64, _LENT),
    "end_lending": (c_uint32, _LENT),
    "call_name": (c_char_p, c_uint32),
    "error_name": (c_char_p, c_int32),
    "check_name": (c_char_p, c_uint32),
    "check_number": (c_uint32, c_uint32, c_uint32),
    "fault_name": (c_char_p, c_uint32),
    "flaw_name": (c_char_p, c_uint32),
    "answer_name": (c_char_p, c_uint32),
}


class Library:
    """The functions of the library, each by its name without `gorseplumb_`."""

    def __init__(self, path: Path) -> None:
        # The interpreter's lock is held while a PyDLL's function runs. So no two calls on a machine overlap, on any
        # thread, and none is made from a signal handler while another is on its way, as the library asks.
        if not getattr(sys, "_is_gil_enabled", lambda: True)():
            raise LibraryError("this interpreter has no global lock, which keeps two calls on a machine apart")
        try:
            self._library = ctypes.PyDLL(str(path))
        except OSError as wrong:
            ways = "c/archive --unproved (about four minutes) or c/archive (proved; 20 minutes)"
            how = f"make the library for C by {ways}, and this of it by python/backend.py"
            raise LibraryError(f"{path} can't be loaded: {wrong}; {how}") from None
        self._compare(path)

    def _compare(self, path: Path) -> None:
        try:
            told = self.declarations()
        except AttributeError:
            why = "it was made from an older archive"
            raise LibraryError(f"{path} tells no number of its declarations: {why}") from None
        if told != DECLARATIONS:
            raise LibraryError(f"{path} has declarations {told}, and this package is written for {DECLARATIONS}")

    def __getattr__(self, name: str) -> Callable[..., Any]:
        """Binds a function when it is first asked for."""
        if name not in _DECLARED:
            raise AttributeError(name)
        found = self.bare(name)
        setattr(found, "argtypes", _DECLARED[name][1:])
        setattr(self, name, found)
        return found

    def bare(self, name: str) -> Callable[..., Any]:
        """A function that takes addresses alone, by byref and as bytes, and looks at none: so it is called faster."""
        function = self._library[f"gorseplumb_{name}"]
        function.restype = _DECLARED[name][0]
        return function


def _path() -> Path:
    named = os.environ.get("GORSEPLUMB_LIBRARY")
    return Path(named) if named else Path(__file__).with_name("libgorseplumb.so")


library = Library(_path())


def library_version() -> str:
    """The version of the library for C, as "0.1.0". Of one that was compiled without proofs, by `c/archive --unproved`,
    " (not proved)" stands behind it: it is slower and takes more stack, since it keeps its checks."""
    told: bytes = library.version()
    return told.decode()

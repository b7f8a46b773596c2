# SPDX-License-Identifier: MIT OR Apache-2.0
"""Names of calls and errors, and how registers are written."""
from __future__ import annotations

from collections.abc import Sequence

# The name of each identifier. `tests/copies` writes this table.
FUNCTIONS: dict[int, str] = {
    0x84000060: "FFA_ERROR",
    0x84000061: "FFA_SUCCESS",
    0xC4000061: "FFA_SUCCESS",
    0x84000062: "FFA_INTERRUPT",
    0x84000063: "FFA_VERSION",
    0x84000064: "FFA_FEATURES",
    0x84000065: "FFA_RX_RELEASE",
    0x84000066: "FFA_RXTX_MAP",
    0xC4000066: "FFA_RXTX_MAP",
    0x84000067: "FFA_RXTX_UNMAP",
    0x84000068: "FFA_PARTITION_INFO_GET",
    0x84000069: "FFA_ID_GET",
    0x8400006B: "FFA_MSG_WAIT",
    0x8400006C: "FFA_YIELD",
    0x8400006D: "FFA_RUN",
    0x8400006F: "FFA_MSG_SEND_DIRECT_REQ",
    0xC400006F: "FFA_MSG_SEND_DIRECT_REQ",
    0x84000070: "FFA_MSG_SEND_DIRECT_RESP",
    0xC4000070: "FFA_MSG_SEND_DIRECT_RESP",
    0x84000071: "FFA_MEM_DONATE",
    0xC4000071: "FFA_MEM_DONATE",
    0x84000072: "FFA_MEM_LEND",
    0xC4000072: "FFA_MEM_LEND",
    0x84000073: "FFA_MEM_SHARE",
    0xC4000073: "FFA_MEM_SHARE",
    0x84000074: "FFA_MEM_RETRIEVE_REQ",
    0xC4000074: "FFA_MEM_RETRIEVE_REQ",
    0x84000075: "FFA_MEM_RETRIEVE_RESP",
    0x84000076: "FFA_MEM_RELINQUISH",
    0x84000077: "FFA_MEM_RECLAIM",
    0x8400007D: "FFA_NOTIFICATION_BITMAP_CREATE",
    0x8400007E: "FFA_NOTIFICATION_BITMAP_DESTROY",
    0x8400007F: "FFA_NOTIFICATION_BIND",
    0x84000080: "FFA_NOTIFICATION_UNBIND",
    0x84000081: "FFA_NOTIFICATION_SET",
    0x84000082: "FFA_NOTIFICATION_GET",
    0x84000083: "FFA_NOTIFICATION_INFO_GET",
    0xC4000083: "FFA_NOTIFICATION_INFO_GET",
    0x84000085: "FFA_SPM_ID_GET",
    0x84000086: "FFA_MSG_SEND2",
}

# The registers that a 64-bit form reads or answers whole. `tests/copies` writes this table.
WHOLE: dict[int, tuple[int, ...]] = {
    0xC4000066: (1, 2),
    0xC400006F: (3, 4, 5, 6, 7),
    0xC4000070: (3, 4, 5, 6, 7),
    0xC4000071: (3,),
    0xC4000072: (3,),
    0xC4000073: (3,),
    0xC4000074: (3,),
    0xC4000083: (2, 3, 4, 5, 6, 7),
}

# The error codes of the standard (DEN0077A, 11.2).
ERRORS = {
    0xFFFFFFFF: "NOT_SUPPORTED",
    0xFFFFFFFE: "INVALID_PARAMETERS",
    0xFFFFFFFD: "NO_MEMORY",
    0xFFFFFFFC: "BUSY",
    0xFFFFFFFB: "INTERRUPTED",
    0xFFFFFFFA: "DENIED",
    0xFFFFFFF9: "RETRY",
    0xFFFFFFF8: "ABORTED",
    0xFFFFFFF7: "NO_DATA",
}

FFA_ERROR = 0x84000060
FFA_RXTX_MAP = 0x84000066
FFA_MEM_DONATE = 0x84000071
FFA_MEM_LEND = 0x84000072
FFA_MEM_SHARE = 0x84000073
FFA_MEM_RETRIEVE_REQ = 0x84000074
FFA_MEM_RELINQUISH = 0x84000076
FFA_MEM_RECLAIM = 0x84000077
WIDE = 1 << 30
LOW = (1 << 32) - 1

Registers = Sequence[int]
"""The registers x0 to x7."""


def name_of(x: Registers) -> str | None:
    """The name of the call or of the answer in registers, if w0 has the identifier of one."""
    return FUNCTIONS.get(x[0] & LOW)


def error_of(x: Registers) -> str | None:
    """The name of the error in registers, if they are an FFA_ERROR with a code of the standard."""
    return ERRORS.get(x[2] & LOW) if x[0] & LOW == FFA_ERROR else None


def narrow(x: Registers) -> int:
    """The identifier of a call in its 32-bit form, if the call has both forms."""
    function = x[0] & LOW
    return function - WIDE if function & WIDE and function in FUNCTIONS else function


def written(x: Registers) -> str:
    """The registers that are not zero, each behind a space. An x before the number says that all of a register counts."""
    whole = WHOLE.get(x[0] & LOW, ())
    words = (f" {'x' if value > LOW or place in whole else 'w'}{place}={value:X}" for place, value in enumerate(x) if value)
    return "".join(words)

# SPDX-License-Identifier: MIT OR Apache-2.0
"""The numbers of the standard and of the library, by their names."""
from __future__ import annotations

from enum import IntFlag

from .hexadecimal import Named, by_name

MANAGER = 0x8000
"""The manager's identifier: it owns what no endpoint owns, and never runs."""
NORMAL_WORLD = 0x0000
"""The first endpoint's identifier."""
PAGE_SIZE = 4096
PAGES_OF_BLOCK = 512
BLOCK_SIZE = PAGE_SIZE * PAGES_OF_BLOCK


class Function(Named):
    """What w0 of a call or of an answer holds. A name that ends in `_64` is that of a call's 64-bit form."""

    FFA_ERROR = 0x84000060
    FFA_SUCCESS = 0x84000061
    FFA_SUCCESS_64 = 0xC4000061
    FFA_INTERRUPT = 0x84000062
    FFA_VERSION = 0x84000063
    FFA_FEATURES = 0x84000064
    FFA_RX_RELEASE = 0x84000065
    FFA_RXTX_MAP = 0x84000066
    FFA_RXTX_MAP_64 = 0xC4000066
    FFA_RXTX_UNMAP = 0x84000067
    FFA_PARTITION_INFO_GET = 0x84000068
    FFA_ID_GET = 0x84000069
    FFA_MSG_WAIT = 0x8400006B
    FFA_YIELD = 0x8400006C
    FFA_RUN = 0x8400006D
    FFA_MSG_SEND_DIRECT_REQ = 0x8400006F
    FFA_MSG_SEND_DIRECT_REQ_64 = 0xC400006F
    FFA_MSG_SEND_DIRECT_RESP = 0x84000070
    FFA_MSG_SEND_DIRECT_RESP_64 = 0xC4000070
    FFA_MEM_DONATE = 0x84000071
    FFA_MEM_DONATE_64 = 0xC4000071
    FFA_MEM_LEND = 0x84000072
    FFA_MEM_LEND_64 = 0xC4000072
    FFA_MEM_SHARE = 0x84000073
    FFA_MEM_SHARE_64 = 0xC4000073
    FFA_MEM_RETRIEVE_REQ = 0x84000074
    FFA_MEM_RETRIEVE_REQ_64 = 0xC4000074
    FFA_MEM_RETRIEVE_RESP = 0x84000075
    FFA_MEM_RELINQUISH = 0x84000076
    FFA_MEM_RECLAIM = 0x84000077
    FFA_NOTIFICATION_BITMAP_CREATE = 0x8400007D
    FFA_NOTIFICATION_BITMAP_DESTROY = 0x8400007E
    FFA_NOTIFICATION_BIND = 0x8400007F
    FFA_NOTIFICATION_UNBIND = 0x84000080
    FFA_NOTIFICATION_SET = 0x84000081
    FFA_NOTIFICATION_GET = 0x84000082
    FFA_NOTIFICATION_INFO_GET = 0x84000083
    FFA_NOTIFICATION_INFO_GET_64 = 0xC4000083
    FFA_SPM_ID_GET = 0x84000085
    FFA_MSG_SEND2 = 0x84000086

    @classmethod
    def of(cls, x0: int) -> Function | None:
        """The function that x0 names by its low half, or none."""
        return _FUNCTIONS.get(x0 & 0xFFFFFFFF)

    @property
    def call_name(self) -> str:
        """The standard's name, which both forms of a call have."""
        return self.name.removesuffix("_64")

    @property
    def is_wide(self) -> bool:
        """Whether this is the 64-bit form."""
        return bool(self & 0x40000000)


_FUNCTIONS = {int(function): function for function in Function}


class ErrorCode(Named):
    """What FFA_ERROR tells in w2 (DEN0077A, 11.2)."""

    NOT_SUPPORTED = -1
    INVALID_PARAMETERS = -2
    NO_MEMORY = -3
    BUSY = -4
    INTERRUPTED = -5
    DENIED = -6
    RETRY = -7
    ABORTED = -8
    NO_DATA = -9

    @classmethod
    def of(cls, register: int) -> ErrorCode | None:
        """The code that the low half of a register holds, or none."""
        low = register & 0xFFFFFFFF
        return _ERRORS.get(low - (1 << 32) if low >> 31 else low)


_ERRORS = {int(code): code for code in ErrorCode}


class Fault(Named):
    """Why a load, a store or a fetch isn't done."""

    TRANSLATION = 1
    PERMISSION = 2
    ALIGNMENT = 3
    ACCESS_FLAG = 4
    OUTSIDE_RAM = 5

    @property
    def text(self) -> str:
        """The word that the program prints."""
        return self.name.lower().replace("_", "-")


class Cause(Named):
    """Why a manifest makes no machine, by its number in the manual."""

    TOML = 2
    UNKNOWN_KEY = 3
    MISSING_KEY = 4
    WRONG_KIND = 5
    RAM_BASE = 6
    RAM_BLOCKS = 7
    ENDPOINT_COUNT = 8
    UUID = 9
    PROPERTY = 10
    REGION_COUNT = 11
    REGION_OUTSIDE = 12
    REGION_OVERLAP = 13
    VERSION = 14
    TABLES_OUTSIDE = 25

    @property
    def text(self) -> str:
        """As the program prints it: `M6 RamBase`."""
        return f"M{int(self)} {self.name.title().replace('_', '')}"


class Right(Named):
    """What an endpoint may do with a page."""

    NONE = 0
    RO = 1
    RW = 3
    ROX = 5
    RWX = 7

    @property
    def text(self) -> str:
        """The column of `show`: `---`, `r--`, `rw-`, `r-x` or `rwx`."""
        return _RIGHTS[self]

    @property
    def reads(self) -> bool:
        """Whether it has loads."""
        return bool(self & 1)

    @property
    def writes(self) -> bool:
        """Whether it has stores."""
        return bool(self & 2)

    @property
    def executes(self) -> bool:
        """Whether it has fetches."""
        return bool(self & 4)


_RIGHTS = {Right.NONE: "---", Right.RO: "r--", Right.RW: "rw-", Right.ROX: "r-x", Right.RWX: "rwx"}


class Properties(IntFlag):
    """What a manifest says of an endpoint. The normal world has neither `RECEIVES_REQUESTS` nor `NOTIFICATIONS`. Only a
    partition of `Form.FFA_1_2` has either of the last two."""

    RECEIVES_REQUESTS = 1
    SENDS_REQUESTS = 2
    INDIRECT_MESSAGES = 4
    NOTIFICATIONS = 8
    RECEIVES_SECOND_REQUESTS = 0x200
    SENDS_SECOND_REQUESTS = 0x400

    __repr__ = by_name


class Form(Named):
    """The form of an endpoint's descriptors: that of FF-A 1.1, this project's compact one, or that of FF-A 1.2, whose access
    descriptors have 32 bytes. Only a machine that serves `Ffa.V1_2` has an endpoint of the last one. There an endpoint
    changes its form by FFA_VERSION: minor version 0 is the compact form, 1 that of FF-A 1.1, and each greater one that
    of FF-A 1.2."""

    FFA_1_1 = 0
    COMPACT = 1
    FFA_1_2 = 2

    @property
    def text(self) -> str:
        """What a manifest has as `version`."""
        return {Form.FFA_1_1: "1.1", Form.COMPACT: "compact", Form.FFA_1_2: "1.2"}[self]


class Ffa(Named):
    """The version of FF-A that a machine serves, from its boot on. One that serves 1.2 tells memory of the normal world's
    regions, which is non-secure, from all other, which is secure. Its endpoints may have `Form.FFA_1_2`."""

    V1_1 = 0
    V1_2 = 1


class Kind(Named):
    """The kind of a memory transaction, as flags of a descriptor tell it."""

    SHARE = 1
    LEND = 2
    DONATE = 3

    @property
    def function(self) -> Function:
        """The call that makes such an offer, in its 32-bit form."""
        return {
            Kind.SHARE: Function.FFA_MEM_SHARE,
            Kind.LEND: Function.FFA_MEM_LEND,
            Kind.DONATE: Function.FFA_MEM_DONATE,
        }[self]


class GrantKind(Named):
    """By what an endpoint has its access to a page."""

    NONE = 0
    OWN = 1
    SHARED = 2
    HELD = 3


class About(Named):
    """What a refused call's reason speaks of."""

    NOTHING = 0
    PAGE = 1
    ENDPOINT = 2
    HANDLE = 3
    REGISTER = 4
    BIT = 5
    FIELD = 6


class RunState(Named):
    """What an endpoint does that is to wait (DEN0077A, 8.2)."""

    NONE = 0
    RUNNING = 1
    WAITING = 2
    YIELDED = 3
    BLOCKED = 4
    PREEMPTED = 5
    RUNS_ELSEWHERE = 6


class Obstacle(Named):
    """What stands in the way at a page."""

    NONE = 0
    OUTSIDE_RAM = 1
    MANAGERS_PAGE = 2
    OWNED_BY = 3
    IN_TRANSACTION = 4


class HintKind(Named):
    """What a hint says: the page is in a buffer, or which right, which endpoint or which number is there. The last ones, from
    BUFFERS_MISSING on, say which of two causes a check has."""

    TX_PAGE = 1
    RX_PAGE = 2
    OWN_RIGHT = 3
    GRANTED = 4
    ACCESS = 5
    CALLER = 6
    SENDER = 7
    TAG = 8
    KIND = 9
    RIGHT = 10
    HELD = 11
    ROOM = 12
    VALUE = 13
    FORM = 14
    WORD = 15
    MESSAGE = 16
    OUTSIDE = 17
    HOLDER = 18
    RUN = 19
    REQUEST = 20
    PENDING = 21
    BUFFERS_MISSING = 22
    RX_NOT_FULL = 23
    BIT_PENDING = 24
    BIT_TAKEN = 25
    BIT_UNBOUND = 26
    HANDLE_UNKNOWN = 27
    NOT_RECEIVER = 28
    NOT_LENT = 29
    BITMAPS_UNCREATED = 30
    NOTIFICATIONS_UNRECEIVED = 31
    SECURE_TO_NORMAL = 32
    PAGES_OF_BOTH_WORLDS = 33


class Answer(Named):
    """What the library's boots and lists answer, but for the causes of a manifest."""

    OK = 0
    NO_MEMORY = 1
    OCCUPIED = 15
    NO_LIST = 16
    NO_PAGE = 17
    HAS_PAGES = 18
    NO_MACHINE = 19
    WRONG_COUNT = 20
    NOT_CERTIFIED = 21
    LENT = 22

# SPDX-License-Identifier: MIT OR Apache-2.0
"""Gorseplumb from Python: a proved partition manager core of FF-A 1.1, as a machine that does one operation at a time.

    with Machine(Path("examples/partitions.toml")) as machine:
        machine.do(Function.FFA_RUN, partition=0x8001)
        machine.write(0x40028000, b"hello")
"""
from ._library import library_version
from .access import AccessMap, Cell, Run
from .batch import Batch, Outcomes
from .checks import Check, Flaw
from .codes import MANAGER, NORMAL_WORLD, PAGE_SIZE
from .codes import About, Cause, ErrorCode, Fault, Ffa, Form, Function, GrantKind, HintKind, Kind, Obstacle
from .codes import Properties, Right, RunState
from .descriptors import DataAccess, InstructionAccess, Offer, PageRange, ReadBack, Receiver
from .descriptors import Relinquish, Retrieve, RetrieveResponse
from .errors import (
    AccessFault,
    AccessFlagFault,
    Aborted,
    AlignmentFault,
    BadLine,
    Busy,
    CallRefused,
    Denied,
    GorseplumbError,
    GuardUnmet,
    Interrupted,
    InvalidParameters,
    LibraryError,
    MachineEnded,
    MalformedDescriptor,
    ManifestRefused,
    NoData,
    NoMemory,
    NoSuchEndpoint,
    NoSuchPage,
    NoSuchProcessor,
    NotRecordable,
    NotSupported,
    OutOfMemory,
    OutsideRamFault,
    PermissionFault,
    RamLent,
    Retry,
    TranslationFault,
    WrongRamSize,
)
from .hints import Hint
from .machine import Machine, Watcher
from .manifest import Endpoint, Manifest, Region
from .messages import IndirectMessage, PartitionInfo, read_partitions
from .outcomes import Act, Call, Data, Done, Faulted, Fetch, Interrupt, Load, Operation, Outcome, Registers, Resumed
from .outcomes import Store
from .questions import Change, Grant
from .ram import Ram
from .reasons import Hindrance, Reason, Subject
from .recording import JsonRecording, TraceRecording
from .registers import NamedRegisters, decode, encode
from .trace import Difference, compare, play

__version__ = "0.1.0"

__all__ = [
    "Aborted",
    "About",
    "AccessFault",
    "AccessFlagFault",
    "AccessMap",
    "Act",
    "AlignmentFault",
    "BadLine",
    "Batch",
    "Busy",
    "Call",
    "CallRefused",
    "Cause",
    "Cell",
    "Change",
    "Check",
    "Data",
    "DataAccess",
    "Denied",
    "Difference",
    "Done",
    "Endpoint",
    "ErrorCode",
    "Fault",
    "Faulted",
    "Fetch",
    "Ffa",
    "Flaw",
    "Form",
    "Function",
    "GorseplumbError",
    "Grant",
    "GrantKind",
    "GuardUnmet",
    "Hindrance",
    "Hint",
    "HintKind",
    "IndirectMessage",
    "InstructionAccess",
    "Interrupt",
    "Interrupted",
    "InvalidParameters",
    "JsonRecording",
    "Kind",
    "LibraryError",
    "Load",
    "MANAGER",
    "Machine",
    "MachineEnded",
    "MalformedDescriptor",
    "Manifest",
    "ManifestRefused",
    "NORMAL_WORLD",
    "NamedRegisters",
    "NoData",
    "NoMemory",
    "NoSuchEndpoint",
    "NoSuchPage",
    "NoSuchProcessor",
    "NotRecordable",
    "NotSupported",
    "Obstacle",
    "Offer",
    "Operation",
    "OutOfMemory",
    "Outcome",
    "Outcomes",
    "OutsideRamFault",
    "PAGE_SIZE",
    "PageRange",
    "PartitionInfo",
    "PermissionFault",
    "Properties",
    "Ram",
    "RamLent",
    "ReadBack",
    "Reason",
    "Receiver",
    "Region",
    "Registers",
    "Relinquish",
    "Resumed",
    "Retrieve",
    "RetrieveResponse",
    "Retry",
    "Right",
    "Run",
    "RunState",
    "Store",
    "Subject",
    "TraceRecording",
    "TranslationFault",
    "Watcher",
    "WrongRamSize",
    "compare",
    "decode",
    "encode",
    "library_version",
    "play",
    "read_partitions",
]

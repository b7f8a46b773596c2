// SPDX-License-Identifier: MIT OR Apache-2.0
//! What `c/gorseplumb.h` declares, by the names that it has there without their first word. The rest of this crate is
//! safe and stands on it; who calls these functions owes what the header says.
//!
//! Questions take a pointer to const, as they write nothing.
#![allow(missing_docs)]

use core::ffi::c_void;

/// The number of the declarations that stand here.
pub const DECLARATIONS: u32 = 13;

/// What a question answers where there is nothing to tell.
pub const NOTHING: u32 = u32::MAX;

macro_rules! owners {
    ($($(#[$about:meta])* $name:ident),*) => {$(
        $(#[$about])*
        #[derive(Debug)]
        #[repr(C)]
        pub struct $name {
            pub live: bool,
            pub at: *mut c_void,
        }

        impl $name {
            pub const NONE: $name = $name { live: false, at: core::ptr::null_mut() };
        }
    )*};
}

owners! {
    /// A machine, or none.
    Machine,
    /// A list of pages that are lent, or none.
    Lent,
    /// A page's memory, or none.
    Slot
}

/// Memory of pages that stand side by side, or of none.
#[derive(Debug)]
#[repr(C)]
pub struct Span {
    pub at: *mut c_void,
    pub pages: usize,
}

/// What the library is given where it asks for memory: whether there is some, and where. `at` is never null.
#[derive(Debug)]
#[repr(C)]
pub struct Block {
    pub ok: bool,
    pub at: *mut c_void,
}

#[derive(Clone, Copy, Debug, PartialEq, Eq)]
#[repr(C)]
pub struct Registers {
    pub x: [u64; 8],
}

#[derive(Clone, Copy, Debug, PartialEq, Eq)]
#[repr(C)]
pub struct Outcome {
    pub kind: u32,
    pub runner: u32,
    pub value: u64,
    pub x: [u64; 8],
}

pub const KIND_REGISTERS: u32 = 0;
pub const KIND_DATA: u32 = 1;
pub const KIND_DONE: u32 = 2;
pub const KIND_FAULT: u32 = 3;
pub const KIND_NO_MACHINE: u32 = 4;
pub const KIND_BAD_SIZE: u32 = 5;
pub const KIND_RESUMED: u32 = 7;

pub const MOST_REGIONS: usize = 16;
pub const MOST_ENDPOINTS: usize = 8;
pub const MOST_PROCESSORS: u32 = 8;
pub const MOST_BLOCKS: u32 = 32;
pub const MOST_RANGES: usize = 64;

#[derive(Clone, Copy, Debug, PartialEq, Eq)]
#[repr(C)]
pub struct Region {
    pub base: u32,
    pub pages: u32,
    pub rights: u32,
}

#[derive(Clone, Copy, Debug, PartialEq, Eq)]
#[repr(C)]
pub struct Endpoint {
    pub version: u32,
    pub properties: u32,
    pub uuid: [u8; 16],
    pub region_count: u32,
    pub regions: [Region; MOST_REGIONS],
}

pub const FFA_1_1: u32 = 0;
pub const FFA_1_2: u32 = 1;

#[derive(Clone, Copy, Debug, PartialEq, Eq)]
#[repr(C)]
pub struct Manifest {
    pub ram_base: u32,
    pub ram_blocks: u32,
    pub endpoint_count: u32,
    pub endpoints: [Endpoint; MOST_ENDPOINTS],
    pub ffa: u32,
    pub tables: u32,
}

#[derive(Clone, Copy, Debug, PartialEq, Eq)]
#[repr(C)]
pub struct Refusal {
    pub cause: u32,
    pub endpoint: u32,
    pub region: u64,
    pub line: u64,
    pub column: u64,
    pub words: u64,
}

impl Refusal {
    pub const NONE: Refusal = Refusal { cause: 0, endpoint: 0, region: 0, line: 0, column: 0, words: 0 };
}

pub const OK: u32 = 0;
pub const NO_MEMORY: u32 = 1;
pub const OCCUPIED: u32 = 15;
pub const NO_LIST: u32 = 16;
pub const NO_PAGE: u32 = 17;
pub const HAS_PAGES: u32 = 18;
pub const NO_MACHINE: u32 = 19;
pub const WRONG_COUNT: u32 = 20;
pub const NOT_CERTIFIED: u32 = 21;
pub const LENT: u32 = 22;
pub const BAD_BASE: u32 = 23;
pub const BAD_ROOTS: u32 = 24;

#[derive(Clone, Copy, Debug, PartialEq, Eq)]
#[repr(C)]
pub struct Range {
    pub address: u64,
    pub size: u64,
}

#[derive(Clone, Copy, Debug, PartialEq, Eq)]
#[repr(C)]
pub struct Change {
    pub endpoint: u32,
    pub range_count: u32,
    pub ranges: [Range; MOST_RANGES],
}

#[derive(Clone, Copy, Debug, PartialEq, Eq)]
#[repr(C)]
pub struct Grant {
    pub kind: u32,
    pub handle: u64,
}

pub const GRANT_NONE: u32 = 0;
pub const GRANT_OWN: u32 = 1;
pub const GRANT_SHARED: u32 = 2;
pub const GRANT_HELD: u32 = 3;

#[derive(Clone, Copy, Debug, PartialEq, Eq)]
#[repr(C)]
pub struct CertRun {
    pub first: u32,
    pub last: u32,
    pub owner: u32,
    pub has_handle: u32,
    pub handle: u64,
    pub access: [u32; MOST_ENDPOINTS],
}

pub const ABOUT_NOTHING: u32 = 0;
pub const ABOUT_PAGE: u32 = 1;
pub const ABOUT_ENDPOINT: u32 = 2;
pub const ABOUT_HANDLE: u32 = 3;
pub const ABOUT_REGISTER: u32 = 4;
pub const ABOUT_BIT: u32 = 5;
pub const ABOUT_FIELD: u32 = 6;

pub const STATE_NONE: u32 = 0;
pub const STATE_RUNNING: u32 = 1;
pub const STATE_WAITING: u32 = 2;
pub const STATE_YIELDED: u32 = 3;
pub const STATE_BLOCKED: u32 = 4;
pub const STATE_PREEMPTED: u32 = 5;
pub const STATE_RUNS_ELSEWHERE: u32 = 6;

pub const OBSTACLE_NONE: u32 = 0;
pub const OBSTACLE_OUTSIDE_RAM: u32 = 1;
pub const OBSTACLE_MANAGERS_PAGE: u32 = 2;
pub const OBSTACLE_OWNED_BY: u32 = 3;
pub const OBSTACLE_IN_TRANSACTION: u32 = 4;

pub const HINT_NONE: u32 = 0;
pub const HINT_TX_PAGE: u32 = 1;
pub const HINT_RX_PAGE: u32 = 2;
pub const HINT_OWN_RIGHT: u32 = 3;
pub const HINT_GRANTED: u32 = 4;
pub const HINT_ACCESS: u32 = 5;
pub const HINT_CALLER: u32 = 6;
pub const HINT_SENDER: u32 = 7;
pub const HINT_TAG: u32 = 8;
pub const HINT_KIND: u32 = 9;
pub const HINT_RIGHT: u32 = 10;
pub const HINT_HELD: u32 = 11;
pub const HINT_ROOM: u32 = 12;
pub const HINT_VALUE: u32 = 13;
pub const HINT_FORM: u32 = 14;
pub const HINT_WORD: u32 = 15;
pub const HINT_MESSAGE: u32 = 16;
pub const HINT_OUTSIDE: u32 = 17;
pub const HINT_HOLDER: u32 = 18;
pub const HINT_RUN: u32 = 19;
pub const HINT_REQUEST: u32 = 20;
pub const HINT_PENDING: u32 = 21;
pub const HINT_BUFFERS_MISSING: u32 = 22;

#[derive(Clone, Copy, Debug, Default, PartialEq, Eq)]
#[repr(C)]
pub struct Hint {
    pub kind: u32,
    pub numbers: [u64; 3],
}

#[derive(Clone, Copy, Debug, Default, PartialEq, Eq)]
#[repr(C)]
pub struct Reason {
    pub fault: u32,
    pub check: u32,
    pub error: i32,
    pub about: u32,
    pub obstacle: u32,
    pub page: u32,
    pub endpoint: u32,
    pub owner: u32,
    pub number: u32,
    pub flaw: u32,
    pub index: u32,
    pub has_value: u32,
    pub state: u32,
    pub awaits: u32,
    pub handle: u64,
    pub transaction: u64,
    pub value: u64,
    pub first: u64,
    pub size: u64,
    pub least: u64,
    pub most: u64,
    pub step: u64,
    pub hint: Hint,
}

#[derive(Clone, Copy, Debug, PartialEq, Eq)]
#[repr(C)]
pub struct Operation {
    pub kind: u32,
    pub size: u32,
    pub address: u64,
    pub value: u64,
    pub x: [u64; 8],
}

pub const OPERATION_CALL: u32 = 0;
pub const OPERATION_LOAD: u32 = 1;
pub const OPERATION_STORE: u32 = 2;
pub const OPERATION_FETCH: u32 = 3;

extern "C" {
    pub fn gorseplumb_boot(machine: *mut Machine, text: *const u8, size: usize) -> u32;
    pub fn gorseplumb_boot_manifest(machine: *mut Machine, manifest: *const Manifest) -> u32;
    pub fn gorseplumb_boot_lent(machine: *mut Machine, lent: *mut Lent, text: *const u8, size: usize) -> u32;
    pub fn gorseplumb_boot_lent_manifest(machine: *mut Machine, lent: *mut Lent, manifest: *const Manifest) -> u32;
    pub fn gorseplumb_boot_preloaded(machine: *mut Machine, lent: *mut Lent, text: *const u8, size: usize) -> u32;
    pub fn gorseplumb_boot_preloaded_manifest(machine: *mut Machine, lent: *mut Lent, manifest: *const Manifest)
        -> u32;

    pub fn gorseplumb_call(machine: *mut Machine, registers: *const Registers) -> Outcome;
    pub fn gorseplumb_load(machine: *mut Machine, address: u64, size: u32) -> Outcome;
    pub fn gorseplumb_store(machine: *mut Machine, address: u64, size: u32, value: u64) -> Outcome;
    pub fn gorseplumb_fetch(machine: *mut Machine, address: u64) -> Outcome;
    pub fn gorseplumb_select(machine: *mut Machine, processor: u32) -> bool;
    pub fn gorseplumb_interrupt(machine: *mut Machine) -> Outcome;
    pub fn gorseplumb_take_change(machine: *mut Machine, change: *mut Change) -> bool;

    pub fn gorseplumb_runner(machine: *const Machine) -> u32;
    pub fn gorseplumb_endpoints(machine: *const Machine) -> u32;
    pub fn gorseplumb_owner(machine: *const Machine, page: u32) -> u32;
    pub fn gorseplumb_access(machine: *const Machine, endpoint: u16, page: u32) -> u32;
    pub fn gorseplumb_npi_pending(machine: *const Machine, endpoint: u16) -> bool;
    pub fn gorseplumb_sri_pending(machine: *const Machine) -> bool;
    pub fn gorseplumb_read_page(machine: *const Machine, page: u32, bytes: *mut crate::Page) -> bool;

    pub fn gorseplumb_end(machine: *mut Machine, lent: *mut Lent) -> u32;
    pub fn gorseplumb_begin_lending(lent: *mut Lent, pages: u32) -> u32;
    pub fn gorseplumb_lend(lent: *mut Lent, slot: *mut Slot) -> u32;
    pub fn gorseplumb_lend_span(lent: *mut Lent, span: *mut Span) -> u32;
    pub fn gorseplumb_take_back(lent: *mut Lent, slot: *mut Slot) -> u32;
    pub fn gorseplumb_lent_pages(lent: *const Lent) -> u64;
    pub fn gorseplumb_end_lending(lent: *mut Lent) -> u32;

    pub fn gorseplumb_declarations() -> u32;
    pub fn gorseplumb_version() -> *const u8;
    pub fn gorseplumb_ram_base(machine: *const Machine) -> u32;
    pub fn gorseplumb_ram_blocks(machine: *const Machine) -> u32;
    pub fn gorseplumb_root(machine: *const Machine, endpoint: u16) -> u32;
    pub fn gorseplumb_granted(machine: *const Machine, endpoint: u16, page: u32) -> Grant;
    pub fn gorseplumb_cert_run(machine: *const Machine, page: u32, run: *mut CertRun) -> bool;
    pub fn gorseplumb_audit(machine: *const Machine, runs: *const CertRun, count: usize) -> u32;
    pub fn gorseplumb_audit_tables(
        lent: *mut Lent,
        base: u32,
        roots: *const u32,
        root_count: usize,
        runs: *const CertRun,
        count: usize,
    ) -> u32;
    pub fn gorseplumb_why_call(machine: *const Machine, registers: *const Registers, reason: *mut Reason) -> bool;
    pub fn gorseplumb_why_load(machine: *const Machine, address: u64, size: u32, reason: *mut Reason) -> bool;
    pub fn gorseplumb_why_store(machine: *const Machine, address: u64, size: u32, reason: *mut Reason) -> bool;
    pub fn gorseplumb_why_fetch(machine: *const Machine, address: u64, reason: *mut Reason) -> bool;
    pub fn gorseplumb_read_manifest(text: *const u8, size: usize, manifest: *mut Manifest) -> u32;
    pub fn gorseplumb_why_text(text: *const u8, size: usize, refusal: *mut Refusal, words: *mut u8, room: usize)
        -> u32;
    pub fn gorseplumb_why_manifest(manifest: *const Manifest, refusal: *mut Refusal) -> u32;
    pub fn gorseplumb_end_heap(machine: *mut Machine) -> u32;
    pub fn gorseplumb_copy(machine: *mut Machine, original: *const Machine) -> u32;
    pub fn gorseplumb_copy_lent(machine: *mut Machine, lent: *mut Lent, original: *const Machine) -> u32;
    pub fn gorseplumb_run(
        machine: *mut Machine,
        operations: *const Operation,
        count: usize,
        outcomes: *mut Outcome,
        places: usize,
    ) -> usize;
    pub fn gorseplumb_call_name(function: u32) -> *const u8;
    pub fn gorseplumb_error_name(code: i32) -> *const u8;
    pub fn gorseplumb_check_name(check: u32) -> *const u8;
    pub fn gorseplumb_check_number(function: u32, check: u32) -> u32;
    pub fn gorseplumb_fault_name(fault: u32) -> *const u8;
    pub fn gorseplumb_answer_name(answer: u32) -> *const u8;
    pub fn gorseplumb_flaw_name(flaw: u32) -> *const u8;
}

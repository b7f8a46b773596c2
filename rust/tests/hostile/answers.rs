// SPDX-License-Identifier: MIT OR Apache-2.0
//! How the machine of examples/machine.toml answers a call with a descriptor or a message in TX. It is read off the
//! registers, the bytes of TX and the open transaction. Every endpoint has mapped its buffers, and its RX is empty.
use crate::descriptors::{access, addresses, is_retrieve, is_send, number, range_count, receiver_count, Kind};

/// x0 to x7.
pub type Registers = [u64; 8];

/// The bit of an identifier that a call in its 64-bit form has.
pub const WIDE: u64 = 1 << 30;

pub const DONATE: u64 = 0x8400_0071;
pub const LEND: u64 = 0x8400_0072;
pub const SHARE: u64 = 0x8400_0073;
pub const RETRIEVE: u64 = 0x8400_0074;
pub const RELINQUISH: u64 = 0x8400_0076;
pub const SEND2: u64 = 0x8400_0086;

const WIDE_DONATE: u64 = DONATE | WIDE;
const WIDE_LEND: u64 = LEND | WIDE;
const WIDE_SHARE: u64 = SHARE | WIDE;
const WIDE_RETRIEVE: u64 = RETRIEVE | WIDE;

const NOT_SUPPORTED: u64 = 0xFFFF_FFFF;
pub const INVALID: u64 = 0xFFFF_FFFE;
pub const NO_MEMORY: u64 = 0xFFFF_FFFD;
pub const DENIED: u64 = 0xFFFF_FFFA;

/// FFA_MEM_RETRIEVE_RESP of one page, whose descriptor has 96 bytes.
pub const RETRIEVED: Registers = [0x8400_0075, 96, 96, 0, 0, 0, 0, 0];

pub const WORLD: u64 = 0;
pub const FIRST: u64 = 0x8001;
pub const SECOND: u64 = 0x8002;

/// How many sends an endpoint of a machine of FF-A 1.1 may make.
const MOST_SENDS: u64 = 65_535;

/// An open transaction of one page, offered to one endpoint.
#[derive(Clone, Copy)]
pub struct Open {
    pub handle: u64,
    pub sender: u64,
    pub receiver: u64,
    pub tag: u64,
    pub kind: Kind,
    /// The most that the receiver may ask for: 1 is ro, 2 is rw.
    pub most: u64,
    pub may_execute: bool,
    /// The data right that the receiver holds now, or 0.
    pub held: u64,
    pub page: u64,
}

/// What an answer depends on, apart from registers and TX.
pub struct Scene {
    pub caller: u64,
    /// How many sends the caller has made.
    pub sent: u64,
    pub open: Option<Open>,
}

impl Scene {
    /// Returns the open transaction, if it has this handle and is offered to the caller.
    fn offered(&self, handle: u64) -> Option<&Open> {
        self.open.as_ref().filter(|open| open.handle == handle && open.receiver == self.caller)
    }
}

/// Returns FFA_ERROR with a code.
pub fn refusal(code: u64) -> Registers {
    [0x8400_0060, 0, code, 0, 0, 0, 0, 0]
}

/// Returns FFA_SUCCESS with w2 and w3.
pub fn success(w2: u64, w3: u64) -> Registers {
    [0x8400_0061, 0, w2, w3, 0, 0, 0, 0]
}

/// Returns the registers that the caller sees after a call.
pub fn answer(scene: &Scene, x: Registers, tx: &[u8; 4096]) -> Registers {
    let answered = match low(x[0]) {
        DONATE | WIDE_DONATE => send(scene, x, tx, Kind::Donate),
        LEND | WIDE_LEND => send(scene, x, tx, Kind::Lend),
        SHARE | WIDE_SHARE => send(scene, x, tx, Kind::Share),
        RETRIEVE | WIDE_RETRIEVE => retrieve(scene, x, tx),
        RELINQUISH => relinquish(scene, tx),
        SEND2 => message(scene, tx),
        _ => Err(NOT_SUPPORTED),
    };
    answered.unwrap_or_else(refusal)
}

/// Returns the low half of a register.
fn low(register: u64) -> u64 {
    register & 0xFFFF_FFFF
}

/// Returns the bytes of the descriptor that the registers name. w1 and w2 are its length, at most 4096. No call names a
/// buffer elsewhere, whose address is the whole of x3 in the 64-bit form.
fn described(x: Registers, tx: &[u8; 4096]) -> Result<&[u8], u64> {
    let address = if x[0] & WIDE == 0 { low(x[3]) } else { x[3] };
    if low(x[1]) != low(x[2]) || address != 0 || low(x[4]) != 0 {
        return Err(INVALID);
    }
    tx.get(..low(x[1]) as usize).ok_or(INVALID)
}

/// Answers FFA_MEM_DONATE, FFA_MEM_LEND and FFA_MEM_SHARE.
fn send(scene: &Scene, x: Registers, tx: &[u8; 4096], kind: Kind) -> Result<Registers, u64> {
    let bytes = described(x, tx)?;
    if !is_send(bytes, kind) || number(bytes, 0, 2) != scene.caller || !are_known(bytes) {
        return Err(INVALID);
    }
    if !(0..range_count(bytes)).all(|index| is_free_range(scene, bytes, index)) {
        return Err(DENIED);
    }
    if scene.sent >= MOST_SENDS {
        return Err(NO_MEMORY);
    }
    Ok(success(scene.sent + 1, scene.caller))
}

/// Whether all receivers of a send are endpoints.
fn are_known(bytes: &[u8]) -> bool {
    (0..receiver_count(bytes)).all(|index| is_known(number(bytes, access(bytes, index), 2)))
}

fn is_known(endpoint: u64) -> bool {
    matches!(endpoint, WORLD | FIRST | SECOND)
}

/// Whether the caller may send all pages of a range. The first page that it may not send ends the search.
fn is_free_range(scene: &Scene, bytes: &[u8], index: u64) -> bool {
    addresses(bytes, index).step_by(4096).all(|page| is_free(scene, page))
}

/// Whether a page is one of the caller's sixteen, is in no open transaction, and is no buffer. The caller may read and
/// write all of them, so no grant asks for too much, and it may ask for zeros.
fn is_free(scene: &Scene, page: u128) -> bool {
    let first = match scene.caller {
        WORLD => 0x4001_0000,
        FIRST => 0x4002_0000,
        _ => 0x4003_0000,
    };
    let is_open = scene.open.map_or(false, |open| u128::from(open.page) == page);
    (first..first + 0xE000).contains(&page) && !is_open
}

/// Answers FFA_MEM_RETRIEVE_REQ.
fn retrieve(scene: &Scene, x: Registers, tx: &[u8; 4096]) -> Result<Registers, u64> {
    let bytes = described(x, tx)?;
    if !is_retrieve(bytes, scene.caller) {
        return Err(INVALID);
    }
    let open = scene.offered(number(bytes, 8, 8)).ok_or(INVALID)?;
    let kind = number(bytes, 4, 4) >> 3;
    let is_kind = kind == 0 || kind == open.kind as u64;
    if number(bytes, 0, 2) != open.sender || number(bytes, 16, 8) != open.tag || !is_kind {
        return Err(INVALID);
    }
    let permissions = number(bytes, access(bytes, 0) + 2, 1);
    let asks_to_execute = permissions / 4 == 2;
    if open.held != 0 || permissions % 4 > open.most || (asks_to_execute && !open.may_execute) {
        return Err(DENIED);
    }
    Ok(RETRIEVED)
}

/// Answers FFA_MEM_RELINQUISH.
fn relinquish(scene: &Scene, tx: &[u8; 4096]) -> Result<Registers, u64> {
    let flags = number(tx, 8, 4);
    if flags > 1 || number(tx, 12, 4) != 1 || number(tx, 16, 2) != scene.caller {
        return Err(INVALID);
    }
    let open = scene.offered(number(tx, 0, 8)).ok_or(INVALID)?;
    let may_clear = open.kind == Kind::Lend && open.held == 2;
    if open.held == 0 || (flags == 1 && !may_clear) {
        return Err(DENIED);
    }
    Ok(success(0, 0))
}

/// Answers FFA_MSG_SEND2. All endpoints send and receive indirect messages.
fn message(scene: &Scene, tx: &[u8; 4096]) -> Result<Registers, u64> {
    let offset = number(tx, 8, 4);
    let receiver = number(tx, 12, 2);
    let size = number(tx, 16, 4);
    if number(tx, 0, 4) != 0
        || number(tx, 4, 4) != 0
        || number(tx, 14, 2) != scene.caller
        || !is_known(receiver)
        || receiver == scene.caller
        || offset < 20
        || size == 0
        || offset + size > 4096
    {
        return Err(INVALID);
    }
    Ok(success(0, 0))
}

// SPDX-License-Identifier: MIT OR Apache-2.0
//! Which bytes are a descriptor of FF-A 1.1. Each condition is checked by itself, over numbers that are too wide to
//! wrap. Nothing here is taken from the crate, or from code that reads descriptors.
use std::ops::Range;

/// What a transaction does with its pages. The numbers are those of bits 3 and 4 of the flags of a retrieve.
#[derive(Clone, Copy, PartialEq, Eq)]
pub enum Kind {
    Share = 1,
    Lend = 2,
    Donate = 3,
}

/// Returns the number of `size` bytes at this place, the lowest byte first. Bytes after the end read as zero.
pub fn number(bytes: &[u8], at: u64, size: usize) -> u64 {
    let rest = usize::try_from(at).ok().and_then(|at| bytes.get(at..)).unwrap_or_default();
    let count = size.min(rest.len());
    let mut wide = [0; 8];
    wide[..count].copy_from_slice(&rest[..count]);
    u64::from_le_bytes(wide)
}

/// Returns how many access descriptors the array has, as the header says.
pub fn receiver_count(bytes: &[u8]) -> u64 {
    number(bytes, 28, 4)
}

/// Returns where an access descriptor begins. The header has the offset of their array.
pub fn access(bytes: &[u8], index: u64) -> u64 {
    number(bytes, 32, 4) + 16 * index
}

/// Returns where the composite begins, as the first access descriptor says.
fn composite(bytes: &[u8]) -> u64 {
    number(bytes, access(bytes, 0) + 4, 4)
}

/// Returns how many ranges the composite has, as it says.
pub fn range_count(bytes: &[u8]) -> u64 {
    number(bytes, composite(bytes) + 4, 4)
}

/// Returns where a range of the composite begins.
fn range(bytes: &[u8], index: u64) -> u64 {
    composite(bytes) + 16 + 16 * index
}

/// Returns the addresses of the bytes of a range.
pub fn addresses(bytes: &[u8], index: u64) -> Range<u128> {
    let at = range(bytes, index);
    let start = u128::from(number(bytes, at, 8));
    start..start + 4096 * u128::from(number(bytes, at + 8, 4))
}

/// Whether the bytes are the descriptor of a send of this kind.
pub fn is_send(bytes: &[u8], kind: Kind) -> bool {
    has_array(bytes)
        && is_send_header(bytes, kind)
        && (0..receiver_count(bytes)).all(|index| is_receiver(bytes, kind, index))
        && has_composite(bytes)
        && (0..range_count(bytes)).all(|index| is_range(bytes, index))
        && page_total(bytes) == number(bytes, composite(bytes), 4)
}

/// Whether the bytes have the whole header and the whole array, and the last bytes of the header are zero.
fn has_array(bytes: &[u8]) -> bool {
    let array = number(bytes, 32, 4);
    let length = bytes.len() as u64;
    length >= 48
        && number(bytes, 24, 4) == 16
        && array % 16 == 0
        && array >= 48
        && access(bytes, receiver_count(bytes)) <= length
        && number(bytes, 36, 4) == 0
        && number(bytes, 40, 8) == 0
}

/// Whether the header is one of a send of this kind.
fn is_send_header(bytes: &[u8], kind: Kind) -> bool {
    let count = receiver_count(bytes);
    let most = if kind == Kind::Donate { 1 } else { 4 };
    let is_for_one = kind == Kind::Donate || (kind == Kind::Lend && count == 1);
    let attributes = if is_for_one { 0 } else { 0x2F };
    let most_flags = if kind == Kind::Share { 0 } else { 1 };
    (1..=most).contains(&count)
        && number(bytes, 2, 2) == attributes
        && number(bytes, 4, 4) <= most_flags
        && number(bytes, 8, 8) == 0
}

/// Whether an access descriptor has a grant of this kind and the one composite. Its receiver is not the sender, and no
/// earlier access descriptor names it.
fn is_receiver(bytes: &[u8], kind: Kind, index: u64) -> bool {
    let at = access(bytes, index);
    let endpoint = number(bytes, at, 2);
    let permissions = number(bytes, at + 2, 1);
    let is_grant = match kind {
        Kind::Donate => permissions == 0,
        Kind::Lend | Kind::Share => permissions == 1 || permissions == 2,
    };
    is_grant
        && number(bytes, at + 3, 1) == 0
        && number(bytes, at + 4, 4) == composite(bytes)
        && number(bytes, at + 8, 8) == 0
        && endpoint != number(bytes, 0, 2)
        && (0..index).all(|earlier| number(bytes, access(bytes, earlier), 2) != endpoint)
}

/// Whether the composite begins after the array, and the bytes have all of its 1 to 64 ranges.
fn has_composite(bytes: &[u8]) -> bool {
    let at = composite(bytes);
    let count = range_count(bytes);
    at % 16 == 0
        && at >= access(bytes, receiver_count(bytes))
        && (1..=64).contains(&count)
        && range(bytes, count) <= bytes.len() as u64
        && number(bytes, at + 8, 8) == 0
}

/// Whether a range has whole pages, at least one, ends at 2^48 or below, and overlaps no earlier range.
fn is_range(bytes: &[u8], index: u64) -> bool {
    let range_addresses = addresses(bytes, index);
    !range_addresses.is_empty()
        && range_addresses.start % 4096 == 0
        && range_addresses.end <= 1 << 48
        && number(bytes, range(bytes, index) + 12, 4) == 0
        && (0..index).all(|earlier| are_apart(&addresses(bytes, earlier), &range_addresses))
}

/// Whether two ranges have no address in common.
fn are_apart(one: &Range<u128>, other: &Range<u128>) -> bool {
    one.end <= other.start || other.end <= one.start
}

/// Returns how many pages all ranges have.
fn page_total(bytes: &[u8]) -> u64 {
    (0..range_count(bytes)).map(|index| number(bytes, range(bytes, index) + 8, 4)).sum()
}

/// Whether the bytes are the descriptor of a retrieve by this endpoint.
pub fn is_retrieve(bytes: &[u8], endpoint: u64) -> bool {
    let attributes = number(bytes, 2, 2);
    let at = access(bytes, 0);
    let permissions = number(bytes, at + 2, 1);
    receiver_count(bytes) == 1
        && has_array(bytes)
        && (attributes == 0 || attributes == 0x2F)
        && number(bytes, 4, 4) & !0x18 == 0
        && number(bytes, at, 2) == endpoint
        && permissions < 16
        && permissions % 4 != 3
        && permissions / 4 != 3
        && number(bytes, at + 3, 1) == 0
        && number(bytes, at + 4, 4) == 0
        && number(bytes, at + 8, 8) == 0
}

// SPDX-License-Identifier: MIT OR Apache-2.0
//! Where the fields of descriptors stand, and what holds of them. docs/MEMORY.md has the same as tables.
use crate::checks::Flaw;
use crate::descriptors::{DescriptorError, Kind, PageRange, Receiver, MOST_DESCRIPTOR, MOST_RECEIVERS};
use crate::hexadecimal::All;
use crate::manifest::{Ffa, Version};
use crate::ram::PAGE_SIZE;
use crate::raw::MOST_RANGES;
use core::fmt;
use core::ops::Deref;

/// The size of a composite without its ranges, and of a range.
pub(crate) const ENTRY: usize = 16;

pub(crate) const NORMAL_MEMORY: u16 = 0x2F;

/// Beside it, that it is non-secure.
pub(crate) const NON_SECURE: u16 = 1 << 6;

pub(crate) const RELINQUISH: usize = 18;

/// How many bytes a transaction header has.
pub(crate) const fn header_size(form: Version) -> usize {
    match form {
        Version::V1_1 | Version::V1_2 => 48,
        Version::Compact => 32,
    }
}

/// How many bytes an access descriptor has.
pub(crate) const fn access_size(form: Version) -> usize {
    match form {
        Version::V1_1 | Version::Compact => 16,
        Version::V1_2 => 32,
    }
}

/// What a header tells as the size of an access descriptor.
const fn told_size(form: Version) -> u32 {
    match form {
        Version::V1_1 | Version::V1_2 => access_size(form) as u32,
        Version::Compact => 0,
    }
}

/// A transaction header, without what its form settles.
pub(crate) struct Header {
    pub sender: u16,
    pub attributes: u16,
    pub flags: u32,
    pub handle: u64,
    pub tag: u64,
    pub count: u32,
}

/// An access descriptor. Behind the offset of the composite its bytes are reserved: they must be 0.
pub(crate) struct Access {
    pub endpoint: u16,
    pub permissions: u8,
    pub flags: u8,
    pub composite: u32,
    pub is_rest_zero: bool,
}

/// The bytes of a descriptor, [`MOST_DESCRIPTOR`] at most: a slice by `Deref`, which asks for no memory.
#[derive(Clone, PartialEq, Eq)]
pub struct DescriptorBytes {
    size: usize,
    bytes: [u8; MOST_DESCRIPTOR],
}

impl DescriptorBytes {
    pub(crate) const NONE: DescriptorBytes = DescriptorBytes { size: 0, bytes: [0; MOST_DESCRIPTOR] };

    /// Puts a field behind those that there are.
    pub(crate) fn put<const N: usize>(&mut self, field: [u8; N]) {
        self.bytes[self.size..][..N].copy_from_slice(&field);
        self.size += N;
    }

    pub(crate) fn put_header(&mut self, form: Version, header: &Header) {
        self.put(header.sender.to_le_bytes());
        self.put(header.attributes.to_le_bytes());
        self.put(header.flags.to_le_bytes());
        self.put(header.handle.to_le_bytes());
        self.put(header.tag.to_le_bytes());
        self.put(told_size(form).to_le_bytes());
        self.put(header.count.to_le_bytes());
        if form != Version::Compact {
            self.put((header_size(form) as u32).to_le_bytes());
            self.put([0; 12]);
        }
    }

    pub(crate) fn put_access(&mut self, form: Version, access: &Access) {
        self.put(access.endpoint.to_le_bytes());
        self.put([access.permissions, access.flags]);
        self.put(access.composite.to_le_bytes());
        match form {
            Version::V1_1 | Version::Compact => self.put([0; 8]),
            Version::V1_2 => self.put([0; 24]),
        }
    }

    pub(crate) fn put_composite(&mut self, total: u32, ranges: &[PageRange]) {
        self.put(total.to_le_bytes());
        self.put((ranges.len() as u32).to_le_bytes());
        self.put([0; 8]);
        for range in ranges {
            self.put(range.address.to_le_bytes());
            self.put(range.pages.to_le_bytes());
            self.put([0; 4]);
        }
    }
}

impl Deref for DescriptorBytes {
    type Target = [u8];

    fn deref(&self) -> &[u8] {
        &self.bytes[..self.size]
    }
}

impl AsRef<[u8]> for DescriptorBytes {
    fn as_ref(&self) -> &[u8] {
        self
    }
}

impl fmt::Debug for DescriptorBytes {
    fn fmt(&self, to: &mut fmt::Formatter<'_>) -> fmt::Result {
        All(self).fmt(to)
    }
}

/// The bytes of a field that is there.
fn field<const N: usize>(bytes: &[u8], at: usize) -> [u8; N] {
    let mut field = [0; N];
    field.copy_from_slice(&bytes[at..][..N]);
    field
}

pub(crate) fn u16_at(bytes: &[u8], at: usize) -> u16 {
    u16::from_le_bytes(field(bytes, at))
}

pub(crate) fn u32_at(bytes: &[u8], at: usize) -> u32 {
    u32::from_le_bytes(field(bytes, at))
}

pub(crate) fn u64_at(bytes: &[u8], at: usize) -> u64 {
    u64::from_le_bytes(field(bytes, at))
}

/// A condition that holds of the descriptor, or else is its flaw.
pub(crate) fn require(holds: bool, flaw: Flaw) -> Result<(), DescriptorError> {
    require_of(0, holds, flaw)
}

/// One of an access descriptor or a range.
fn require_of(index: usize, holds: bool, flaw: Flaw) -> Result<(), DescriptorError> {
    if holds {
        return Ok(());
    }
    Err(DescriptorError { flaw, index: index as u32 })
}

/// Where the access descriptors of a header begin and end, all inside the bytes.
#[derive(Clone, Copy)]
pub(crate) struct Array {
    form: Version,
    first: u32,
    end: u64,
}

impl Array {
    /// The access descriptor of this index, if it is one of them.
    pub(crate) fn read(self, bytes: &[u8], index: usize) -> Access {
        let size = access_size(self.form);
        let bytes = &bytes[self.first as usize + size * index..][..size];
        Access {
            endpoint: u16_at(bytes, 0),
            permissions: bytes[2],
            flags: bytes[3],
            composite: u32_at(bytes, 4),
            is_rest_zero: bytes[8..].iter().all(|byte| *byte == 0),
        }
    }

    /// The offset of the composite, by the first access descriptor, which must be there.
    pub(crate) fn composite(self, bytes: &[u8]) -> u32 {
        u32_at(bytes, self.first as usize + 4)
    }
}

/// The header of some bytes, and its access descriptors, which begin behind it.
pub(crate) fn read_header(bytes: &[u8], form: Version) -> Result<(Header, Array), DescriptorError> {
    let size = header_size(form);
    require(bytes.len() >= size, Flaw::HeaderShort)?;
    require(u32_at(bytes, 24) == told_size(form), Flaw::HeaderAccessSize)?;
    let is_compact = form == Version::Compact;
    let array = if is_compact { size as u32 } else { u32_at(bytes, 32) };
    require(array % ENTRY as u32 == 0, Flaw::HeaderArrayUnaligned)?;
    require(array >= size as u32, Flaw::HeaderArrayInHeader)?;
    let count = u32_at(bytes, 28);
    let end = u64::from(array) + access_size(form) as u64 * u64::from(count);
    require(end <= bytes.len() as u64, Flaw::HeaderArrayOutside)?;
    require(is_compact || bytes[36..48] == [0; 12], Flaw::HeaderReserved)?;
    let header = Header {
        sender: u16_at(bytes, 0),
        attributes: u16_at(bytes, 2),
        flags: u32_at(bytes, 4),
        handle: u64_at(bytes, 8),
        tag: u64_at(bytes, 16),
        count,
    };
    Ok((header, Array { form, first: array, end }))
}

/// Where so many entries of a composite end, from an offset on.
fn end(first: u64, count: u32) -> u64 {
    first + ENTRY as u64 * u64::from(count)
}

/// The memory attributes of an offer: a donate, and a lend to one, leave them to the receiver.
pub(crate) const fn attributes(kind: Kind, receivers: u32) -> u16 {
    match (kind, receivers) {
        (Kind::Donate, _) | (Kind::Lend, 1) => 0,
        _ => NORMAL_MEMORY,
    }
}

/// Whether an offer may have these attributes: on a machine of FF-A 1.2 each lend may leave them to its receivers, and may not.
fn is_attributes(ffa: Ffa, kind: Kind, header: &Header) -> bool {
    match (ffa, kind) {
        (Ffa::V1_2, Kind::Lend) => matches!(header.attributes, 0 | NORMAL_MEMORY),
        _ => header.attributes == attributes(kind, header.count),
    }
}

/// The flags of an offer without its own kind in bits 4:3, where a machine of FF-A 1.2 allows it.
pub(crate) const fn flags_but_kind(ffa: Ffa, kind: Kind, flags: u32) -> u32 {
    let own = (kind as u32) << 3;
    match ffa {
        Ffa::V1_2 if flags & 0x18 == own => flags & !own,
        _ => flags,
    }
}

/// What holds of the header of an offer to a machine of this version of FF-A.
pub(crate) fn check_send(ffa: Ffa, kind: Kind, header: &Header) -> Result<(), DescriptorError> {
    let most_flags = if kind == Kind::Share { 0 } else { 1 };
    let most_receivers = if kind == Kind::Donate { 1 } else { MOST_RECEIVERS };
    require(is_attributes(ffa, kind, header), Flaw::SendAttributes)?;
    require(flags_but_kind(ffa, kind, header.flags) <= most_flags, Flaw::SendFlags)?;
    require(header.handle == 0, Flaw::SendHandle)?;
    require(header.count >= 1, Flaw::SendNoReceiver)?;
    require(header.count as usize <= most_receivers, Flaw::SendManyReceivers)
}

/// What holds of an access descriptor of an offer, behind the receivers of earlier ones.
pub(crate) fn check_access(
    kind: Kind,
    sender: u16,
    composite: u32,
    access: &Access,
    earlier: &[Receiver],
) -> Result<(), DescriptorError> {
    let require = |holds, flaw| require_of(earlier.len(), holds, flaw);
    let is_grant = match kind {
        Kind::Donate => access.permissions == 0,
        Kind::Lend | Kind::Share => matches!(access.permissions, 1 | 2),
    };
    require(is_grant, Flaw::AccessPermissions)?;
    require(access.flags == 0, Flaw::AccessFlags)?;
    require(access.composite == composite, Flaw::AccessOtherComposite)?;
    require(access.is_rest_zero, Flaw::AccessReserved)?;
    require(access.endpoint != sender, Flaw::AccessReceiverIsSender)?;
    require(earlier.iter().all(|it| it.endpoint.0 != access.endpoint), Flaw::AccessReceiverTwice)
}

/// The flag of a retrieve on a machine of FF-A 1.2 that says that the descriptor names the caller alone.
const NAMES_ONE: u32 = 1 << 10;

/// What holds of the header of a retrieve on a machine of this version of FF-A.
pub(crate) fn check_retrieve(ffa: Ffa, header: &Header) -> Result<(), DescriptorError> {
    let (flags, names_one) = match ffa {
        Ffa::V1_1 => (header.flags, true),
        Ffa::V1_2 => (header.flags & !NAMES_ONE, header.flags & NAMES_ONE != 0),
    };
    let most = if names_one { 1 } else { MOST_RECEIVERS };
    require(matches!(header.attributes, 0 | NORMAL_MEMORY), Flaw::RetrieveAttributes)?;
    require(flags & !0x18 == 0, Flaw::RetrieveFlags)?;
    require((1..=most).contains(&(header.count as usize)), Flaw::RetrieveAccessCount)
}

/// What holds of the access descriptors of a retrieve on a machine of FF-A 1.2, whoever they name.
pub(crate) fn check_names(bytes: &[u8], array: Array, count: usize) -> Result<(), DescriptorError> {
    for index in 0..count {
        let require = |holds, flaw| require_of(index, holds, flaw);
        let access = array.read(bytes, index);
        require(access.flags <= 1, Flaw::AccessFlags)?;
        require(access.composite == 0, Flaw::AccessOtherComposite)?;
        require(access.is_rest_zero, Flaw::AccessReserved)?;
        let is_new = (0..index).all(|earlier| array.read(bytes, earlier).endpoint != access.endpoint);
        require(is_new, Flaw::AccessReceiverTwice)?;
    }
    Ok(())
}

/// What holds of the access descriptor of a retrieve of this endpoint.
pub(crate) fn check_asked(endpoint: u16, access: &Access) -> Result<(), DescriptorError> {
    require(access.endpoint == endpoint, Flaw::RetrieveReceiverIsAnother)?;
    check_permissions(access.permissions)?;
    require(access.permissions >> 4 == 0, Flaw::RetrievePermissionsReserved)?;
    require(access.flags == 0, Flaw::RetrieveAccessFlags)?;
    require(access.composite == 0, Flaw::RetrieveCompositeTold)?;
    require(access.is_rest_zero, Flaw::RetrieveAccessReserved)
}

/// Whether permissions say what there is to say.
pub(crate) fn check_permissions(permissions: u8) -> Result<(), DescriptorError> {
    require(permissions & 3 != 3, Flaw::RetrieveDataPermission)?;
    require(permissions >> 2 & 3 != 3, Flaw::RetrieveInstructionPermission)
}

/// What holds of the count of an offer's ranges.
pub(crate) fn check_count(count: usize) -> Result<(), DescriptorError> {
    require(count >= 1, Flaw::CompositeNoRange)?;
    require(count <= MOST_RANGES, Flaw::CompositeManyRanges)
}

/// How many ranges the composite at a place has, behind the access descriptors: all inside the bytes.
pub(crate) fn read_count(bytes: &[u8], composite: u32, array: Array) -> Result<usize, DescriptorError> {
    let len = bytes.len() as u64;
    require(end(composite.into(), 1) <= len, Flaw::CompositeOutside)?;
    require(composite % ENTRY as u32 == 0, Flaw::CompositeUnaligned)?;
    require(array.end <= composite.into(), Flaw::CompositeInArray)?;
    let at = composite as usize;
    let count = u32_at(bytes, at + 4);
    check_count(count as usize)?;
    require(u64_at(bytes, at + 8) == 0, Flaw::CompositeReserved)?;
    require(end(composite.into(), 1 + count) <= len, Flaw::CompositeRangesOutside)?;
    Ok(count as usize)
}

/// The range at a place, which is all there, and its reserved bytes.
pub(crate) fn read_range(bytes: &[u8], at: usize) -> (PageRange, u32) {
    (PageRange { address: u64_at(bytes, at), pages: u32_at(bytes, at + 8) }, u32_at(bytes, at + 12))
}

/// What holds of a range of an offer, behind earlier ones.
pub(crate) fn check_range(range: &PageRange, reserved: u32, earlier: &[PageRange]) -> Result<(), DescriptorError> {
    let require = |holds, flaw| require_of(earlier.len(), holds, flaw);
    let is_apart = |other: &PageRange| range.end() <= other.address.into() || other.end() <= range.address.into();
    require(range.pages >= 1, Flaw::RangeEmpty)?;
    require(range.address % PAGE_SIZE as u64 == 0, Flaw::RangeUnaligned)?;
    require(range.end() <= 1 << 48, Flaw::RangeTooHigh)?;
    require(reserved == 0, Flaw::RangeReserved)?;
    require(earlier.iter().all(is_apart), Flaw::RangeOverlap)
}

/// The pages of all ranges.
pub(crate) fn total(ranges: &[PageRange]) -> u64 {
    ranges.iter().map(|range| u64::from(range.pages)).sum()
}

// SPDX-License-Identifier: MIT OR Apache-2.0
//! Descriptors of memory transactions, as values and as bytes.
use crate::checks::Flaw;
use crate::functions::Function;
use crate::hexadecimal::{shown, Hexadecimal};
use crate::layout::{
    access_size, attributes, check_access, check_asked, check_count, check_names, check_permissions, check_range,
    check_retrieve, check_send, flags_but_kind, header_size, read_count, read_header, read_range, require, total,
    u16_at, u32_at, u64_at, Access, Array, DescriptorBytes, Header, ENTRY, NON_SECURE, RELINQUISH,
};
use crate::manifest::{Ffa, Version};
use crate::ram::PAGE_SIZE;
use crate::{Handle, Id};
use core::fmt;

pub use crate::raw::MOST_RANGES;

/// How many receivers an offer has at most.
pub const MOST_RECEIVERS: usize = 4;

/// How many bytes a descriptor has at most, as this crate writes it.
pub const MOST_DESCRIPTOR: usize =
    header_size(Version::V1_2) + access_size(Version::V1_2) * MOST_RECEIVERS + ENTRY * (1 + MOST_RANGES);

/// The kind of a memory transaction, by its number in a descriptor's flags.
#[derive(Clone, Copy, Debug, PartialEq, Eq, Hash)]
#[repr(u32)]
pub enum Kind {
    /// The sender keeps its right to the pages.
    Share = 1,
    /// The sender has no access to them until it reclaims them.
    Lend = 2,
    /// The receiver becomes their owner.
    Donate = 3,
}

impl Kind {
    pub(crate) const fn of(number: u32) -> Option<Kind> {
        match number {
            1 => Some(Kind::Share),
            2 => Some(Kind::Lend),
            3 => Some(Kind::Donate),
            _ => None,
        }
    }

    /// The call that makes such an offer, in its 32-bit form.
    #[must_use]
    pub const fn function(self) -> Function {
        match self {
            Kind::Share => Function::MemShare,
            Kind::Lend => Function::MemLend,
            Kind::Donate => Function::MemDonate,
        }
    }
}

/// What a permission says of loads and stores.
#[derive(Clone, Copy, Debug, PartialEq, Eq, Hash)]
#[repr(u8)]
pub enum DataAccess {
    /// Nothing: of a retrieve, the most that is given.
    Unspecified = 0,
    /// Load.
    Ro = 1,
    /// Load and store.
    Rw = 2,
}

/// What a permission says of fetches.
#[derive(Clone, Copy, Debug, PartialEq, Eq, Hash)]
#[repr(u8)]
pub enum InstructionAccess {
    /// Nothing: of a retrieve, that there is none.
    Unspecified = 0,
    /// No fetch.
    Nx = 1,
    /// Fetch.
    X = 2,
}

/// An endpoint of a transaction, with what it is granted, asks for, or holds.
#[derive(Clone, Copy, Debug, PartialEq, Eq, Hash)]
pub struct Receiver {
    /// Which endpoint.
    pub endpoint: Id,
    /// Its loads and stores. A lend and a share grant them, and a donate leaves them open.
    pub data: DataAccess,
    /// Its fetches. Every offer leaves them open.
    pub instructions: InstructionAccess,
}

impl Receiver {
    /// One of which nothing is said: that of a donate, or of a retrieve that asks for the most.
    #[must_use]
    pub const fn new(endpoint: Id) -> Receiver {
        Receiver { endpoint, data: DataAccess::Unspecified, instructions: InstructionAccess::Unspecified }
    }

    /// One that may load.
    #[must_use]
    pub const fn ro(endpoint: Id) -> Receiver {
        Receiver { data: DataAccess::Ro, ..Receiver::new(endpoint) }
    }

    /// One that may load and store.
    #[must_use]
    pub const fn rw(endpoint: Id) -> Receiver {
        Receiver { data: DataAccess::Rw, ..Receiver::new(endpoint) }
    }

    fn access(&self, composite: u32) -> Access {
        let permissions = self.data as u8 | (self.instructions as u8) << 2;
        Access { endpoint: self.endpoint.0, permissions, flags: 0, composite, is_rest_zero: true }
    }

    /// Of permissions that were checked.
    fn of(access: &Access) -> Receiver {
        let data = match access.permissions & 3 {
            1 => DataAccess::Ro,
            2 => DataAccess::Rw,
            _ => DataAccess::Unspecified,
        };
        let instructions = match access.permissions >> 2 & 3 {
            1 => InstructionAccess::Nx,
            2 => InstructionAccess::X,
            _ => InstructionAccess::Unspecified,
        };
        Receiver { endpoint: Id(access.endpoint), data, instructions }
    }
}

/// Pages in a row, as a descriptor tells them.
#[derive(Clone, Copy, PartialEq, Eq, Hash)]
pub struct PageRange {
    /// The address of the first byte.
    pub address: u64,
    /// How many pages.
    pub pages: u32,
}

impl PageRange {
    const NONE: PageRange = PageRange { address: 0, pages: 0 };

    /// So many pages from this address on.
    #[must_use]
    pub const fn new(address: u64, pages: u32) -> PageRange {
        PageRange { address, pages }
    }

    /// The address behind the last byte, which may have more than 64 bits.
    pub(crate) fn end(&self) -> u128 {
        u128::from(self.address) + PAGE_SIZE as u128 * u128::from(self.pages)
    }
}

shown! { PageRange { address: hexadecimal, pages } }

/// Why values, or bytes, are no descriptor: the first condition that they break.
#[derive(Clone, Copy, Debug, PartialEq, Eq, Hash)]
pub struct DescriptorError {
    /// The condition.
    pub flaw: Flaw,
    /// Of an access descriptor or a range, which, from 0.
    pub index: u32,
}

/// The condition in words, behind the access descriptor or the range that breaks it.
impl fmt::Display for DescriptorError {
    fn fmt(&self, to: &mut fmt::Formatter<'_>) -> fmt::Result {
        let (index, number) = (self.index, self.flaw.number());
        let is_from = |first: Flaw, last: Flaw| (first.number()..=last.number()).contains(&number);
        if is_from(Flaw::AccessPermissions, Flaw::AccessReceiverTwice) {
            write!(to, "access descriptor {index}: ")?;
        } else if is_from(Flaw::RangeEmpty, Flaw::RangeOverlap) {
            write!(to, "range {index}: ")?;
        }
        self.flaw.fmt(to)
    }
}

#[cfg(feature = "std")]
impl std::error::Error for DescriptorError {
    fn source(&self) -> Option<&(dyn std::error::Error + 'static)> {
        Some(&self.flaw)
    }
}

/// What a sender offers by FFA_MEM_SHARE, FFA_MEM_LEND or FFA_MEM_DONATE. [`Machine::send`](crate::Machine::send) makes
/// the call.
///
/// ```
/// # use gorseplumb::*;
/// let receivers = [Receiver::rw(Id(0x8002))];
/// let ranges = [PageRange::new(0x4002_1000, 1)];
/// let lend = Offer::new(Kind::Lend, Id(0x8001), &receivers, &ranges);
/// assert_eq!(lend.to_bytes(Version::V1_1)?.len(), 96);
/// assert_eq!(lend.to_bytes(Version::V1_2)?.len(), 112);
/// assert_eq!(lend.to_bytes(Version::Compact)?.len(), 80);
///
/// let error = Offer { zero: true, kind: Kind::Share, ..lend }.to_bytes(Version::V1_1).unwrap_err();
/// assert_eq!(error.flaw, Flaw::SendFlags);
/// let ranges = [PageRange::new(0x4002_1000, 1), PageRange::new(0x4002_1800, 1)];
/// let error = Offer { ranges: &ranges, ..lend }.to_bytes(Version::V1_1).unwrap_err();
/// assert_eq!(error.to_string(), "range 1: the range is not page-aligned");
/// # Ok::<(), DescriptorError>(())
/// ```
#[derive(Clone, Copy, PartialEq, Eq)]
pub struct Offer<'lists> {
    /// Its kind.
    pub kind: Kind,
    /// Who offers.
    pub sender: Id,
    /// Who is to receive: one of a donate, else one to [`MOST_RECEIVERS`], each of them once.
    pub receivers: &'lists [Receiver],
    /// Which pages: one to [`MOST_RANGES`] ranges, none of which has a page of another.
    pub ranges: &'lists [PageRange],
    /// Whether the pages are zeroed before a receiver may retrieve them, which a share can't ask for.
    pub zero: bool,
    /// A number that a retrieve has to repeat.
    pub tag: u64,
}

/// Room for what [`Offer::read`] finds.
#[derive(Clone, Debug)]
pub struct OfferRoom {
    receivers: [Receiver; MOST_RECEIVERS],
    ranges: [PageRange; MOST_RANGES],
}

impl OfferRoom {
    /// Room that nothing was found for yet.
    #[must_use]
    pub const fn new() -> OfferRoom {
        OfferRoom {
            receivers: [Receiver::new(Id::NORMAL_WORLD); MOST_RECEIVERS],
            ranges: [PageRange::NONE; MOST_RANGES],
        }
    }

    /// The receivers of a header that was checked, whose access descriptors begin at a place.
    fn read_receivers(
        &mut self,
        bytes: &[u8],
        kind: Kind,
        header: &Header,
        array: Array,
        composite: u32,
    ) -> Result<(), DescriptorError> {
        for index in 0..header.count as usize {
            let access = array.read(bytes, index);
            check_access(kind, header.sender, composite, &access, &self.receivers[..index])?;
            self.receivers[index] = Receiver::of(&access);
        }
        Ok(())
    }

    /// So many ranges of the composite at a place, which are all there.
    fn read_ranges(&mut self, bytes: &[u8], composite: usize, count: usize) -> Result<(), DescriptorError> {
        for index in 0..count {
            let (range, reserved) = read_range(bytes, composite + ENTRY * (1 + index));
            check_range(&range, reserved, &self.ranges[..index])?;
            self.ranges[index] = range;
        }
        require(total(&self.ranges[..count]) == u32_at(bytes, composite).into(), Flaw::CompositeTotal)
    }
}

impl Default for OfferRoom {
    fn default() -> OfferRoom {
        OfferRoom::new()
    }
}

impl<'lists> Offer<'lists> {
    /// One that zeroes nothing, with tag 0.
    #[must_use]
    pub const fn new(
        kind: Kind,
        sender: Id,
        receivers: &'lists [Receiver],
        ranges: &'lists [PageRange],
    ) -> Offer<'lists> {
        Offer { kind, sender, receivers, ranges, zero: false, tag: 0 }
    }

    fn header(&self) -> Header {
        let count = u32::try_from(self.receivers.len()).unwrap_or(u32::MAX);
        Header {
            sender: self.sender.0,
            attributes: attributes(self.kind, count),
            flags: self.zero.into(),
            handle: 0,
            tag: self.tag,
            count,
        }
    }

    /// How many pages it has, if the machine finds it well formed, whichever version of FF-A it serves.
    fn check(&self) -> Result<u32, DescriptorError> {
        check_send(Ffa::V1_1, self.kind, &self.header())?;
        for (index, receiver) in self.receivers.iter().enumerate() {
            check_access(self.kind, self.sender.0, 0, &receiver.access(0), &self.receivers[..index])?;
        }
        self.check_ranges()
    }

    /// How many pages its ranges have, if they are well formed.
    fn check_ranges(&self) -> Result<u32, DescriptorError> {
        check_count(self.ranges.len())?;
        for (index, range) in self.ranges.iter().enumerate() {
            check_range(range, 0, &self.ranges[..index])?;
        }
        u32::try_from(total(self.ranges)).map_err(|_| DescriptorError { flaw: Flaw::CompositeTotal, index: 0 })
    }

    /// The descriptor, in the sender's form: its parts stand one behind the other.
    ///
    /// # Errors
    /// The first condition by which the machine would find it malformed.
    pub fn to_bytes(&self, form: Version) -> Result<DescriptorBytes, DescriptorError> {
        let pages = self.check()?;
        let composite = header_size(form) + access_size(form) * self.receivers.len();
        let mut bytes = DescriptorBytes::NONE;
        bytes.put_header(form, &self.header());
        for receiver in self.receivers {
            bytes.put_access(form, &receiver.access(composite as u32));
        }
        bytes.put_composite(pages, self.ranges);
        Ok(bytes)
    }

    /// What a descriptor of this kind and form says, with lists that stand in the room. The machine that reads it serves FF-A 1.2
    /// if the form is [`Version::V1_2`], and else FF-A 1.1.
    ///
    /// # Errors
    /// The first condition that the bytes break, as the machine has it. The room holds anything then.
    pub fn read(
        bytes: &[u8],
        kind: Kind,
        form: Version,
        room: &'lists mut OfferRoom,
    ) -> Result<Offer<'lists>, DescriptorError> {
        let ffa = if form == Version::V1_2 { Ffa::V1_2 } else { Ffa::V1_1 };
        Offer::read_for(bytes, kind, form, ffa, room)
    }

    /// The same, for a machine of this version of FF-A. On one of FF-A 1.2 each lend may leave the memory attributes to its
    /// receivers, and the flags may name the kind, in each form.
    ///
    /// # Errors
    /// The same, and [`Flaw::HeaderAccessSize`] for the form [`Version::V1_2`] on a machine of FF-A 1.1, which does not have it.
    pub fn read_for(
        bytes: &[u8],
        kind: Kind,
        form: Version,
        ffa: Ffa,
        room: &'lists mut OfferRoom,
    ) -> Result<Offer<'lists>, DescriptorError> {
        require(form != Version::V1_2 || ffa == Ffa::V1_2, Flaw::HeaderAccessSize)?;
        let (header, array) = read_header(bytes, form)?;
        check_send(ffa, kind, &header)?;
        let composite = array.composite(bytes);
        room.read_receivers(bytes, kind, &header, array, composite)?;
        let count = read_count(bytes, composite, array)?;
        room.read_ranges(bytes, composite as usize, count)?;
        Ok(Offer {
            kind,
            sender: Id(header.sender),
            receivers: &room.receivers[..header.count as usize],
            ranges: &room.ranges[..count],
            zero: flags_but_kind(ffa, kind, header.flags) == 1,
            tag: header.tag,
        })
    }
}

shown! { Offer<'_> { kind, sender, receivers, ranges, zero, tag: hexadecimal } }

/// What a receiver asks for by FFA_MEM_RETRIEVE_REQ.
#[derive(Clone, Copy, PartialEq, Eq, Hash)]
pub struct Retrieve {
    /// Who offered.
    pub sender: Id,
    /// The transaction's handle.
    pub handle: Handle,
    /// The endpoint that asks, with the right that it asks for.
    pub receiver: Receiver,
    /// The offer's tag.
    pub tag: u64,
    /// The offer's kind. None: any will do.
    pub kind: Option<Kind>,
}

impl Retrieve {
    /// One with tag 0, of any kind.
    #[must_use]
    pub const fn new(sender: Id, handle: Handle, receiver: Receiver) -> Retrieve {
        Retrieve { sender, handle, receiver, tag: 0, kind: None }
    }

    /// The descriptor, in the receiver's form. What it says is never malformed.
    #[must_use]
    pub fn to_bytes(&self, form: Version) -> DescriptorBytes {
        let mut bytes = DescriptorBytes::NONE;
        let flags = self.kind.map_or(0, |kind| (kind as u32) << 3);
        let (sender, handle, tag) = (self.sender.0, self.handle.0, self.tag);
        bytes.put_header(form, &Header { sender, attributes: 0, flags, handle, tag, count: 1 });
        bytes.put_access(form, &self.receiver.access(0));
        bytes
    }

    /// What a descriptor of this form says, which this endpoint has written. The machine that reads it serves FF-A 1.2 if the form
    /// is [`Version::V1_2`], and else FF-A 1.1.
    ///
    /// # Errors
    /// The first condition that the bytes break, as the machine has it.
    pub fn read(bytes: &[u8], endpoint: Id, form: Version) -> Result<Retrieve, DescriptorError> {
        let ffa = if form == Version::V1_2 { Ffa::V1_2 } else { Ffa::V1_1 };
        Retrieve::read_for(bytes, endpoint, form, ffa)
    }

    /// The same, for a machine of this version of FF-A. On one of FF-A 1.2 the descriptor may name the other receivers too, of which
    /// only the caller is told here.
    ///
    /// # Errors
    /// The same, and [`Flaw::HeaderAccessSize`] for the form [`Version::V1_2`] on a machine of FF-A 1.1, which does not have it.
    pub fn read_for(bytes: &[u8], endpoint: Id, form: Version, ffa: Ffa) -> Result<Retrieve, DescriptorError> {
        require(form != Version::V1_2 || ffa == Ffa::V1_2, Flaw::HeaderAccessSize)?;
        let (header, array) = read_header(bytes, form)?;
        check_retrieve(ffa, &header)?;
        let count = header.count as usize;
        let own = (0..count).find(|index| array.read(bytes, *index).endpoint == endpoint.0).unwrap_or(0);
        let access = array.read(bytes, own);
        check_asked(endpoint.0, &access).map_err(|error| DescriptorError { index: own as u32, ..error })?;
        if ffa == Ffa::V1_2 {
            check_names(bytes, array, count)?;
        }
        Ok(Retrieve {
            sender: Id(header.sender),
            handle: Handle(header.handle),
            receiver: Receiver::of(&access),
            tag: header.tag,
            kind: Kind::of(header.flags >> 3),
        })
    }
}

shown! { Retrieve { sender, handle, receiver, tag: hexadecimal, kind } }

/// What the normal world asks for by FFA_MEM_RETRIEVE_REQ as a hypervisor: to read back a transaction that it sent. Only a machine
/// of [FF-A 1.2](Ffa::V1_2) serves this.
#[derive(Clone, Copy, Debug, PartialEq, Eq, Hash)]
pub struct ReadBack {
    /// The transaction's handle.
    pub handle: Handle,
}

impl ReadBack {
    /// The descriptor, in the normal world's form: a header, in which only the handle is not 0.
    #[must_use]
    pub fn to_bytes(&self, form: Version) -> DescriptorBytes {
        let mut bytes = DescriptorBytes::NONE;
        bytes.put([0; 8]);
        bytes.put(self.handle.0.to_le_bytes());
        bytes.put([0; 16]);
        if form != Version::Compact {
            bytes.put([0; 16]);
        }
        bytes
    }
}

/// What FFA_MEM_RETRIEVE_RESP leaves in RX.
///
/// ```
/// # use gorseplumb::*;
/// # const RAM: u32 = 0x4000_0000;
/// # const DATA: &[Region] = &[Region::new(RAM + 0x10000, 16, Rights::Rw)];
/// # const MANIFEST: Manifest = Manifest::new(RAM, 1, &[
/// #     Endpoint::normal_world(Version::V1_1, Properties::NONE, DATA),
/// #     Endpoint::partition([1; 16], Version::V1_1, Properties::NONE, &[Region::new(RAM + 0x20000, 16, Rights::Rw)]),
/// # ]);
/// # let mut machine = Machine::boot(&MANIFEST)?;
/// # machine.call(&Function::RxtxMap.with([0x4001_E000, 0x4001_F000, 1])).done()?;
/// # let (receivers, ranges) = ([Receiver::rw(Id(0x8001))], [PageRange::new(0x4001_0000, 2)]);
/// # let lend = Offer::new(Kind::Lend, Id::NORMAL_WORLD, &receivers, &ranges);
/// # let handle = machine.send(&lend, 0x4001_E000, Version::V1_1)?.handle().unwrap();
/// # machine.call(&Function::Run.with([0x8001_0000])).done()?;
/// # let (tx, rx) = (0x4002_E000, 0x4002_F000);
/// # machine.call(&Function::RxtxMap.with([tx, rx, 1])).done()?;
/// let asked = Retrieve::new(Id::NORMAL_WORLD, handle, Receiver::new(Id(0x8001)));
/// machine.send(&asked, tx, Version::V1_1)?;
/// let mut page = Page::ZERO;
/// machine.load_bytes(rx, &mut page.0)?;
/// let response = RetrieveResponse::read(&page.0, Version::V1_1)?;
/// let holds = Receiver { instructions: InstructionAccess::Nx, ..Receiver::rw(Id(0x8001)) };
/// assert_eq!((response.receivers(), response.ranges()), (&[holds][..], &[PageRange::new(0x4001_0000, 2)][..]));
/// # Ok::<(), Box<dyn std::error::Error>>(())
/// ```
#[derive(Clone, PartialEq, Eq)]
pub struct RetrieveResponse {
    /// The transaction's kind.
    pub kind: Kind,
    /// Who offered.
    pub sender: Id,
    /// The transaction's handle.
    pub handle: Handle,
    /// Whether the pages were zeroed.
    pub zeroed: bool,
    /// The offer's tag.
    pub tag: u64,
    /// Whether the pages are told to be non-secure, as only a machine of [FF-A 1.2](crate::Ffa::V1_2) tells it, and not in the
    /// compact form.
    pub non_secure: bool,
    receiver_count: usize,
    receivers: [Receiver; MOST_RECEIVERS],
    range_count: usize,
    ranges: [PageRange; MOST_RANGES],
}

impl RetrieveResponse {
    /// Who has retrieved, with the right that it holds from now on. To a [`ReadBack`] each receiver, with the right that the sender
    /// granted.
    #[must_use]
    pub fn receivers(&self) -> &[Receiver] {
        &self.receivers[..self.receiver_count]
    }

    /// Which pages.
    #[must_use]
    pub fn ranges(&self) -> &[PageRange] {
        &self.ranges[..self.range_count]
    }

    /// What the bytes of RX say, in the receiver's form. Those behind the response may be anything.
    ///
    /// # Errors
    /// The first condition that they break. No response of a machine does.
    pub fn read(bytes: &[u8], form: Version) -> Result<RetrieveResponse, DescriptorError> {
        let (header, array) = read_header(bytes, form)?;
        let receiver_count = header.count as usize;
        require((1..=MOST_RECEIVERS).contains(&receiver_count), Flaw::RetrieveAccessCount)?;
        let mut receivers = [Receiver::new(Id::NORMAL_WORLD); MOST_RECEIVERS];
        for (index, receiver) in receivers[..receiver_count].iter_mut().enumerate() {
            let access = array.read(bytes, index);
            check_permissions(access.permissions).map_err(|error| DescriptorError { index: index as u32, ..error })?;
            *receiver = Receiver::of(&access);
        }
        let kind = Kind::of(header.flags >> 3 & 3).ok_or(DescriptorError { flaw: Flaw::RetrieveFlags, index: 0 })?;
        let composite = array.composite(bytes);
        let range_count = read_count(bytes, composite, array)?;
        let mut ranges = [PageRange::NONE; MOST_RANGES];
        for (index, range) in ranges[..range_count].iter_mut().enumerate() {
            *range = read_range(bytes, composite as usize + ENTRY * (1 + index)).0;
        }
        Ok(RetrieveResponse {
            kind,
            sender: Id(header.sender),
            handle: Handle(header.handle),
            zeroed: header.flags & 1 != 0,
            tag: header.tag,
            non_secure: form != Version::Compact && header.attributes & NON_SECURE != 0,
            receiver_count,
            receivers,
            range_count,
            ranges,
        })
    }
}

impl fmt::Debug for RetrieveResponse {
    fn fmt(&self, to: &mut fmt::Formatter<'_>) -> fmt::Result {
        to.debug_struct("RetrieveResponse")
            .field("kind", &self.kind)
            .field("sender", &self.sender)
            .field("handle", &self.handle)
            .field("receivers", &self.receivers())
            .field("ranges", &self.ranges())
            .field("zeroed", &self.zeroed)
            .field("tag", &Hexadecimal(self.tag))
            .field("non_secure", &self.non_secure)
            .finish()
    }
}

/// What a receiver gives up by FFA_MEM_RELINQUISH. Its descriptor has one form.
#[derive(Clone, Copy, PartialEq, Eq, Hash)]
pub struct Relinquish {
    /// The transaction's handle.
    pub handle: Handle,
    /// The endpoint that gives up.
    pub endpoint: Id,
    /// Whether the pages are zeroed.
    pub zero: bool,
}

impl Relinquish {
    /// One that zeroes nothing.
    #[must_use]
    pub const fn new(handle: Handle, endpoint: Id) -> Relinquish {
        Relinquish { handle, endpoint, zero: false }
    }

    /// The descriptor. What it says is never malformed.
    #[must_use]
    pub fn to_bytes(&self) -> DescriptorBytes {
        let mut bytes = DescriptorBytes::NONE;
        bytes.put(self.handle.0.to_le_bytes());
        bytes.put(u32::from(self.zero).to_le_bytes());
        bytes.put(1_u32.to_le_bytes()); // the count of endpoints
        bytes.put(self.endpoint.0.to_le_bytes());
        bytes
    }

    /// What the bytes of TX say. Those behind the descriptor may be anything.
    ///
    /// # Errors
    /// The first condition that they break, as the machine has it.
    pub fn read(bytes: &[u8]) -> Result<Relinquish, DescriptorError> {
        require(bytes.len() >= RELINQUISH, Flaw::RelinquishShort)?;
        let flags = u32_at(bytes, 8);
        require(flags <= 1, Flaw::RelinquishFlags)?;
        require(u32_at(bytes, 12) == 1, Flaw::RelinquishEndpointCount)?;
        Ok(Relinquish { handle: Handle(u64_at(bytes, 0)), endpoint: Id(u16_at(bytes, 16)), zero: flags == 1 })
    }
}

shown! { Relinquish { handle, endpoint, zero } }

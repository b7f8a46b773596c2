// SPDX-License-Identifier: MIT OR Apache-2.0
//! What to change so that an operation is not refused for the reason that was told.
use crate::checks::{Check, Flaw};
use crate::codes::codes;
use crate::descriptors::Kind;
use crate::functions::Function;
use crate::hexadecimal::{Hexadecimal, Long, Short};
use crate::manifest::{Rights, Version};
use crate::operation::{known, Registers};
use crate::reasons::About;
use crate::{raw, Id};
use core::fmt;

/// The bit by which the 64-bit form of a call differs.
const WIDE: u32 = 0x4000_0000;

/// What to change so that an operation is not refused for its reason, or a fact that tells it: of the machine, or, from
/// [`Hint::End`] on, of the registers of the call.
#[derive(Clone, Copy, PartialEq, Eq, Hash)]
pub enum Hint {
    /// The page is in a buffer of an endpoint.
    Buffer {
        /// The endpoint.
        endpoint: Id,
        /// The buffer.
        side: Side,
    },
    /// The owner's own right to the page.
    OwnRight(Rights),
    /// The owner's own right to the page, where more is granted: `rw-`.
    Granted(Rights),
    /// The right of the runner at the address of a refused access.
    Access {
        /// The runner.
        endpoint: Id,
        /// Its right.
        right: Rights,
    },
    /// The caller, where the call names another endpoint.
    Caller(Id),
    /// The sender of the transaction, where the call names another endpoint, or where the sender is the caller.
    Sender(Id),
    /// The tags that differ.
    Tag {
        /// The tag in the descriptor.
        found: u64,
        /// The tag of the transaction.
        wanted: u64,
    },
    /// The kinds that differ.
    Kind {
        /// The kind in the descriptor.
        found: Kind,
        /// The kind of the transaction.
        wanted: Kind,
    },
    /// The rights that differ.
    Asked {
        /// The right that the descriptor requests.
        asked: Rights,
        /// The most that the caller may get.
        most: Rights,
    },
    /// The right with which the caller holds the transaction.
    Held(Rights),
    /// The size of the buffer in bytes.
    Room(u64),
    /// The one value that the register may have.
    Wanted(u64),
    /// The form of the caller's descriptors, where a header has the other form.
    Form {
        /// The caller.
        caller: Id,
        /// Its form.
        form: Version,
    },
    /// A word in the header of a message.
    Word {
        /// The offset of its first byte.
        place: u32,
        /// The number in it.
        value: u32,
    },
    /// A message that does not fit in its buffer.
    Message {
        /// The offset of the message, by its header.
        offset: u32,
        /// The size of the message in bytes, by its header.
        size: u32,
        /// The size of the buffer in bytes.
        room: u64,
    },
    /// The address of the first page that is not in RAM, of a range or a buffer.
    Outside(u64),
    /// The first receiver that holds the transaction.
    Holder(Id),
    /// The caller is processing an FFA_RUN.
    Run,
    /// The caller is processing a direct request of this endpoint.
    Request(Id),
    /// The lowest bit that is pending.
    Pending(u32),
    /// The cause that applies, of a check with two causes.
    Cause(CheckCause),
    /// A part of a descriptor ends outside it.
    End {
        /// The part.
        part: Part,
        /// The offset of its end in the descriptor.
        end: u64,
        /// The size of the descriptor in bytes, by the call.
        size: u32,
    },
    /// The UUID that the call names and no partition has, as its bytes in w1 to w4.
    Uuid([u8; 16]),
    /// The call that has no 64-bit form, where the function would be that form.
    NarrowOnly(Function),
}

/// A part of a descriptor.
#[derive(Clone, Copy, Debug, PartialEq, Eq, Hash)]
pub enum Part {
    /// The header.
    Header,
    /// All access descriptors.
    AccessDescriptors,
    /// The composite without its ranges.
    Composite,
    /// All ranges.
    Ranges,
}

/// A buffer of an endpoint.
#[derive(Clone, Copy, Debug, PartialEq, Eq, Hash)]
pub enum Side {
    /// The buffer in which the endpoint writes.
    Tx,
    /// The buffer in which the endpoint reads.
    Rx,
}

codes! {
    /// The cause that applies, of a check with two causes.
    pub enum CheckCause: u32 {
        22 BuffersMissing "it has no RX and TX",
        23 RxNotFull "its RX is not full",
        24 BitPending "is pending",
        25 BitTaken "is bound to another sender",
        26 BitUnbound "is not bound to the sender",
        27 HandleUnknown "no open transaction has",
        28 NotReceiver "is open, but not offered to the caller",
        29 NotLent "is not a lend",
        30 BitmapsUncreated "FFA_NOTIFICATION_BITMAP_CREATE creates them",
        31 NotificationsUnreceived "bit 3 of its properties is not set",
        32 SecureToNormal "is secure and is sent to the normal world",
        33 PagesOfBothWorlds "is secure, but another page is not",
    }
}

impl Hint {
    pub(crate) fn of(told: &raw::Reason) -> Option<Hint> {
        let raw::Hint { kind, numbers: [first, second, third] } = told.hint;
        let id = Id(first as u16);
        Some(match kind {
            raw::HINT_NONE => return None,
            raw::HINT_TX_PAGE => Hint::Buffer { endpoint: id, side: Side::Tx },
            raw::HINT_RX_PAGE => Hint::Buffer { endpoint: id, side: Side::Rx },
            raw::HINT_OWN_RIGHT => Hint::OwnRight(right(first)),
            raw::HINT_GRANTED => Hint::Granted(right(first)),
            raw::HINT_ACCESS => Hint::Access { endpoint: id, right: right(second) },
            raw::HINT_CALLER => Hint::Caller(id),
            raw::HINT_SENDER => Hint::Sender(id),
            raw::HINT_TAG => Hint::Tag { found: first, wanted: second },
            raw::HINT_KIND => Hint::Kind { found: kind_of(first), wanted: kind_of(second) },
            raw::HINT_RIGHT => Hint::Asked { asked: right(first), most: right(second) },
            raw::HINT_HELD => Hint::Held(right(first)),
            raw::HINT_ROOM => Hint::Room(first),
            raw::HINT_VALUE => Hint::Wanted(first),
            raw::HINT_FORM => Hint::Form { caller: id, form: form_of(second) },
            raw::HINT_WORD => Hint::Word { place: first as u32, value: second as u32 },
            raw::HINT_MESSAGE => Hint::Message { offset: first as u32, size: second as u32, room: third },
            raw::HINT_OUTSIDE => Hint::Outside(first),
            raw::HINT_HOLDER => Hint::Holder(id),
            raw::HINT_RUN => Hint::Run,
            raw::HINT_REQUEST => Hint::Request(id),
            raw::HINT_PENDING => Hint::Pending(first as u32),
            _ => Hint::Cause(known(CheckCause::of(kind))),
        })
    }
}

/// What the registers of a call tell.
impl Hint {
    pub(crate) fn of_registers(check: Check, about: Option<About>, registers: &Registers) -> Option<Hint> {
        match (check, about) {
            (_, Some(About::Field { flaw, first, size, value, .. })) => {
                let (part, end) = end_of(flaw, first, size, value)?;
                Some(Hint::End { part, end, size: descriptor_size(registers)? })
            }
            (Check::FunctionUnknown, Some(About::Register { value, .. })) => narrow_call(value).map(Hint::NarrowOnly),
            (Check::UuidUnknown, None) => {
                let mut bytes = [0; 16];
                for (place, word) in bytes.chunks_exact_mut(4).zip(&registers[1..]) {
                    place.copy_from_slice(&(*word as u32).to_le_bytes());
                }
                Some(Hint::Uuid(bytes))
            }
            _ => None,
        }
    }
}

/// The call that has no 64-bit form, if this number would be that form.
fn narrow_call(number: u64) -> Option<Function> {
    let number = u32::try_from(number).ok().filter(|number| Function::of(*number).is_none())?;
    let narrow = Function::of(number.checked_sub(WIDE)?)?;
    let is_answer = matches!(narrow, Function::Error | Function::Interrupt | Function::MemRetrieveResp);
    (!is_answer).then_some(narrow)
}

/// How many bytes the descriptor of a call has.
fn descriptor_size(registers: &Registers) -> Option<u32> {
    let is_told = matches!(
        Function::of(registers[0] as u32)?,
        Function::MemDonate
            | Function::MemDonate64
            | Function::MemLend
            | Function::MemLend64
            | Function::MemShare
            | Function::MemShare64
            | Function::MemRetrieveReq
            | Function::MemRetrieveReq64
    );
    is_told.then_some(registers[1] as u32)
}

/// The part of the descriptor that is not inside it, and its end, by the field that tells it.
fn end_of(flaw: Flaw, first: u64, size: u64, value: Option<u64>) -> Option<(Part, u64)> {
    let behind = |first: u64, entries: u64| first.saturating_add(entries.saturating_mul(16));
    Some(match flaw {
        Flaw::HeaderShort => (Part::Header, first.saturating_add(size)),
        Flaw::HeaderArrayOutside if size == 8 => (Part::AccessDescriptors, behind(value? >> 32, value? & 0xFFFF_FFFF)),
        Flaw::HeaderArrayOutside => (Part::AccessDescriptors, behind(32, value?)),
        Flaw::CompositeOutside => (Part::Composite, behind(value?, 1)),
        Flaw::CompositeRangesOutside => (Part::Ranges, behind(first.saturating_add(12), value?)),
        _ => return None,
    })
}

fn right(number: u64) -> Rights {
    known(Rights::of(number as u32))
}

/// The form whose headers have this size of an access descriptor.
fn form_of(size: u64) -> Version {
    match size {
        0 => Version::Compact,
        16 => Version::V1_1,
        _ => Version::V1_2,
    }
}

/// The kind by its number in a hint, which counts from 0.
fn kind_of(number: u64) -> Kind {
    known(Kind::of(number as u32 + 1))
}

/// The text of the program. It continues the text of the subject, so that it begins with a colon, a comma or a space.
impl fmt::Display for Hint {
    fn fmt(&self, to: &mut fmt::Formatter<'_>) -> fmt::Result {
        match *self {
            Hint::Buffer { endpoint, side } => write!(to, " is in {side} of {endpoint}"),
            Hint::OwnRight(right) => write!(to, ", and the owner's own right is {right}"),
            Hint::Granted(right) => write!(to, ", where rw- is granted, but the owner's own right is {right}"),
            Hint::Access { endpoint, right } => write!(to, ": {endpoint} has {right}"),
            Hint::Caller(caller) => write!(to, ", and the caller is {caller}"),
            Hint::Sender(sender) => write!(to, ", and the transaction's sender is {sender}"),
            Hint::Tag { found, wanted } => {
                write!(to, ", whose tag is {wanted:016X}, but the descriptor says {found:016X}")
            }
            Hint::Kind { found, wanted } => {
                write!(to, ", whose kind is {}, but the descriptor says {}", word(wanted), word(found))
            }
            Hint::Asked { asked, most } => write!(to, ", where {asked} is requested, and {most} is the most allowed"),
            Hint::Held(right) => write!(to, ", which the caller holds with {right}"),
            Hint::Room(bytes) => put_room(to, bytes),
            Hint::Wanted(value) => write!(to, ", and must be {value:08X}"),
            Hint::Form { caller, form } => put_form(to, caller, form),
            Hint::Word { place, value } => put_word(to, ":", place, value),
            Hint::Message { offset, size, room } => {
                put_word(to, ":", 8, offset)?;
                put_word(to, ", and", 16, size)?;
                put_room(to, room)
            }
            Hint::Outside(address) => put_outside(to, address),
            Hint::Holder(receiver) => write!(to, ", which {receiver} holds"),
            Hint::Run => to.write_str(": it is processing an FFA_RUN"),
            Hint::Request(sender) => write!(to, ": it is processing a direct request from {sender}"),
            Hint::Pending(bit) => write!(to, ": bit {}", Short(bit.into())),
            Hint::Cause(cause) => write!(to, "{}{cause}", cause.joint()),
            Hint::End { part, end, size } => put_end(to, part, end, size),
            Hint::Uuid(bytes) => write!(to, ": w1 to w4 hold {:032x}", u128::from_be_bytes(bytes)),
            Hint::NarrowOnly(call) => write!(to, ", and {call} has no 64-bit form"),
        }
    }
}

fn word(kind: Kind) -> &'static str {
    match kind {
        Kind::Share => "share",
        Kind::Lend => "lend",
        Kind::Donate => "donate",
    }
}

fn put_room(to: &mut fmt::Formatter<'_>, bytes: u64) -> fmt::Result {
    write!(to, ", and the buffer has {} bytes", Long(bytes))
}

/// Writes the size that a header must tell of an access descriptor, and whose form that is.
fn put_form(to: &mut fmt::Formatter<'_>, caller: Id, form: Version) -> fmt::Result {
    let (size, used) = match form {
        Version::Compact => (0, "the compact form"),
        Version::V1_1 => (16, "version 1.1"),
        Version::V1_2 => (32, "version 1.2"),
    };
    write!(to, ", and must be {size:08X}, because {caller} uses {used}")
}

/// Writes the four bytes of a word of a header, and the number in them.
fn put_word(to: &mut fmt::Formatter<'_>, joint: &str, place: u32, value: u32) -> fmt::Result {
    let place = u64::from(place);
    write!(to, "{joint} bytes {} to {} are {value:08X}", Short(place), Short(place + 3))
}

fn put_end(to: &mut fmt::Formatter<'_>, part: Part, end: u64, size: u32) -> fmt::Result {
    let (ends, end, size) = (part.ends(), Short(end), Short(size.into()));
    write!(to, " (the {ends} at {end}, but the descriptor has {size} bytes)")
}

fn put_outside(to: &mut fmt::Formatter<'_>, address: u64) -> fmt::Result {
    let where_it_is = if address > u32::MAX.into() { "above FFFFFFFF" } else { "outside RAM" };
    write!(to, ": {} is {where_it_is}", Long(address))
}

impl fmt::Display for Side {
    fn fmt(&self, to: &mut fmt::Formatter<'_>) -> fmt::Result {
        to.write_str(match self {
            Side::Tx => "TX",
            Side::Rx => "RX",
        })
    }
}

impl Part {
    const fn ends(self) -> &'static str {
        match self {
            Part::Header => "header ends",
            Part::AccessDescriptors => "access descriptors end",
            Part::Composite => "composite ends",
            Part::Ranges => "ranges end",
        }
    }
}

impl CheckCause {
    /// What joins its words to the subject of the check.
    const fn joint(self) -> &'static str {
        match self {
            CheckCause::BuffersMissing
            | CheckCause::RxNotFull
            | CheckCause::BitmapsUncreated
            | CheckCause::NotificationsUnreceived => ": ",
            _ => ", which ",
        }
    }
}

impl fmt::Display for CheckCause {
    fn fmt(&self, to: &mut fmt::Formatter<'_>) -> fmt::Result {
        to.write_str(self.words())
    }
}

impl fmt::Debug for Hint {
    fn fmt(&self, to: &mut fmt::Formatter<'_>) -> fmt::Result {
        match *self {
            Hint::Buffer { endpoint, side } => put_fields(to, "Buffer", &[("endpoint", &endpoint), ("side", &side)]),
            Hint::OwnRight(right) => to.debug_tuple("OwnRight").field(&right).finish(),
            Hint::Granted(right) => to.debug_tuple("Granted").field(&right).finish(),
            Hint::Access { endpoint, right } => put_fields(to, "Access", &[("endpoint", &endpoint), ("right", &right)]),
            Hint::Caller(caller) => to.debug_tuple("Caller").field(&caller).finish(),
            Hint::Sender(sender) => to.debug_tuple("Sender").field(&sender).finish(),
            Hint::Tag { found, wanted } => {
                put_fields(to, "Tag", &[("found", &Hexadecimal(found)), ("wanted", &Hexadecimal(wanted))])
            }
            Hint::Kind { found, wanted } => put_fields(to, "Kind", &[("found", &found), ("wanted", &wanted)]),
            Hint::Asked { asked, most } => put_fields(to, "Asked", &[("asked", &asked), ("most", &most)]),
            Hint::Held(right) => to.debug_tuple("Held").field(&right).finish(),
            Hint::Room(bytes) => to.debug_tuple("Room").field(&bytes).finish(),
            Hint::Wanted(value) => to.debug_tuple("Wanted").field(&Hexadecimal(value)).finish(),
            Hint::Form { caller, form } => put_fields(to, "Form", &[("caller", &caller), ("form", &form)]),
            Hint::Word { place, value } => put_fields(to, "Word", &[("place", &place), ("value", &Hexadecimal(value))]),
            Hint::Message { offset, size, room } => {
                put_fields(to, "Message", &[("offset", &offset), ("size", &size), ("room", &room)])
            }
            Hint::Outside(address) => to.debug_tuple("Outside").field(&Hexadecimal(address)).finish(),
            Hint::Holder(receiver) => to.debug_tuple("Holder").field(&receiver).finish(),
            Hint::Run => to.write_str("Run"),
            Hint::Request(sender) => to.debug_tuple("Request").field(&sender).finish(),
            Hint::Pending(bit) => to.debug_tuple("Pending").field(&bit).finish(),
            Hint::Cause(cause) => to.debug_tuple("Cause").field(&cause).finish(),
            Hint::End { part, end, size } => put_fields(to, "End", &[("part", &part), ("end", &end), ("size", &size)]),
            Hint::Uuid(bytes) => to.debug_tuple("Uuid").field(&Hexadecimal(u128::from_be_bytes(bytes))).finish(),
            Hint::NarrowOnly(call) => to.debug_tuple("NarrowOnly").field(&call).finish(),
        }
    }
}

fn put_fields(to: &mut fmt::Formatter<'_>, name: &str, fields: &[(&str, &dyn fmt::Debug)]) -> fmt::Result {
    let mut shown = to.debug_struct(name);
    for (name, field) in fields {
        shown.field(name, field);
    }
    shown.finish()
}

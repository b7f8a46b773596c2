// SPDX-License-Identifier: MIT OR Apache-2.0
//! Registers by name: what each call takes and answers, read from eight registers or written to them.
use crate::codes::ErrorCode;
use crate::functions::Function;
use crate::hexadecimal::Hexadecimal;
use crate::operation::{registers, Registers};
use core::fmt;

/// A piece of a register: which, its lowest bit, and how many bits it has.
type Piece = (usize, u32, u32);

/// Where a number stands: its pieces, the lowest one first.
type Place = (&'static str, &'static [Piece]);

/// What the registers of a call or an answer hold. (tests/copies writes it and the next two, as Python has them.)
const fn arguments(function: Function) -> &'static [Place] {
    match function {
        Function::Error => &[("code", &[(2, 0, 32)])],
        Function::Interrupt | Function::Yield | Function::Run => {
            &[("partition", &[(1, 16, 16)]), ("context", &[(1, 0, 16)])]
        }
        Function::Version => &[("major", &[(1, 16, 15)]), ("minor", &[(1, 0, 16)])],
        Function::Features => &[("feature", &[(1, 0, 32)])],
        Function::RxtxMap => &[("tx", &[(1, 0, 32)]), ("rx", &[(2, 0, 32)]), ("pages", &[(3, 0, 32)])],
        Function::RxtxMap64 => &[("tx", &[(1, 0, 64)]), ("rx", &[(2, 0, 64)]), ("pages", &[(3, 0, 32)])],
        Function::RxtxUnmap | Function::NotificationBitmapDestroy => &[("endpoint", &[(1, 0, 32)])],
        Function::PartitionInfoGet => {
            &[("uuid", &[(1, 0, 32), (2, 0, 32), (3, 0, 32), (4, 0, 32)]), ("count_only", &[(5, 0, 1)])]
        }
        Function::MsgWait => &[("partition", &[(1, 16, 16)]), ("context", &[(1, 0, 16)]), ("flags", &[(2, 0, 32)])],
        Function::MsgSendDirectReq | Function::MsgSendDirectResp => &[
            ("sender", &[(1, 16, 16)]),
            ("receiver", &[(1, 0, 16)]),
            ("flags", &[(2, 0, 32)]),
            ("payload0", &[(3, 0, 32)]),
            ("payload1", &[(4, 0, 32)]),
            ("payload2", &[(5, 0, 32)]),
            ("payload3", &[(6, 0, 32)]),
            ("payload4", &[(7, 0, 32)]),
        ],
        Function::MsgSendDirectReq64 | Function::MsgSendDirectResp64 => &[
            ("sender", &[(1, 16, 16)]),
            ("receiver", &[(1, 0, 16)]),
            ("flags", &[(2, 0, 32)]),
            ("payload0", &[(3, 0, 64)]),
            ("payload1", &[(4, 0, 64)]),
            ("payload2", &[(5, 0, 64)]),
            ("payload3", &[(6, 0, 64)]),
            ("payload4", &[(7, 0, 64)]),
        ],
        Function::MemDonate | Function::MemLend | Function::MemShare | Function::MemRetrieveReq => &[
            ("length", &[(1, 0, 32)]),
            ("fragment", &[(2, 0, 32)]),
            ("address", &[(3, 0, 32)]),
            ("pages", &[(4, 0, 32)]),
        ],
        Function::MemDonate64 | Function::MemLend64 | Function::MemShare64 | Function::MemRetrieveReq64 => &[
            ("length", &[(1, 0, 32)]),
            ("fragment", &[(2, 0, 32)]),
            ("address", &[(3, 0, 64)]),
            ("pages", &[(4, 0, 32)]),
        ],
        Function::MemRetrieveResp => &[("length", &[(1, 0, 32)]), ("fragment", &[(2, 0, 32)])],
        Function::MemReclaim => &[("handle", &[(1, 0, 32), (2, 0, 32)]), ("flags", &[(3, 0, 32)])],
        Function::NotificationBitmapCreate => &[("endpoint", &[(1, 0, 32)]), ("contexts", &[(2, 0, 32)])],
        Function::NotificationBind | Function::NotificationUnbind | Function::NotificationSet => &[
            ("sender", &[(1, 16, 16)]),
            ("receiver", &[(1, 0, 16)]),
            ("flags", &[(2, 0, 32)]),
            ("bits", &[(3, 0, 32), (4, 0, 32)]),
        ],
        Function::NotificationGet => {
            &[("receiver", &[(1, 0, 16)]), ("context", &[(1, 16, 16)]), ("flags", &[(2, 0, 32)])]
        }
        _ => &[],
    }
}

/// Which arguments of a call may be left out.
const fn optional(function: Function) -> &'static [&'static str] {
    match function {
        Function::Interrupt | Function::Run | Function::NotificationGet => &["context"],
        Function::RxtxUnmap => &["endpoint"],
        Function::PartitionInfoGet => &["uuid", "count_only"],
        Function::MsgWait => &["partition", "context", "flags"],
        Function::Yield => &["partition", "context"],
        Function::MsgSendDirectReq
        | Function::MsgSendDirectReq64
        | Function::MsgSendDirectResp
        | Function::MsgSendDirectResp64 => &["flags", "payload0", "payload1", "payload2", "payload3", "payload4"],
        Function::MemDonate
        | Function::MemDonate64
        | Function::MemLend
        | Function::MemLend64
        | Function::MemShare
        | Function::MemShare64
        | Function::MemRetrieveReq
        | Function::MemRetrieveReq64 => &["fragment", "address", "pages"],
        Function::MemRetrieveResp => &["fragment"],
        Function::MemReclaim
        | Function::NotificationBind
        | Function::NotificationUnbind
        | Function::NotificationSet => &["flags"],
        _ => &[],
    }
}

/// What an FFA_SUCCESS holds that answers a call.
const fn results(function: Function) -> &'static [Place] {
    match function {
        Function::Features => &[("properties", &[(2, 0, 32)])],
        Function::PartitionInfoGet => &[("count", &[(2, 0, 32)]), ("size", &[(3, 0, 32)])],
        Function::IdGet | Function::SpmIdGet => &[("endpoint", &[(2, 0, 32)])],
        Function::MemDonate
        | Function::MemDonate64
        | Function::MemLend
        | Function::MemLend64
        | Function::MemShare
        | Function::MemShare64 => &[("handle", &[(2, 0, 32), (3, 0, 32)])],
        Function::NotificationGet => &[
            ("partitions", &[(2, 0, 32), (3, 0, 32)]),
            ("normal_world", &[(4, 0, 32), (5, 0, 32)]),
            ("manager", &[(6, 0, 32)]),
        ],
        Function::NotificationInfoGet => &[
            ("more", &[(2, 0, 1)]),
            ("lists", &[(2, 7, 5)]),
            ("counts", &[(2, 12, 20)]),
            ("ids0", &[(3, 0, 32)]),
            ("ids1", &[(4, 0, 32)]),
            ("ids2", &[(5, 0, 32)]),
            ("ids3", &[(6, 0, 32)]),
            ("ids4", &[(7, 0, 32)]),
        ],
        Function::NotificationInfoGet64 => &[
            ("more", &[(2, 0, 1)]),
            ("lists", &[(2, 7, 5)]),
            ("counts", &[(2, 12, 20)]),
            ("ids0", &[(3, 0, 64)]),
            ("ids1", &[(4, 0, 64)]),
            ("ids2", &[(5, 0, 64)]),
            ("ids3", &[(6, 0, 64)]),
            ("ids4", &[(7, 0, 64)]),
        ],
        _ => &[],
    }
}

/// Whether a call reads all 64 bits of a register.
pub(crate) fn is_read_whole(function: u32, register: u32) -> bool {
    let is_it = |&(its, _, bits): &Piece| its == register as usize && bits == 64;
    Function::of(function).map_or(false, |called| arguments(called).iter().any(|(_, pieces)| pieces.iter().any(is_it)))
}

/// The bits that a piece has.
fn mask(bits: u32) -> u64 {
    u64::MAX >> (64 - bits)
}

fn read(registers: &Registers, pieces: &[Piece]) -> u128 {
    let above = |value: u128, &(register, low, bits): &Piece| {
        (value << bits) | u128::from((registers[register] >> low) & mask(bits))
    };
    pieces.iter().rev().fold(0, above)
}

/// A number as it is told. Of a UUID the first byte is the highest, and the lowest in the registers.
fn told(name: &str, number: u128) -> u128 {
    match name {
        "uuid" => number.swap_bytes(),
        _ => number,
    }
}

fn write(registers: &mut Registers, pieces: &[Piece], mut value: u128) {
    for &(register, low, bits) in pieces {
        registers[register] |= (value as u64 & mask(bits)) << low;
        value >>= bits;
    }
}

/// The function of eight registers, and what they hold, by name.
#[derive(Clone, Copy, PartialEq, Eq)]
pub struct Named {
    function: Function,
    places: &'static [Place],
    registers: Registers,
}

impl Named {
    /// What w0 names.
    #[must_use]
    pub fn function(&self) -> Function {
        self.function
    }

    /// What has this name. None: the registers hold nothing of it. A UUID is the number that its 32 digits write, which
    /// is `u128::from_be_bytes` of a manifest's.
    #[must_use]
    pub fn get(&self, name: &str) -> Option<u128> {
        self.iter().find(|(has, _)| *has == name).map(|(_, value)| value)
    }

    /// What they hold, with names, in the order of the registers. A UUID has 128 bits, all else 64 at most.
    pub fn iter(&self) -> impl Iterator<Item = (&'static str, u128)> + '_ {
        self.places.iter().map(move |(name, pieces)| (*name, told(name, read(&self.registers, pieces))))
    }
}

/// In words, as `FFA_RUN partition=8001 context=0`: numbers in hexadecimal, a UUID by its 32 digits. `_64` stands behind the
/// name of a 64-bit form. [`encode_words`] reads them again.
impl fmt::Display for Named {
    fn fmt(&self, to: &mut fmt::Formatter<'_>) -> fmt::Result {
        put_form(self.function, to)?;
        for (name, value) in self.iter() {
            write!(to, " {name}=")?;
            match name {
                "code" => match ErrorCode::of(value as u32 as i32) {
                    Some(code) => code.fmt(to)?,
                    None => write!(to, "{value:08X}")?,
                },
                "feature" => match Function::of(value as u32) {
                    Some(function) => put_form(function, to)?,
                    None => write!(to, "{value:08X}")?,
                },
                "uuid" => write!(to, "{value:032x}")?,
                "handle" => write!(to, "{value:016X}")?,
                "sender" | "receiver" | "partition" | "endpoint" => write!(to, "{value:04X}")?,
                _ => write!(to, "{value:X}")?,
            }
        }
        Ok(())
    }
}

/// The name of a call in one of its forms.
fn put_form(function: Function, to: &mut fmt::Formatter<'_>) -> fmt::Result {
    to.write_str(function.name())?;
    to.write_str(if function.is_wide() { "_64" } else { "" })
}

/// The call of such a name.
fn form_named(name: &str) -> Option<Function> {
    let of =
        |front: &str, is_wide| Function::ALL.iter().copied().find(|it| it.name() == front && it.is_wide() == is_wide);
    of(name, false).or_else(|| of(name.strip_suffix("_64")?, true))
}

impl fmt::Debug for Named {
    fn fmt(&self, to: &mut fmt::Formatter<'_>) -> fmt::Result {
        write!(to, "Named({self})")
    }
}

/// What registers hold, by name. `answers` is the call that they answer, without which an FFA_SUCCESS tells nothing.
/// None: w0 names no function.
///
/// ```
/// # use gorseplumb::*;
/// let called = decode(&registers([0x8400_006D, 0x8001_0000]), None).unwrap();
/// assert_eq!(called.to_string(), "FFA_RUN partition=8001 context=0");
/// let answer = decode(&registers([0x8400_0061, 0, 1, 0x8001]), Some(Function::MemShare)).unwrap();
/// assert_eq!(answer.to_string(), "FFA_SUCCESS handle=0000800100000001");
/// assert_eq!(answer.get("handle"), Some(0x8001_0000_0001));
/// ```
#[must_use]
pub fn decode(registers: &Registers, answers: Option<Function>) -> Option<Named> {
    let function = Function::of(registers[0] as u32)?;
    let places = match (function, answers) {
        (Function::Success | Function::Success64, Some(asked)) => results(asked),
        _ => arguments(function),
    };
    Some(Named { function, places, registers: *registers })
}

/// Why arguments make no call.
#[derive(Clone, Copy, PartialEq, Eq, Hash)]
pub enum ArgumentError<'given> {
    /// The function has no argument of this name.
    Unknown {
        /// Which function.
        function: Function,
        /// The name, as it is given.
        name: &'given str,
    },
    /// An argument is missing, and may not be left out.
    Missing {
        /// Which function.
        function: Function,
        /// The argument's name.
        name: &'static str,
    },
    /// An argument is given twice.
    Twice {
        /// Its name.
        name: &'static str,
    },
    /// A number has more bits than its argument.
    TooLarge {
        /// The argument's name.
        name: &'static str,
        /// How many bits it has.
        bits: u32,
        /// The number.
        value: u128,
    },
    /// A text writes no number.
    NoNumber {
        /// The argument's name.
        name: &'static str,
        /// The text, as it is given.
        text: &'given str,
    },
}

/// As it is derived, but that the number is hexadecimal.
impl fmt::Debug for ArgumentError<'_> {
    fn fmt(&self, to: &mut fmt::Formatter<'_>) -> fmt::Result {
        match self {
            ArgumentError::Unknown { function, name } => {
                to.debug_struct("Unknown").field("function", function).field("name", name).finish()
            }
            ArgumentError::Missing { function, name } => {
                to.debug_struct("Missing").field("function", function).field("name", name).finish()
            }
            ArgumentError::Twice { name } => to.debug_struct("Twice").field("name", name).finish(),
            ArgumentError::TooLarge { name, bits, value } => {
                let value = &Hexadecimal(*value);
                to.debug_struct("TooLarge").field("name", name).field("bits", bits).field("value", value).finish()
            }
            ArgumentError::NoNumber { name, text } => {
                to.debug_struct("NoNumber").field("name", name).field("text", text).finish()
            }
        }
    }
}

impl fmt::Display for ArgumentError<'_> {
    fn fmt(&self, to: &mut fmt::Formatter<'_>) -> fmt::Result {
        match *self {
            ArgumentError::Unknown { function, name } => {
                write!(to, "{function} has no argument {name}: it has ")?;
                list(function, to)
            }
            ArgumentError::Missing { function, name } => {
                write!(to, "{function} lacks the argument {name}: it has ")?;
                list(function, to)
            }
            ArgumentError::Twice { name } => write!(to, "{name} is given twice"),
            ArgumentError::TooLarge { name, bits, value } => write!(to, "{name} has {bits} bits, and is {value:#X}"),
            ArgumentError::NoNumber { name, text } => {
                let wanted = match name {
                    "uuid" => "32 hexadecimal digits, with a UUID's hyphens or without",
                    "feature" => "a hexadecimal number, or the name of a call",
                    _ => "a hexadecimal number",
                };
                write!(to, "{name} is {wanted}, and not {text:?}")
            }
        }
    }
}

/// The arguments of a function, those in brackets that may be left out.
fn list(function: Function, to: &mut fmt::Formatter<'_>) -> fmt::Result {
    for (index, (name, _)) in arguments(function).iter().enumerate() {
        let (open, close) = if optional(function).contains(name) { ("[", "]") } else { ("", "") };
        write!(to, "{}{open}{name}{close}", if index == 0 { "" } else { ", " })?;
    }
    to.write_str(if arguments(function).is_empty() { "none" } else { "" })
}

#[cfg(feature = "std")]
impl std::error::Error for ArgumentError<'_> {}

/// Registers that make a call of these arguments. One that may be left out is 0 then, but for `fragment`, which is
/// `length`. A UUID is the number that its 32 digits write, which is `u128::from_be_bytes` of a manifest's.
///
/// ```
/// # use gorseplumb::*;
/// let map = encode(Function::RxtxMap, &[("tx", 0x4001_E000), ("rx", 0x4001_F000), ("pages", 1)])?;
/// assert_eq!(map, registers([0x8400_0066, 0x4001_E000, 0x4001_F000, 1]));
/// let error = encode(Function::Run, &[("partition", 0x1_8001)]).unwrap_err();
/// assert_eq!(error.to_string(), "partition has 16 bits, and is 0x18001");
/// let error = encode(Function::Run, &[]).unwrap_err();
/// assert_eq!(error.to_string(), "FFA_RUN lacks the argument partition: it has partition, [context]");
/// # Ok::<(), ArgumentError>(())
/// ```
///
/// # Errors
/// [`ArgumentError`], of the first argument given that has one, or else that is missing.
pub fn encode<'given>(function: Function, given: &[(&'given str, u128)]) -> Result<Registers, ArgumentError<'given>> {
    encode_by(function, given, |_, value| Ok(value))
}

/// The same of texts, as [`Named`] prints them behind the `=`: hexadecimal numbers, with `0x` or without; a UUID by its 32
/// digits, with hyphens or without; a feature also by the name of a call, and a code by its own.
///
/// ```
/// # use gorseplumb::*;
/// let given = [("uuid", "00112233-4455-6677-8899-aabbccddeeff"), ("count_only", "1")];
/// let asked = encode_words(Function::PartitionInfoGet, &given)?;
/// assert_eq!(asked, registers([0x8400_0068, 0x3322_1100, 0x7766_5544, 0xBBAA_9988, 0xFFEE_DDCC, 1]));
/// let told = decode(&asked, None).unwrap().to_string();
/// assert_eq!(told, "FFA_PARTITION_INFO_GET uuid=00112233445566778899aabbccddeeff count_only=1");
/// let known = encode_words(Function::Features, &[("feature", "FFA_RXTX_MAP_64")])?;
/// assert_eq!(known, registers([0x8400_0064, 0xC400_0066]));
/// # Ok::<(), ArgumentError>(())
/// ```
///
/// # Errors
/// As [`encode`], and where a text writes no number.
pub fn encode_words<'given>(
    function: Function,
    given: &[(&'given str, &'given str)],
) -> Result<Registers, ArgumentError<'given>> {
    encode_by(function, given, |name, text| number(name, text).ok_or(ArgumentError::NoNumber { name, text }))
}

/// The number that a text writes.
fn number(name: &str, text: &str) -> Option<u128> {
    match name {
        "uuid" => uuid(text),
        "feature" if text.starts_with("FFA_") => form_named(text).map(|function| function.number().into()),
        "code" => match ErrorCode::ALL.iter().find(|code| code.words() == text) {
            Some(code) => Some((code.number() as u32).into()),
            None => hexadecimal(text),
        },
        _ => hexadecimal(text),
    }
}

fn hexadecimal(text: &str) -> Option<u128> {
    let digits = text.strip_prefix("0x").or_else(|| text.strip_prefix("0X")).unwrap_or(text);
    let is_number = digits.bytes().all(|digit| digit.is_ascii_hexdigit());
    is_number.then(|| u128::from_str_radix(digits, 16).ok()).flatten()
}

/// The number of 32 digits, between which a UUID's hyphens stand or none.
fn uuid(text: &str) -> Option<u128> {
    let hyphens = [8, 13, 18, 23];
    let is_hyphenated = match text.len() {
        32 => false,
        36 => true,
        _ => return None,
    };
    text.bytes().enumerate().try_fold(0, |number: u128, (place, byte)| {
        if is_hyphenated && hyphens.contains(&place) {
            return (byte == b'-').then_some(number);
        }
        char::from(byte).to_digit(16).map(|digit| (number << 4) | u128::from(digit))
    })
}

/// Registers that make a call of these arguments, each of which is read as a number.
fn encode_by<'given, V: Copy>(
    function: Function,
    given: &[(&'given str, V)],
    read: impl Fn(&'static str, V) -> Result<u128, ArgumentError<'given>>,
) -> Result<Registers, ArgumentError<'given>> {
    let mut call = registers([function.number().into()]);
    let places = arguments(function);
    for (place, &(name, value)) in given.iter().enumerate() {
        let found = places.iter().find(|(has, _)| *has == name);
        let (name, pieces) = *found.ok_or(ArgumentError::Unknown { function, name })?;
        if given[..place].iter().any(|(before, _)| *before == name) {
            return Err(ArgumentError::Twice { name });
        }
        let value = read(name, value)?;
        let bits = pieces.iter().map(|(_, _, bits)| bits).sum();
        if bits < 128 && value >> bits != 0 {
            return Err(ArgumentError::TooLarge { name, bits, value });
        }
        write(&mut call, pieces, told(name, value));
    }
    let is_given = |wanted: &str| given.iter().any(|(name, _)| *name == wanted);
    for (name, _) in places {
        if !is_given(name) && !optional(function).contains(name) {
            return Err(ArgumentError::Missing { function, name });
        }
    }
    if is_given("length") && !is_given("fragment") {
        call[2] = call[1];
    }
    Ok(call)
}

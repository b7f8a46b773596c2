// SPDX-License-Identifier: MIT OR Apache-2.0
//! Why an operation would be refused, or was refused just before.
use crate::allowed::Allowed;
use crate::checks::{Check, Flaw};
use crate::codes::{ErrorCode, Fault};
use crate::hexadecimal::{shown, Hexadecimal, Long, Short};
use crate::hints::Hint;
use crate::machine::{of, Machine};
use crate::named::is_read_whole;
use crate::operation::{known, Registers, Size};
use crate::ram::{Ram, PAGE_SIZE};
use crate::{raw, Handle, Id};
use core::fmt;

/// Why a call is refused: the first of its checks that fails, and what that is about.
#[derive(Clone, Copy, Debug, PartialEq, Eq, Hash)]
pub struct CallReason {
    /// The first check of the call that fails.
    pub check: Check,
    /// The number of the check in the manual's list of the call's checks.
    pub number: Option<u32>,
    /// The error code of FFA_ERROR.
    pub error: ErrorCode,
    /// The subject of the check, if it has one.
    pub about: Option<About>,
    /// The run state of the endpoint that the check is about, if the endpoint is not ready for the call.
    pub state: Option<RunState>,
    /// The numbers that the register or the field may have instead, if they are known.
    pub allowed: Option<Allowed>,
    /// What to change, if that is known.
    pub hint: Option<Hint>,
}

/// The run state of an endpoint (DEN0077A, 8.2).
#[derive(Clone, Copy, Debug, PartialEq, Eq, Hash)]
pub enum RunState {
    /// The endpoint is running.
    Running,
    /// The endpoint is waiting.
    Waiting,
    /// The endpoint has yielded.
    Yielded,
    /// The endpoint is blocked.
    Blocked {
        /// The endpoint whose response it awaits, if it sent a direct request.
        awaits: Option<Id>,
    },
    /// An interrupt preempted the endpoint.
    Preempted,
    /// The endpoint is running on another processor.
    RunsElsewhere,
}

/// Why an access is refused.
#[derive(Clone, Copy, PartialEq, Eq, Hash)]
pub struct AccessReason {
    /// The address of the first byte of the access.
    pub address: u64,
    /// The fault of the access.
    pub fault: Fault,
    /// Why the tables do not map the address, for a translation fault. None there: the address has more than 32 bits.
    pub obstacle: Option<Obstacle>,
    /// The right that the runner has at the address, for a permission fault.
    pub hint: Option<Hint>,
}

/// The subject of a check that fails.
#[derive(Clone, Copy, PartialEq, Eq, Hash)]
pub enum About {
    /// A page of RAM.
    Page {
        /// The number of the page, counted from the first page of RAM.
        page: u32,
        /// The address of the first byte of the page.
        address: u64,
        /// Why the page fails the check.
        obstacle: Option<Obstacle>,
    },
    /// An endpoint that the call names.
    Endpoint(Id),
    /// A handle that the call names.
    Handle(Handle),
    /// A register of the call.
    Register {
        /// The number of the register; x0 is 0.
        number: u32,
        /// The value of the register, as far as the call reads it.
        value: u64,
        /// Whether the call reads all 64 bits of the register, and not only the low 32.
        is_whole: bool,
    },
    /// The least bit of a notification bitmap that fails the check.
    Bit(u32),
    /// A field of a descriptor.
    Field {
        /// The condition that the field breaks.
        flaw: Flaw,
        /// The index of the access descriptor or of the range, counted from 0.
        index: u32,
        /// The offset of the field's first byte in the descriptor.
        first: u64,
        /// The size of the field in bytes.
        size: u64,
        /// The number in the field, if it has 1, 2, 4 or 8 bytes that are all in the descriptor.
        value: Option<u64>,
    },
}

/// Why the tables of an endpoint do not map an address, or why a page fails a check.
#[derive(Clone, Copy, PartialEq, Eq, Hash)]
pub enum Obstacle {
    /// The address is not in RAM.
    OutsideRam,
    /// The page belongs to the manager.
    ManagersPage,
    /// The page belongs to this endpoint.
    OwnedBy(Id),
    /// The page is in the open transaction with this handle.
    InTransaction(Handle),
}

shown! { AccessReason { address: hexadecimal, fault, obstacle, hint } }

impl fmt::Debug for Obstacle {
    fn fmt(&self, to: &mut fmt::Formatter<'_>) -> fmt::Result {
        match self {
            Obstacle::OutsideRam => to.write_str("OutsideRam"),
            Obstacle::ManagersPage => to.write_str("ManagersPage"),
            Obstacle::OwnedBy(owner) => to.debug_tuple("OwnedBy").field(owner).finish(),
            Obstacle::InTransaction(handle) => to.debug_tuple("InTransaction").field(handle).finish(),
        }
    }
}

impl fmt::Debug for About {
    fn fmt(&self, to: &mut fmt::Formatter<'_>) -> fmt::Result {
        match self {
            About::Page { page, address, obstacle } => {
                let address = &Hexadecimal(*address);
                to.debug_struct("Page")
                    .field("page", page)
                    .field("address", address)
                    .field("obstacle", obstacle)
                    .finish()
            }
            About::Endpoint(endpoint) => to.debug_tuple("Endpoint").field(endpoint).finish(),
            About::Handle(handle) => handle.fmt(to),
            About::Register { number, value, is_whole } => to
                .debug_struct("Register")
                .field("number", number)
                .field("value", &Hexadecimal(*value))
                .field("is_whole", is_whole)
                .finish(),
            About::Bit(bit) => to.debug_tuple("Bit").field(bit).finish(),
            About::Field { flaw, index, first, size, value } => to
                .debug_struct("Field")
                .field("flaw", flaw)
                .field("index", index)
                .field("first", first)
                .field("size", size)
                .field("value", &value.map(Hexadecimal))
                .finish(),
        }
    }
}

impl fmt::Display for Obstacle {
    fn fmt(&self, to: &mut fmt::Formatter<'_>) -> fmt::Result {
        match self {
            Obstacle::OutsideRam => to.write_str("is outside RAM"),
            Obstacle::ManagersPage => to.write_str("belongs to the manager"),
            Obstacle::OwnedBy(owner) => write!(to, "belongs to {owner}"),
            Obstacle::InTransaction(handle) => write!(to, "is in the open transaction {handle}"),
        }
    }
}

impl fmt::Display for RunState {
    fn fmt(&self, to: &mut fmt::Formatter<'_>) -> fmt::Result {
        match self {
            RunState::Running => to.write_str("is running"),
            RunState::Waiting => to.write_str("is waiting"),
            RunState::Yielded => to.write_str("has yielded"),
            RunState::Blocked { awaits: None } => to.write_str("is blocked"),
            RunState::Blocked { awaits: Some(receiver) } => {
                write!(to, "is blocked by its direct request to {receiver}")
            }
            RunState::Preempted => to.write_str("is preempted"),
            RunState::RunsElsewhere => to.write_str("is running on another processor"),
        }
    }
}

/// The text of the program for the subject of a check.
impl fmt::Display for About {
    fn fmt(&self, to: &mut fmt::Formatter<'_>) -> fmt::Result {
        match *self {
            About::Page { address, obstacle: None, .. } => Long(address).fmt(to),
            About::Page { address, obstacle: Some(obstacle), .. } => write!(to, "{} {obstacle}", Long(address)),
            About::Endpoint(endpoint) => write!(to, "endpoint {endpoint}"),
            About::Handle(handle) => write!(to, "handle {handle}"),
            About::Register { number, value, is_whole } => {
                write!(to, "{}{number} is {}", if is_whole { 'x' } else { 'w' }, Long(value))
            }
            About::Bit(bit) => write!(to, "bit {}", Short(bit.into())),
            About::Field { flaw, index, first, size, value } => {
                if let Some(element) = element(flaw) {
                    write!(to, "{element} {}: ", Short(index.into()))?;
                }
                write!(to, "{flaw}: ")?;
                match flaw {
                    // Of eight bytes only the first four are printed, which are their number.
                    Flaw::HeaderArrayOutside if size == 8 => {
                        put_bytes(to, first, 4, value.map(|value| value & 0xFFFF_FFFF))
                    }
                    _ => put_bytes(to, first, size, value),
                }
            }
        }
    }
}

/// The part of a descriptor, of which it may have several, that a condition is about.
fn element(flaw: Flaw) -> Option<&'static str> {
    let is_from = |first: Flaw, last: Flaw| (first.number()..=last.number()).contains(&flaw.number());
    match flaw {
        _ if is_from(Flaw::AccessPermissions, Flaw::AccessReceiverTwice) => Some("access descriptor"),
        _ if is_from(Flaw::RangeEmpty, Flaw::RangeOverlap) => Some("range"),
        _ => None,
    }
}

/// Writes which bytes of a descriptor a field has, and the number in them.
fn put_bytes(to: &mut fmt::Formatter<'_>, first: u64, size: u64, value: Option<u64>) -> fmt::Result {
    let verb = if size <= 1 {
        write!(to, "byte {}", Short(first))?;
        "is"
    } else {
        write!(to, "bytes {} to {}", Short(first), Short(first.wrapping_add(size - 1)))?;
        "are"
    };
    let digits = 2 * size as usize;
    value.map_or(Ok(()), |value| write!(to, " {verb} {value:0digits$X}"))
}

/// The line of the program behind the name of the call: the number and the words of the check, its subject, and the hint,
/// the run state or the allowed numbers.
impl fmt::Display for CallReason {
    fn fmt(&self, to: &mut fmt::Formatter<'_>) -> fmt::Result {
        self.number.map_or(Ok(()), |number| write!(to, "check {number}: "))?;
        self.check.fmt(to)?;
        self.about.map_or(Ok(()), |about| write!(to, ": {about}"))?;
        self.put_misplaced(to)?;
        self.hint.map_or(Ok(()), |hint| hint.fmt(to))?;
        self.state.map_or(Ok(()), |state| write!(to, ", which {state}"))?;
        self.allowed.map_or(Ok(()), |allowed| allowed.put(to, self.about))
    }
}

/// The fault, the address, and why the tables do not map the address, or the hint.
impl fmt::Display for AccessReason {
    fn fmt(&self, to: &mut fmt::Formatter<'_>) -> fmt::Result {
        write!(to, "{} at {}", self.fault, Long(self.address))?;
        match (self.fault, self.obstacle) {
            (_, Some(obstacle)) => write!(to, ": the page {obstacle}"),
            (Fault::Translation, None) => to.write_str(": the address has more than 32 bits"),
            _ => Ok(()),
        }?;
        self.hint.map_or(Ok(()), |hint| hint.fmt(to))
    }
}

#[cfg(feature = "std")]
impl std::error::Error for CallReason {
    fn source(&self) -> Option<&(dyn std::error::Error + 'static)> {
        Some(&self.error)
    }
}

#[cfg(feature = "std")]
impl std::error::Error for AccessReason {
    fn source(&self) -> Option<&(dyn std::error::Error + 'static)> {
        Some(&self.fault)
    }
}

impl CallReason {
    /// The reason of a call with these registers, on a machine whose RAM begins at this address.
    fn of(told: &raw::Reason, registers: &Registers, ram: u32) -> CallReason {
        let (check, function): (Check, u32) = (known(Check::of(told.check)), registers[0] as u32);
        let about = About::of(told, function, ram);
        CallReason {
            check,
            number: check.number_in(function),
            error: known(ErrorCode::of(told.error)),
            about,
            state: RunState::of(told),
            allowed: Allowed::of(told),
            hint: Hint::of(told).or_else(|| Hint::of_registers(check, about, registers)),
        }
    }

    /// Writes why no buffer can begin at the address in a register, if the check says that.
    fn put_misplaced(&self, to: &mut fmt::Formatter<'_>) -> fmt::Result {
        match (self.check, self.about) {
            (Check::TxMisplaced | Check::RxMisplaced, Some(About::Register { value, .. })) => {
                let is_aligned = value % PAGE_SIZE as u64 == 0;
                let why =
                    if is_aligned { "and the buffer is not entirely in RAM" } else { "which is not page-aligned" };
                write!(to, ", {why}")
            }
            _ => Ok(()),
        }
    }
}

impl AccessReason {
    fn of(address: u64, told: &raw::Reason) -> AccessReason {
        let (fault, obstacle, hint) = (known(Fault::of(told.fault)), Obstacle::of(told), Hint::of(told));
        AccessReason { address, fault, obstacle, hint }
    }
}

impl About {
    fn of(told: &raw::Reason, function: u32, ram: u32) -> Option<About> {
        let value = (told.has_value != 0).then_some(told.value);
        let address = u64::from(ram) + PAGE_SIZE as u64 * u64::from(told.page);
        let is_whole = is_read_whole(function, told.number);
        Some(match told.about {
            raw::ABOUT_PAGE => About::Page { page: told.page, address, obstacle: Obstacle::of(told) },
            raw::ABOUT_ENDPOINT => About::Endpoint(Id(told.endpoint as u16)),
            raw::ABOUT_HANDLE => About::Handle(Handle(told.handle)),
            raw::ABOUT_REGISTER => About::Register { number: told.number, value: told.value, is_whole },
            raw::ABOUT_BIT => About::Bit(told.number),
            raw::ABOUT_FIELD => {
                let flaw = known(Flaw::of(told.flaw));
                About::Field { flaw, index: told.index, first: told.first, size: told.size, value }
            }
            _ => return None,
        })
    }
}

impl RunState {
    fn of(told: &raw::Reason) -> Option<RunState> {
        let awaits = (told.awaits != 0).then_some(Id(told.awaits as u16));
        match told.state {
            raw::STATE_RUNNING => Some(RunState::Running),
            raw::STATE_WAITING => Some(RunState::Waiting),
            raw::STATE_YIELDED => Some(RunState::Yielded),
            raw::STATE_BLOCKED => Some(RunState::Blocked { awaits }),
            raw::STATE_PREEMPTED => Some(RunState::Preempted),
            raw::STATE_RUNS_ELSEWHERE => Some(RunState::RunsElsewhere),
            _ => None,
        }
    }
}

impl Obstacle {
    fn of(told: &raw::Reason) -> Option<Obstacle> {
        match told.obstacle {
            raw::OBSTACLE_OUTSIDE_RAM => Some(Obstacle::OutsideRam),
            raw::OBSTACLE_MANAGERS_PAGE => Some(Obstacle::ManagersPage),
            raw::OBSTACLE_OWNED_BY => Some(Obstacle::OwnedBy(Id(told.owner as u16))),
            raw::OBSTACLE_IN_TRANSACTION => Some(Obstacle::InTransaction(Handle(told.transaction))),
            _ => None,
        }
    }
}

// SAFETY, of each function: as of the other questions, and the reason is live.
impl<R: Ram> Machine<R> {
    /// Returns why this call of the runner would be refused now, or was refused just before: a refused call changes
    /// nothing. None: the call would be done.
    ///
    /// ```
    /// # use gorseplumb::*;
    /// # const RAM: u32 = 0x4000_0000;
    /// # const WORLD: Endpoint =
    /// #     Endpoint::normal_world(Version::V1_1, Properties::NONE, &[Region::new(RAM + 0x10000, 16, Rights::Rw)]);
    /// # let mut machine = Machine::boot(&Manifest::new(RAM, 1, &[WORLD]))?;
    /// let map = registers([0x8400_0066, 0x4001_0000, 0x4001_0000, 1]); // FFA_RXTX_MAP
    /// assert_eq!(machine.call(&map).error(), Some(ErrorCode::InvalidParameters));
    /// let reason = machine.why_call(&map).unwrap();
    /// assert_eq!((reason.check, reason.number), (Check::BuffersOverlap, Some(5)));
    /// assert_eq!(reason.to_string(), "check 5: RX and TX overlap: w2 is 40010000");
    /// # Ok::<(), BootError>(())
    /// ```
    #[must_use]
    pub fn why_call(&self, registers: &Registers) -> Option<CallReason> {
        let mut told = raw::Reason::default();
        unsafe { raw::gorseplumb_why_call(self.asked(), of(registers), &mut told) }
            .then(|| CallReason::of(&told, registers, self.ram_base()))
    }

    /// Returns why this load of the runner would be refused now, or was refused just before. None: it would be done.
    ///
    /// ```
    /// # use gorseplumb::*;
    /// # const RAM: u32 = 0x4000_0000;
    /// # const WORLD: Endpoint =
    /// #     Endpoint::normal_world(Version::V1_1, Properties::NONE, &[Region::new(RAM + 0x10000, 16, Rights::Rw)]);
    /// # let mut machine = Machine::boot(&Manifest::new(RAM, 1, &[WORLD]))?;
    /// assert_eq!(machine.load(0x4000_0000, Size::B8), Err(Fault::Translation));
    /// let reason = machine.why_load(0x4000_0000, Size::B8).unwrap();
    /// assert_eq!(reason.to_string(), "translation fault at 40000000: the page belongs to the manager");
    /// # Ok::<(), BootError>(())
    /// ```
    #[must_use]
    pub fn why_load(&self, address: u64, size: Size) -> Option<AccessReason> {
        let mut told = raw::Reason::default();
        unsafe { raw::gorseplumb_why_load(self.asked(), address, size as u32, &mut told) }
            .then(|| AccessReason::of(address, &told))
    }

    /// Returns why this store of the runner would be refused now, or was refused just before. None: it would be done.
    #[must_use]
    pub fn why_store(&self, address: u64, size: Size) -> Option<AccessReason> {
        let mut told = raw::Reason::default();
        unsafe { raw::gorseplumb_why_store(self.asked(), address, size as u32, &mut told) }
            .then(|| AccessReason::of(address, &told))
    }

    /// Returns why this fetch of the runner would be refused now, or was refused just before. None: it would be done.
    #[must_use]
    pub fn why_fetch(&self, address: u64) -> Option<AccessReason> {
        let mut told = raw::Reason::default();
        unsafe { raw::gorseplumb_why_fetch(self.asked(), address, &mut told) }.then(|| AccessReason::of(address, &told))
    }
}

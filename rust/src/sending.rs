// SPDX-License-Identifier: MIT OR Apache-2.0
//! Descriptors that are stored into TX, with the calls that read them there.
use crate::descriptors::{DescriptorError, Offer, ReadBack, Relinquish, Retrieve};
use crate::explaining::CallError;
use crate::functions::Function;
use crate::layout::DescriptorBytes;
use crate::machine::Machine;
use crate::manifest::Version;
use crate::operation::{registers, Answer, Registers};
use crate::ram::Ram;
use crate::reasons::AccessReason;
use core::fmt;

mod sealed {
    use super::{DescriptorBytes, DescriptorError, Function, Version};

    /// The bytes of a descriptor, and the call that reads them.
    pub trait Descriptor {
        fn bytes(&self, form: Version) -> Result<DescriptorBytes, DescriptorError>;
        fn function(&self) -> Function;
    }
}

/// What stands in TX for a call on memory: an [`Offer`], a [`Retrieve`], a [`ReadBack`] or a [`Relinquish`].
pub trait Descriptor: sealed::Descriptor {}

impl<T: sealed::Descriptor + ?Sized> Descriptor for T {}

impl sealed::Descriptor for Offer<'_> {
    fn bytes(&self, form: Version) -> Result<DescriptorBytes, DescriptorError> {
        self.to_bytes(form)
    }

    fn function(&self) -> Function {
        self.kind.function()
    }
}

impl sealed::Descriptor for Retrieve {
    fn bytes(&self, form: Version) -> Result<DescriptorBytes, DescriptorError> {
        Ok(self.to_bytes(form))
    }

    fn function(&self) -> Function {
        Function::MemRetrieveReq
    }
}

impl sealed::Descriptor for ReadBack {
    fn bytes(&self, form: Version) -> Result<DescriptorBytes, DescriptorError> {
        Ok(self.to_bytes(form))
    }

    fn function(&self) -> Function {
        Function::MemRetrieveReq
    }
}

impl sealed::Descriptor for Relinquish {
    fn bytes(&self, _form: Version) -> Result<DescriptorBytes, DescriptorError> {
        Ok(self.to_bytes())
    }

    fn function(&self) -> Function {
        Function::MemRelinquish
    }
}

/// The call of a descriptor of this size, which only a relinquish doesn't tell.
fn call(function: Function, size: usize) -> Registers {
    match function {
        Function::MemRelinquish => registers([function.number().into()]),
        _ => function.with([size as u64, size as u64]),
    }
}

/// Why a descriptor isn't sent.
#[derive(Clone, Copy, Debug, PartialEq, Eq, Hash)]
pub enum SendError {
    /// The machine would find it malformed. Nothing was done.
    Malformed(DescriptorError),
    /// The runner may not store it there. Nothing was done.
    Store(AccessReason),
    /// Its call is refused. It stands in TX, and else nothing has changed.
    Refused(CallError),
}

impl fmt::Display for SendError {
    fn fmt(&self, to: &mut fmt::Formatter<'_>) -> fmt::Result {
        match self {
            SendError::Malformed(why) => write!(to, "the descriptor is malformed: {why}"),
            SendError::Store(why) => write!(to, "the descriptor can't be stored: {why}"),
            SendError::Refused(why) => why.fmt(to),
        }
    }
}

impl From<DescriptorError> for SendError {
    fn from(why: DescriptorError) -> SendError {
        SendError::Malformed(why)
    }
}

impl From<AccessReason> for SendError {
    fn from(why: AccessReason) -> SendError {
        SendError::Store(why)
    }
}

impl From<CallError> for SendError {
    fn from(why: CallError) -> SendError {
        SendError::Refused(why)
    }
}

#[cfg(feature = "std")]
impl std::error::Error for SendError {
    fn source(&self) -> Option<&(dyn std::error::Error + 'static)> {
        match self {
            SendError::Malformed(why) => Some(why),
            SendError::Store(why) => Some(why),
            SendError::Refused(why) => Some(why),
        }
    }
}

impl<R: Ram> Machine<R> {
    /// Stores a descriptor into TX of the endpoint that runs, and makes its call. `tx` is where its TX begins, and
    /// `form` its form: its version in the manifest, or on a machine of [FF-A 1.2](crate::Ffa::V1_2) the form that it last asked for
    /// by FFA_VERSION.
    ///
    /// ```
    /// # use gorseplumb::*;
    /// # const RAM: u32 = 0x4000_0000;
    /// # const DATA: &[Region] = &[Region::new(RAM + 0x10000, 16, Rights::Rw)];
    /// # const MANIFEST: Manifest = Manifest::new(RAM, 1, &[
    /// #     Endpoint::normal_world(Version::V1_1, Properties::NONE, DATA),
    /// #     Endpoint::partition([1; 16], Version::V1_1, Properties::NONE, &[Region::new(RAM + 0x20000, 16, Rights::Rw)]),
    /// # ]);
    /// const TX: u64 = 0x4001_E000;
    /// let mut machine = Machine::boot(&MANIFEST)?;
    /// machine.call(&Function::RxtxMap.with([TX, TX + 0x1000, 1])).done()?;
    /// let (receivers, ranges) = ([Receiver::rw(Id(0x8001))], [PageRange::new(0x4001_0000, 2)]);
    /// let lend = Offer::new(Kind::Lend, Id::NORMAL_WORLD, &receivers, &ranges);
    /// let answer = machine.send(&lend, TX, Version::V1_1)?;
    /// assert_eq!(answer.handle(), Some(Handle(1)));
    /// let refused = machine.send(&lend, TX, Version::V1_1).unwrap_err();
    /// assert_eq!(
    ///     refused.to_string(),
    ///     "FFA_MEM_LEND is refused: DENIED: check 10: a page does not belong to the caller, or is in an open transaction \
    ///      or a buffer: 40010000 is in the open transaction 0000000000000001",
    /// );
    /// # Ok::<(), Box<dyn std::error::Error>>(())
    /// ```
    ///
    /// # Errors
    /// [`SendError`]. One that is malformed, or can't be stored, changes nothing. One in another form than the endpoint's is
    /// refused by [`Flaw::HeaderAccessSize`](crate::Flaw::HeaderAccessSize).
    pub fn send<D>(&mut self, descriptor: &D, tx: u64, form: Version) -> Result<Answer, SendError>
    where
        D: Descriptor + ?Sized,
    {
        let bytes = descriptor.bytes(form)?;
        self.store_bytes(tx, &bytes)?;
        Ok(self.call_or_why(&call(descriptor.function(), bytes.len()))?)
    }
}

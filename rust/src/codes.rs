// SPDX-License-Identifier: MIT OR Apache-2.0
//! What may go wrong, by number, name and words.
use crate::refusal::Refusal;
use core::fmt;

/// An enum whose variants have the library's numbers, each with its words. It has no `repr`: so errors stay small.
macro_rules! codes {
    ($(#[$about:meta])* pub enum $name:ident: $number:ty { $($code:literal $variant:ident $words:literal,)* }) => {
        $(#[$about])*
        #[derive(Clone, Copy, Debug, PartialEq, Eq, Hash)]
        pub enum $name {
            $(#[doc = $words] $variant = $code,)*
        }

        impl $name {
            /// All of them, in the order in which they are declared.
            pub const ALL: &'static [$name] = &[$($name::$variant),*];

            /// The one with this number, if there is one.
            #[must_use]
            pub const fn of(number: $number) -> Option<$name> {
                match number {
                    $($code => Some($name::$variant),)*
                    _ => None,
                }
            }

            /// Its number in the library's header.
            #[must_use]
            pub const fn number(self) -> $number {
                self as $number
            }

            /// It in words.
            #[must_use]
            pub const fn words(self) -> &'static str {
                match self {
                    $($name::$variant => $words,)*
                }
            }
        }
    };
}
pub(crate) use codes;

codes! {
    /// Why an access is refused. The first three come in this order, and the last two never: each leaf of a table that
    /// the machine writes has the access flag and points into RAM.
    pub enum Fault: u32 {
        1 Translation "translation",
        2 Permission "permission",
        3 Alignment "alignment",
        4 AccessFlag "access-flag",
        5 OutsideRam "outside-ram",
    }
}

impl fmt::Display for Fault {
    fn fmt(&self, to: &mut fmt::Formatter<'_>) -> fmt::Result {
        write!(to, "{} fault", self.words())
    }
}

codes! {
    /// The code in w2 of FFA_ERROR (DEN0077A, 11.2). The library answers NOT_SUPPORTED, INVALID_PARAMETERS, NO_MEMORY,
    /// BUSY and DENIED, and NO_DATA only to FFA_NOTIFICATION_INFO_GET.
    pub enum ErrorCode: i32 {
        -1 NotSupported "NOT_SUPPORTED",
        -2 InvalidParameters "INVALID_PARAMETERS",
        -3 NoMemory "NO_MEMORY",
        -4 Busy "BUSY",
        -5 Interrupted "INTERRUPTED",
        -6 Denied "DENIED",
        -7 Retry "RETRY",
        -8 Aborted "ABORTED",
        -9 NoData "NO_DATA",
    }
}

impl fmt::Display for ErrorCode {
    fn fmt(&self, to: &mut fmt::Formatter<'_>) -> fmt::Result {
        to.write_str(self.words())
    }
}

codes! {
    /// Why a manifest is refused: the first cause that applies, by its number in docs/MANIFEST.md (M2 to M14, and M25).
    pub enum Cause: u32 {
        2 Toml "the text is no TOML, or no UTF-8",
        3 UnknownKey "a table has a key that it may not have",
        4 MissingKey "a table lacks a key",
        5 WrongKind "a value is of another kind, or the rights are unknown",
        6 RamBase "the base of RAM is 0, or no multiple of 2 MiB (in a text, of 64 MiB from 04000000 to FC000000)",
        7 RamBlocks "RAM has no block, or more than 32",
        8 EndpointCount "there is no endpoint, or more than 8",
        9 Uuid "a UUID can't be read, a partition's is zeros, or the normal world's isn't",
        10 Property "a property is unknown, or isn't the version's, or the normal world is to receive",
        11 RegionCount "an endpoint has no region, or more than 16",
        12 RegionOutside "a region isn't whole pages in RAM that are none of the tables', or has none",
        13 RegionOverlap "a region has a page of a region before it",
        14 Version "a version is unknown, or is 1.2 on a machine of FF-A 1.1",
        25 TablesOutside "RAM hasn't all tables from the page on that is told",
    }
}

impl fmt::Display for Cause {
    fn fmt(&self, to: &mut fmt::Formatter<'_>) -> fmt::Result {
        write!(to, "M{} {:?}: {}", self.number(), self, self.words())
    }
}

/// Why there is no machine.
#[derive(Clone, Copy, Debug, PartialEq, Eq, Hash)]
pub enum BootError {
    /// Memory was refused.
    NoMemory,
    /// The manifest describes no machine.
    Refused(Refusal),
    /// The lent pages are more or fewer than the machine's RAM has, 512 for each block.
    WrongCount,
}

impl BootError {
    /// The cause for which the manifest is refused, if it is.
    #[must_use]
    pub const fn cause(self) -> Option<Cause> {
        match self {
            BootError::Refused(refusal) => Some(refusal.cause),
            BootError::NoMemory | BootError::WrongCount => None,
        }
    }
}

impl fmt::Display for BootError {
    fn fmt(&self, to: &mut fmt::Formatter<'_>) -> fmt::Result {
        match self {
            BootError::NoMemory => to.write_str("there is no memory for a machine"),
            BootError::Refused(refusal) => write!(to, "the manifest is refused by {refusal}"),
            BootError::WrongCount => to.write_str("there are more or fewer pages than the machine's RAM has"),
        }
    }
}

#[cfg(feature = "std")]
mod errors {
    use super::{BootError, Cause, ErrorCode, Fault};
    use crate::checks::{Check, Flaw};
    use std::error::Error;

    impl Error for Check {}
    impl Error for Flaw {}
    impl Error for Fault {}
    impl Error for ErrorCode {}
    impl Error for Cause {}

    impl Error for BootError {
        fn source(&self) -> Option<&(dyn Error + 'static)> {
            match self {
                BootError::Refused(refusal) => Some(&refusal.cause),
                BootError::NoMemory | BootError::WrongCount => None,
            }
        }
    }
}

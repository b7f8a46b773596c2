// SPDX-License-Identifier: MIT OR Apache-2.0
//! Why and where a manifest is refused.
use crate::codes::Cause;
use crate::operation::known;
use crate::{raw, Id};
use core::fmt;

/// Why a manifest is refused, and where. It prints as one line.
#[derive(Clone, Copy, Debug, PartialEq, Eq, Hash)]
pub struct Refusal {
    /// The first cause that applies.
    pub cause: Cause,
    /// The endpoint that is refused, where one is.
    pub endpoint: Option<Id>,
    /// Its region, counted from 1, where one is refused.
    pub region: Option<u64>,
    /// Of a text that is no UTF-8 or no TOML the line in which it ceases to be, counted from 1.
    pub line: Option<u64>,
    /// The character in that line, counted from 1.
    pub column: Option<u64>,
}

impl Refusal {
    /// For this cause, where no place is told.
    #[must_use]
    pub const fn new(cause: Cause) -> Refusal {
        Refusal { cause, endpoint: None, region: None, line: None, column: None }
    }

    pub(crate) fn of(told: &raw::Refusal) -> Refusal {
        let from_one = |number| (number != 0).then_some(number);
        Refusal {
            cause: known(Cause::of(told.cause)),
            endpoint: u16::try_from(told.endpoint).ok().map(Id),
            region: from_one(told.region),
            line: from_one(told.line),
            column: from_one(told.column),
        }
    }
}

impl fmt::Display for Refusal {
    fn fmt(&self, to: &mut fmt::Formatter<'_>) -> fmt::Result {
        self.cause.fmt(to)?;
        if let (Some(line), Some(column)) = (self.line, self.column) {
            write!(to, ": line {line}, column {column}")?;
        }
        if let Some(endpoint) = self.endpoint {
            write!(to, ": endpoint {endpoint}")?;
        }
        if let Some(region) = self.region {
            write!(to, ", region {region}")?;
        }
        Ok(())
    }
}

#[cfg(feature = "std")]
impl std::error::Error for Refusal {
    fn source(&self) -> Option<&(dyn std::error::Error + 'static)> {
        Some(&self.cause)
    }
}

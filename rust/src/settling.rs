// SPDX-License-Identifier: MIT OR Apache-2.0
//! What firmware settles while an operation is on its way.
use crate::hexadecimal::shown;
use crate::Id;

/// What is to be settled: when the function that [`settle_by!`](crate::settle_by) names returns, all that the library
/// has stored so far is seen by every processor and every walk of tables, and no processor holds a translation for an
/// address of these pages that came of this endpoint's tables as they were before.
#[derive(Clone, Copy, PartialEq, Eq, Hash)]
pub struct Settling {
    /// Whose tables.
    pub endpoint: Id,
    /// The address of the first page.
    pub address: u64,
    /// The bytes of all pages; 0 where the page at this address was filled with zeros, and no translation is to be
    /// forgotten.
    pub size: u64,
}

shown! { Settling { endpoint, address: hexadecimal, size: hexadecimal } }

/// That of a program in which no processor walks the tables.
#[cfg(feature = "unsettled")]
#[no_mangle]
extern "C" fn gorseplumb_settle(_endpoint: u16, _address: u64, _size: u64) {}

/// Has the library settle what it writes by a function of type `fn(Settling)`, which may not call the library. It
/// defines the `gorseplumb_settle` that the library calls, so the feature `unsettled`, which has one that does nothing,
/// is to be off.
///
/// ```no_run
/// # fn main() {}
/// fn settle(asked: gorseplumb::Settling) {
///     // DSB ISHST, and where `asked.size` isn't 0 a TLBI of each page: docs/CONCURRENCY.md
/// }
///
/// gorseplumb::settle_by!(settle);
/// ```
#[macro_export]
macro_rules! settle_by {
    ($settle:path) => {
        #[no_mangle]
        extern "C" fn gorseplumb_settle(endpoint: u16, address: u64, size: u64) {
            $settle($crate::Settling { endpoint: $crate::Id(endpoint), address, size });
        }
    };
}

// SPDX-License-Identifier: MIT OR Apache-2.0
//! Names that the archive has.
use crate::checks::Check;
use crate::raw;
use core::{slice, str};

/// The number of the declarations by which the archive was built. That of this crate is [`raw::DECLARATIONS`].
#[must_use]
pub fn declarations() -> u32 {
    // SAFETY: it takes nothing.
    unsafe { raw::gorseplumb_declarations() }
}

/// The version of the archive, as `0.1.0`. Of one that was compiled without proofs, by `c/archive --unproved`,
/// ` (not proved)` stands behind it: it is slower and takes more stack, since it keeps its checks.
///
/// ```
/// assert!(gorseplumb::version().starts_with(env!("CARGO_PKG_VERSION")));
/// ```
#[must_use]
pub fn version() -> &'static str {
    // SAFETY: it takes nothing.
    text(unsafe { raw::gorseplumb_version() })
}

/// The name of a call in the standard, by its identifier in w0. None: it is none that is served, on one processor or on
/// several.
///
/// ```
/// assert_eq!(gorseplumb::call_name(0x8400_006D), Some("FFA_RUN"));
/// assert_eq!(gorseplumb::call_name(0x8400_0083), Some("FFA_NOTIFICATION_INFO_GET"));
/// assert_eq!(gorseplumb::call_name(0x8400_008F), None);
/// ```
#[must_use]
pub fn call_name(function: u32) -> Option<&'static str> {
    // SAFETY: it takes a number.
    let name = text(unsafe { raw::gorseplumb_call_name(function) });
    (!name.is_empty()).then_some(name)
}

impl Check {
    /// The number of the check in the manual's list of a call's checks, by the call's identifier in w0. None: it isn't
    /// one of them.
    #[must_use]
    pub fn number_in(self, function: u32) -> Option<u32> {
        // SAFETY: it takes numbers.
        let number = unsafe { raw::gorseplumb_check_number(function, self.number()) };
        (number != 0).then_some(number)
    }
}

/// A text of C's.
fn text(first: *const u8) -> &'static str {
    let mut size = 0;
    // SAFETY: a name is never null, ends with a zero, and stays.
    let bytes = unsafe {
        while *first.add(size) != 0 {
            size += 1;
        }
        slice::from_raw_parts(first, size)
    };
    str::from_utf8(bytes).unwrap_or_default()
}

// SPDX-License-Identifier: MIT OR Apache-2.0
//! Numbers as `Debug` shows them here: addresses, registers, identifiers, handles and the numbers of pages in hexadecimal,
//! as they stand in a program's text.
use core::fmt;

/// A number that is shown so.
pub(crate) struct Hexadecimal<T>(pub T);

impl<T: fmt::UpperHex> fmt::Debug for Hexadecimal<T> {
    fn fmt(&self, to: &mut fmt::Formatter<'_>) -> fmt::Result {
        write!(to, "0x{:X}", self.0)
    }
}

/// Numbers in a list that are shown so.
pub(crate) struct All<'list, T>(pub &'list [T]);

impl<T: fmt::UpperHex> fmt::Debug for All<'_, T> {
    fn fmt(&self, to: &mut fmt::Formatter<'_>) -> fmt::Result {
        to.debug_list().entries(self.0.iter().map(Hexadecimal)).finish()
    }
}

/// An address or a register as the program prints it: in 16 digits where 8 are too few.
pub(crate) struct Long(pub u64);

impl fmt::Display for Long {
    fn fmt(&self, to: &mut fmt::Formatter<'_>) -> fmt::Result {
        let digits = if self.0 > u32::MAX.into() { 16 } else { 8 };
        write!(to, "{:0digits$X}", self.0)
    }
}

/// A bit, an index or a place in a descriptor as the program prints it: in two digits where they are enough.
pub(crate) struct Short(pub u64);

impl fmt::Display for Short {
    fn fmt(&self, to: &mut fmt::Formatter<'_>) -> fmt::Result {
        match self.0 {
            0..=0xFF => write!(to, "{:02X}", self.0),
            0x100..=0xFFFF => write!(to, "{:04X}", self.0),
            _ => Long(self.0).fmt(to),
        }
    }
}

/// `Debug` of a struct, as it is derived, but for the fields with `hexadecimal` behind them, which are shown so.
macro_rules! shown {
    ($name:ident $(<$lifetime:lifetime>)? { $($field:ident $(: $how:ident)?),* }) => {
        impl core::fmt::Debug for $name $(<$lifetime>)? {
            fn fmt(&self, to: &mut core::fmt::Formatter<'_>) -> core::fmt::Result {
                to.debug_struct(stringify!($name))
                    $(.field(stringify!($field), &$crate::hexadecimal::shown!(@ self.$field $(, $how)?)))*
                    .finish()
            }
        }
    };
    (@ $value:expr) => { $value };
    (@ $value:expr, hexadecimal) => { $crate::hexadecimal::Hexadecimal($value) };
}
pub(crate) use shown;

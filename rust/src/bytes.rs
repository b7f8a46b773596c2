// SPDX-License-Identifier: MIT OR Apache-2.0
//! Loads and stores of bytes in a row, of any count and at any address.
use crate::machine::Machine;
use crate::operation::Size;
use crate::ram::{Ram, PAGE_SIZE};
use crate::reasons::AccessReason;

/// The widest access at an address that is aligned there, of so many bytes at most, which aren't none.
fn widest(address: u64, most: usize) -> Size {
    let fits = |size: &Size| address % *size as u64 == 0 && *size as usize <= most;
    [Size::B8, Size::B4, Size::B2].into_iter().find(fits).unwrap_or(Size::B1)
}

impl<R: Ram> Machine<R> {
    /// Loads of the endpoint that runs, which fill these bytes from an address on: as few as there may be, each of them
    /// aligned.
    ///
    /// ```
    /// # use gorseplumb::*;
    /// # const RAM: u32 = 0x4000_0000;
    /// # const WORLD: Endpoint =
    /// #     Endpoint::normal_world(Version::V1_1, Properties::NONE, &[Region::new(RAM + 0x10000, 16, Rights::Rw)]);
    /// # let mut machine = Machine::boot(&Manifest::new(RAM, 1, &[WORLD]))?;
    /// machine.store_bytes(0x4001_0FFD, b"hello")?; // in two pages
    /// let mut word = [0; 5];
    /// machine.load_bytes(0x4001_0FFD, &mut word)?;
    /// assert_eq!(&word, b"hello");
    /// let refused = machine.store_bytes(0x4001_FFFD, b"hello").unwrap_err();
    /// assert_eq!(refused.to_string(), "translation fault at 40020000: the page belongs to the manager");
    /// # Ok::<(), Box<dyn std::error::Error>>(())
    /// ```
    ///
    /// # Errors
    /// The first byte that may not be loaded, and why. The bytes are as they were then.
    pub fn load_bytes(&mut self, address: u64, bytes: &mut [u8]) -> Result<(), AccessReason> {
        reach(address, bytes.len(), |at| self.why_load(at, Size::B1))?;
        let (mut at, mut rest) = (address, bytes);
        while !rest.is_empty() {
            let size = widest(at, rest.len());
            let value = self.load_or_why(at, size)?;
            let (loaded, behind) = rest.split_at_mut(size as usize);
            loaded.copy_from_slice(&value.to_le_bytes()[..size as usize]);
            at += size as u64;
            rest = behind;
        }
        Ok(())
    }

    /// Stores of the endpoint that runs, of these bytes from an address on: as few as there may be, each of them
    /// aligned.
    ///
    /// # Errors
    /// The first byte that may not be stored, and why. Nothing has changed then.
    pub fn store_bytes(&mut self, address: u64, bytes: &[u8]) -> Result<(), AccessReason> {
        reach(address, bytes.len(), |at| self.why_store(at, Size::B1))?;
        let (mut at, mut rest) = (address, bytes);
        while !rest.is_empty() {
            let size = widest(at, rest.len());
            let (stored, behind) = rest.split_at(size as usize);
            let mut value = [0; 8];
            value[..size as usize].copy_from_slice(stored);
            self.store_or_why(at, size, u64::from_le_bytes(value))?;
            at += size as u64;
            rest = behind;
        }
        Ok(())
    }
}

/// Asks in each page that so many bytes from an address on have a part of why its first one may not be reached.
fn reach(address: u64, count: usize, why: impl Fn(u64) -> Option<AccessReason>) -> Result<(), AccessReason> {
    let page = PAGE_SIZE as u64;
    let (mut at, mut left) = (address, count as u64);
    while left > 0 {
        why(at).map_or(Ok(()), Err)?;
        // An address of more than 32 bits is refused, so that none wraps.
        let here = left.min(page - at % page);
        at += here;
        left -= here;
    }
    Ok(())
}

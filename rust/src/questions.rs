// SPDX-License-Identifier: MIT OR Apache-2.0
//! What a machine is asked. No question changes anything.
use crate::machine::Machine;
use crate::manifest::Rights;
use crate::ram::{Page, Ram};
use crate::{raw, Id};

// SAFETY, of each question: the machine is live, no other call on it is on its way, since no other thread has it and
// nothing is called back, and what is written to is borrowed for that.
impl<R: Ram> Machine<R> {
    /// The endpoint that runs on the selected processor.
    #[inline]
    #[must_use]
    pub fn runner(&self) -> Id {
        Id(unsafe { raw::gorseplumb_runner(self.asked()) } as u16)
    }

    /// The endpoints, in the manifest's order: the normal world, and the partitions.
    pub fn endpoints(&self) -> impl ExactSizeIterator<Item = Id> {
        let count = unsafe { raw::gorseplumb_endpoints(self.asked()) };
        (0..count as u16).map(Id::at)
    }

    /// Who owns a page, which counts from RAM's first: an endpoint, or [`Id::MANAGER`]. None: RAM has no such page.
    #[inline]
    #[must_use]
    pub fn owner(&self, page: u32) -> Option<Id> {
        let owner = unsafe { raw::gorseplumb_owner(self.asked(), page) };
        (owner != raw::NOTHING).then_some(Id(owner as u16))
    }

    /// What an endpoint may do with a page. None: nothing, or there is no such endpoint or page.
    #[inline]
    #[must_use]
    pub fn access(&self, endpoint: Id, page: u32) -> Option<Rights> {
        Rights::of(unsafe { raw::gorseplumb_access(self.asked(), endpoint.0, page) })
    }

    /// Whether an endpoint has a notification pending, which its next FFA_NOTIFICATION_GET of all classes would give
    /// it.
    #[inline]
    #[must_use]
    pub fn npi_pending(&self, endpoint: Id) -> bool {
        unsafe { raw::gorseplumb_npi_pending(self.asked(), endpoint.0) }
    }

    /// Whether the normal world's schedule receiver interrupt is to be pending: its next FFA_NOTIFICATION_INFO_GET would
    /// name an endpoint. Always false on a machine of [FF-A 1.1](crate::Ffa::V1_1), which does not serve that call.
    #[inline]
    #[must_use]
    pub fn sri_pending(&self) -> bool {
        unsafe { raw::gorseplumb_sri_pending(self.asked()) }
    }

    /// Copies the bytes of a page of RAM, whoever may reach it: whether there is such a page. Else `bytes` stay.
    #[must_use]
    pub fn read_page(&self, page: u32, bytes: &mut Page) -> bool {
        unsafe { raw::gorseplumb_read_page(self.asked(), page, bytes) }
    }
}

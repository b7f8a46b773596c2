// SPDX-License-Identifier: MIT OR Apache-2.0
//! What a machine's tables give, as a certificate that anybody can have checked.
use crate::hexadecimal::Hexadecimal;
use crate::machine::Machine;
use crate::manifest::Rights;
use crate::operation::known;
use crate::ram::{Lent, Ram};
use crate::{raw, Handle, Id};
use core::fmt;
use core::iter;

/// By what an endpoint has its access to a page.
#[derive(Clone, Copy, PartialEq, Eq, Hash)]
pub enum Grant {
    /// It owns the page.
    Own,
    /// It owns the page, and shares it by the open transaction of this handle.
    Shared(Handle),
    /// It holds the open transaction of this handle.
    Held(Handle),
}

impl fmt::Debug for Grant {
    fn fmt(&self, to: &mut fmt::Formatter<'_>) -> fmt::Result {
        match self {
            Grant::Own => to.write_str("Own"),
            Grant::Shared(handle) => to.debug_tuple("Shared").field(handle).finish(),
            Grant::Held(handle) => to.debug_tuple("Held").field(handle).finish(),
        }
    }
}

/// A run of pages that have one owner, one open transaction or none, and one access of each endpoint.
#[derive(Clone, Copy, PartialEq, Eq)]
#[repr(transparent)]
pub struct PageRun(raw::CertRun);

impl PageRun {
    const NONE: PageRun = PageRun(raw::CertRun {
        first: 0,
        last: 0,
        owner: 0,
        has_handle: 0,
        handle: 0,
        access: [0; raw::MOST_ENDPOINTS],
    });

    /// The run of these pages, both counted from RAM's first, with the access of each endpoint in the manifest's order.
    /// Of more than [`MOST_ENDPOINTS`](crate::MOST_ENDPOINTS) there is none.
    #[must_use]
    pub fn new(
        first: u32,
        last: u32,
        owner: Id,
        transaction: Option<Handle>,
        access: &[Option<Rights>],
    ) -> Option<PageRun> {
        let mut run = PageRun::NONE;
        for (place, rights) in access.iter().enumerate() {
            *run.0.access.get_mut(place)? = rights.map_or(0, |rights| rights as u32);
        }
        run.0.first = first;
        run.0.last = last;
        run.0.owner = owner.0.into();
        run.0.has_handle = transaction.is_some().into();
        run.0.handle = transaction.map_or(0, |handle| handle.0);
        Some(run)
    }

    /// Its first page, counted from RAM's first.
    #[must_use]
    pub fn first(&self) -> u32 {
        self.0.first
    }

    /// Its last page.
    #[must_use]
    pub fn last(&self) -> u32 {
        self.0.last
    }

    /// Who owns its pages.
    #[must_use]
    pub fn owner(&self) -> Id {
        Id(self.0.owner as u16)
    }

    /// The handle of the open transaction in which they stand.
    #[must_use]
    pub fn transaction(&self) -> Option<Handle> {
        (self.0.has_handle != 0).then_some(Handle(self.0.handle))
    }

    /// What the endpoint at a place in the manifest, from 0, may do with them.
    #[must_use]
    pub fn access(&self, place: usize) -> Option<Rights> {
        Rights::of(*self.0.access.get(place)?)
    }
}

impl fmt::Debug for PageRun {
    fn fmt(&self, to: &mut fmt::Formatter<'_>) -> fmt::Result {
        to.debug_struct("PageRun")
            .field("first", &Hexadecimal(self.first()))
            .field("last", &Hexadecimal(self.last()))
            .field("owner", &self.owner())
            .field("transaction", &self.transaction())
            .field("access", &self.0.access.map(Rights::of))
            .finish()
    }
}

/// Why tables are not what runs say of them.
#[derive(Clone, Copy, Debug, PartialEq, Eq, Hash)]
pub enum AuditError {
    /// Memory was refused, of which a check takes some for a copy of the runs.
    NoMemory,
    /// The tables don't give what the runs say.
    NotCertified,
    /// RAM of so many pages can't begin at this address.
    BadBase,
    /// There are more roots than endpoints may be, or one is at no page of RAM.
    BadRoots,
}

impl fmt::Display for AuditError {
    fn fmt(&self, to: &mut fmt::Formatter<'_>) -> fmt::Result {
        to.write_str(match self {
            AuditError::NoMemory => "there is no memory for a copy of the runs",
            AuditError::NotCertified => "the tables don't give what the runs say",
            AuditError::BadBase => "RAM of so many pages can't begin at this address",
            AuditError::BadRoots => "there are more roots than endpoints may be, or one is at no page of RAM",
        })
    }
}

#[cfg(feature = "std")]
impl std::error::Error for AuditError {}

fn audited(answer: u32) -> Result<(), AuditError> {
    match answer {
        raw::OK => Ok(()),
        raw::NO_MEMORY => Err(AuditError::NoMemory),
        raw::NOT_CERTIFIED => Err(AuditError::NotCertified),
        raw::BAD_BASE => Err(AuditError::BadBase),
        other => known((other == raw::BAD_ROOTS).then_some(Err(AuditError::BadRoots))),
    }
}

// SAFETY, of each function: as of the other questions; and of runs C has the struct that a `PageRun` is.
impl<R: Ram> Machine<R> {
    /// The address of RAM's first byte.
    #[must_use]
    pub fn ram_base(&self) -> u32 {
        unsafe { raw::gorseplumb_ram_base(self.asked()) }
    }

    /// How many blocks of 2 MiB RAM has.
    #[must_use]
    pub fn ram_blocks(&self) -> u32 {
        unsafe { raw::gorseplumb_ram_blocks(self.asked()) }
    }

    /// The address of an endpoint's level 1 table, which VTTBR_EL2 takes. None: there is no such endpoint.
    #[must_use]
    pub fn root(&self, endpoint: Id) -> Option<u32> {
        let root = unsafe { raw::gorseplumb_root(self.asked(), endpoint.0) };
        (root != raw::NOTHING).then_some(root)
    }

    /// By what an endpoint has its access to a page. None: it has none.
    #[must_use]
    pub fn granted(&self, endpoint: Id, page: u32) -> Option<Grant> {
        let grant = unsafe { raw::gorseplumb_granted(self.asked(), endpoint.0, page) };
        match grant.kind {
            raw::GRANT_OWN => Some(Grant::Own),
            raw::GRANT_SHARED => Some(Grant::Shared(Handle(grant.handle))),
            raw::GRANT_HELD => Some(Grant::Held(Handle(grant.handle))),
            _ => None,
        }
    }

    /// The longest run from a page on. None: RAM has no such page.
    #[must_use]
    pub fn run_from(&self, page: u32) -> Option<PageRun> {
        let mut run = PageRun::NONE;
        unsafe { raw::gorseplumb_cert_run(self.asked(), page, &mut run.0) }.then_some(run)
    }

    /// All runs, from RAM's first page to its last: the machine's certificate.
    ///
    /// ```
    /// # use gorseplumb::*;
    /// # const RAM: u32 = 0x4000_0000;
    /// # const WORLD: Endpoint =
    /// #     Endpoint::normal_world(Version::V1_1, Properties::NONE, &[Region::new(RAM + 0x10000, 16, Rights::Rw)]);
    /// let machine = Machine::boot(&Manifest::new(RAM, 1, &[WORLD]))?;
    /// let runs: Vec<PageRun> = machine.certificate().collect();
    /// assert_eq!((runs[1].first(), runs[1].last(), runs[1].access(0)), (16, 31, Some(Rights::Rw)));
    /// assert_eq!(machine.audit(&runs), Ok(()));
    /// assert_eq!(machine.audit(&runs[1..]), Err(AuditError::NotCertified));
    /// # Ok::<(), BootError>(())
    /// ```
    pub fn certificate(&self) -> impl Iterator<Item = PageRun> + '_ {
        iter::successors(self.run_from(0), |run| self.run_from(run.last() + 1))
    }

    /// Whether runs are a certificate that the machine's tables give. It is proved that its own is one.
    ///
    /// # Errors
    /// [`AuditError::NotCertified`], or [`AuditError::NoMemory`].
    pub fn audit(&self, runs: &[PageRun]) -> Result<(), AuditError> {
        audited(unsafe { raw::gorseplumb_audit(self.asked(), runs.as_ptr().cast(), runs.len()) })
    }
}

impl Lent<'_> {
    /// The checker alone, for who trusts no manager: whether the tables from level 1 tables at `roots`, in RAM that is
    /// these pages and begins at `base`, give what the runs say. No byte changes.
    ///
    /// # Errors
    /// [`AuditError`].
    pub fn audit_tables(&mut self, base: u32, roots: &[u32], runs: &[PageRun]) -> Result<(), AuditError> {
        let (first_root, first_run) = (roots.as_ptr(), runs.as_ptr().cast());
        // SAFETY: the list is borrowed for this one call, and roots and runs are as many as is said.
        audited(unsafe {
            raw::gorseplumb_audit_tables(self.raw(), base, first_root, roots.len(), first_run, runs.len())
        })
    }
}

// SPDX-License-Identifier: MIT OR Apache-2.0
//! A manifest as numbers, which a program can have as a constant.
use crate::hexadecimal::Hexadecimal;
use crate::raw;
use core::fmt;
use core::ops::BitOr;

pub use crate::raw::{MOST_BLOCKS, MOST_ENDPOINTS, MOST_REGIONS};

/// What an endpoint may do with a page.
#[derive(Clone, Copy, Debug, PartialEq, Eq, Hash)]
#[repr(u32)]
pub enum Rights {
    /// Load.
    Ro = 1,
    /// Load and store.
    Rw = 3,
    /// Load and fetch.
    Rox = 5,
    /// Load, store and fetch.
    Rwx = 7,
}

impl Rights {
    pub(crate) const fn of(number: u32) -> Option<Rights> {
        match number {
            1 => Some(Rights::Ro),
            3 => Some(Rights::Rw),
            5 => Some(Rights::Rox),
            7 => Some(Rights::Rwx),
            _ => None,
        }
    }
}

/// The rights as `show` prints them: `r--`, `rw-`, `r-x` or `rwx`.
impl fmt::Display for Rights {
    fn fmt(&self, to: &mut fmt::Formatter<'_>) -> fmt::Result {
        to.write_str(match self {
            Rights::Ro => "r--",
            Rights::Rw => "rw-",
            Rights::Rox => "r-x",
            Rights::Rwx => "rwx",
        })
    }
}

/// Pages in a row that an endpoint owns from the start.
#[derive(Clone, Copy, PartialEq, Eq)]
#[repr(transparent)]
pub struct Region(raw::Region);

impl fmt::Debug for Region {
    fn fmt(&self, to: &mut fmt::Formatter<'_>) -> fmt::Result {
        let raw::Region { base, pages, rights } = self.0;
        let mut shown = to.debug_struct("Region");
        shown.field("base", &Hexadecimal(base)).field("pages", &pages);
        match Rights::of(rights) {
            Some(rights) => shown.field("rights", &rights).finish(),
            None => shown.field("rights", &rights).finish(),
        }
    }
}

impl Region {
    const NONE: Region = Region(raw::Region { base: 0, pages: 0, rights: 0 });

    /// So many pages from this address on.
    #[must_use]
    pub const fn new(base: u32, pages: u32, rights: Rights) -> Region {
        Region(raw::Region { base, pages, rights: rights as u32 })
    }
}

/// The form in which an endpoint writes and reads descriptors. On a machine of [FF-A 1.2](Ffa::V1_2) an endpoint changes its form
/// by FFA_VERSION: minor version 0 is the compact form, 1 is [`V1_1`](Version::V1_1), and each greater one is
/// [`V1_2`](Version::V1_2).
#[derive(Clone, Copy, Debug, PartialEq, Eq, Hash)]
#[repr(u32)]
pub enum Version {
    /// That of FF-A 1.1.
    V1_1 = 0,
    /// The compact form.
    Compact = 1,
    /// That of FF-A 1.2, whose access descriptors have 32 bytes. Only a machine of [FF-A 1.2](Ffa::V1_2) has such an endpoint: any
    /// other is refused by [`Cause::Version`](crate::Cause::Version).
    V1_2 = 2,
}

impl Version {
    /// The form of this number, which a manifest has.
    const fn of(number: u32) -> Version {
        match number {
            0 => Version::V1_1,
            1 => Version::Compact,
            _ => Version::V1_2,
        }
    }
}

/// What an endpoint takes part in: some of six, joined by `|` or, in a constant, by [`Properties::union`].
#[derive(Clone, Copy, Debug, PartialEq, Eq, Hash)]
pub struct Properties(u32);

impl Properties {
    /// Nothing.
    pub const NONE: Properties = Properties(0);
    /// It receives direct requests, which the normal world may not.
    pub const RECEIVES_REQUESTS: Properties = Properties(1);
    /// It sends direct requests.
    pub const SENDS_REQUESTS: Properties = Properties(2);
    /// It sends and receives indirect messages.
    pub const INDIRECT_MESSAGES: Properties = Properties(4);
    /// It receives notifications, which the normal world may not by its manifest.
    pub const NOTIFICATIONS: Properties = Properties(8);
    /// It receives second direct requests, which only a partition of [`Version::V1_2`] may.
    pub const RECEIVES_SECOND_REQUESTS: Properties = Properties(0x200);
    /// It sends second direct requests, which only a partition of [`Version::V1_2`] may.
    pub const SENDS_SECOND_REQUESTS: Properties = Properties(0x400);
    /// All four that a partition of any version may have.
    pub const ALL: Properties = Properties(15);

    /// These and others.
    #[must_use]
    pub const fn union(self, others: Properties) -> Properties {
        Properties(self.0 | others.0)
    }
}

impl BitOr for Properties {
    type Output = Properties;

    fn bitor(self, others: Properties) -> Properties {
        self.union(others)
    }
}

/// Why a manifest of numbers can't be written down.
#[derive(Clone, Copy, Debug, PartialEq, Eq, Hash)]
pub enum CountError {
    /// RAM has no block, or more than [`MOST_BLOCKS`].
    Blocks,
    /// There is no endpoint, or there are more than [`MOST_ENDPOINTS`].
    Endpoints,
    /// An endpoint has no region, or more than [`MOST_REGIONS`].
    Regions,
}

impl CountError {
    const fn words(self) -> &'static str {
        match self {
            CountError::Blocks => "RAM has no block, or more than it may have",
            CountError::Endpoints => "a machine has no endpoint, or more than it may have",
            CountError::Regions => "an endpoint has no region, or more than it may have",
        }
    }
}

impl fmt::Display for CountError {
    fn fmt(&self, to: &mut fmt::Formatter<'_>) -> fmt::Result {
        to.write_str(self.words())
    }
}

#[cfg(feature = "std")]
impl std::error::Error for CountError {}

/// An endpoint of a machine.
#[derive(Clone, Copy, PartialEq, Eq)]
#[repr(transparent)]
pub struct Endpoint(raw::Endpoint);

/// Without the places that hold no region.
impl fmt::Debug for Endpoint {
    fn fmt(&self, to: &mut fmt::Formatter<'_>) -> fmt::Result {
        let raw::Endpoint { version, properties, uuid, region_count, ref regions } = self.0;
        to.debug_struct("Endpoint")
            .field("version", &Version::of(version))
            .field("properties", &Properties(properties))
            .field("uuid", &Hexadecimal(u128::from_be_bytes(uuid)))
            .field("regions", &First(regions, region_count, Region))
            .finish()
    }
}

/// The first of some places, for `Debug`: as many as is told, each as what shows it.
struct First<'list, T, U>(&'list [T], u32, fn(T) -> U);

impl<T: Copy, U: fmt::Debug> fmt::Debug for First<'_, T, U> {
    fn fmt(&self, to: &mut fmt::Formatter<'_>) -> fmt::Result {
        to.debug_list().entries(self.0.iter().take(self.1 as usize).map(|place| self.2(*place))).finish()
    }
}

impl Endpoint {
    const NONE: Endpoint = Endpoint(raw::Endpoint {
        version: 0,
        properties: 0,
        uuid: [0; 16],
        region_count: 0,
        regions: [Region::NONE.0; MOST_REGIONS],
    });

    /// The first endpoint, whose UUID is zeros. Panics, which a constant tells when it is compiled, where there is no
    /// region or more than [`MOST_REGIONS`].
    ///
    /// ```compile_fail,E0080
    /// # use gorseplumb::*;
    /// const OWNS_NOTHING: Endpoint = Endpoint::normal_world(Version::V1_1, Properties::NONE, &[]);
    /// # let _ = OWNS_NOTHING;
    /// ```
    #[must_use]
    pub const fn normal_world(version: Version, properties: Properties, regions: &[Region]) -> Endpoint {
        Endpoint::partition([0; 16], version, properties, regions)
    }

    /// A partition with the sixteen bytes of its UUID. Panics as [`Endpoint::normal_world`] does.
    #[must_use]
    pub const fn partition(uuid: [u8; 16], version: Version, properties: Properties, regions: &[Region]) -> Endpoint {
        match Endpoint::try_new(uuid, version, properties, regions) {
            Ok(endpoint) => endpoint,
            Err(_) => panic!("an endpoint has no region, or more than it may have"),
        }
    }

    /// The same, but with an error in place of a panic, for counts that aren't known when the program is compiled.
    ///
    /// # Errors
    /// [`CountError::Regions`].
    pub const fn try_new(
        uuid: [u8; 16],
        version: Version,
        properties: Properties,
        regions: &[Region],
    ) -> Result<Endpoint, CountError> {
        if regions.is_empty() || regions.len() > MOST_REGIONS {
            return Err(CountError::Regions);
        }
        let mut endpoint = Endpoint::NONE.0;
        endpoint.version = version as u32;
        endpoint.properties = properties.0;
        endpoint.uuid = uuid;
        endpoint.region_count = regions.len() as u32;
        let mut place = 0;
        while place < regions.len() {
            endpoint.regions[place] = regions[place].0;
            place += 1;
        }
        Ok(Endpoint(endpoint))
    }
}

/// The version of FF-A that a machine serves, from its boot on.
#[derive(Clone, Copy, Debug, Default, PartialEq, Eq, Hash)]
#[repr(u32)]
pub enum Ffa {
    /// FF-A 1.1. All memory is alike.
    #[default]
    V1_1 = raw::FFA_1_1,
    /// FF-A 1.2. Memory of the normal world's regions is non-secure, and who retrieves it is told so. All other memory is
    /// secure, and can't be sent to the normal world. An endpoint may have the form [`Version::V1_2`].
    V1_2 = raw::FFA_1_2,
}

/// A manifest as numbers. Its counts are those that there may be; whether it describes a machine, a boot says.
#[derive(Clone, Copy, PartialEq, Eq)]
#[repr(transparent)]
pub struct Manifest(raw::Manifest);

/// Without the places that hold no endpoint.
impl fmt::Debug for Manifest {
    fn fmt(&self, to: &mut fmt::Formatter<'_>) -> fmt::Result {
        let raw::Manifest { ram_base, ram_blocks, endpoint_count, ref endpoints, .. } = self.0;
        to.debug_struct("Manifest")
            .field("ram_base", &Hexadecimal(ram_base))
            .field("ram_blocks", &ram_blocks)
            .field("endpoints", &First(endpoints, endpoint_count, Endpoint))
            .field("ffa", &self.ffa())
            .field("tables", &self.tables())
            .finish()
    }
}

impl Manifest {
    pub(crate) const EMPTY: Manifest = Manifest(raw::Manifest {
        ram_base: 0,
        ram_blocks: 0,
        endpoint_count: 0,
        endpoints: [Endpoint::NONE.0; MOST_ENDPOINTS],
        ffa: Ffa::V1_1 as u32,
        tables: 0,
    });

    /// So many blocks of 2 MiB from this address on, and these endpoints, the normal world first. Panics, which a
    /// constant tells when it is compiled, where there is no block, more than [`MOST_BLOCKS`], no endpoint, or more
    /// than [`MOST_ENDPOINTS`].
    ///
    /// ```compile_fail,E0080
    /// # use gorseplumb::*;
    /// const NOBODY: Manifest = Manifest::new(0x4000_0000, 1, &[]);
    /// # let _ = NOBODY;
    /// ```
    #[must_use]
    pub const fn new(ram_base: u32, ram_blocks: u32, endpoints: &[Endpoint]) -> Manifest {
        match Manifest::try_new(ram_base, ram_blocks, endpoints) {
            Ok(manifest) => manifest,
            Err(CountError::Blocks) => panic!("RAM has no block, or more than it may have"),
            Err(_) => panic!("a machine has no endpoint, or more than it may have"),
        }
    }

    /// The same, but with an error in place of a panic, for counts that aren't known when the program is compiled.
    ///
    /// # Errors
    /// [`CountError::Blocks`], and then [`CountError::Endpoints`].
    pub const fn try_new(ram_base: u32, ram_blocks: u32, endpoints: &[Endpoint]) -> Result<Manifest, CountError> {
        if ram_blocks == 0 || ram_blocks > MOST_BLOCKS {
            return Err(CountError::Blocks);
        }
        if endpoints.is_empty() || endpoints.len() > MOST_ENDPOINTS {
            return Err(CountError::Endpoints);
        }
        let mut manifest = Manifest::EMPTY.0;
        manifest.ram_base = ram_base;
        manifest.ram_blocks = ram_blocks;
        manifest.endpoint_count = endpoints.len() as u32;
        let mut place = 0;
        while place < endpoints.len() {
            manifest.endpoints[place] = endpoints[place].0;
            place += 1;
        }
        Ok(Manifest(manifest))
    }

    /// The same, whose machine serves this version of FF-A. The text of a manifest can't say it, and one that
    /// [was read](Manifest::read) has [`Ffa::V1_1`].
    #[must_use]
    pub const fn with_ffa(self, ffa: Ffa) -> Manifest {
        let mut manifest = self.0;
        manifest.ffa = ffa as u32;
        Manifest(manifest)
    }

    /// The version of FF-A that its machine serves.
    #[must_use]
    pub const fn ffa(&self) -> Ffa {
        match self.0.ffa {
            raw::FFA_1_1 => Ffa::V1_1,
            _ => Ffa::V1_2,
        }
    }

    /// The same, whose endpoints' tables begin at this page of RAM, and not at its first, which is 0: 2 pages and one for each
    /// block of RAM for each endpoint, in a row. Regions may lie before them and behind. No text says this either.
    #[must_use]
    pub const fn with_tables(self, page: u32) -> Manifest {
        let mut manifest = self.0;
        manifest.tables = page;
        Manifest(manifest)
    }

    /// The first page of its tables, counted from RAM's first.
    #[must_use]
    pub const fn tables(&self) -> u32 {
        self.0.tables
    }

    /// How many pages its RAM has.
    #[must_use]
    pub const fn pages(&self) -> usize {
        self.0.ram_blocks as usize * 512
    }

    pub(crate) const fn raw(&self) -> &raw::Manifest {
        &self.0
    }

    pub(crate) fn raw_mut(&mut self) -> &mut raw::Manifest {
        &mut self.0
    }
}

// SPDX-License-Identifier: MIT OR Apache-2.0
//! The manifests of examples/, as numbers.
use gorseplumb::{Endpoint, Manifest, Properties, Region, Rights, Version};

const RAM: u32 = super::RAM as u32;
const FIRST: [u8; 16] = 0x00112233_4455_6677_8899_aabbccddeeff_u128.to_be_bytes();
const SECOND: [u8; 16] = 0x10112233_4455_6677_8899_aabbccddeeff_u128.to_be_bytes();
const MESSAGES: Properties = Properties::SENDS_REQUESTS.union(Properties::INDIRECT_MESSAGES);

/// The normal world, which sends direct requests and takes part in indirect messages.
pub const WORLD: Endpoint =
    Endpoint::normal_world(Version::V1_1, MESSAGES, &[Region::new(RAM + 0x10000, 16, Rights::Rw)]);

/// examples/machine.toml.
pub const MACHINE: Manifest = Manifest::new(
    RAM,
    1,
    &[
        WORLD,
        Endpoint::partition(FIRST, Version::V1_1, Properties::ALL, &[Region::new(RAM + 0x20000, 16, Rights::Rwx)]),
        Endpoint::partition(SECOND, Version::V1_1, Properties::ALL, &[Region::new(RAM + 0x30000, 16, Rights::Rw)]),
    ],
);

/// examples/partitions.toml.
pub const PARTITIONS: Manifest = Manifest::new(
    RAM,
    2,
    &[
        WORLD,
        Endpoint::partition(
            FIRST,
            Version::V1_1,
            MESSAGES.union(Properties::RECEIVES_REQUESTS),
            &[Region::new(RAM + 0x20000, 8, Rights::Rox), Region::new(RAM + 0x28000, 8, Rights::Rw)],
        ),
        Endpoint::partition(
            SECOND,
            Version::V1_1,
            Properties::RECEIVES_REQUESTS.union(Properties::INDIRECT_MESSAGES),
            &[Region::new(RAM + 0x20_0000, 8, Rights::Rwx), Region::new(RAM + 0x20_8000, 8, Rights::Ro)],
        ),
    ],
);

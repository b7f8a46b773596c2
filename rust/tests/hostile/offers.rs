// SPDX-License-Identifier: MIT OR Apache-2.0
//! Good descriptors, as the words that the tests store into TX.

/// 8001 lends the page at 40021000 to 8002, which may write it.
pub const LEND: [u64; 12] = [0x8001, 0, 0, 0x1_0000_0010, 0x30, 0, 0x40_0002_8002, 0, 0x1_0000_0001, 0, 0x4002_1000, 1];

/// 8001 shares the page at 40022000 with 0 and 8002, which may read it.
pub const SHARE: [u64; 14] =
    [0x2F_8001, 0, 0, 0x2_0000_0010, 0x30, 0, 0x50_0001_0000, 0, 0x50_0001_8002, 0, 0x1_0000_0001, 0, 0x4002_2000, 1];

/// 8002 donates the page at 40031000 to 8001.
pub const DONATE: [u64; 12] =
    [0x8002, 0, 0, 0x1_0000_0010, 0x30, 0, 0x40_0000_8001, 0, 0x1_0000_0001, 0, 0x4003_1000, 1];

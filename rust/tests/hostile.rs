// SPDX-License-Identifier: MIT OR Apache-2.0
//! Hostile registers, buffers and descriptors in calls that read TX: FFA_MEM_DONATE, FFA_MEM_LEND, FFA_MEM_SHARE,
//! FFA_MEM_RETRIEVE_REQ, FFA_MEM_RELINQUISH and FFA_MSG_SEND2.
//!
//! The tests change one field or one register of a good call at a time, and try each length of a descriptor. Then they
//! change places and counts. They compare all registers of each answer with those of an oracle. The oracle reads
//! registers and bytes slowly, one condition after another, and uses nothing of the crate. The answers of some more
//! cases are worked out by hand.
mod common;

/// The oracle: which bytes are a descriptor.
#[path = "hostile/descriptors.rs"]
mod descriptors;

/// The oracle: how each call is answered.
#[path = "hostile/answers.rs"]
mod answers;

/// The machines, and the bytes that the tests wrote into TX.
#[path = "hostile/stage.rs"]
mod stage;

/// Good descriptors.
#[path = "hostile/offers.rs"]
mod offers;

/// Each field of each descriptor, and each register.
#[path = "hostile/fields.rs"]
mod fields;

/// Each length of a descriptor.
#[path = "hostile/lengths.rs"]
mod lengths;

/// Parts at other places, other counts of them, and other transactions.
#[path = "hostile/shapes.rs"]
mod shapes;

/// Cases whose answers are worked out by hand.
#[path = "hostile/cases.rs"]
mod cases;

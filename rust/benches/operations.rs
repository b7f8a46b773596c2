// SPDX-License-Identifier: MIT OR Apache-2.0
//! Nanoseconds of a call, an access and a question: the best of some turns. `operations.c` does the same from C.
use gorseplumb::{registers, Endpoint, Machine, Manifest, Properties, Region, Rights, Size, Version};
use std::time::Instant;

const RAM: u32 = 0x4000_0000;
const MANIFEST: Manifest = Manifest::new(
    RAM,
    1,
    &[
        Endpoint::normal_world(
            Version::V1_1,
            Properties::SENDS_REQUESTS,
            &[Region::new(RAM + 0x10000, 16, Rights::Rwx)],
        ),
        Endpoint::partition(
            [1; 16],
            Version::V1_1,
            Properties::RECEIVES_REQUESTS,
            &[Region::new(RAM + 0x20000, 16, Rights::Rw)],
        ),
    ],
);
const PLACE: u64 = 0x4001_0000;
const TURNS: u32 = 20;

/// Prints the nanoseconds of an operation, of which each turn does so many.
fn measure(name: &str, count: u32, mut operation: impl FnMut()) {
    let mut best = f64::INFINITY;
    for _ in 0..TURNS {
        let began = Instant::now();
        for _ in 0..count {
            operation();
        }
        best = best.min(began.elapsed().as_secs_f64() / f64::from(count));
    }
    println!("{name}: {:.1} ns", best * 1e9);
}

fn main() {
    let mut machine = Machine::boot(&MANIFEST).expect("a machine");
    let id_get = registers([0x8400_0069]);
    measure("call", 1_000_000, || assert_eq!(machine.call(&id_get).registers().unwrap()[0], 0x8400_0061));
    measure("load", 1_000_000, || assert_eq!(machine.load(PLACE, Size::B8), Ok(0)));
    measure("store", 1_000_000, || assert_eq!(machine.store(PLACE + 8, Size::B8, 42), Ok(())));
    measure("fetch", 1_000_000, || assert_eq!(machine.fetch(PLACE), Ok(0)));
    measure("runner", 1_000_000, || assert_eq!(machine.runner().0, 0));
    measure("boot", 200, || assert_eq!(Machine::boot(&MANIFEST).expect("a machine").runner().0, 0));
}

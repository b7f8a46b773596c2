// SPDX-License-Identifier: MIT OR Apache-2.0
//! Boots a machine in pages of this program, lets the normal world store a byte, runs the partition, and finds the
//! byte in its page. docs/RUST.md has this program too.
use gorseplumb::{Endpoint, Function, Machine, Manifest, Page, Properties, Region, Rights, Size, Version};
use std::error::Error;

const RAM: u32 = 0x4000_0000;
const DATA: Region = Region::new(RAM + 0x10000, 16, Rights::Rw);
const IMAGE: Region = Region::new(RAM + 0x20000, 16, Rights::Rwx);
const MANIFEST: Manifest = Manifest::new(
    RAM,
    1, // block of 2 MiB
    &[
        Endpoint::normal_world(Version::V1_1, Properties::SENDS_REQUESTS, &[DATA]),
        Endpoint::partition([1; 16], Version::V1_1, Properties::ALL, &[IMAGE]),
    ],
);

fn main() -> Result<(), Box<dyn Error>> {
    let mut ram = vec![Page::ZERO; MANIFEST.pages()];
    let mut machine = Machine::boot_lent(&MANIFEST, &mut ram)?;
    machine.store(0x4001_0000, Size::B1, 42)?;
    let answer = machine.call(&Function::Run.with([0x8001_0000])).done()?;
    println!("{} runs", answer.runner()); // 8001 runs
    println!("{:?}", machine.load(0x4001_0000, Size::B1)); // Err(Translation)
    drop(machine);
    println!("{}", ram[16].0[0]); // 42
    Ok(())
}

// SPDX-License-Identifier: MIT OR Apache-2.0
//! Bytes in a row are what single loads and stores of them are, or nothing at all.
mod common;

use common::machines::{MACHINE, PARTITIONS};
use gorseplumb::{registers, AccessReason, Fault, Id, Machine, Obstacle, Page, Size};

const FIRST: u64 = 0x4001_0000;
const BEHIND: u64 = 0x4002_0000;

/// Bytes that differ from their neighbours, and from those of another seed.
fn pattern(count: usize, seed: usize) -> Vec<u8> {
    (0..count).map(|place| (place * 7 + seed) as u8).collect()
}

#[test]
fn each_count_at_each_place() {
    let (mut machine, mut single) = (Machine::boot(&MACHINE).unwrap(), Machine::boot(&MACHINE).unwrap());
    for place in (0..9).chain(4080..4097) {
        for count in (0..33).chain([4096, 8191]) {
            let (address, bytes) = (FIRST + place, pattern(count, place as usize));
            machine.store_bytes(address, &bytes).unwrap();
            for (byte, at) in bytes.iter().zip(address..) {
                single.store(at, Size::B1, (*byte).into()).unwrap();
            }
            let mut loaded = vec![0; count];
            machine.load_bytes(address, &mut loaded).unwrap();
            assert_eq!(loaded, bytes, "{count} at {address:X}");
        }
    }
    let (mut page, mut expected) = (Page::ZERO, Page::ZERO);
    for number in 0..512 {
        assert!(machine.read_page(number, &mut page) && single.read_page(number, &mut expected));
        assert!(page == expected, "page {number}");
    }
}

/// A store that is refused, and a load.
fn refused(machine: &mut Machine, address: u64, count: usize) -> [AccessReason; 2] {
    let stored = machine.store_bytes(address, &pattern(count, 3)).unwrap_err();
    let mut bytes = pattern(count, 5);
    let loaded = machine.load_bytes(address, &mut bytes).unwrap_err();
    assert_eq!(bytes, pattern(count, 5));
    [stored, loaded]
}

#[test]
fn all_or_nothing() {
    let mut machine = Machine::boot(&MACHINE).unwrap();
    let taken = Some(Obstacle::OwnedBy(Id(0x8001)));
    let reason = AccessReason { address: BEHIND, fault: Fault::Translation, obstacle: taken, hint: None };
    assert_eq!(refused(&mut machine, BEHIND - 5000, 5001), [reason; 2]);
    assert_eq!(reason.to_string(), "translation fault at 40020000: the page belongs to 8001");
    let mut bytes = vec![1; 5000];
    machine.load_bytes(BEHIND - 5000, &mut bytes).unwrap();
    assert_eq!(bytes, vec![0; 5000]);
    let [stored, loaded] = refused(&mut machine, FIRST - 3, 4);
    assert_eq!((stored.address, loaded.address), (FIRST - 3, FIRST - 3));
}

#[test]
fn where_there_is_nothing() {
    let mut machine = Machine::boot(&MACHINE).unwrap();
    for address in [0, FIRST, BEHIND, 0xFFFF_FFFF, u64::MAX] {
        machine.store_bytes(address, &[]).unwrap();
        machine.load_bytes(address, &mut []).unwrap();
    }
    for address in [0x1_0000_0000, u64::MAX - 1, u64::MAX] {
        let reason = AccessReason { address, fault: Fault::Translation, obstacle: None, hint: None };
        assert_eq!(refused(&mut machine, address, 9000), [reason; 2]);
    }
    let [stored, _] = refused(&mut machine, 0x1_0000_0000, 1);
    assert_eq!(stored.to_string(), "translation fault at 0000000100000000: the address has more than 32 bits");
}

#[test]
fn what_may_only_be_read() {
    let mut machine = Machine::boot(&PARTITIONS).unwrap();
    machine.call(&registers([0x8400_006D, 0x8001_0000])).done().unwrap();
    let stored = machine.store_bytes(0x4002_0001, &[1, 2, 3]).unwrap_err();
    assert_eq!(stored.to_string(), "permission fault at 40020001: 8001 has r-x");
    let mut bytes = [7; 3];
    machine.load_bytes(0x4002_0001, &mut bytes).unwrap();
    assert_eq!(bytes, [0; 3]);
}

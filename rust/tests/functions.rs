// SPDX-License-Identifier: MIT OR Apache-2.0
//! Calls by their names: those of the archive, and no others.
mod common;

use common::machines::MACHINE;
use gorseplumb::{call_name, registers, ErrorCode, Function, Id, Machine};

#[test]
fn names_are_the_archives() {
    for number in (0x8400_0000..=0x8400_01FF).chain(0xC400_0000..=0xC400_01FF).chain([0, 1, u32::MAX]) {
        assert_eq!(call_name(number), Function::of(number).map(Function::name), "{number:08X}");
    }
}

#[test]
fn each_has_its_number() {
    for function in Function::ALL {
        assert_eq!(Function::of(function.number()), Some(*function));
        assert_eq!(format!("{function}"), function.name());
        let narrow = Function::of(function.number() & !0x4000_0000).unwrap();
        assert_eq!((narrow.name(), narrow.is_wide()), (function.name(), false));
        assert_eq!(function.is_wide(), function.number() >> 24 == 0xC4);
        assert_eq!(format!("{function:?}").ends_with("64"), function.is_wide());
    }
    let order = |function: &Function| (function.number() & 0xFFFF, function.is_wide());
    assert!(Function::ALL.windows(2).all(|pair| order(&pair[0]) < order(&pair[1])));
    assert_eq!(format!("[{:>8}]", Function::Run), "[ FFA_RUN]");
}

#[test]
fn calls_by_name() {
    let seven = Function::MsgSendDirectReq64.with([1, 2, 3, 4, 5, 6, 7]);
    assert_eq!(seven, [0xC400_006F, 1, 2, 3, 4, 5, 6, 7]);
    assert_eq!(Function::IdGet.with([]), registers([0x8400_0069]));
    let mut machine = Machine::boot(&MACHINE).unwrap();
    let answer = machine.call(&Function::IdGet.with([]));
    assert_eq!((answer.function(), answer.runner()), (Some(Function::Success), Id(0)));
    let answer = machine.call(&Function::RxtxMap.with([0x4001_0000, 0x4001_0000, 1]));
    assert_eq!((answer.function(), answer.error()), (Some(Function::Error), Some(ErrorCode::InvalidParameters)));
    let answer = machine.call(&Function::Run.with([0x8001_0000]));
    assert_eq!((answer.function(), answer.runner()), (Some(Function::Run), Id(0x8001)));
}

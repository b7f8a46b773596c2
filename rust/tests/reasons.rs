// SPDX-License-Identifier: MIT OR Apache-2.0
//! Why operations are refused: the manual's reasons, and the check of each call that fails. By what pages are reached.
mod common;

use common::explained::explain;
use common::machines::{MACHINE, PARTITIONS};
use common::refusals::{rows, Row};
use common::{example, generated, play, play_line, ram, top};
use gorseplumb::{
    call_name, raw, registers, About, Allowed, CallError, Check, CheckCause, ErrorCode, Fault, Ffa, Flaw, Function,
    Grant, Handle, Hint, Id, Machine, Obstacle, Rights, RunState, Side, Size, Version,
};
use std::ffi::CStr;

#[test]
fn the_manuals_reasons() {
    let expected = example("refused.out");
    let trace = example("refused.trace");
    let mut pages = ram(2);
    assert_eq!(explain(&mut Machine::boot(&PARTITIONS).unwrap(), &trace), expected);
    assert_eq!(explain(&mut Machine::boot_lent(&PARTITIONS, &mut pages).unwrap(), &trace), expected);
}

/// 100,000 operations, with what the program says of each that is refused.
#[test]
#[ignore = "needs the program ffaplay"]
fn generated_operations_are_refused_by_what_the_program_says() {
    for (machine, manifest, seed) in [("machine", &MACHINE, "3"), ("partitions", &PARTITIONS, "4")] {
        let file = top().join(format!("examples/{machine}.toml"));
        let (trace, expected) = generated(file.to_str().unwrap(), seed, &["--explain"]);
        let refused = expected.lines().filter(|line| line.starts_with("# refused: ")).count();
        println!("{machine}: {refused} are refused");
        let told = explain(&mut Machine::boot(manifest).unwrap(), &trace);
        let differs = told.lines().zip(expected.lines()).find(|(told, expected)| told != expected);
        assert!(told == expected, "{machine}: {differs:?}");
    }
}

/// The call of a line.
fn given(line: &str) -> gorseplumb::Registers {
    let mut given = registers([]);
    for (place, word) in line.split_whitespace().skip(1).enumerate() {
        given[place] = u64::from_str_radix(word, 16).unwrap();
    }
    given
}

fn told_of(row: &Row) {
    let (call, number) = row.check;
    let mut machine = Machine::boot(&row.machine()).unwrap();
    for line in row.before.lines() {
        if line.starts_with("call") {
            assert_eq!(machine.why_call(&given(line)), None, "{call} {number}: {line}");
        }
        play_line(&mut machine, line);
    }
    let given = given(&row.line);
    let reason = machine.why_call(&given).unwrap();
    assert_eq!(reason.check, row.named, "{call} {number}");
    assert_eq!(reason.check.number_in(given[0] as u32), Some(number as u32), "{call} {number}");
    assert_eq!(machine.call(&given).error(), Some(reason.error), "{call} {number}");
    assert_eq!(machine.why_call(&given), Some(reason), "{call} {number}");
    let refused = CallError { function: given[0] as u32, error: reason.error, reason: Some(reason) };
    assert_eq!(machine.call_or_why(&given), Err(refused), "{call} {number}");
    assert_eq!(call_name(given[0] as u32), Some(call).filter(|call| call.starts_with("FFA_")));
}

#[test]
fn each_check_is_told() {
    rows().iter().for_each(told_of);
}

/// What docs/COMMANDS.md says that checks are about.
#[test]
fn what_checks_are_about() {
    let mut machine = Machine::boot(&MACHINE).unwrap();
    let mut about = |before: &str, line: &str| {
        play(&mut machine, before);
        machine.why_call(&given(line)).and_then(|reason| reason.about)
    };
    let buffers = "call 84000066 4001E000 4001F000 5";
    assert_eq!(about("", buffers), Some(About::Register { number: 3, value: 5, is_whole: false }));
    let wide = "call C4000066 14001E000 4001F000 1";
    assert_eq!(about("", wide), Some(About::Register { number: 1, value: 0x1_4001_E000, is_whole: true }));
    assert_eq!(about("", "call 8400006F 8003"), Some(About::Endpoint(Id(0x8003))));
    assert_eq!(about("", "call 84000077 1 8001"), Some(About::Handle(Handle(0x8001_0000_0001))));
    assert_eq!(about("", "call 84000081 8001 0 4"), Some(About::Bit(2)));
    let taken = Some(Obstacle::OwnedBy(Id(0x8001)));
    assert_eq!(
        about("", "call 84000066 40020000 4001F000 1"),
        Some(About::Page { page: 32, address: 0x4002_0000, obstacle: taken })
    );
    let descriptor = "call 84000066 4001E000 4001F000 1\nstore 4001E000 0000000000000000\n\
                      store 4001E018 0000000100000010\nstore 4001E020 0000000000000030\n\
                      store 4001E030 00000040000F8001\nstore 4001E040 0000000100000001\n\
                      store 4001E050 0000000040010000\nstore 4001E058 0000000000000001\n";
    assert_eq!(
        about(descriptor, "call 84000072 60 60"),
        Some(About::Field { flaw: Flaw::AccessPermissions, index: 0, first: 50, size: 1, value: Some(0xF) })
    );
    assert_eq!(about("", "call 8400006B"), None);
}

/// Reasons in words, as docs/COMMANDS.md has them.
#[test]
fn reasons_are_told_as_the_program_tells_them() {
    let machine = machine_after(&[DESCRIBED]);
    let told = |line: &str| machine.why_call(&given(line)).unwrap().to_string();
    let unmapped = Machine::boot(&MACHINE).unwrap();
    let said = |line: &str| unmapped.why_call(&given(line)).unwrap().to_string();
    let count = "check 2: a buffer has no pages, or too many: w3 is 00000005, and must be 00000001 to 00000004";
    assert_eq!(said("call 84000066 4001E000 4001F000 5"), count);
    let wide = "check 3: TX is not page-aligned, or not entirely in RAM: x1 is 000000014001E000, \
                and the buffer is not entirely in RAM: 000000014001E000 is above FFFFFFFF";
    assert_eq!(said("call C4000066 14001E000 4001F000 1"), wide);
    let taken = "check 6: a page of TX does not belong to the caller, is not writable, or is in an open transaction: \
                 40020000 belongs to 8001";
    assert_eq!(said("call 84000066 40020000 4001F000 1"), taken);
    assert_eq!(told("call 84000081 8001 0 1000"), "check 6: one of the bits is not bound to the caller: bit 0C");
    assert_eq!(
        told("call C4000085"),
        "check 1: the function is not supported: w0 is C4000085, and FFA_SPM_ID_GET has no 64-bit form"
    );
    let uuid = "check 1: no partition has the UUID: w1 to w4 hold 01000000020000000300000004000000";
    assert_eq!(told("call 84000068 1 2 3 4"), uuid);
    let short =
        "check 6: the bytes in TX are not a descriptor of this call: the descriptor is shorter than its header: \
                 bytes 00 to 2F (the header ends at 30, but the descriptor has 2F bytes)";
    assert_eq!(told("call 84000072 2F 2F"), short);
    let mut empty = machine_after(&[DESCRIBED, "store 40010058 0000000000000000"]);
    let range = "check 6: the bytes in TX are not a descriptor of this call: range 00: the range has no pages: \
                 bytes 58 to 5B are 00000000";
    assert_eq!(empty.why_call(&given("call 84000072 60 60")).unwrap().to_string(), range);
    play(&mut empty, "store 40010032 FF");
    let access = "check 6: the bytes in TX are not a descriptor of this call: access descriptor 00: \
                  this call does not allow these permissions: byte 32 is FF, and must be 01 to 02";
    assert_eq!(empty.why_call(&given("call 84000072 60 60")).unwrap().to_string(), access);
}

/// Which numbers may be in the register or the field that a check is about (docs/CALLS.md and docs/MEMORY.md).
#[test]
fn numbers_that_may_be() {
    let mut machine = Machine::boot(&MACHINE).unwrap();
    let mut told = |before: &str, line: &str| {
        play(&mut machine, before);
        let reason = machine.why_call(&given(line)).unwrap();
        (reason.allowed.map(|Allowed { least, most, step }| (least, most, step)), reason.to_string())
    };
    let ends = |told: &str, end: &str| assert!(told.ends_with(end), "{told}");
    let (pages, words) = told("", "call 84000066 4001E000 4001F000 5");
    assert_eq!(pages, Some((1, 4, 1)));
    ends(&words, ", and must be 00000001 to 00000004");
    let (context, words) = told("", "call 84000082 80000 1");
    assert_eq!(context, Some((0, 0, 0x1_0000)));
    ends(&words, ", and must be 00000000");
    let (flags, words) = told("", "call 84000081 8001 1 1");
    assert_eq!(flags, Some((0, 2, 2)));
    ends(&words, ", and must be 00000000 or 00000002");
    assert_eq!(told("", "call 8400006F 8003").0, None);
    // A lend to one receiver leaves the attributes to that, and a composite stands behind its access descriptor.
    let lend = "call 84000066 4001E000 4001F000 1\nstore 4001E000 00000000002F0000\n\
                store 4001E018 0000000100000010\nstore 4001E020 0000000000000030\n\
                store 4001E030 00000FF000028001\nstore 4001E040 0000000100000001\n\
                store 4001E050 0000000040010000\nstore 4001E058 0000000000000001\n";
    let (attributes, words) = told(lend, "call 84000072 60 60");
    assert_eq!(attributes, Some((0, 0, 1)));
    ends(&words, ", and must be 0000");
    let (offset, words) = told("store 4001E002 0000\n", "call 84000072 80 80");
    assert_eq!(offset, Some((0x40, 0x60, 0x10)));
    ends(&words, ", and must be 00000040 to 00000060 in steps of 00000010");
}

/// What to change.
#[test]
fn hints() {
    let mut machine = Machine::boot(&MACHINE).unwrap();
    let mut hint = |before: &str, line: &str| {
        play(&mut machine, before);
        machine.why_call(&given(line)).unwrap().hint
    };
    assert_eq!(hint("", "call 84000066 4001E000 4001F000 5"), None);
    assert_eq!(hint("", "call 84000065"), Some(Hint::Cause(CheckCause::BuffersMissing)));
    let outside = Some(Hint::Outside(0x4020_0000));
    assert_eq!(hint("", "call 84000066 4001E000 40200000 1"), outside);
    assert_eq!(hint("", "call 84000077 1 8001"), Some(Hint::Cause(CheckCause::HandleUnknown)));
    assert_eq!(hint("", "call 8400006F 80018002"), Some(Hint::Caller(Id(0))));
    assert_eq!(hint(DESCRIBED, "call 84000072 2000 2000"), Some(Hint::Room(0x1000)));
    let buffer = Hint::Buffer { endpoint: Id(0), side: Side::Rx };
    assert_eq!(hint("store 40010050 0000000040011000\n", "call 84000072 60 60"), Some(buffer));
    let form = Hint::Form { caller: Id(0), form: Version::V1_1 };
    assert_eq!(hint("store 40010018 00000000\n", "call 84000072 60 60"), Some(form));
    assert_eq!(hint("call 8400006D 80010000\n", "call 84000070 80010000"), Some(Hint::Run));
}

/// What an endpoint does that is to wait.
#[test]
fn run_states() {
    let mut machine = Machine::boot(&MACHINE).unwrap();
    let mut told = |before: &str, line: &str| {
        play(&mut machine, before);
        machine.why_call(&given(line)).map(|reason| (reason.about, reason.state)).unwrap()
    };
    let partition = Some(About::Endpoint(Id(0x8001)));
    assert_eq!(told("", "call 8400006F 8003"), (Some(About::Endpoint(Id(0x8003))), None));
    let yielded = "call 8400006D 80010000\ncall 8400006C\n";
    assert_eq!(told(yielded, "call 8400006F 8001"), (partition, Some(RunState::Yielded)));
    let asks = "call 8400006D 80010000\ncall 8400006F 80018002\n";
    let blocked = RunState::Blocked { awaits: Some(Id(0x8002)) };
    assert_eq!(told(asks, "call 8400006F 80028001"), (partition, Some(blocked)));
}

#[test]
fn why_accesses_fault() {
    let mut machine = Machine::boot(&PARTITIONS).unwrap();
    let told = |reason: Option<gorseplumb::AccessReason>| reason.map(|reason| (reason.fault, reason.obstacle));
    let translation = |obstacle| Some((Fault::Translation, Some(obstacle)));
    assert_eq!(machine.why_load(0x4001_0000, Size::B8), None);
    assert_eq!(told(machine.why_load(0x4001_0001, Size::B2)), Some((Fault::Alignment, None)));
    assert_eq!(told(machine.why_load(0x3FFF_FFFC, Size::B4)), translation(Obstacle::OutsideRam));
    assert_eq!(told(machine.why_store(0x1_0000_0000, Size::B4)), Some((Fault::Translation, None))); // over 32 bits
    assert_eq!(told(machine.why_store(0x4000_0000, Size::B4)), translation(Obstacle::ManagersPage));
    assert_eq!(told(machine.why_load(0x4020_0000, Size::B1)), translation(Obstacle::OwnedBy(Id(0x8002))));
    assert_eq!(told(machine.why_fetch(0x4001_0000)), Some((Fault::Permission, None)));
    assert_eq!(told(machine.why_fetch(0x4001_0002)), Some((Fault::Alignment, None)));
    machine.call(&registers([0x8400_006D, 0x8001_0000])).done().unwrap();
    let stored = machine.why_store(0x4002_0000, Size::B1);
    assert_eq!(told(stored), Some((Fault::Permission, None)));
    assert_eq!(stored.unwrap().hint, Some(Hint::Access { endpoint: Id(0x8001), right: Rights::Rox }));
    let reason = machine.why_load(0x4020_0000, Size::B1).unwrap();
    assert_eq!(reason.address, 0x4020_0000);
    assert_eq!(reason.to_string(), "translation fault at 40200000: the page belongs to 8002");
}

/// 8001 runs, and has shared its page 28 with 8002.
const SHARED: &str = "\
call 8400006D 80010000
call 84000066 4002E000 4002F000 1
store 4002E000 00000000002F8001
store 4002E018 0000000100000010
store 4002E020 0000000000000030
store 4002E030 0000004000018002
store 4002E040 0000000100000001
store 4002E050 0000000040028000
store 4002E058 0000000000000001
call 84000073 60 60
";

/// 8001 waits, and 8002 runs.
const TO_8002: &str = "call 8400006B\ncall 8400006D 80020000\n";

/// 8002 retrieves what is shared.
const RETRIEVED: &str = "\
call 84000066 40036000 40037000 1
store 40036000 0000000000008001
store 40036008 0000800100000001
store 40036018 0000000100000010
store 40036020 0000000000000030
store 40036030 0000000000008002
call 84000074 40 40
";

const SHARE: Handle = Handle(0x8001_0000_0001);

/// The machine after lines of a trace.
fn machine_after(lines: &[&str]) -> Machine {
    let mut machine = Machine::boot(&MACHINE).unwrap();
    lines.iter().for_each(|lines| drop(play(&mut machine, lines)));
    machine
}

/// Why 8001 is refused calls without arguments, once it has shared a page.
#[test]
fn calls_without_arguments() {
    let machine = machine_after(&[SHARED]);
    let w0 = |value| About::Register { number: 0, value, is_whole: false };
    let short = About::Field { flaw: Flaw::HeaderShort, index: 0, first: 0, size: 48, value: None };
    for (function, reason) in [
        (0x8400_0063, None),
        (0x8400_0065, Some((Check::RxEmpty, None))),
        (0x8400_0066, Some((Check::BuffersMapped, None))),
        (0x8400_0067, None),
        (0x8400_0064, Some((Check::FunctionUnknown, Some(About::Register { number: 1, value: 0, is_whole: false })))),
        (0x8400_0083, Some((Check::FunctionUnknown, Some(w0(0x8400_0083))))),
        (0x8400_006D, Some((Check::NotNormalWorld, None))),
        (0x8400_006F, Some((Check::SenderIsAnother, Some(About::Endpoint(Id(0)))))),
        (0x8400_0072, Some((Check::DescriptorMalformed, Some(short)))),
        (0x8400_0077, Some((Check::NotTheSenders, Some(About::Handle(Handle(0)))))),
    ] {
        let told = machine.why_call(&registers([function])).map(|reason| (reason.check, reason.about));
        assert_eq!(told, reason, "{function:X}");
    }
}

/// Why 8002 is refused loads of two bytes, before it has retrieved what is shared with it.
#[test]
fn obstacles_of_loads() {
    let machine = machine_after(&[SHARED, TO_8002]);
    let translation = |obstacle| Some((Fault::Translation, obstacle));
    for (address, reason) in [
        (0x4003_0000, None),
        (0x4003_0001, Some((Fault::Alignment, None))),
        (0x3FFF_F000, translation(Some(Obstacle::OutsideRam))),
        (0x4020_0000, translation(Some(Obstacle::OutsideRam))),
        (0x4000_0000, translation(Some(Obstacle::ManagersPage))),
        (0x4002_0000, translation(Some(Obstacle::OwnedBy(Id(0x8001))))),
        (0x4002_8000, translation(Some(Obstacle::InTransaction(SHARE)))),
        (0x1_0000_0000, translation(None)),
    ] {
        let told = machine.why_load(address, Size::B2).map(|reason| (reason.fault, reason.obstacle));
        assert_eq!(told, reason, "{address:X}");
    }
}

/// By what each endpoint has its access to a page that 8002 has retrieved.
#[test]
fn by_what_a_share_is_reached() {
    let machine = machine_after(&[SHARED, TO_8002, RETRIEVED]);
    assert_eq!(machine.granted(Id(0), 0x28), None);
    assert_eq!(machine.granted(Id(0x8001), 0x28), Some(Grant::Shared(SHARE)));
    assert_eq!(machine.granted(Id(0x8002), 0x28), Some(Grant::Held(SHARE)));
}

/// The normal world describes in TX a lend of its page 40012000 to 8002, to read and write.
const DESCRIBED: &str = "\
call 84000066 40010000 40011000 1
store 40010018 0000000100000010
store 40010020 0000000000000030
store 40010030 0000004000028002
store 40010040 0000000100000001
store 40010050 0000000040012000
store 40010058 0000000000000001
";

/// The last check of a send, after 65,535 lends, each of which is reclaimed. In FF-A 1.2 it does not fail yet, and the
/// next lend gets the next handle.
#[test]
fn handles_that_are_used_up() {
    let lend = Function::MemLend.with([0x60, 0x60]);
    for (ffa, check) in [(Ffa::V1_1, Some(Check::HandlesUsedUp)), (Ffa::V1_2, None)] {
        let mut machine = Machine::boot(&MACHINE.with_ffa(ffa)).unwrap();
        play(&mut machine, DESCRIBED);
        for number in 1..=65_535 {
            machine.call(&lend).done().unwrap();
            machine.call(&Function::MemReclaim.with([number])).done().unwrap();
        }
        let told = machine.why_call(&lend);
        assert_eq!(told.map(|reason| (reason.check, reason.about)), check.map(|check| (check, None)));
        let answer = machine.call(&lend);
        assert_eq!(answer.error(), check.map(|_| ErrorCode::NoMemory));
        assert_eq!(answer.handle(), check.map_or(Some(Handle(0x1_0000)), |_| None));
    }
}

#[test]
fn operations_that_say_why() {
    let (mut machine, mut plain) = (Machine::boot(&PARTITIONS).unwrap(), Machine::boot(&PARTITIONS).unwrap());
    let words = |refused: &dyn std::error::Error| refused.to_string();
    for (address, size) in [(0x4000_0000, Size::B8), (0x4001_0001, Size::B2), (0x1_0000_0000, Size::B1)] {
        let refused = machine.load_or_why(address, size).unwrap_err();
        assert_eq!((Some(refused), Err(refused.fault)), (plain.why_load(address, size), plain.load(address, size)));
        let refused = machine.store_or_why(address, size, 0).unwrap_err();
        assert_eq!(
            (Some(refused), Err(refused.fault)),
            (plain.why_store(address, size), plain.store(address, size, 0))
        );
        let refused = machine.fetch_or_why(address).unwrap_err();
        assert_eq!((Some(refused), Err(refused.fault)), (plain.why_fetch(address), plain.fetch(address)));
    }
    let refused = machine.store_or_why(0x4020_0000, Size::B1, 0).unwrap_err();
    assert_eq!(words(&refused), "translation fault at 40200000: the page belongs to 8002");
    assert_eq!(machine.store_or_why(0x4001_0000, Size::B4, 42), Ok(()));
    assert_eq!(machine.load_or_why(0x4001_0000, Size::B4), Ok(42));
    let refused = machine.call_or_why(&registers([0x8400_008F])).unwrap_err();
    let check = "check 1: the function is not supported: w0 is 8400008F";
    assert_eq!(words(&refused), format!("call 8400008F is refused: NOT_SUPPORTED: {check}"));
    let refused = machine.call_or_why(&Function::MemReclaim.with([1, 0x8001])).unwrap_err();
    let check = "check 2: no open transaction from the caller has the handle: handle 0000800100000001, \
                 which no open transaction has";
    assert_eq!(words(&refused), format!("FFA_MEM_RECLAIM is refused: INVALID_PARAMETERS: {check}"));
    let answer = machine.call_or_why(&Function::Run.with([0x8001_0000])).unwrap();
    assert_eq!(answer.runner(), Id(0x8001));
    assert_eq!(machine.fetch_or_why(0x4002_0000), Ok(0));
    let shown = format!("{:?}", CallError { reason: None, ..refused });
    assert_eq!(shown, "CallError { function: 0x84000077, error: InvalidParameters, reason: None }");
}

fn text(name: *const u8) -> String {
    // SAFETY: a name of the library is never null and ends with a zero.
    unsafe { CStr::from_ptr(name.cast()) }.to_str().unwrap().into()
}

/// The words here are the archive's.
#[test]
fn names_are_the_archives() {
    // SAFETY: each takes a number.
    unsafe {
        for check in Check::ALL {
            assert_eq!(text(raw::gorseplumb_check_name(check.number())), check.words());
        }
        for flaw in Flaw::ALL {
            assert_eq!(text(raw::gorseplumb_flaw_name(flaw.number())), flaw.words());
        }
        for fault in [Fault::Translation, Fault::Permission, Fault::Alignment, Fault::AccessFlag, Fault::OutsideRam] {
            assert_eq!(text(raw::gorseplumb_fault_name(fault.number())), fault.words());
        }
        for code in ErrorCode::ALL {
            assert_eq!(text(raw::gorseplumb_error_name(code.number())), code.words());
        }
        for cause in gorseplumb::Cause::ALL {
            let told = cause.to_string();
            assert_eq!(text(raw::gorseplumb_answer_name(cause.number())), told.split(':').next().unwrap());
        }
        for number in [0, Check::ALL.len() as u32 + 1] {
            assert_eq!(text(raw::gorseplumb_check_name(number)), "");
        }
    }
    assert_eq!(
        (call_name(0x8400_006D), call_name(0xC400_0066), call_name(0)),
        (Some("FFA_RUN"), Some("FFA_RXTX_MAP"), None)
    );
    assert_eq!(Check::StillHeld.number_in(0x8400_006D), None);
}

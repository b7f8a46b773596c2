// SPDX-License-Identifier: MIT OR Apache-2.0
//! Registers by name, as the standard lays them out: what is written is what is read.
mod common;

use common::machines::MACHINE;
use gorseplumb::{decode, encode, encode_words, registers, ArgumentError, Function, Machine, Registers};

fn told(registers: Registers, answers: Option<Function>) -> String {
    decode(&registers, answers).unwrap().to_string()
}

#[test]
fn calls_and_answers() {
    let rows = [
        (registers([0x8400_0069]), "FFA_ID_GET"),
        (registers([0x8400_0063, 0x1_0001]), "FFA_VERSION major=1 minor=1"),
        (registers([0x8400_0064, 0x8400_006D]), "FFA_FEATURES feature=FFA_RUN"),
        (registers([0x8400_0060, 0, 0xFFFF_FFFA]), "FFA_ERROR code=DENIED"),
        (registers([0x8400_006B, 0x8001_0000, 1]), "FFA_MSG_WAIT partition=8001 context=0 flags=1"),
        (registers([0x8400_006C, 0x8001_0000, 1]), "FFA_YIELD partition=8001 context=0"),
        (registers([0x8400_0077, 1, 0x8001]), "FFA_MEM_RECLAIM handle=0000800100000001 flags=0"),
        (
            registers([0x8400_0068, 0x3322_1100, 0x7766_5544, 0xBBAA_9988, 0xFFEE_DDCC, 1]),
            "FFA_PARTITION_INFO_GET uuid=00112233445566778899aabbccddeeff count_only=1",
        ),
        (
            registers([0xC400_006F, 0x8001, 0, u64::MAX, 2]),
            "FFA_MSG_SEND_DIRECT_REQ_64 sender=0000 receiver=8001 flags=0 \
             payload0=FFFFFFFFFFFFFFFF payload1=2 payload2=0 payload3=0 payload4=0",
        ),
        (
            registers([0x8400_0081, 0x8001, 0, 8, 1]),
            "FFA_NOTIFICATION_SET sender=0000 receiver=8001 flags=0 bits=100000008",
        ),
        (registers([0x8400_0082, 0x2_8001, 3]), "FFA_NOTIFICATION_GET receiver=8001 context=2 flags=3"),
    ];
    for (registers, expected) in rows {
        assert_eq!(told(registers, None), expected);
    }
    let success = registers([0x8400_0061, 0, 1, 2, 3, 4, 5]);
    assert_eq!(told(success, None), "FFA_SUCCESS");
    assert_eq!(told(success, Some(Function::RxtxMap64)), "FFA_SUCCESS");
    assert_eq!(told(success, Some(Function::PartitionInfoGet)), "FFA_SUCCESS count=1 size=2");
    let pending = "FFA_SUCCESS partitions=200000001 normal_world=400000003 manager=5";
    assert_eq!(told(success, Some(Function::NotificationGet)), pending);
    assert_eq!(told(registers([0x8400_0062, 0x8001_0000]), None), "FFA_INTERRUPT partition=8001 context=0");
    assert_eq!(decode(&registers([0x8400_008F]), None), None);
    assert_eq!(format!("{:?}", decode(&registers([0x8400_0069]), None)), "Some(Named(FFA_ID_GET))");
}

#[test]
fn what_is_written_is_read() {
    for function in Function::ALL {
        let empty = decode(&registers([function.number().into()]), None).unwrap();
        let names: Vec<&str> = empty.iter().map(|(name, _)| name).collect();
        // Each argument alone, full: the others are none, and one bit more has no room.
        let mut all = [0; 8];
        for name in &names {
            let ones =
                decode(&[&[u64::from(function.number())][..], &[u64::MAX; 7]].concat().try_into().unwrap(), None);
            let full = ones.unwrap().get(name).unwrap();
            let given: Vec<_> = names.iter().map(|it| (*it, if it == name { full } else { 0 })).collect();
            let call = encode(*function, &given).unwrap();
            for (other, value) in decode(&call, None).unwrap().iter() {
                assert_eq!(value, if other == *name { full } else { 0 }, "{function:?}: {name}, {other}");
            }
            for (all, register) in all.iter_mut().zip(call).skip(1) {
                assert_eq!(*all & register, 0, "{function:?}: {name} has a bit of another argument");
                *all |= register;
            }
            if let Some(more) = full.checked_add(1) {
                let bits = more.trailing_zeros();
                let error = encode(*function, &[(name, more)]).unwrap_err();
                let told = format!("{name} has {bits} bits, and is {more:#X}");
                assert_eq!(error.to_string(), told);
            }
        }
    }
}

/// The bytes of a manifest's UUID stand in w1 to w4, the lowest byte of each first (docs/CALLS.md).
#[test]
fn a_uuid_is_read_and_told_as_it_is_written() {
    let asked = registers([0x8400_0068, 0x3322_1100, 0x7766_5544, 0xBBAA_9988, 0xFFEE_DDCC]);
    let number = 0x0011_2233_4455_6677_8899_AABB_CCDD_EEFF;
    assert_eq!(encode(Function::PartitionInfoGet, &[("uuid", number)]), Ok(asked));
    assert_eq!(decode(&asked, None).unwrap().get("uuid"), Some(number));
    for text in [
        "00112233445566778899aabbccddeeff",
        "00112233-4455-6677-8899-aabbccddeeff",
        "00112233-4455-6677-8899-AABBCCDDEEFF",
    ] {
        assert_eq!(encode_words(Function::PartitionInfoGet, &[("uuid", text)]), Ok(asked), "{text}");
    }
    for text in [
        "",
        "1",
        "0x112233445566778899aabbccddeeff",
        "00112233-445566778899aabbccddeeff",
        "+0112233445566778899aabbccddeeff",
        "00112233-4455-6677-8899aabbccddeeff-",
    ] {
        let error = encode_words(Function::PartitionInfoGet, &[("uuid", text)]).unwrap_err();
        let told = format!("uuid is 32 hexadecimal digits, with a UUID's hyphens or without, and not {text:?}");
        assert_eq!(error.to_string(), told);
    }
    let mut machine = Machine::boot(&MACHINE).unwrap();
    let given = [("uuid", number), ("count_only", 1)];
    let answer = machine.call(&encode(Function::PartitionInfoGet, &given).unwrap()).done().unwrap();
    assert_eq!(answer.registers().unwrap()[2], 1);
}

/// The call of a line that was decoded.
fn read(told: &str) -> Registers {
    let mut words = told.split(' ');
    let name = words.next().unwrap();
    let form = |it: &&Function| it.name() == name.trim_end_matches("_64") && it.is_wide() == name.ends_with("_64");
    let function = *Function::ALL.iter().find(form).unwrap();
    let given: Vec<(&str, &str)> = words.map(|word| word.split_once('=').unwrap()).collect();
    encode_words(function, &given).unwrap()
}

#[test]
fn what_is_told_is_read_again() {
    for call in [
        registers([0x8400_0064, 0x8400_0066]),
        registers([0x8400_0064, 0xC400_0066]),
        registers([0x8400_0064, 2]),
        registers([0x8400_0060, 0, 0xFFFF_FFFA]),
        registers([0x8400_0060, 0, 100]),
        registers([0xC400_006F, 0x8001, 0, u64::MAX, 2]),
        registers([0x8400_0068, 0x3322_1100, 0x7766_5544, 0xBBAA_9988, 0xFFEE_DDCC, 1]),
        registers([0xC400_0083]),
        registers([0x8400_006B, 0x8001_0000, 1]),
    ] {
        assert_eq!(read(&told(call, None)), call);
    }
    assert_eq!(told(registers([0x8400_0064, 0xC400_0066]), None), "FFA_FEATURES feature=FFA_RXTX_MAP_64");
    assert_eq!(encode(Function::MsgWait, &[]), Ok(registers([0x8400_006B])));
    assert_eq!(encode(Function::MsgWait, &[("flags", 1)]), Ok(registers([0x8400_006B, 0, 1])));
    let run = |text| encode_words(Function::Run, &[("partition", text)]);
    assert_eq!(run("0x8001"), Ok(registers([0x8400_006D, 0x8001_0000])));
    for text in ["", "0x", "80 01", "+8001", "FFA_RUN", &"F".repeat(33)] {
        let told = format!("partition is a hexadecimal number, and not {text:?}");
        assert_eq!(run(text).unwrap_err().to_string(), told);
    }
    let error = encode_words(Function::Features, &[("feature", "FFA_RXTX_MAPP")]).unwrap_err();
    assert_eq!(error, ArgumentError::NoNumber { name: "feature", text: "FFA_RXTX_MAPP" });
    let told = "feature is a hexadecimal number, or the name of a call, and not \"FFA_RXTX_MAPP\"";
    assert_eq!(error.to_string(), told);
}

/// Which endpoints are to run (DEN0077A, 16): bit 0 of w2 tells of more, bits 11 to 7 the number of lists, and two bits for each
/// from bit 12 on.
#[test]
fn who_is_to_run() {
    let asked = registers([0x8400_0083]);
    assert_eq!(
        (told(asked, None).as_str(), encode(Function::NotificationInfoGet, &[])),
        ("FFA_NOTIFICATION_INFO_GET", Ok(asked))
    );
    assert_eq!(encode(Function::NotificationInfoGet64, &[]), Ok(registers([0xC400_0083])));
    let answer = registers([0x8400_0061, 0, 0x4181, 0x8002_0000, 0x8003]);
    let names = "FFA_SUCCESS more=1 lists=3 counts=4 ids0=80020000 ids1=8003 ids2=0 ids3=0 ids4=0";
    assert_eq!(told(answer, Some(Function::NotificationInfoGet)), names);
    let wide = registers([0xC400_0061, 0, 0x180, 0x8003_8002_0000]);
    let names = "FFA_SUCCESS_64 more=0 lists=3 counts=0 ids0=800380020000 ids1=0 ids2=0 ids3=0 ids4=0";
    assert_eq!(told(wide, Some(Function::NotificationInfoGet64)), names);
}

#[test]
fn what_makes_no_call() {
    let error = encode(Function::Run, &[("partition", 98305)]).unwrap_err();
    assert_eq!(format!("{error:?}"), "TooLarge { name: \"partition\", bits: 16, value: 0x18001 }");
    let error = encode(Function::Run, &[("context", 0), ("endpoint", 1)]).unwrap_err();
    assert_eq!(error, ArgumentError::Unknown { function: Function::Run, name: "endpoint" });
    let told = "FFA_RUN has no argument endpoint: it has partition, [context]";
    assert_eq!(error.to_string(), told);
    let error = encode(Function::IdGet, &[("context", 0)]).unwrap_err();
    assert_eq!(error.to_string(), "FFA_ID_GET has no argument context: it has none");
    let error = encode(Function::Run, &[("context", 0), ("context", 0)]).unwrap_err();
    assert_eq!(error.to_string(), "context is given twice");
    let error = encode(Function::RxtxMap, &[("rx", 0x4001_F000)]).unwrap_err();
    assert_eq!(error, ArgumentError::Missing { function: Function::RxtxMap, name: "tx" });
    assert_eq!(error.to_string(), "FFA_RXTX_MAP lacks the argument tx: it has tx, rx, pages");
    let error = encode(Function::MemReclaim, &[("flags", 1)]).unwrap_err();
    assert_eq!(error.to_string(), "FFA_MEM_RECLAIM lacks the argument handle: it has handle, [flags]");
    assert_eq!(encode(Function::MsgWait, &[]), Ok(registers([0x8400_006B])));
    assert_eq!(encode(Function::MemShare, &[("length", 0x60)]), Ok(registers([0x8400_0073, 0x60, 0x60])));
    let parts = encode(Function::MemShare, &[("length", 0x60), ("fragment", 0x20)]);
    assert_eq!(parts, Ok(registers([0x8400_0073, 0x60, 0x20])));
}

// SPDX-License-Identifier: MIT OR Apache-2.0
//! Lines of a trace that tell more: `audit`, and why an operation is refused, as `ffaplay run --explain` prints it
//! (docs/COMMANDS.md, "Reasons").
use super::play_line;
use gorseplumb::{call_name, registers, AccessReason, Fault, Machine, Ram, Registers, Size};
use std::fmt::Write;

/// What the program prints of a trace, with reasons.
pub fn explain<R: Ram>(machine: &mut Machine<R>, trace: &str) -> String {
    trace.lines().map(|line| explain_line(machine, line)).collect()
}

fn explain_line<R: Ram>(machine: &mut Machine<R>, line: &str) -> String {
    let before = reason(machine, line);
    let told = play_line(machine, line);
    let is_refused = told.contains(" 0000000084000060 ") || told.starts_with("fault ");
    assert_eq!(before.is_some(), is_refused, "{line}: {before:?}");
    // An operation that is refused changes nothing, so the reason stands.
    if is_refused {
        assert_eq!(reason(machine, line), before, "{line}");
    }
    told + &before.map_or_else(String::new, |reason| format!("# refused: {reason}\n"))
}

/// Why a line would be refused.
fn reason<R: Ram>(machine: &Machine<R>, line: &str) -> Option<String> {
    let words: Vec<&str> = line.split(' ').collect();
    let number = |place: usize| u64::from_str_radix(words[place], 16).unwrap();
    let (reason, bytes, done) = match words[0] {
        "call" => {
            let mut given = registers([]);
            (1..words.len()).for_each(|place| given[place - 1] = number(place));
            return call_reason(machine, &given);
        }
        "load" => {
            let bytes = number(2) as usize;
            (machine.why_load(number(1), Size::of(bytes).unwrap())?, bytes, "read")
        }
        "store" => {
            let bytes = words[2].len() / 2;
            (machine.why_store(number(1), Size::of(bytes).unwrap())?, bytes, "written")
        }
        "fetch" => (machine.why_fetch(number(1))?, 4, "executed"),
        _ => return None,
    };
    Some(access_reason(reason, number(1), bytes as u64, done))
}

fn call_reason<R: Ram>(machine: &Machine<R>, given: &Registers) -> Option<String> {
    let reason = machine.why_call(given)?;
    let function = given[0] as u32;
    let name = call_name(function).map_or_else(String::new, |name| name.to_owned() + " ");
    assert_eq!(reason.number, reason.check.number_in(function));
    Some(format!("{name}{reason}"))
}

/// An address in eight digits, or in sixteen where it has more.
fn digits(address: u64) -> String {
    if address > u64::from(u32::MAX) {
        format!("{address:016X}")
    } else {
        format!("{address:08X}")
    }
}

fn access_reason(reason: AccessReason, address: u64, bytes: u64, done: &str) -> String {
    let what = match (reason.fault, reason.obstacle) {
        (Fault::Translation, Some(obstacle)) => obstacle.to_string(),
        (Fault::Translation, None) => "is above FFFFFFFF".into(),
        (Fault::Permission, None) => format!("may not be {done}"),
        (Fault::Alignment, None) => format!("is not a multiple of {bytes}"),
        other => panic!("{other:?} doesn't come"),
    };
    let hint = reason.hint.map_or_else(String::new, |hint| hint.to_string());
    digits(address) + " " + &what + &hint
}

/// What the program prints of `audit`.
pub fn audit<R: Ram>(machine: &Machine<R>) -> String {
    let base = u64::from(machine.ram_base());
    let end = base + 0x20_0000 * u64::from(machine.ram_blocks());
    let mut text = format!("cert {base:08X} {:08X} {}\n", end - 1, machine.endpoints().len());
    for endpoint in machine.endpoints() {
        writeln!(text, "root {endpoint} {:08X}", machine.root(endpoint).unwrap()).unwrap();
    }
    let runs: Vec<_> = machine.certificate().collect();
    for run in &runs {
        let (first, behind) = (base + 4096 * u64::from(run.first()), base + 4096 * (u64::from(run.last()) + 1));
        let handle = run.transaction().map_or_else(|| "-".into(), |handle| handle.to_string());
        write!(text, "pages {first:08X} {:08X} {} {handle}", behind - 1, run.owner()).unwrap();
        for place in 0..machine.endpoints().len() {
            text += &run.access(place).map_or_else(|| " ---".into(), |rights| format!(" {rights}"));
        }
        text += "\n";
    }
    text + if machine.audit(&runs).is_ok() { "agrees\n" } else { "differs\n" }
}

// SPDX-License-Identifier: MIT OR Apache-2.0
//! Steps of a trace. A step is a line, an arrow, and what the program prints of the line, as in
//! `call 84000069 -> 8001: 84000061 0 8001`.
//!
//! An answer is the runner, and x0 to x7 without leading zeros and without the last registers that are zero.
use super::play_line;
use gorseplumb::{Machine, Ram};

/// All endpoints of examples/machine.toml map their buffers, and 8001 runs.
pub const MAPPED: &str = "\
call 84000066 4001E000 4001F000 1 -> 0: 84000061
call 8400006D 80020000 -> 8002: 8400006D 80020000
call 84000066 4003E000 4003F000 1 -> 8002: 84000061
call 8400006B -> 0: 8400006B 80020000
call 8400006D 80010000 -> 8001: 8400006D 80010000
call 84000066 4002E000 4002F000 1 -> 8001: 84000061
";

/// 8001 waits, and the normal world runs 8002.
pub const TO_SECOND: &str = "\
call 8400006B -> 0: 8400006B 80010000
call 8400006D 80020000 -> 8002: 8400006D 80020000
";

/// 8002 waits, and the normal world runs 8001.
pub const TO_FIRST: &str = "\
call 8400006B -> 0: 8400006B 80020000
call 8400006D 80010000 -> 8001: 8400006D 80010000
";

/// 8001 lends the page at 40021000 to 8002, which may read and write it.
pub const LEND: &str = "\
store 4002E000 0000000000008001 -> done
store 4002E018 0000000100000010 -> done
store 4002E020 0000000000000030 -> done
store 4002E030 0000004000028002 -> done
store 4002E040 0000000100000001 -> done
store 4002E050 0000000040021000 -> done
store 4002E058 0000000000000001 -> done
call 84000072 60 60 -> 8001: 84000061 0 1 8001
load 40021000 1 -> fault translation
";

/// 8002 writes a descriptor that retrieves the first transaction of 8001.
pub const RETRIEVE: &str = "\
store 4003E000 0000000000008001 -> done
store 4003E008 0000800100000001 -> done
store 4003E018 0000000100000010 -> done
store 4003E020 0000000000000030 -> done
store 4003E030 0000000000028002 -> done
";

/// 8002 retrieves a page by that descriptor.
pub const RETRIEVED: &str = "call 84000074 40 40 -> 8002: 84000075 60 60\n";

/// 8002 stores into the page at 40021000, and relinquishes it.
pub const RELINQUISH: &str = "\
store 40021000 5A -> done
store 4003E000 0000800100000001 -> done
store 4003E008 0000000100000000 -> done
store 4003E010 8002 -> done
call 84000076 -> 8002: 84000061
load 40021000 1 -> fault translation
";

/// Returns the line of a step, and the text that the program prints of it.
pub fn read_step(step: &str) -> (&str, String) {
    let (line, outcome) = step.split_once(" -> ").unwrap_or_else(|| panic!("{step}: no arrow"));
    (line, printed(outcome))
}

/// Returns the text that the program prints if a step has this outcome.
fn printed(outcome: &str) -> String {
    let (runner, given) = match outcome.split_once(": ") {
        Some(answer) => answer,
        None => return outcome.to_owned() + "\n",
    };
    let mut given = given.split(' ');
    let registers: String = (0..8).map(|_| format!(" {:0>16}", given.next().unwrap_or(""))).collect();
    assert_eq!(given.next(), None, "{outcome}: too many registers");
    format!("regs {runner:0>4}{registers}\n")
}

/// Plays steps, and checks what each prints.
pub fn take_steps<R: Ram>(machine: &mut Machine<R>, steps: &str) {
    for step in steps.lines() {
        let (line, wanted) = read_step(step);
        assert_eq!(play_line(machine, line), wanted, "{step}");
    }
}

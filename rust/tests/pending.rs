// SPDX-License-Identifier: MIT OR Apache-2.0
//! The endpoints for which notifications are pending, among all identifiers that 16 bits can hold.
mod common;

use common::machines::MACHINE;
use common::ram;
use common::steps::take_steps;
use gorseplumb::{Id, Machine, Ram};

const FIRST: Id = Id(0x8001);
const SECOND: Id = Id(0x8002);

/// Steps, and the endpoints for which notifications are pending after them.
const STEPS: [(&str, &[Id]); 7] = [
    ("", &[]),
    // Both partitions map buffers. 8002 binds a bit to 8001, and 8001 binds a bit to the normal world.
    (
        "\
call 8400006D 80020000 -> 8002: 8400006D 80020000
call 84000066 4003E000 4003F000 1 -> 8002: 84000061
call 8400007F 80018002 0 0 80000000 -> 8002: 84000061
call 8400006B -> 0: 8400006B 80020000
call 8400006D 80010000 -> 8001: 8400006D 80010000
call 84000066 4002E000 4002F000 1 -> 8001: 84000061
call 8400007F 00008001 0 1 -> 8001: 84000061
",
        &[],
    ),
    ("call 84000081 80018002 0 0 80000000 -> 8001: 84000061\n", &[SECOND]),
    (
        "\
call 8400006B -> 0: 8400006B 80010000
call 84000081 00008001 0 1 -> 0: 84000061
",
        &[FIRST, SECOND],
    ),
    (
        "\
call 8400006D 80010000 -> 8001: 8400006D 80010000
call 84000082 8001 2 -> 8001: 84000061 0 0 0 1
",
        &[SECOND],
    ),
    (
        "\
call 8400006B -> 0: 8400006B 80010000
call 8400006D 80020000 -> 8002: 8400006D 80020000
call 84000082 8002 F -> 8002: 84000061 0 0 80000000
call 8400006B -> 0: 8400006B 80020000
call 8400006D 80010000 -> 8001: 8400006D 80010000
",
        &[],
    ),
    // 8001 sends an indirect message to 8002.
    (
        "\
store 4002E008 00000014 -> done
store 4002E00C 8002 -> done
store 4002E00E 8001 -> done
store 4002E010 00000FEC -> done
call 84000086 -> 8001: 84000061
",
        &[SECOND],
    ),
];

/// Plays the steps, and checks after each group of them for whom notifications are pending.
fn are_pending<R: Ram>(machine: &mut Machine<R>) {
    for (steps, pending) in STEPS {
        take_steps(machine, steps);
        for endpoint in (0..=u16::MAX).map(Id) {
            assert_eq!(machine.npi_pending(endpoint), pending.contains(&endpoint), "{endpoint} after\n{steps}");
        }
    }
}

/// A bit that a partition sets, a bit that the normal world sets, and the bit of a message are pending until the receiver
/// gets them.
#[test]
fn bits_are_pending_until_they_are_got() {
    are_pending(&mut Machine::boot(&MACHINE).unwrap());
    are_pending(&mut Machine::boot_lent(&MACHINE, &mut ram(1)).unwrap());
}

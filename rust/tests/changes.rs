// SPDX-License-Identifier: MIT OR Apache-2.0
//! Changes of access that a machine reports: the endpoint, and exactly the pages to which its access is not as before.
mod common;

use common::machines::MACHINE;
use common::steps::{take_steps, LEND, MAPPED, RELINQUISH, RETRIEVE, RETRIEVED, TO_FIRST, TO_SECOND};
use common::{ram, RAM};
use gorseplumb::{Change, Id, Machine, Ram, Range, Rights};

const FIRST: Id = Id(0x8001);
const SECOND: Id = Id(0x8002);
/// The endpoints of the machine, and an identifier that no endpoint has.
const ENDPOINTS: [Id; 4] = [Id::NORMAL_WORLD, FIRST, SECOND, Id(0x8003)];
/// The pages of its RAM, and the next one.
const PAGES: u32 = 513;
const PAGE: u64 = 0x1000;

/// The endpoint whose access changed, and the ranges to which it changed.
type Reported = (Id, Vec<Range>);

const fn pages(address: u64, count: u64) -> Range {
    Range { address, size: count * PAGE }
}

fn reported(change: &Change) -> Reported {
    (change.endpoint(), change.ranges().collect())
}

/// Each endpoint with each page.
fn endpoints_and_pages() -> impl Iterator<Item = (Id, u32)> {
    ENDPOINTS.into_iter().flat_map(|endpoint| (0..PAGES).map(move |page| (endpoint, page)))
}

/// What each endpoint may do with each page.
fn accesses<R: Ram>(machine: &Machine<R>) -> Vec<Option<Rights>> {
    endpoints_and_pages().map(|(endpoint, page)| machine.access(endpoint, page)).collect()
}

/// Whether a change names a page and an endpoint.
fn names(change: &Option<Reported>, endpoint: Id, page: u32) -> bool {
    let address = RAM + PAGE * u64::from(page);
    let holds = |range: &Range| range.address <= address && address - range.address < range.size;
    change.as_ref().map_or(false, |(whose, ranges)| *whose == endpoint && ranges.iter().any(holds))
}

/// Does a step, and returns the change that the machine reports then. The change names an endpoint and a page exactly if
/// that access is not as before the step, and the machine reports it once.
fn follow<R: Ram>(machine: &mut Machine<R>, step: &str) -> Option<Reported> {
    let before = accesses(machine);
    take_steps(machine, step);
    let now = accesses(machine);
    let change = machine.take_change().as_ref().map(reported);
    for (place, (endpoint, page)) in endpoints_and_pages().enumerate() {
        let differs = before[place] != now[place];
        assert_eq!(names(&change, endpoint, page), differs, "{endpoint} and page {page:X} after {step}");
    }
    assert_eq!(machine.take_change(), None, "{step}");
    change
}

/// Does steps in RAM of the heap and in lent RAM. Both machines report these changes, and no others.
fn report(steps: &[&str], wanted: &[Reported]) {
    let (steps, mut lent) = (steps.concat(), ram(1));
    let mut machine = Machine::boot(&MACHINE).unwrap();
    assert_eq!(steps.lines().filter_map(|step| follow(&mut machine, step)).collect::<Vec<_>>(), wanted);
    let mut machine = Machine::boot_lent(&MACHINE, &mut lent).unwrap();
    assert_eq!(steps.lines().filter_map(|step| follow(&mut machine, step)).collect::<Vec<_>>(), wanted);
}

/// 8001 lends the page at 40021000, and three more from 40024000 on.
const LEND_TWO_RANGES: &str = "\
store 4002E000 0000000000008001 -> done
store 4002E018 0000000100000010 -> done
store 4002E020 0000000000000030 -> done
store 4002E030 0000004000028002 -> done
store 4002E040 0000000200000004 -> done
store 4002E050 0000000040021000 -> done
store 4002E058 0000000000000001 -> done
store 4002E060 0000000040024000 -> done
store 4002E068 0000000000000003 -> done
call 84000072 70 70 -> 8001: 84000061 0 1 8001
";

/// A page and three more are lent, and then the page alone.
#[test]
fn a_lend_of_two_ranges() {
    let taken = "call 84000074 40 40 -> 8002: 84000075 70 70\n";
    let refused = "call 84000077 1 8001 -> 8001: 84000060 0 FFFFFFFA\n";
    let reclaim = "\
call 84000077 1 8001 1 -> 8001: 84000061
load 40026000 1 -> data 00
call 84000077 1 8001 -> 8001: 84000060 0 FFFFFFFE
";
    let another = "\
store 4002E040 0000000100000001 -> done
call 84000072 60 60 -> 8001: 84000061 0 2 8001
";
    let steps = [
        MAPPED,
        LEND_TWO_RANGES,
        TO_SECOND,
        RETRIEVE,
        taken,
        TO_FIRST,
        refused,
        TO_SECOND,
        RELINQUISH,
        TO_FIRST,
        reclaim,
        another,
    ];
    let both = || vec![pages(0x4002_1000, 1), pages(0x4002_4000, 3)];
    let first = vec![pages(0x4002_1000, 1)];
    report(&steps, &[(FIRST, both()), (SECOND, both()), (SECOND, both()), (FIRST, both()), (FIRST, first)]);
}

/// 8002 donates the page at 40031000 to 8001.
const DONATE: &str = "\
store 4003E000 0000000000008002 -> done
store 4003E018 0000000100000010 -> done
store 4003E020 0000000000000030 -> done
store 4003E030 0000004000008001 -> done
store 4003E040 0000000100000001 -> done
store 4003E050 0000000040031000 -> done
store 4003E058 0000000000000001 -> done
call 84000071 60 60 -> 8002: 84000061 0 1 8002
";

/// 8001 retrieves that page. It may not execute a page that 8002 could not execute.
const TAKE: &str = "\
store 4002E000 0000000000008002 -> done
store 4002E008 0000800200000001 -> done
store 4002E018 0000000100000010 -> done
store 4002E020 0000000000000030 -> done
store 4002E030 0000000000088001 -> done
call 84000074 40 40 -> 8001: 84000060 0 FFFFFFFA
store 4002E030 0000000000008001 -> done
call 84000074 40 40 -> 8001: 84000075 60 60
load 4002F000 8 -> data 00000018002F8002
load 4002F030 8 -> data 0000004000068001
";

/// The sender of a donate loses access at once, and the receiver gains it by its retrieve.
#[test]
fn a_donate() {
    let page = || vec![pages(0x4003_1000, 1)];
    report(&[MAPPED, TO_SECOND, DONATE, TO_FIRST, TAKE], &[(SECOND, page()), (FIRST, page())]);
}

/// A share and its reclaim change no access. A retrieve changes the borrower's.
#[test]
fn a_share() {
    let share = "\
store 4002E000 00000000002F8001 -> done
store 4002E018 0000000100000010 -> done
store 4002E020 0000000000000030 -> done
store 4002E030 0000004000018002 -> done
store 4002E040 0000000100000001 -> done
store 4002E050 0000000040022000 -> done
store 4002E058 0000000000000001 -> done
call 84000073 60 60 -> 8001: 84000061 0 1 8001
call 84000077 1 8001 -> 8001: 84000061
call 84000073 60 60 -> 8001: 84000061 0 2 8001
";
    let retrieve = "\
store 4003E000 0000000000008001 -> done
store 4003E008 0000800100000002 -> done
store 4003E018 0000000100000010 -> done
store 4003E020 0000000000000030 -> done
store 4003E030 0000000000008002 -> done
call 84000074 40 40 -> 8002: 84000075 60 60
";
    report(&[MAPPED, share, TO_SECOND, retrieve], &[(SECOND, vec![pages(0x4002_2000, 1)])]);
}

/// The next change replaces a change that nobody asked for.
#[test]
fn the_last_change_is_told() {
    let mut machine = Machine::boot(&MACHINE).unwrap();
    let steps = [MAPPED, LEND, TO_SECOND, RETRIEVE, RETRIEVED, TO_FIRST].concat();
    take_steps(&mut machine, &steps);
    assert_eq!(machine.take_change().as_ref().map(reported), Some((SECOND, vec![pages(0x4002_1000, 1)])));
}

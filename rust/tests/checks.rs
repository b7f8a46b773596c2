// SPDX-License-Identifier: MIT OR Apache-2.0
//! Each check of the manual fails once: the call answers the manual's code, and nothing has changed.
mod common;

use common::refusals::{rows, Row, NEVER};
use common::{play_line, top};
use gorseplumb::{Check, ErrorCode, Machine, Page, Ram};
use std::collections::{BTreeMap, BTreeSet};
use std::fs;

/// The codes of each call's checks, in order, as docs/CALLS.md and docs/MEMORY.md list them. What is no call has the
/// name of its section.
fn manual() -> BTreeMap<String, Vec<ErrorCode>> {
    let mut codes: BTreeMap<String, Vec<ErrorCode>> = BTreeMap::new();
    for page in ["CALLS.md", "MEMORY.md"] {
        let text = fs::read_to_string(top().join("docs").join(page)).unwrap();
        for section in text.split("\n##").skip(1) {
            let (heading, body) = section.split_once('\n').unwrap();
            let names: Vec<&str> = heading.split([' ', ',', ';']).filter(|word| word.starts_with("FFA_")).collect();
            let title = heading.trim_start_matches(['#', ' ']);
            for name in if names.is_empty() { vec![title] } else { names } {
                for (count, code) in listed(body) {
                    codes.entry(name.into()).or_default().extend(vec![code; count]);
                }
            }
        }
    }
    codes
}

/// The rows of a list of checks: how many checks a row has, and their code.
fn listed(body: &str) -> Vec<(usize, ErrorCode)> {
    let table = body.split("| Check | Applies if | Code |\n|---|---|---|\n").nth(1).unwrap_or("");
    let rows = table.lines().take_while(|line| line.starts_with("| "));
    let row = |line: &str| {
        let cells: Vec<&str> =
            line.split(" | ").map(|cell| cell.trim_matches(|letter| "| ".contains(letter))).collect();
        let (first, last) = cells[0].split_once(" to ").unwrap_or((cells[0], cells[0]));
        let count = last.parse::<usize>().unwrap() + 1 - first.parse::<usize>().unwrap();
        let code = cells.last().unwrap();
        (count, *ErrorCode::ALL.iter().find(|known| known.words() == *code).unwrap())
    };
    rows.map(row).collect()
}

/// All that a machine shows: who runs, who reaches what, and each byte.
fn all<R: Ram>(machine: &mut Machine<R>) -> (String, Vec<Page>) {
    let mut page = Page::ZERO;
    let mut bytes = Vec::new();
    while machine.read_page(bytes.len() as u32, &mut page) {
        bytes.push(page.clone());
    }
    (play_line(machine, "show"), bytes)
}

fn is_refused(told: &str) -> bool {
    told.starts_with("fault") || told.contains(" 0000000084000060 ")
}

fn fails(row: &Row, code: ErrorCode) {
    let (call, number) = row.check;
    let mut machine = Machine::boot(&row.machine()).unwrap();
    for line in row.before.lines() {
        let told = play_line(&mut machine, line);
        assert!(!is_refused(&told), "{call} {number}: {line}: {told}");
    }
    let before = all(&mut machine);
    let zeros = " 0000000000000000".repeat(5);
    let w2 = code.number() as u32;
    let expected = format!("regs {} 0000000084000060 0000000000000000 {w2:016X}{zeros}\n", machine.runner());
    assert_eq!(play_line(&mut machine, &row.line), expected, "{call} {number}: {}", row.line);
    assert!(all(&mut machine) == before, "{call} {number} has changed something");
}

#[test]
fn each_check_fails_with_the_manuals_code() {
    let manual = manual();
    let mut seen = BTreeSet::from(NEVER);
    for row in rows() {
        let (call, number) = row.check;
        assert!(seen.insert(row.check), "{call} {number} stands twice");
        fails(&row, manual[call][number - 1]);
    }
    for (call, codes) in &manual {
        for number in 1..=codes.len() {
            assert!(seen.contains(&(call.as_str(), number)), "{call} {number} is missing");
        }
    }
    assert_eq!(seen.len(), manual.values().map(Vec::len).sum::<usize>());
}

#[test]
fn each_check_has_a_row() {
    let seen: BTreeSet<u32> = rows().iter().map(|row| row.named.number()).collect();
    let missing: Vec<&Check> = Check::ALL.iter().filter(|check| !seen.contains(&check.number())).collect();
    assert_eq!(missing, [&Check::TargetNotReady]);
}

// SPDX-License-Identifier: MIT OR Apache-2.0
//! The reasons of tests/tables.d/explained.table, one for each check of each call: the lines here are the program's.
mod common;

use common::explained::explain;
use common::top;
use gorseplumb::{Ffa, Machine, Manifest};
use std::fs;

/// Compares the reason of the last line of a trace, whose first lines are those before. Of a row with four fields the
/// first two are what stands in the manifest, and what shall.
fn compare(row: &str, manifest: &str, ffa: Ffa, before: &str) {
    let fields: Vec<&str> = row.split(" => ").collect();
    let (manifest, trace, told) = match fields[..] {
        [trace, told] => (manifest.to_owned(), trace, told),
        [from, to, trace, told] => (manifest.replacen(from, to, 1), trace, told),
        _ => panic!("{row}"),
    };
    let manifest = Manifest::read(manifest).unwrap().with_ffa(ffa);
    let text = explain(&mut Machine::boot(&manifest).unwrap(), &(before.to_owned() + &trace.replace('/', "\n")));
    assert_eq!(text.lines().last(), Some(format!("# refused: {told}").as_str()), "{row}");
}

#[test]
fn rows_are_told_as_the_program_tells_them() {
    let text = |path: &str| fs::read_to_string(top().join(path)).unwrap();
    let (table, manifest) = (text("tests/tables.d/explained.table"), text("tests/rows/machine.toml"));
    let mut count = 0;
    for test in table.split("\ntest ").skip(1) {
        let (head, rows) = test.split_once("\nrows\n").unwrap();
        let lines = head.lines().filter_map(|line| line.strip_prefix("| ")).filter(|line| !line.starts_with('{'));
        let before: String = lines.map(|line| line.to_owned() + "\n").collect();
        let ffa = if head.contains("--ffa 1.2") { Ffa::V1_2 } else { Ffa::V1_1 };
        for row in rows.lines().filter(|line| line.contains(" => ")) {
            compare(row, &manifest, ffa, &before);
            count += 1;
        }
    }
    assert!(count > 200, "{count} rows");
}

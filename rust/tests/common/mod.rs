// SPDX-License-Identifier: MIT OR Apache-2.0
//! Plays lines of a trace on a machine, and says what the program would print of them. docs/TRACES.md has the lines.
#![allow(dead_code)] // each test takes a part of it

pub mod explained;
pub mod machines;
pub mod refusals;
pub mod steps;

use gorseplumb::{registers, Fault, Id, Machine, Page, Ram, Rights, Size};
use std::fmt::Write;
use std::path::{Path, PathBuf};
use std::process::Command;
use std::{env, fs, process};

/// Where RAM begins in each manifest of examples/ and of the tests.
pub const RAM: u64 = 0x4000_0000;

/// The text of a file of examples/.
pub fn example(name: &str) -> String {
    let path = top().join("examples").join(name);
    fs::read_to_string(&path).unwrap_or_else(|why| panic!("{}: {why}", path.display()))
}

/// The top of the repository.
pub fn top() -> PathBuf {
    Path::new(env!("CARGO_MANIFEST_DIR")).parent().expect("the crate stands in the repository").into()
}

/// The program `ffaplay`: the one that FFAPLAY names, or the one that is built here.
fn program() -> PathBuf {
    env::var_os("FFAPLAY").map_or_else(|| top().join("crates/ffaplay/out/ffaplay"), PathBuf::from)
}

/// What the program prints.
pub fn run(arguments: &[&str]) -> String {
    let ran = Command::new(program()).args(arguments).output().unwrap_or_else(|why| panic!("{:?}: {why}", program()));
    assert!(ran.status.success(), "{arguments:?}: {}", String::from_utf8_lossy(&ran.stderr));
    String::from_utf8(ran.stdout).unwrap()
}

/// A trace of a hundred thousand operations and more for a manifest's machine, and what the program prints of it, with
/// these flags.
pub fn generated(manifest: &str, seed: &str, flags: &[&str]) -> (String, String) {
    let trace = run(&["generate", "--seed", seed, "--lines", "140000", manifest]);
    let is_operation = |line: &&str| ["call", "load", "stor", "fetc"].iter().any(|word| line.starts_with(word));
    let operations = trace.lines().filter(is_operation).count();
    assert!(operations >= 100_000, "{operations} operations");
    let path = env::temp_dir().join(format!("gorseplumb-{}-{seed}.trace", process::id()));
    fs::write(&path, &trace).unwrap();
    let expected = run(&[&["run"], flags, &[manifest, path.to_str().unwrap()]].concat());
    fs::remove_file(&path).unwrap();
    (trace, expected)
}

/// Pages of zeros, as many as so many blocks have.
pub fn ram(blocks: usize) -> Vec<Page> {
    vec![Page::ZERO; blocks * 512]
}

/// What the program prints of a trace.
pub fn play<R: Ram>(machine: &mut Machine<R>, trace: &str) -> String {
    trace.lines().map(|line| play_line(machine, line)).collect()
}

/// What the program prints of a line of a trace.
pub fn play_line<R: Ram>(machine: &mut Machine<R>, line: &str) -> String {
    let words: Vec<&str> = line.split(' ').collect();
    let number = |place: usize| u64::from_str_radix(words[place], 16).unwrap_or_else(|why| panic!("{line}: {why}"));
    let size = |bytes: usize| Size::of(bytes).unwrap_or_else(|| panic!("{line}: no size"));
    match words[0] {
        "" => String::new(),
        word if word.starts_with('#') => String::new(),
        "call" => {
            let mut given = registers([]);
            (1..words.len()).for_each(|place| given[place - 1] = number(place));
            format!("{}\n", machine.call(&given))
        }
        "load" => data(machine.load(number(1), size(number(2) as usize)), number(2) as usize),
        "store" => match machine.store(number(1), size(words[2].len() / 2), number(2)) {
            Ok(()) => "done\n".into(),
            Err(fault) => faulted(fault),
        },
        "fetch" => data(machine.fetch(number(1)).map(u64::from), 4),
        "show" => show(machine),
        "audit" => explained::audit(machine),
        _ => panic!("{line}: not a line of a trace"),
    }
}

fn data(value: Result<u64, Fault>, bytes: usize) -> String {
    match value {
        Ok(value) => format!("data {value:0digits$X}\n", digits = 2 * bytes),
        Err(fault) => faulted(fault),
    }
}

fn faulted(fault: Fault) -> String {
    format!("fault {}\n", fault.words())
}

/// Who owns a page, and what each endpoint may do with it.
fn standing<R: Ram>(machine: &Machine<R>, page: u32) -> Option<(Id, Vec<Option<Rights>>)> {
    let owner = machine.owner(page)?;
    Some((owner, machine.endpoints().map(|endpoint| machine.access(endpoint, page)).collect()))
}

fn show<R: Ram>(machine: &Machine<R>) -> String {
    let mut text = format!("runner {}\n", machine.runner());
    let mut first = 0;
    while let Some(common) = standing(machine, first) {
        let behind = (first..).find(|page| standing(machine, *page).as_ref() != Some(&common)).expect("RAM ends");
        let address = |page: u32| RAM + 4096 * u64::from(page);
        write!(text, "pages {:08X} {:08X} {}", address(first), address(behind) - 1, common.0).expect("a text grows");
        for rights in &common.1 {
            text += &rights.map_or_else(|| " ---".into(), |rights| format!(" {rights}"));
        }
        text += "\n";
        first = behind;
    }
    text
}

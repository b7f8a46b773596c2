// SPDX-License-Identifier: MIT OR Apache-2.0
//! The manual's worked examples, and generated operations, on a machine of each kind: what comes of them is what the
//! manual or the program says.
mod common;

use common::machines::{MACHINE, PARTITIONS};
use common::{example, generated, play, ram, run, top};
use gorseplumb::{Machine, Manifest};
use std::fs;

/// Plays a trace on RAM of the heap and on lent pages, booted from text and from numbers, and compares.
fn plays(name: &str, text: &str, manifest: &Manifest, trace: &str, expected: &str) {
    let mut pages = ram(2);
    let pages = &mut pages[..manifest.pages()];
    let same = |kind: &str, told: String| {
        let differs = told.lines().zip(expected.lines()).position(|(told, expected)| told != expected);
        assert!(told == expected, "{name}, {kind}: differs at output line {differs:?} from 0, or in length");
    };
    same("heap, text", play(&mut Machine::boot(text).unwrap(), trace));
    same("heap, numbers", play(&mut Machine::boot(manifest).unwrap(), trace));
    same("lent, text", play(&mut Machine::boot_lent(text, pages).unwrap(), trace));
    same("lent, numbers", play(&mut Machine::boot_lent(manifest, pages).unwrap(), trace));
}

/// What the manual has in a file, without the lines that say why an operation is refused.
fn told(name: &str) -> String {
    example(name).lines().filter(|line| !line.starts_with("# refused: ")).map(|line| line.to_owned() + "\n").collect()
}

#[test]
fn the_manuals_traces_give_its_text() {
    let text = example("partitions.toml");
    for name in ["accesses", "messages", "sharing", "refused"] {
        plays(name, &text, &PARTITIONS, &example(&format!("{name}.trace")), &told(&format!("{name}.out")));
    }
}

/// What README.md says of examples/first.trace, on the built-in machine of docs/COMMANDS.md, which differs from
/// examples/machine.toml in its endpoints.
#[test]
fn the_first_trace_gives_the_text_of_the_readme() {
    let machine = example("machine.toml");
    let end = machine.find("# The partition 8002.").unwrap();
    let expected = "regs 0000 0000000084000061 0000000000000000 0000000000000000 0000000000000000 0000000000000000 \
                    0000000000000000 0000000000000000 0000000000000000\ndone\ndata 2A\nfault translation\n\
                    runner 0000\npages 40000000 4000FFFF 8000 --- ---\npages 40010000 4001FFFF 0000 rw- ---\n\
                    pages 40020000 4002FFFF 8001 --- rwx\npages 40030000 401FFFFF 8000 --- ---\n";
    let told = play(&mut Machine::boot(&machine[..end]).unwrap(), &example("first.trace"));
    assert_eq!(told, expected);
}

/// The program of docs/RUST.md is the example that is built and run.
#[test]
fn the_page_has_the_example() {
    let page = fs::read_to_string(top().join("docs/RUST.md")).unwrap();
    let example = include_str!("../examples/first.rs");
    let program = &example[example.find("use gorseplumb").unwrap()..];
    let told: String =
        program.lines().map(|line| if line.is_empty() { "\n".into() } else { format!("    {line}\n") }).collect();
    assert!(page.contains(&told));
}

#[test]
#[ignore = "needs the program ffaplay"]
fn the_examples_give_what_the_program_prints() {
    for (machine, manifest, traces) in [
        ("machine", &MACHINE, &["first", "calls"][..]),
        ("partitions", &PARTITIONS, &["accesses", "messages", "sharing"]),
    ] {
        let file = top().join(format!("examples/{machine}.toml"));
        for name in traces {
            let trace = top().join(format!("examples/{name}.trace"));
            let expected = run(&["run", file.to_str().unwrap(), trace.to_str().unwrap()]);
            plays(name, &example(&format!("{machine}.toml")), manifest, &example(&format!("{name}.trace")), &expected);
        }
    }
}

#[test]
#[ignore = "needs the program ffaplay"]
fn generated_operations_give_what_the_program_prints() {
    for (machine, manifest, seed) in [("machine", &MACHINE, "1"), ("partitions", &PARTITIONS, "7")] {
        let file = top().join(format!("examples/{machine}.toml"));
        let (trace, expected) = generated(file.to_str().unwrap(), seed, &[]);
        plays(machine, &example(&format!("{machine}.toml")), manifest, &trace, &expected);
    }
}

// SPDX-License-Identifier: MIT OR Apache-2.0
//! raw.rs declares what c/gorseplumb.h does: each function, the size of each struct, the place of each field, and each
//! number, as the C compiler of this machine has them.
mod common;

use common::top;
use gorseplumb::raw;
use std::collections::BTreeSet;
use std::mem::{size_of, MaybeUninit};
use std::process::Command;
use std::{env, fs, process, ptr};

/// The rows of a struct: its size, and the place of each field, in C and here.
macro_rules! fields {
    ($of:ident, $struct:literal, $($field:ident)*) => {{
        let room = MaybeUninit::<raw::$of>::uninit();
        let first = room.as_ptr();
        let place = |field: usize| field - first as usize;
        vec![
            (format!("sizeof(struct gorseplumb_{})", $struct), size_of::<raw::$of>() as i64),
            $(
                // SAFETY: nothing is read: a place in the room is all that is asked.
                (
                    format!("offsetof(struct gorseplumb_{}, {})", $struct, stringify!($field)),
                    place(unsafe { ptr::addr_of!((*first).$field) } as usize) as i64,
                ),
            )*
        ]
    }};
}

macro_rules! numbers {
    ($($name:ident)*) => {
        vec![$((concat!("GORSEPLUMB_", stringify!($name)).to_owned(), i64::from(raw::$name as u32))),*]
    };
}

/// What boots, operations and lists of pages have.
fn operations() -> Vec<(String, i64)> {
    let mut rows = fields!(Machine, "machine", live at);
    rows.extend(fields!(Lent, "lent", live at));
    rows.extend(fields!(Slot, "slot", live at));
    rows.extend(fields!(Span, "span", at pages));
    rows.extend(fields!(Block, "block", ok at));
    rows.extend(fields!(Registers, "registers", x));
    rows.extend(fields!(Outcome, "outcome", kind runner value x));
    rows.extend(fields!(Region, "region", base pages rights));
    rows.extend(fields!(Endpoint, "endpoint", version properties uuid region_count regions));
    rows.extend(fields!(Manifest, "manifest", ram_base ram_blocks endpoint_count endpoints ffa tables));
    rows.extend(fields!(Refusal, "refusal", cause endpoint region line column words));
    rows.extend(fields!(Range, "range", address size));
    rows.extend(fields!(Change, "change", endpoint range_count ranges));
    rows.push(("sizeof(struct gorseplumb_page)".into(), size_of::<gorseplumb::Page>() as i64));
    rows.extend(numbers!(KIND_REGISTERS KIND_DATA KIND_DONE KIND_FAULT KIND_NO_MACHINE KIND_BAD_SIZE));
    rows.extend(numbers!(OK NO_MEMORY OCCUPIED NO_LIST NO_PAGE HAS_PAGES NO_MACHINE WRONG_COUNT NOTHING));
    rows.extend(numbers!(KIND_RESUMED));
    rows.extend(numbers!(MOST_REGIONS MOST_ENDPOINTS MOST_BLOCKS MOST_RANGES MOST_PROCESSORS FFA_1_1 FFA_1_2));
    rows
}

/// What questions, reasons and lists of operations have.
fn questions() -> Vec<(String, i64)> {
    let mut rows = fields!(Grant, "grant", kind handle);
    rows.extend(fields!(CertRun, "cert_run", first last owner has_handle handle access));
    rows.extend(fields!(Reason, "reason", fault check error about obstacle page endpoint owner number flaw));
    rows.extend(fields!(Reason, "reason", index has_value state awaits handle transaction value first size));
    rows.extend(fields!(Reason, "reason", least most step hint));
    rows.extend(fields!(Hint, "hint", kind numbers));
    rows.extend(fields!(Operation, "operation", kind size address value x));
    rows.extend(numbers!(NOT_CERTIFIED LENT BAD_BASE BAD_ROOTS DECLARATIONS));
    rows.extend(numbers!(GRANT_NONE GRANT_OWN GRANT_SHARED GRANT_HELD));
    rows.extend(numbers!(ABOUT_NOTHING ABOUT_PAGE ABOUT_ENDPOINT ABOUT_HANDLE ABOUT_REGISTER ABOUT_BIT ABOUT_FIELD));
    rows.extend(numbers!(STATE_NONE STATE_RUNNING STATE_WAITING STATE_YIELDED STATE_BLOCKED STATE_PREEMPTED));
    rows.extend(numbers!(STATE_RUNS_ELSEWHERE OBSTACLE_NONE OBSTACLE_OUTSIDE_RAM OBSTACLE_MANAGERS_PAGE));
    rows.extend(numbers!(OBSTACLE_OWNED_BY OBSTACLE_IN_TRANSACTION));
    rows.extend(numbers!(OPERATION_CALL OPERATION_LOAD OPERATION_STORE OPERATION_FETCH));
    rows.extend(numbers!(HINT_NONE HINT_TX_PAGE HINT_RX_PAGE HINT_OWN_RIGHT HINT_GRANTED HINT_ACCESS HINT_CALLER));
    rows.extend(numbers!(HINT_SENDER HINT_TAG HINT_KIND HINT_RIGHT HINT_HELD HINT_ROOM HINT_VALUE HINT_FORM HINT_WORD));
    rows.extend(numbers!(HINT_MESSAGE HINT_OUTSIDE HINT_HOLDER HINT_RUN HINT_REQUEST HINT_PENDING));
    rows.extend(numbers!(HINT_BUFFERS_MISSING));
    let name = |prefix: &str, variant: &str| {
        variant.chars().fold(format!("GORSEPLUMB_{prefix}"), |name, letter| {
            name + if letter.is_uppercase() { "_" } else { "" } + &letter.to_uppercase().to_string()
        })
    };
    rows.extend(gorseplumb::Check::ALL.iter().map(|it| (name("CHECK", &format!("{it:?}")), it.number().into())));
    rows.extend(gorseplumb::CheckCause::ALL.iter().map(|it| (name("HINT", &format!("{it:?}")), it.number().into())));
    rows.extend(gorseplumb::Flaw::ALL.iter().map(|it| (name("FLAW", &format!("{it:?}")), it.number().into())));
    rows
}

/// What the C compiler makes of expressions.
fn of_c(expressions: &[String]) -> Vec<i64> {
    let room = env::temp_dir().join(format!("gorseplumb-{}", process::id()));
    fs::create_dir_all(&room).unwrap();
    let prints: String =
        expressions.iter().map(|it| format!("    printf(\"%lld\\n\", (long long)({it}));\n")).collect();
    let includes = "#include <stddef.h>\n#include <stdio.h>\n#include \"gorseplumb.h\"\n";
    fs::write(room.join("numbers.c"), format!("{includes}int main(void) {{\n{prints}    return 0;\n}}\n")).unwrap();
    let mut compiler = Command::new("cc");
    compiler.arg("-I").arg(top().join("c")).arg("numbers.c").args(["-o", "numbers"]).current_dir(&room);
    assert!(compiler.status().unwrap().success());
    let said = Command::new(room.join("numbers")).output().unwrap().stdout;
    fs::remove_dir_all(&room).unwrap();
    String::from_utf8(said).unwrap().lines().map(|line| line.parse().unwrap()).collect()
}

#[test]
fn numbers_and_places_are_the_headers() {
    let (names, here): (Vec<String>, Vec<i64>) = operations().into_iter().chain(questions()).unzip();
    let there = of_c(&names);
    assert_eq!(there.len(), names.len());
    for ((name, here), there) in names.iter().zip(here).zip(there) {
        assert_eq!(here, there, "{name}");
    }
}

/// Names of the library's functions in a text, each in front of its parameters.
fn functions(text: &str) -> BTreeSet<&str> {
    let pieces: Vec<&str> = text.split('(').collect();
    let name = |piece: &&'_ str| piece.rfind(|letter: char| !letter.is_ascii_alphanumeric() && letter != '_');
    let names = pieces.iter().filter_map(|piece| Some(&piece[name(piece)? + 1..]));
    names.filter(|name| name.starts_with("gorseplumb_")).collect()
}

#[test]
fn functions_are_the_headers() {
    let header = fs::read_to_string(top().join("c/gorseplumb.h")).unwrap();
    let mut there = functions(&header);
    assert!(there.remove("gorseplumb_settle"), "firmware has it");
    let here = functions(include_str!("../src/raw.rs"));
    assert_eq!(here, there);
}

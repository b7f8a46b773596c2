// SPDX-License-Identifier: MIT OR Apache-2.0
//! What a machine's tables give, and whether runs say it.
mod common;

use common::explained::explain;
use common::machines::{MACHINE, PARTITIONS};
use common::{example, play, ram, run, top, RAM};
use gorseplumb::{AuditError, Grant, Handle, Id, Lent, Machine, PageRun, Rights};
use std::fs;

const FIRST: Id = Id(0x8001);
const SECOND: Id = Id(0x8002);

/// The lines of `audit` in docs/TRACES.md, on the built-in machine.
#[test]
fn the_manuals_certificate() {
    let page = fs::read_to_string(top().join("docs/TRACES.md")).unwrap();
    let lines = page.lines().skip_while(|line| !line.starts_with("    cert ")).take_while(|line| !line.is_empty());
    let expected: String = lines.map(|line| line.trim_start().to_owned() + "\n").collect();
    let text = example("machine.toml");
    let end = text.find("# The partition 8002.").unwrap();
    assert_eq!(explain(&mut Machine::boot(&text[..end]).unwrap(), "audit\n"), expected);
}

#[test]
#[ignore = "needs the program ffaplay"]
fn certificates_are_what_the_program_prints() {
    let file = top().join("examples/partitions.toml");
    for name in ["accesses", "messages", "sharing"] {
        let trace = example(&format!("{name}.trace")).replace('\n', "\naudit\n");
        let path = std::env::temp_dir().join(format!("gorseplumb-{}-{name}.audit", std::process::id()));
        fs::write(&path, &trace).unwrap();
        let expected = run(&["run", "--explain", file.to_str().unwrap(), path.to_str().unwrap()]);
        fs::remove_file(&path).unwrap();
        let told = explain(&mut Machine::boot(&PARTITIONS).unwrap(), &trace);
        assert!(told == expected, "{name}");
    }
}

/// The lines of `layout` in docs/MANIFEST.md, for the worked example.
#[test]
fn where_tables_stand() {
    let machine = Machine::boot(&PARTITIONS).unwrap();
    assert_eq!((machine.ram_base(), machine.ram_blocks()), (RAM as u32, 2));
    assert_eq!(machine.root(Id(0)), Some(0x4000_0000));
    assert_eq!(machine.root(FIRST), Some(0x4000_4000));
    assert_eq!(machine.root(SECOND), Some(0x4000_8000));
    assert_eq!((machine.root(Id::MANAGER), machine.root(Id(0x8003))), (None, None));
}

/// The trace of the shared page, up to where 8002 has retrieved it.
fn shared() -> String {
    let trace = example("sharing.trace");
    trace[..trace.find("show\n").unwrap()].into()
}

const HANDLE: Handle = Handle(0x8001_0000_0001);

#[test]
fn by_what_a_page_is_reached() {
    let mut pages = ram(2);
    let mut machine = Machine::boot_lent(&PARTITIONS, &mut pages).unwrap();
    assert_eq!(machine.granted(FIRST, 40), Some(Grant::Own));
    play(&mut machine, &shared());
    assert_eq!(machine.granted(FIRST, 40), Some(Grant::Shared(HANDLE)));
    assert_eq!(machine.granted(SECOND, 40), Some(Grant::Held(HANDLE)));
    assert_eq!((machine.granted(FIRST, 41), machine.granted(SECOND, 41)), (Some(Grant::Own), None));
    assert_eq!((machine.granted(Id(0), 40), machine.granted(FIRST, 1024)), (None, None));
    assert_eq!((machine.granted(Id::MANAGER, 0), machine.granted(Id(1), 16)), (None, None));
}

#[test]
fn runs_divide_ram() {
    let mut machine = Machine::boot(&PARTITIONS).unwrap();
    play(&mut machine, &shared());
    let run = machine.run_from(40).unwrap();
    assert_eq!((run.first(), run.last(), run.owner(), run.transaction()), (40, 40, FIRST, Some(HANDLE)));
    assert_eq!([0, 1, 2, 3, 8].map(|place| run.access(place)), [None, Some(Rights::Rw), Some(Rights::Ro), None, None]);
    assert_eq!(machine.run_from(43).map(|run| (run.first(), run.last())), Some((43, 47)));
    assert_eq!(machine.run_from(1024), None);
    let runs: Vec<PageRun> = machine.certificate().collect();
    let mut next = 0;
    for pages in &runs {
        assert_eq!(pages.first(), next);
        next = pages.last() + 1;
    }
    assert_eq!(next, 1024);
}

/// The same runs with one changed.
fn with(runs: &[PageRun], place: usize, owner: Id, access: &[Option<Rights>]) -> Vec<PageRun> {
    let mut runs = runs.to_vec();
    let run = runs[place];
    runs[place] = PageRun::new(run.first(), run.last(), owner, run.transaction(), access).unwrap();
    runs
}

#[test]
fn what_is_certified() {
    let mut machine = Machine::boot(&PARTITIONS).unwrap();
    play(&mut machine, &shared());
    let runs: Vec<PageRun> = machine.certificate().collect();
    let place = runs.iter().position(|run| run.first() == 40).unwrap();
    let access: Vec<Option<Rights>> = (0..3).map(|endpoint| runs[place].access(endpoint)).collect();
    assert_eq!(machine.audit(&runs), Ok(()));
    let made = runs.iter().map(|run| {
        let access = [0, 1, 2].map(|endpoint| run.access(endpoint));
        PageRun::new(run.first(), run.last(), run.owner(), run.transaction(), &access).unwrap()
    });
    assert_eq!(made.collect::<Vec<_>>(), runs);
    assert_eq!(machine.audit(&with(&runs, place, Id(0), &access)), Ok(()), "no table holds an owner");
    let more = [access[0], access[1], Some(Rights::Rw)];
    assert_eq!(machine.audit(&with(&runs, place, FIRST, &more)), Err(AuditError::NotCertified));
    assert_eq!(machine.audit(&runs[1..]), Err(AuditError::NotCertified));
    assert_eq!(machine.audit(&[]), Err(AuditError::NotCertified));
    assert_eq!(PageRun::new(0, 0, FIRST, None, &[None; 9]), None);
}

#[test]
fn tables_without_a_machine() {
    let mut pages = ram(1);
    let mut lent = Lent::new(&mut pages).unwrap();
    let machine = lent.boot(&MACHINE).unwrap();
    let runs: Vec<PageRun> = machine.certificate().collect();
    let roots: Vec<u32> = machine.endpoints().map(|endpoint| machine.root(endpoint).unwrap()).collect();
    drop(machine);
    let base = RAM as u32;
    assert_eq!(lent.audit_tables(base, &roots, &runs), Ok(()));
    assert_eq!(lent.audit_tables(base, &roots, &runs[..1]), Err(AuditError::NotCertified));
    let other = [roots[1], roots[0], roots[2]];
    assert_eq!(lent.audit_tables(base, &other, &runs), Err(AuditError::NotCertified));
    assert_eq!(lent.audit_tables(base + 1, &roots, &runs), Err(AuditError::BadBase));
    assert_eq!(lent.audit_tables(base, &[base; 9], &runs), Err(AuditError::BadRoots));
    assert_eq!(lent.audit_tables(base, &[base + 0x20_0000, roots[1], roots[2]], &runs), Err(AuditError::BadRoots));
    let pages = lent.into_pages();
    pages[2].0[8 * 16] ^= 1; // the word of level 3 that maps the normal world's first page
    let mut lent = Lent::new(pages).unwrap();
    assert_eq!(lent.audit_tables(base, &roots, &runs), Err(AuditError::NotCertified));
}

// SPDX-License-Identifier: MIT OR Apache-2.0
//! Each cause for which there is no machine, by the smallest change of a manifest that has it.
mod common;

use common::machines::{MACHINE, WORLD};
use common::{example, play, ram, RAM};
use gorseplumb::{
    BootError, Cause, CountError, Endpoint, Ffa, Id, Lent, Machine, Manifest, Properties, Refusal, Region, Rights,
    Size, Version, MOST_BLOCKS,
};

/// Stands for all of the text from the first endpoint on.
const ENDPOINTS: &str = "[[endpoint]] ..";

/// The change of examples/machine.toml that has a cause: what stands there, and what takes its place. docs/MANIFEST.md
/// has the causes.
fn change(cause: Cause) -> (&'static str, &'static str) {
    match cause {
        Cause::Toml => ("[[endpoint]]", "[[endpoint]"),
        Cause::UnknownKey => ("ram_blocks", "blocks = 1\nram_blocks"),
        Cause::MissingKey => ("ram_blocks = 1", ""),
        Cause::WrongKind => ("\"rw\"", "\"wr\""),
        Cause::RamBase => ("0x40000000", "0x40001000"),
        Cause::RamBlocks => ("ram_blocks = 1", "ram_blocks = 33"),
        Cause::EndpointCount => (ENDPOINTS, "endpoint = []\n"),
        Cause::Uuid => ("00112233-4455-6677-8899-aabbccddeeff", "00000000-0000-0000-0000-000000000000"),
        Cause::Property => ("properties = 6", "properties = 7"),
        Cause::RegionCount => ("[{ base = 0x40010000, pages = 16, rights = \"rw\" }]", "[]"),
        Cause::RegionOutside => ("0x40010000", "0x40008000"),
        Cause::RegionOverlap => ("0x40020000", "0x4001F000"),
        Cause::Version => ("\"1.1\"", "\"1.2\""),
        Cause::TablesOutside => unreachable!("no text says where tables stand"),
    }
}

/// The text of a manifest that has this cause.
fn refused_text(cause: Cause) -> String {
    let text = example("machine.toml");
    let (mut old, new) = change(cause);
    if old == ENDPOINTS {
        old = &text[text.find("[[endpoint]]").unwrap()..];
    }
    assert!(text.contains(old), "{cause}");
    text.replacen(old, new, 1)
}

/// Nothing boots from this, on RAM of the heap or in pages, which keep their bytes.
fn refuses<D: gorseplumb::Description + ?Sized>(description: &D, cause: Cause) {
    let refused = Machine::boot(description).err().unwrap();
    assert_eq!(refused.cause(), Some(cause));
    let mut pages = ram(1);
    pages.iter_mut().for_each(|page| page.0.fill(0x5A));
    assert_eq!(Machine::boot_lent(description, &mut pages).err(), Some(refused));
    assert_eq!(Machine::boot_preloaded(description, &mut pages).err(), Some(refused));
    let mut lent = Lent::new(&mut pages).unwrap();
    assert_eq!(lent.boot(description).err(), Some(refused));
    assert_eq!(lent.boot_preloaded(description).err(), Some(refused));
    assert!(lent.boot(&MACHINE).is_ok(), "the list has its pages still");
    drop(lent);
    pages.iter_mut().for_each(|page| page.0.fill(0x5A));
    assert_eq!(Machine::boot_lent(description, &mut pages).err(), Some(refused));
    assert!(pages.iter().all(|page| page.0.iter().all(|byte| *byte == 0x5A)));
}

#[test]
fn each_cause_of_a_text() {
    let (none, of_texts) = Cause::ALL.split_last().unwrap();
    assert_eq!((*none, of_texts.len()), (Cause::TablesOutside, 13));
    for cause in of_texts {
        refuses(&*refused_text(*cause), *cause);
    }
    refuses(&b"\xFF"[..], Cause::Toml);
    refuses("", Cause::MissingKey);
}

/// Numbers can say what only these causes refuse.
#[test]
fn each_cause_of_numbers() {
    let base = RAM as u32;
    let partition = |uuid: u8, region| Endpoint::partition([uuid; 16], Version::V1_1, Properties::ALL, &[region]);
    let region = |at, pages| Region::new(base + at, pages, Rights::Rw);
    let machine = |second| Manifest::new(base, 1, &[WORLD, second]);
    refuses(&Manifest::new(base + 0x1000, 1, &[WORLD]), Cause::RamBase);
    refuses(&Manifest::new(0, 1, &[WORLD]), Cause::RamBase);
    refuses(&machine(partition(0, region(0x20000, 1))), Cause::Uuid);
    refuses(&Manifest::new(base, 1, &[partition(1, region(0x20000, 1))]), Cause::Uuid);
    let receives = Endpoint::normal_world(Version::V1_1, Properties::RECEIVES_REQUESTS, &[region(0x20000, 1)]);
    refuses(&Manifest::new(base, 1, &[receives]), Cause::Property);
    refuses(&machine(partition(1, region(0x20000, 0))), Cause::RegionOutside);
    refuses(&machine(partition(1, region(0x20_0000, 1))), Cause::RegionOutside);
    refuses(&machine(partition(1, region(0x1F000, 2))), Cause::RegionOverlap);
    let newer = machine(Endpoint::partition([1; 16], Version::V1_2, Properties::ALL, &[region(0x20000, 1)]));
    refuses(&newer, Cause::Version);
    let why = Machine::boot(&newer).unwrap_err().to_string();
    assert!(why.contains("a version is unknown, or is 1.2 on a machine of FF-A 1.1"), "{why}");
    assert!(Machine::boot(&newer.with_ffa(Ffa::V1_2)).is_ok());
    let second = Properties::ALL | Properties::RECEIVES_SECOND_REQUESTS | Properties::SENDS_SECOND_REQUESTS;
    let of =
        |version| machine(Endpoint::partition([1; 16], version, second, &[region(0x20000, 1)])).with_ffa(Ffa::V1_2);
    assert!(Machine::boot(&of(Version::V1_2)).is_ok());
    refuses(&of(Version::V1_1), Cause::Property);
    refuses(&of(Version::Compact), Cause::Property);
    refuses(&MACHINE.with_tables(504), Cause::TablesOutside);
    refuses(&MACHINE.with_tables(u32::MAX), Cause::TablesOutside);
    refuses(&MACHINE.with_tables(63), Cause::RegionOutside);
}

/// RAM that can't be so, and two endpoints that make no machine by one number.
#[test]
fn numbers_that_make_no_machine() {
    let base = RAM as u32;
    let partition = |uuid, at| Endpoint::partition([uuid; 16], Version::V1_1, Properties::ALL, &[owned(at)]);
    let endpoints = [WORLD, partition(1, 0x20000), partition(2, 0x30000)];
    refuses(&Manifest::new(base + 0x10_0000, 1, &endpoints), Cause::RamBase);
    refuses(&Manifest::new(base - 0x20_0000, 2, &endpoints), Cause::RamBlocks);
    let two = |first: (u8, Properties, u32), second: (u8, Properties, u32)| {
        let endpoint =
            |(uuid, properties, at)| Endpoint::partition([uuid; 16], Version::V1_1, properties, &[owned(at)]);
        Manifest::new(base, 1, &[endpoint(first), endpoint(second)])
    };
    let (none, receives) = (Properties::NONE, Properties::RECEIVES_REQUESTS);
    assert!(Machine::boot(&two((0, none, 0x10000), (1, receives, 0x20000))).is_ok());
    refuses(&two((0, none, 0x10000), (0, none, 0x20000)), Cause::Uuid);
    refuses(&two((0, receives, 0x10000), (1, none, 0x20000)), Cause::Property);
    refuses(&two((0, none, 0x5000), (1, none, 0x20000)), Cause::RegionOutside);
    refuses(&two((0, none, 0x10000), (1, none, 0x1F000)), Cause::RegionOverlap);
}

/// Sixteen pages that may be read, from this offset in RAM on.
fn owned(at: u32) -> Region {
    Region::new(RAM as u32 + at, 16, Rights::Ro)
}

/// A machine of numbers has what they say: RAM and pages, properties and UUIDs.
#[test]
fn numbers_are_what_the_machine_has() {
    let mut machine = Machine::boot(&MACHINE).unwrap();
    let pages = "runner 0000\n\
                 pages 40000000 4000FFFF 8000 --- --- ---\n\
                 pages 40010000 4001FFFF 0000 rw- --- ---\n\
                 pages 40020000 4002FFFF 8001 --- rwx ---\n\
                 pages 40030000 4003FFFF 8002 --- --- rw-\n\
                 pages 40040000 401FFFFF 8000 --- --- ---\n";
    assert_eq!(play(&mut machine, "show"), pages);
    let information = "call 84000066 4001E000 4001F000 1\ncall 84000068\n";
    play(&mut machine, information);
    let told = [
        0x0000_010F_0001_8001,
        0x7766_5544_3322_1100,
        0xFFEE_DDCC_BBAA_9988,
        0x0000_010F_0001_8002,
        0x7766_5544_3322_1110,
        0xFFEE_DDCC_BBAA_9988,
    ];
    for (place, word) in told.into_iter().enumerate() {
        assert_eq!(machine.load(0x4001_F000 + 8 * place as u64, Size::B8), Ok(word));
    }
}

/// Where and why nothing boots from this.
fn refusal<D: gorseplumb::Description + ?Sized>(description: &D) -> Refusal {
    match Machine::boot(description).err() {
        Some(BootError::Refused(refusal)) => refusal,
        other => panic!("{other:?}"),
    }
}

/// Where a text and numbers are refused is told.
#[test]
fn places_are_told() {
    let toml = refusal("ram_base = 0x40000000\nx = 1 2");
    assert_eq!((toml.cause, toml.line, toml.column, toml.endpoint), (Cause::Toml, Some(2), Some(5), None));
    assert!(toml.to_string().ends_with(": line 2, column 5"), "{toml}");
    let overlap = refusal(&*refused_text(Cause::RegionOverlap));
    let place = (overlap.endpoint, overlap.region, overlap.line);
    assert_eq!((overlap.cause, place), (Cause::RegionOverlap, (Some(Id(0x8001)), Some(1), None)));
    assert!(BootError::Refused(overlap).to_string().ends_with(": endpoint 8001, region 1"), "{overlap}");
    let version = refusal(&*refused_text(Cause::Version));
    assert!(version.to_string().ends_with(": endpoint 0000"), "{version}");
    let (base, rights) = (RAM as u32, Rights::Rw);
    let regions = [Region::new(base + 0x20000, 1, rights), Region::new(base + 0x1F000, 2, rights)];
    let partition = Endpoint::partition([1; 16], Version::V1_1, Properties::ALL, &regions);
    let wanted = Refusal { endpoint: Some(Id(0x8001)), region: Some(2), ..Refusal::new(Cause::RegionOverlap) };
    assert_eq!(refusal(&Manifest::new(base, 1, &[WORLD, partition])), wanted);
}

#[test]
fn words_are_those_of_the_program() {
    let mut room = [0; 300];
    assert_eq!(Manifest::why(example("machine.toml").as_str(), &mut room), None);
    let text = refused_text(Cause::RamBlocks);
    assert_eq!(Manifest::why(&text, &mut room), Some("ram_blocks = 33: must be 1 to 32"));
    assert_eq!(Manifest::why(&text, &mut room[..6]), Some("ram_b"));
    assert_eq!(Manifest::why("\"\u{e9}\" = 1", &mut room[..15]), Some("unknown key '"), "a character is cut");
    assert_eq!(Manifest::why(&text, &mut []), Some(""));
}

#[test]
fn counts_that_numbers_cant_have() {
    let region = Region::new(RAM as u32 + 0x20000, 1, Rights::Ro);
    let endpoint = |regions: &[Region]| Endpoint::try_new([1; 16], Version::Compact, Properties::NONE, regions);
    assert_eq!(endpoint(&[]), Err(CountError::Regions));
    assert_eq!(endpoint(&[region; 17]), Err(CountError::Regions));
    assert!(endpoint(&[region; 16]).is_ok());
    let manifest = |blocks, endpoints: &[Endpoint]| Manifest::try_new(RAM as u32, blocks, endpoints).err();
    assert_eq!(manifest(0, &[WORLD]), Some(CountError::Blocks));
    assert_eq!(manifest(MOST_BLOCKS + 1, &[WORLD]), Some(CountError::Blocks));
    assert_eq!(manifest(1, &[]), Some(CountError::Endpoints));
    assert_eq!(manifest(1, &[WORLD; 9]), Some(CountError::Endpoints));
    assert_eq!(manifest(MOST_BLOCKS, &[WORLD; 8]), None);
}

#[test]
fn more_or_fewer_pages_than_ram_has() {
    let mut pages = ram(2);
    for count in [0, 1, 511, 513, 1024] {
        let pages = &mut pages[..count];
        assert_eq!(Machine::boot_lent(&MACHINE, pages).err(), Some(BootError::WrongCount));
        assert_eq!(Machine::boot_preloaded(&*example("machine.toml"), pages).err(), Some(BootError::WrongCount));
    }
    assert!(Machine::boot_lent(&MACHINE, &mut pages[512..]).is_ok());
}

#[test]
fn causes_are_said_by_number_name_and_words() {
    let told = BootError::Refused(Refusal::new(Cause::RegionOverlap)).to_string();
    assert_eq!(told, "the manifest is refused by M13 RegionOverlap: a region has a page of a region before it");
    for cause in Cause::ALL {
        assert_eq!(Cause::of(cause.number()), Some(*cause));
    }
    assert_eq!((Cause::of(1), Cause::of(15), Cause::of(24), Cause::of(26)), (None, None, None, None));
}

#[test]
fn errors_name_what_they_come_of() {
    use std::error::Error;
    let refused: Box<dyn Error> = Box::new(BootError::Refused(Refusal::new(Cause::Toml)));
    assert_eq!(refused.source().unwrap().to_string(), Cause::Toml.to_string());
    assert!(BootError::NoMemory.source().is_none());
}

// SPDX-License-Identifier: MIT OR Apache-2.0
//! Finds the archive `libgorseplumb.a` and links it: in the folder GORSEPLUMB_LIB_DIR where that is set, else where
//! `c/archive` leaves it in the repository that this crate stands in, `out/<target>`. Where GORSEPLUMB_MAKE is set it
//! has `c/archive` make one that is missing, which may prove all crates below first.
//!
//! One that is missing, or another processor's, ends a build and no `cargo check` or `cargo doc`, which link nothing:
//! cargo doesn't tell this script which of them runs, so it warns, and asks for a library that the compiler won't find.
use std::path::{Path, PathBuf};
use std::process::{exit, Command};
use std::{env, fs};

const NAME: &str = "libgorseplumb.a";

/// The library's name where there is none to link: of a crate that isn't the user's own cargo hides the warning, so
/// that what the compiler says of this name is all there is to read.
const NOTHING: &str = "gorseplumb (run c/archive --unproved or c/archive, or set GORSEPLUMB_LIB_DIR)";

fn main() {
    println!("cargo:rerun-if-env-changed=GORSEPLUMB_LIB_DIR");
    println!("cargo:rerun-if-env-changed=GORSEPLUMB_MAKE");
    match archive().and_then(for_this_target) {
        Ok(archive) => {
            println!("cargo:rerun-if-changed={}", archive.display());
            let folder = archive.parent().expect("an archive stands in a folder");
            println!("cargo:rustc-link-search=native={}", folder.display());
            println!("cargo:rustc-link-lib=static=gorseplumb");
        }
        Err(why) => {
            println!("cargo:warning=gorseplumb: {why}");
            println!("cargo:warning=gorseplumb: `cargo check` and `cargo doc` go on without it, and a build doesn't");
            println!("cargo:rustc-link-lib=static={NOTHING}");
        }
    }
}

fn variable(name: &str) -> String {
    env::var(name).unwrap_or_else(|_| panic!("cargo sets {name}"))
}

/// Where the archive is.
fn archive() -> Result<PathBuf, String> {
    if let Some(folder) = env::var_os("GORSEPLUMB_LIB_DIR") {
        let archive = Path::new(&folder).join(NAME);
        println!("cargo:rerun-if-changed={}", archive.display());
        let missing = format!("there is no {}; GORSEPLUMB_LIB_DIR names its folder", archive.display());
        return if archive.is_file() { Ok(archive) } else { Err(missing) };
    }
    let here = PathBuf::from(variable("CARGO_MANIFEST_DIR"));
    let top = here.parent().filter(|top| top.join("c/archive").is_file()).ok_or_else(|| {
        format!(
            "{} stands in no repository of Gorseplumb: set GORSEPLUMB_LIB_DIR to the folder of {NAME}",
            here.display()
        )
    })?;
    let archive = top.join("out").join(variable("TARGET")).join(NAME);
    println!("cargo:rerun-if-changed={}", archive.display());
    if !archive.is_file() {
        make(top, &archive)?;
    }
    Ok(archive)
}

/// Has the repository make the archive, if that is wanted.
fn make(top: &Path, archive: &Path) -> Result<(), String> {
    let missing = format!("there is no {}", archive.display());
    let command = format!("c/archive --target {}", variable("TARGET"));
    if env::var_os("GORSEPLUMB_MAKE").is_none() {
        return Err(format!(
            "{missing}: make it at the top of the repository by `{}` (about four minutes; not proved, and slower), or \
             by `{command}` (proved; 20 minutes where nothing is), or set GORSEPLUMB_LIB_DIR to the folder of a {NAME}",
            command.replace("--target", "--unproved --target")
        ));
    }
    let made = Command::new(top.join("c/archive")).args(["--target", &variable("TARGET")]).arg(archive).status();
    let why = match made {
        Ok(status) if status.success() && archive.is_file() => return Ok(()),
        Ok(status) => format!("{missing}, and `{command}` made none: {status}"),
        Err(why) => format!("{missing}, and `{command}` can't be run: {why}"),
    };
    // It was asked for, so that this ends even what links nothing.
    eprintln!("gorseplumb: {why}");
    exit(1)
}

/// The archive, if it is for the processor that is built for.
fn for_this_target(archive: PathBuf) -> Result<PathBuf, String> {
    let bytes = fs::read(&archive).map_err(|why| format!("{}: {why}", archive.display()))?;
    let has = processor(&bytes).ok_or_else(|| format!("{} is no archive of ELF files", archive.display()))?;
    let wanted = variable("CARGO_CFG_TARGET_ARCH");
    if name_of(has) == wanted {
        return Ok(archive);
    }
    Err(format!(
        "{} is for {}, and {wanted} is built for: `c/archive --target {}` makes that one",
        archive.display(),
        name_of(has),
        variable("TARGET")
    ))
}

/// A processor as Rust names it, by the field `e_machine` of an ELF file.
fn name_of(machine: u16) -> String {
    match machine {
        62 => "x86_64".into(),
        183 => "aarch64".into(),
        other => format!("another processor (e_machine {other})"),
    }
}

/// The field `e_machine` of an archive's first member that is an ELF file.
fn processor(archive: &[u8]) -> Option<u16> {
    let mut rest = archive.strip_prefix(b"!<arch>\n")?;
    loop {
        let size: usize = std::str::from_utf8(rest.get(48..58)?).ok()?.trim_end().parse().ok()?;
        let member = rest.get(60..60 + size)?;
        if member.starts_with(b"\x7fELF") {
            return Some(u16::from_le_bytes([*member.get(18)?, *member.get(19)?]));
        }
        rest = rest.get(60 + size + size % 2..)?; // members begin at even places
    }
}

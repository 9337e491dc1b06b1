// Tells cargo where libledusprig.a is, or says in a sentence what is missing.
use std::env;
use std::path::{Path, PathBuf};

const ARCHIVE: &str = "libledusprig.a";

// The processors that there is an archive for, by Rust's name and by ELF's number.
const PROCESSORS: [(&str, u16); 2] = [("x86_64", 62), ("aarch64", 183)];

fn main() {
    let processor = env::var("CARGO_CFG_TARGET_ARCH").expect("cargo names the processor");
    match find(&processor).and_then(|archive| test(&archive, &processor).map(|()| archive)) {
        Ok(archive) => tell(&archive),
        Err(sentence) => {
            eprintln!("{sentence}");
            std::process::exit(1);
        }
    }
}

fn tell(archive: &Path) {
    println!("cargo:rerun-if-env-changed=LEDUSPRIG_LIB_DIR");
    println!("cargo:rerun-if-changed={}", archive.display());
    println!("cargo:rustc-link-search=native={}", archive.parent().unwrap_or(Path::new(".")).display());
    println!("cargo:rustc-link-lib=static=ledusprig");
}

// The archive in the folder that is named, or else in target/PROCESSOR of the repository around this crate. cargo package builds the crate
// some folders below its own, so all that are above it are looked into.
fn find(processor: &str) -> Result<PathBuf, String> {
    let own = PathBuf::from(env::var_os("CARGO_MANIFEST_DIR").expect("cargo names the crate's folder"));
    let folders: Vec<PathBuf> = match env::var_os("LEDUSPRIG_LIB_DIR") {
        Some(folder) => vec![own.join(folder)],
        None => own.ancestors().map(|above| above.join("target").join(processor)).collect(),
    };
    let found = folders.iter().map(|folder| folder.join(ARCHIVE)).find(|archive| archive.is_file());
    found.ok_or_else(|| {
        let place = match &folders[..] {
            [named] => format!("in {}, which LEDUSPRIG_LIB_DIR names", named.display()),
            _ => format!("in target/{processor} of a folder above {}", own.display()),
        };
        format!("There is no {ARCHIVE} {place}: {}.", remedy(processor))
    })
}

fn remedy(processor: &str) -> String {
    format!("make it by the repository's command `bindings/archive {processor}`, or name its folder in LEDUSPRIG_LIB_DIR")
}

// A linker would only say that each call is missing.
fn test(archive: &Path, processor: &str) -> Result<(), String> {
    let bytes = std::fs::read(archive).map_err(|why| format!("{} can't be read: {why}.", archive.display()))?;
    let made_for = machine(&bytes).map(|number| PROCESSORS.iter().find(|known| known.1 == number).map_or("another processor", |known| known.0));
    match made_for {
        Some(name) if name == processor => Ok(()),
        Some(name) => Err(format!("{} is for {name}, and what is built is for {processor}: {}.", archive.display(), remedy(processor))),
        None => Err(format!("{} is no archive of ELF objects: {}.", archive.display(), remedy(processor))),
    }
}

// The ELF machine of the archive's first object. A member is a head of 60 bytes, with its size in decimal at byte 48, and so many bytes, their
// number made even.
fn machine(bytes: &[u8]) -> Option<u16> {
    let mut rest = bytes.strip_prefix(b"!<arch>\n")?;
    loop {
        let size: usize = std::str::from_utf8(rest.get(48..58)?).ok()?.trim().parse().ok()?;
        let member = rest.get(60..60 + size)?;
        if member.starts_with(b"\x7fELF") {
            return Some(u16::from_le_bytes([*member.get(18)?, *member.get(19)?]));
        }
        rest = rest.get(60 + size + size % 2..)?;
    }
}

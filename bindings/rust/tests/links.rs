//! Cargo refuses two versions of the crate in one program, which would share one static library.
mod common;

use common::Checked;
use std::fs;
use std::io;
use std::path::Path;
use std::process::{Command, Output};

// A crate in a folder of this name, with this manifest and no code.
fn write_crate(room: &Path, name: &str, manifest: &str) -> io::Result<()> {
    let folder = room.join(name);
    fs::create_dir_all(folder.join("src"))?;
    fs::write(folder.join("src/lib.rs"), "")?;
    fs::write(folder.join("build.rs"), "fn main() {}")?;
    fs::write(folder.join("Cargo.toml"), manifest)
}

// What cargo says about a program that depends on these crates.
fn resolve(room: &Path, name: &str, dependencies: &str) -> io::Result<Output> {
    let head = format!("[package]\nname = \"{name}\"\nversion = \"1.0.0\"\nedition = \"2024\"\n");
    let manifest = format!("{head}[workspace]\n[dependencies]\n{dependencies}");
    write_crate(room, name, &manifest)?;
    Command::new(env!("CARGO"))
        .args(["generate-lockfile", "--offline"])
        .current_dir(room.join(name))
        .output()
}

#[test]
fn two_versions_are_not_linked_into_one_program() -> Checked {
    let room = Path::new(env!("CARGO_TARGET_TMPDIR")).join("links");
    let own = fs::read_to_string(concat!(env!("CARGO_MANIFEST_DIR"), "/Cargo.toml"))?;
    let version = format!("version = \"{}\"", env!("CARGO_PKG_VERSION"));
    assert!(own.contains(&version));
    write_crate(&room, "new", &own)?;
    write_crate(&room, "old", &own.replace(&version, "version = \"0.4.9\""))?;
    let new = "resil = { path = \"../new\" }\n";
    let one = resolve(&room, "one", new)?;
    assert!(one.status.success(), "{one:?}");
    let old = "old = { package = \"resil\", path = \"../old\" }\n";
    let two = resolve(&room, "two", &format!("{new}{old}"))?;
    let told = String::from_utf8_lossy(&two.stderr);
    assert!(!two.status.success() && told.contains("links"), "{told}");
    Ok(())
}

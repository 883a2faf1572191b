//! Finds the static library for cargo's target. For x86-64 Linux this is two archives, in the folders of `RESIL_LIBRARIES` (separated by
//! `:`), or else in those of this repository and of the toolchain whose `rt` is on the path; for any other target, what the repository's
//! `tools/targets` has made.
use std::env;
use std::path::{Path, PathBuf};

fn main() {
    println!("cargo::rerun-if-env-changed=RESIL_LIBRARIES");
    println!("cargo::rerun-if-env-changed=PATH");
    let target = env::var("TARGET").expect("cargo sets it");
    // They use only malloc, realloc, free and memset of the C library, which musl has too.
    let target = target.replace("-musl", "-gnu");
    if target == "x86_64-unknown-linux-gnu" {
        link_two();
    } else {
        link_one(&target);
    }
}

fn link_one(target: &str) {
    let folder = Path::new(env!("CARGO_MANIFEST_DIR")).join("../../out/lib");
    let folder = folder.join(target);
    println!("cargo::rerun-if-changed={}", folder.display());
    if folder.is_dir() {
        println!("cargo::rustc-link-search=native={}", folder.display());
        println!("cargo::rustc-link-lib=static=resil");
    } else {
        println!(
            "cargo::error=resil has no library for {target}: the repository's `tools/targets` makes those of the supported targets"
        );
    }
}

fn link_two() {
    let folders = folders();
    for name in ["resil_c", "libc_c"] {
        let file = format!("lib{name}.a");
        let found = folders
            .iter()
            .map(|folder| folder.join(&file))
            .find(|archive| archive.is_file());
        let Some(archive) = found else {
            println!(
                "cargo::error={file} not found: the repository's `tools/check_bindings` makes it, and RESIL_LIBRARIES \
                 names the folders of libresil_c.a and liblibc_c.a"
            );
            return;
        };
        // Cargo doesn't check by itself whether a library was rebuilt.
        println!("cargo::rerun-if-changed={}", archive.display());
        println!("cargo::rustc-link-lib=static={name}");
    }
    for folder in folders {
        println!("cargo::rustc-link-search=native={}", folder.display());
    }
}

fn folders() -> Vec<PathBuf> {
    if let Some(given) = env::var_os("RESIL_LIBRARIES") {
        return env::split_paths(&given).collect();
    }
    let own = Path::new(env!("CARGO_MANIFEST_DIR")).join("../../crates/resil_c/out");
    let mut folders = vec![own];
    folders.extend(toolchain().map(|kit| kit.join("c")));
    folders
}

// The toolchain's folder: `rt` is in its folder `bin`.
fn toolchain() -> Option<PathBuf> {
    let path = env::var_os("PATH")?;
    let rt = env::split_paths(&path)
        .map(|folder| folder.join("rt"))
        .find(|rt| rt.is_file())?;
    let rt = rt.canonicalize().ok()?;
    Some(rt.parent()?.parent()?.to_path_buf())
}

//! Links the static library of the target, which is in a folder of this crate's folder `lib`.
use std::env;
use std::path::Path;

fn main() {
    let lib = Path::new(env!("CARGO_MANIFEST_DIR")).join("lib");
    let target = env::var("TARGET").expect("cargo sets it");
    // It uses only malloc, realloc, free and memset of the C library, which musl has too.
    let folder = lib.join(target.replace("-musl", "-gnu"));
    println!("cargo::rerun-if-changed={}", lib.display());
    if !folder.is_dir() {
        println!(
            "cargo::error=resil has no library for {target}: its README.md lists the supported targets"
        );
        return;
    }
    println!("cargo::rustc-link-search=native={}", folder.display());
    println!("cargo::rustc-link-lib=static=resil");
}

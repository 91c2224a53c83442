//! Links the archive `libtailbow_c.a` from the folder that `TAILBOW_STATICLIB` names, else from the repository's `target/staticlib`.

use std::env;
use std::path::PathBuf;

fn main() {
    let repository = PathBuf::from(env!("CARGO_MANIFEST_DIR")).join("../..");
    let folder = match env::var_os("TAILBOW_STATICLIB") {
        Some(folder) => PathBuf::from(folder),
        None => repository.join("target/staticlib"),
    };
    // A relative path is one from this crate's folder; the linker may stand elsewhere.
    let folder = folder.canonicalize().unwrap_or(folder);
    let archive = folder.join("libtailbow_c.a");
    if !archive.is_file() {
        println!(
            "cargo:warning={} is missing: `tools/archive` proves and writes it",
            archive.display()
        );
    }
    println!("cargo:rerun-if-env-changed=TAILBOW_STATICLIB");
    println!("cargo:rerun-if-changed={}", archive.display());
    println!("cargo:rustc-link-search=native={}", folder.display());
    println!("cargo:rustc-link-lib=static=tailbow_c");
}

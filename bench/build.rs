//! Where the archive is, and whether the machine has zlib.

use std::env;
use std::path::PathBuf;

fn main() {
    let repository = PathBuf::from(env!("CARGO_MANIFEST_DIR")).join("..");
    let folder = match env::var_os("TAILBOW_STATICLIB") {
        Some(folder) => PathBuf::from(folder),
        None => repository.join("target/staticlib"),
    };
    let archive = folder.join("libtailbow_c.a");
    println!("cargo:rerun-if-env-changed=TAILBOW_STATICLIB");
    println!("cargo:rerun-if-env-changed=BENCH_ZLIB");
    println!("cargo:rerun-if-changed={}", archive.display());
    println!("cargo:rustc-link-search=native={}", folder.display());
    println!("cargo:rustc-link-lib=static=tailbow_c");
    println!("cargo:rustc-check-cfg=cfg(zlib)");
    if env::var_os("BENCH_ZLIB").is_some_and(|value| value == "1") {
        println!("cargo:rustc-cfg=zlib");
        println!("cargo:rustc-link-lib=z");
    }
}

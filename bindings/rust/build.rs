//! Links libswd_c.a: from the folder that SWD_LIB_DIR names, else from where a release or the repository has it.

use std::env;
use std::path::{Path, PathBuf};
use std::process::exit;

const ARCHIVE: &str = "libswd_c.a";

/// The folders that are looked at, relative to this crate: that of a release, and those of the repository.
const PLACES: [&str; 4] = [
    "../../../lib",
    "../../crates/swd_c/out",
    "../../crates/swd_c/out/proved/lib",
    "../../crates/swd_c/out/unproved/lib",
];

/// What `./swd --library` puts beside the folder of a library that it compiled without a proof.
const NOT_PROVED: &str = "../NOT-PROVED";

const HOW: &str = "run `./swd --library` in the repository of swd, which makes it in about a minute, or name its folder by SWD_LIB_DIR";

fn folder(root: &Path) -> Option<PathBuf> {
    if let Some(named) = env::var_os("SWD_LIB_DIR") {
        return Some(PathBuf::from(named)).filter(|folder| folder.join(ARCHIVE).exists());
    }
    PLACES.iter().map(|place| root.join(place)).find(|folder| folder.join(ARCHIVE).exists())
}

fn main() {
    println!("cargo:rerun-if-env-changed=SWD_LIB_DIR");
    if env::var_os("DOCS_RS").is_some() {
        return;
    }
    let root = PathBuf::from(env::var_os("CARGO_MANIFEST_DIR").expect("cargo says where the crate is"));
    let Some(folder) = folder(&root) else {
        eprintln!("error: no {ARCHIVE}: {HOW}");
        exit(1);
    };
    let folder = folder.canonicalize().expect("the folder is there");
    if folder.join(NOT_PROVED).exists() {
        println!("cargo:warning={ARCHIVE} isn't proved: ./swd --library --prove proves it");
    }
    println!("cargo:rerun-if-changed={}", folder.join(ARCHIVE).display());
    println!("cargo:rustc-link-search=native={}", folder.display());
}

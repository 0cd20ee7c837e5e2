//! Links the proved library, liblockgraph_c.a.
//!
//! It lies in crates/lockgraph_c/out of the project, where `rt lib` in crates/lockgraph_c writes it. The environment variable LOCKGRAPH_LIB may
//! name another folder, absolute or as seen from the folder of this crate.

use std::env;
use std::path::{Path, PathBuf};

const ARCHIVE: &str = "liblockgraph_c.a";

fn main() {
    println!("cargo::rerun-if-env-changed=LOCKGRAPH_LIB");
    let folder = folder();
    let archive = folder.join(ARCHIVE);
    println!("cargo::rerun-if-changed={}", archive.display());
    if archive.is_file() {
        link(&folder);
    } else {
        println!("cargo::error={}", missing(&folder));
    }
}

/// The folder that has to hold the library. A build script runs in the folder of its crate.
fn folder() -> PathBuf {
    let named = env::var_os("LOCKGRAPH_LIB").map(PathBuf::from);
    let here = PathBuf::from(
        env::var_os("CARGO_MANIFEST_DIR").expect("cargo names the folder of the crate"),
    );
    here.join(named.unwrap_or_else(|| PathBuf::from("../crates/lockgraph_c/out")))
}

fn link(folder: &Path) {
    println!("cargo::rustc-link-search=native={}", folder.display());
    println!("cargo::rustc-link-lib=static=lockgraph_c");
}

fn missing(folder: &Path) -> String {
    format!(
        "{ARCHIVE} is not in {}. `rt lib` in crates/lockgraph_c proves and writes it; LOCKGRAPH_LIB may name another folder.",
        folder.display()
    )
}

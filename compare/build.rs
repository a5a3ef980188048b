//! Links the static libraries of the port that the features ask for.

use std::env;
use std::path::{Path, PathBuf};

const KIT: &str = "COMPARE_KIT";

/// Features, as cargo names them here, and the libraries that they link.
const LIBRARIES: [(&str, &str); 4] = [
    ("CARGO_FEATURE_PORT", "cilvedroz"),
    ("CARGO_FEATURE_MAP_PORT", "map_port"),
    ("CARGO_FEATURE_TEXT_PORT", "text_port"),
    ("CARGO_FEATURE_TABLE_PORT", "table_port"),
];

fn main() {
    println!("cargo::rerun-if-changed=build.rs");
    println!("cargo::rerun-if-env-changed={KIT}");
    let compare = PathBuf::from(env::var_os("CARGO_MANIFEST_DIR").expect("cargo sets it"));
    let crates = compare.join("../crates");
    for (feature, library) in LIBRARIES {
        if env::var_os(feature).is_some() {
            link(&crates.join(library).join("out"), library);
        }
    }
}

fn link(folder: &Path, library: &str) {
    println!("cargo::rustc-link-search=native={}", folder.display());
    println!("cargo::rustc-link-lib=static={library}");
    let file = folder.join(format!("lib{library}.a"));
    println!("cargo::rerun-if-changed={}", file.display());
    // The C code that a library of the kit may call, as for the heap.
    if let Some(kit) = env::var_os(KIT) {
        let kit = PathBuf::from(kit).join("c");
        println!("cargo::rustc-link-search=native={}", kit.display());
        for library in ["os_c", "libc_c"] {
            println!("cargo::rustc-link-lib=static={library}");
        }
    }
}

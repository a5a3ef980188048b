//! Writes the `mod` items that take in the original's files from the folder that COMPARE_ORIGINAL
//! names.

use std::path::{Path, PathBuf};
use std::{env, fs};

const ORIGINAL: &str = "COMPARE_ORIGINAL";

fn main() {
    println!("cargo::rerun-if-changed=build.rs");
    println!("cargo::rerun-if-env-changed={}", ORIGINAL);
    let original = match env::var_os(ORIGINAL) {
        Some(folder) => PathBuf::from(folder),
        None => panic!("{} is not set: build by the script compare/run", ORIGINAL),
    };
    let items: String = ["input", "keymap", "readbuf"]
        .iter()
        .map(|name| item(&original, name))
        .collect();
    let out = PathBuf::from(env::var_os("OUT_DIR").expect("cargo sets OUT_DIR"));
    fs::write(out.join("original.rs"), items).expect("OUT_DIR can be written");
}

/// The `mod` item of one file of the original. Its warnings are not ours to mend.
fn item(original: &Path, name: &str) -> String {
    let file = original.join("src").join(format!("{}.rs", name));
    assert!(file.is_file(), "{} is missing", file.display());
    format!(
        "#[path = {:?}]\n#[allow(warnings)]\npub mod {};\n",
        file, name
    )
}

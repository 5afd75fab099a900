//! Copies the given files of i_shape byte for byte from the folder in `I_SHAPE_SRC`
//! and writes the module tree that compiles the copies.

use std::path::{Path, PathBuf};
use std::{env, fs, process};

const GIVEN: [(&str, &[&str]); 2] = [
    ("int", &["area", "count", "despike", "path", "simple"]),
    ("flat", &["buffer"]),
];

/// The folder of the given files, from this crate's own.
const BESIDE_THE_REPOSITORY: &str = "../../../../shared/docs/src/src";

fn main() {
    println!("cargo:rerun-if-env-changed=I_SHAPE_SRC");
    let source = source();
    let out = PathBuf::from(env::var_os("OUT_DIR").expect("cargo names the folder"));

    let mut tree = String::new();
    for (folder, files) in GIVEN {
        tree += &format!("pub mod {folder} {{\n");
        for file in files {
            let copy = out.join(format!("{file}.rs"));
            copy_unchanged(&source.join(folder).join(format!("{file}.rs")), &copy);
            tree += &format!("    #[path = {copy:?}]\n    pub mod {file};\n");
        }
        if folder == "int" {
            tree += "    pub use crate::shape;\n";
        }
        tree += "}\n";
    }
    fs::write(out.join("given.rs"), tree).expect("the module tree is written");
}

fn source() -> PathBuf {
    match env::var_os("I_SHAPE_SRC") {
        Some(folder) if !folder.is_empty() => PathBuf::from(folder),
        _ => Path::new(env!("CARGO_MANIFEST_DIR")).join(BESIDE_THE_REPOSITORY),
    }
}

fn copy_unchanged(from: &Path, to: &Path) {
    println!("cargo:rerun-if-changed={}", from.display());
    if let Err(error) = fs::copy(from, to) {
        eprintln!("{}: {error}", from.display());
        eprintln!("I_SHAPE_SRC names the folder of i_shape 5.0.0 that holds int/ and flat/");
        process::exit(1);
    }
}

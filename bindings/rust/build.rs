//! Finds libukmerelt.a: in the folder that UKMERELT_LIB names, or else where `tools/build ukmerelt_c` writes it.
//! Only linking needs it. Where it cannot be linked this says why and goes on, so that `cargo check`, `cargo clippy` and
//! `cargo doc` need neither the library nor its architecture.
use std::env;
use std::path::{Path, PathBuf};

fn main() {
    println!("cargo:rerun-if-env-changed=UKMERELT_LIB");
    let folder = match env::var_os("UKMERELT_LIB") {
        Some(folder) => PathBuf::from(folder),
        None => Path::new(env!("CARGO_MANIFEST_DIR")).join("../../target/staticlib"),
    };
    let library = folder.join("libukmerelt.a");
    println!("cargo:rerun-if-changed={}", library.display());
    if env::var("CARGO_CFG_TARGET_ARCH").as_deref() != Ok("x86_64") {
        println!(
            "cargo:warning=nothing links: libukmerelt.a is x86-64 code, so build for the target \
             x86_64-unknown-linux-gnu (README.md says how on Arm)"
        );
    } else if !library.is_file() {
        println!(
            "cargo:warning=nothing links: {} is not there; `tools/build ukmerelt_c` makes it, or UKMERELT_LIB names its \
             folder",
            library.display()
        );
    }
    println!("cargo:rustc-link-search=native={}", folder.display());
    println!("cargo:rustc-link-lib=static=ukmerelt");
}

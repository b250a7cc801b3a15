//! Links `libtsivelaro.a` from the folder that `TSIVELARO_LIB` names, else from where `make lib` puts it.

use std::{env, path::PathBuf};

fn main() {
    let made = concat!(env!("CARGO_MANIFEST_DIR"), "/../../target/tsivelaro/lib");
    let folder = PathBuf::from(env::var("TSIVELARO_LIB").unwrap_or(made.into()));
    let archive = folder.join("libtsivelaro.a");
    assert!(
        archive.exists(),
        "{} is not there: run `make lib`, or set TSIVELARO_LIB",
        archive.display()
    );
    println!("cargo:rerun-if-env-changed=TSIVELARO_LIB");
    println!("cargo:rerun-if-changed={}", archive.display());
    println!("cargo:rustc-link-search=native={}", folder.display());
    println!("cargo:rustc-link-lib=static=tsivelaro");
}

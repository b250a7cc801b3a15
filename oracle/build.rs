//! Copies the published text of `packed_seq.rs`, unchanged, to where the library includes it.

use std::{env, fs, path::Path};

fn main() {
    println!("cargo::rerun-if-env-changed=PACKED_SEQ_SRC");
    let Ok(folder) = env::var("PACKED_SEQ_SRC") else {
        println!("cargo::error=Set PACKED_SEQ_SRC to the folder that holds the published source.");
        return;
    };
    let published = Path::new(&folder).join("src--src--packed_seq.rs.txt");
    println!("cargo::rerun-if-changed={}", published.display());
    match fs::read(&published) {
        Ok(text) => {
            let out = env::var("OUT_DIR").expect("cargo sets OUT_DIR");
            fs::write(Path::new(&out).join("packed_seq.rs"), text).expect("OUT_DIR can be written");
        }
        Err(error) => println!(
            "cargo::error=The published source {} cannot be read ({error}): set PACKED_SEQ_SRC to the folder that holds it.",
            published.display()
        ),
    }
}

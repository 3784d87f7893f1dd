//! The lengths of lent buffers, from the C header. With the feature `linked`:
//! where the library lies, and that it is linked.

use std::{env, fs};

const HEADER: &str = "../include/suthreldo.h";

/// The number that the header defines under a name.
fn defined<'a>(header: &'a str, name: &str) -> Option<&'a str> {
    header.lines().find_map(|line| {
        line.strip_prefix("#define ")?
            .strip_prefix(name)?
            .strip_prefix(' ')?
            .split_whitespace()
            .next()
    })
}

fn main() {
    println!("cargo:rerun-if-changed=build.rs");
    println!("cargo:rerun-if-changed={HEADER}");
    let header = fs::read_to_string(HEADER).expect(HEADER);
    for name in ["SUTHRELDO_RECORD", "SUTHRELDO_NAME", "SUTHRELDO_SCRATCH"] {
        println!("cargo:rustc-env={name}={}", defined(&header, name).expect(name));
    }
    println!("cargo:rerun-if-env-changed=SUTHRELDO_LIB");
    if env::var_os("CARGO_FEATURE_LINKED").is_none() {
        return;
    }
    if let Ok(folder) = env::var("SUTHRELDO_LIB") {
        println!("cargo:rerun-if-changed={folder}/libsuthreldo.a");
        println!("cargo:rustc-link-search=native={folder}");
    }
    println!("cargo:rustc-link-lib=static=suthreldo");
}

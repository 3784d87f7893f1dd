#!/bin/sh
# Builds the archive that C and Rust programs link: target/staticlib/libsuthreldo.a.
cd "$(dirname "$0")/.." || exit 2
(cd crates/suthreldo_c && rt lib) || exit
mkdir -p target/staticlib
cp crates/suthreldo_c/out/libsuthreldo_c.a target/staticlib/libsuthreldo.a

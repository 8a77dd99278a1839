//! Links `libackbo.a`: the one in the folder that `ACKBO_LIB_DIR` names, or else the one that `rt lib` in
//! `crates/ackbo` of the repository writes to `out` there.

use std::env;
use std::path::PathBuf;

fn main() {
    let built = PathBuf::from(env!("CARGO_MANIFEST_DIR")).join("../../crates/ackbo/out");
    let library = env::var_os("ACKBO_LIB_DIR").map_or(built, PathBuf::from);
    let archive = library.join("libackbo.a");
    if !archive.exists() {
        println!("cargo:warning={} is missing: `rt lib` in crates/ackbo writes it", archive.display());
    }
    println!("cargo:rerun-if-env-changed=ACKBO_LIB_DIR");
    println!("cargo:rustc-link-search=native={}", library.display());
    println!("cargo:rustc-link-lib=static=ackbo");
    println!("cargo:rerun-if-changed={}", archive.display());
}

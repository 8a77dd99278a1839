//! Compiles the C loop that the benchmark holds lists of small terms to, by the compiler that `CC` names, or `cc`.

use std::env;
use std::path::PathBuf;
use std::process::Command;

const SOURCE: &str = "benches/list.c";

fn main() {
    println!("cargo:rerun-if-changed={SOURCE}");
    println!("cargo:rerun-if-env-changed=CC");
    if env::var_os("CARGO_FEATURE_ACKBO").is_none() {
        return;
    }
    let object = PathBuf::from(env::var_os("OUT_DIR").expect("cargo names a folder")).join("list.o");
    let compiler = env::var_os("CC").unwrap_or("cc".into());
    match Command::new(compiler).args(["-O2", "-Wall", "-Wextra", "-c", SOURCE, "-o"]).arg(&object).status() {
        Ok(status) if status.success() => println!("cargo:rustc-link-arg-benches={}", object.display()),
        _ => println!("cargo:warning={SOURCE} is not compiled: the benchmark needs it, tests do not"),
    }
}

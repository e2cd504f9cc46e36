//! Asks for the code that is put into the page, which another command makes; this build can't.

use std::env;
use std::path::PathBuf;
use std::process::exit;

fn main() {
    let here =
        PathBuf::from(env::var_os("CARGO_MANIFEST_DIR").expect("cargo names the crate's folder"));
    let code = here.join("../target/wasm/fugu.wasm");
    println!("cargo:rerun-if-changed={}", code.display());
    if !code.is_file() {
        eprintln!(
            "error: {} is not there: `bin/wasm` makes it",
            code.display()
        );
        exit(1);
    }
}

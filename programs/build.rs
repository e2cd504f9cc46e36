//! Links each program with the proved one that it is the front of, and the kit's C code beside it. The project's
//! prover writes them; this build can't.

use std::env;
use std::path::PathBuf;

const PROGRAMS: [(&str, &str); 2] = [("fugu", "fugu.o"), ("why", "why.o")];
const BESIDE: [&str; 2] = ["libos_c.a", "liblibc_c.a"];

fn main() {
    let here =
        PathBuf::from(env::var_os("CARGO_MANIFEST_DIR").expect("cargo names the crate's folder"));
    let folder = here.join("../target/proved");
    for (program, object) in PROGRAMS {
        for name in [object].into_iter().chain(BESIDE) {
            let file = folder.join(name);
            println!("cargo:rerun-if-changed={}", file.display());
            println!("cargo:rustc-link-arg-bin={program}={}", file.display());
        }
    }
}

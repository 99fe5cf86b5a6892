//! Links the proved reader into what is run: the archive that `rt lib` writes in crates/saktroum. The library alone can
//! be compiled before it is there.

use std::path::Path;

fn main() {
    let archive = Path::new(env!("CARGO_MANIFEST_DIR")).join("../crates/saktroum/out/libsaktroum.a");
    println!("cargo:rerun-if-changed={}", archive.display());
    println!("cargo:rustc-link-arg={}", archive.display());
}

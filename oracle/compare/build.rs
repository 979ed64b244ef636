//! Links the static library. SEZKIBALO_LIB names the folder of libsezkibalo.a, crates/sezkibalo/out unless given.

use std::env::var;
use std::path::Path;

fn main() {
    let here = var("CARGO_MANIFEST_DIR").unwrap();
    let usual = Path::new(&here).join("../../crates/sezkibalo/out");
    let folder = var("SEZKIBALO_LIB").map_or(usual, Into::into);
    println!("cargo:rustc-link-search=native={}", folder.display());
    println!("cargo:rustc-link-lib=static=sezkibalo");
    println!("cargo:rerun-if-changed={}", folder.join("libsezkibalo.a").display());
    println!("cargo:rerun-if-env-changed=SEZKIBALO_LIB");
}

//! Builds and links the static library. `rt lib` is run in crates/sezkibalo where the library is missing or older than what it is made of; that
//! proves the crates first, which takes minutes the first time. SEZKIBALO_LIB names a folder whose libsezkibalo.a is linked as it is.

use std::env::var;
use std::path::{Path, PathBuf};
use std::process::Command;
use std::time::SystemTime;

/// When the file, or the newest file of the folder, was changed.
fn changed(path: &Path) -> Option<SystemTime> {
    match path.read_dir() {
        Ok(entries) => entries.filter_map(|entry| changed(&entry.ok()?.path())).max(),
        Err(_) => path.metadata().ok()?.modified().ok(),
    }
}

/// What the library is made of: the list of crates, and each crate's folders but out/, which `rt` fills.
fn sources(root: &Path) -> Vec<PathBuf> {
    let crates = root.join("crates").read_dir().into_iter().flatten().flatten();
    let folders = crates.flat_map(|entry| ["src", "specs", "proofs"].map(|name| entry.path().join(name)));
    folders
        .filter(|folder| folder.is_dir())
        .chain([root.join("crates.txt")])
        .collect()
}

/// Nothing, or why the library could not be built.
fn build(folder: &Path) -> Result<(), String> {
    match Command::new("rt").arg("lib").current_dir(folder).output() {
        Ok(out) if out.status.success() => Ok(()),
        Ok(_) => Err("`rt lib` failed: run it in crates/sezkibalo to see why".into()),
        Err(e) => Err(format!("`rt` cannot be run ({e}): name a folder with libsezkibalo.a in SEZKIBALO_LIB")),
    }
}

/// The folder of the library, up to date with the project's crates.
fn built() -> Result<PathBuf, String> {
    let here = var("CARGO_MANIFEST_DIR").map_err(|e| e.to_string())?;
    let root = Path::new(&here).join("..");
    let own = root.join("crates/sezkibalo");
    let folder = own.join("out");
    let sources = sources(&root);
    for source in &sources {
        println!("cargo::rerun-if-changed={}", source.display());
    }
    let newest = sources.iter().filter_map(|source| changed(source)).max();
    if changed(&folder.join("libsezkibalo.a")) < newest {
        build(&own)?;
    }
    Ok(folder)
}

fn main() {
    println!("cargo::rerun-if-env-changed=SEZKIBALO_LIB");
    match var("SEZKIBALO_LIB").map(PathBuf::from).or_else(|_| built()) {
        Ok(folder) => {
            println!("cargo::rerun-if-changed={}", folder.join("libsezkibalo.a").display());
            println!("cargo::rustc-link-search=native={}", folder.display());
            println!("cargo::rustc-link-lib=static=sezkibalo");
        }
        Err(why) => println!("cargo::error={why}"),
    }
}

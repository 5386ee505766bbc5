//! Links the proved library, `libpennyquill.a`. It is looked for in the folder that the environment variable
//! `PENNYQUILL_LIB` names, and without it where `./library` of the repository writes it: `target/native`.

use std::env;
use std::path::{Path, PathBuf};

const ARCHIVE: &str = "libpennyquill.a";

fn main() {
    println!("cargo:rerun-if-env-changed=PENNYQUILL_LIB");
    let folder = folder();
    let archive = folder.join(ARCHIVE);
    if !archive.is_file() {
        panic!(
            "there is no {}: run ./library in the repository, or name its folder in PENNYQUILL_LIB",
            archive.display()
        );
    }
    println!("cargo:rerun-if-changed={}", archive.display());
    println!("cargo:rustc-link-search=native={}", folder.display());
    println!("cargo:rustc-link-lib=static=pennyquill");
}

fn folder() -> PathBuf {
    if let Some(named) = env::var_os("PENNYQUILL_LIB") {
        return PathBuf::from(named);
    }
    let here = env::var_os("CARGO_MANIFEST_DIR").expect("cargo names the folder of the crate");
    Path::new(&here).join("../target/native")
}

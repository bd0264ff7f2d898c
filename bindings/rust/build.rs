//! Links `libhost.a` from the folder GEVNYUSTO_LIB, by default the house's `target/staticlib`.

use std::{env, path::PathBuf};

fn main() {
    let house = PathBuf::from(env::var_os("CARGO_MANIFEST_DIR").unwrap()).join("../../target/staticlib");
    let folder = env::var_os("GEVNYUSTO_LIB").map_or(house, PathBuf::from);
    let folder = folder.canonicalize().unwrap_or(folder);
    println!("cargo::rerun-if-env-changed=GEVNYUSTO_LIB");
    println!("cargo::rerun-if-changed={}", folder.join("libhost.a").display());
    println!("cargo::rustc-link-search=native={}", folder.display());
    println!("cargo::rustc-link-lib=static:-bundle=host");
}

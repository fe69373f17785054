//! Links libtukinraso.a from the folder that TUKINRASO_LIB names, absolute or from this package's folder, or from
//! where `builder/archive` writes it: for x86-64 the archive that ships, for another machine the one that was
//! compiled for it.

use std::env;
use std::path::PathBuf;

fn main() {
    println!("cargo::rerun-if-env-changed=TUKINRASO_LIB");
    let home = PathBuf::from(env::var_os("CARGO_MANIFEST_DIR").expect("cargo names the manifest's folder"));
    let ships = env::var_os("CARGO_CFG_TARGET_ARCH").is_some_and(|arch| arch == "x86_64");
    let folder = match env::var_os("TUKINRASO_LIB") {
        Some(named) => home.join(named),
        None => home.join("../target").join(if ships { "staticlib" } else { "native" }),
    };
    let archive = folder.join("libtukinraso.a");
    println!("cargo::rerun-if-changed={}", archive.display());
    if !archive.is_file() {
        println!("cargo::error=there is no {}: `builder/archive` makes one", archive.display());
        return;
    }
    println!("cargo::rustc-link-search=native={}", folder.display());
    println!("cargo::rustc-link-lib=static=tukinraso");
}

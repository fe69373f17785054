//! Links libtrials.a, which has what the archive that ships has no foreign form of. Without it the benchmark can be
//! checked and not built.

use std::env;
use std::path::PathBuf;

fn main() {
    let home = PathBuf::from(env::var_os("CARGO_MANIFEST_DIR").expect("cargo names the manifest's folder"));
    let ships = env::var_os("CARGO_CFG_TARGET_ARCH").is_some_and(|arch| arch == "x86_64");
    let folder = home.join("../../target").join(if ships { "staticlib" } else { "native" });
    let archive = folder.join("libtrials.a");
    println!("cargo::rerun-if-changed={}", archive.display());
    println!("cargo::rustc-link-search=native={}", folder.display());
    println!("cargo::rustc-link-lib=static=trials");
}

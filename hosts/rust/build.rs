//! Links the proved library, which `scripts/hosts.sh` puts into target/staticlib of the repository. SARTHULE_LIB names another
//! folder that has a libhost.a.
use std::path::PathBuf;

fn main() {
    let here = PathBuf::from(std::env::var("CARGO_MANIFEST_DIR").unwrap());
    let usual = here.join("../../target/staticlib");
    let folder = std::env::var("SARTHULE_LIB").map_or(usual, PathBuf::from);
    println!("cargo:rustc-link-search=native={}", folder.display());
    println!("cargo:rustc-link-lib=static=host");
    println!("cargo:rerun-if-changed={}", folder.join("libhost.a").display());
    println!("cargo:rerun-if-env-changed=SARTHULE_LIB");
}

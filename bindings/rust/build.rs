//! Links libcp_swap.a, from the folder that CP_SWAP_LIB names or from the repository's
//! `target/staticlib`. `bindings/library` builds it.

use std::env;
use std::path::PathBuf;

const VARIABLE: &str = "CP_SWAP_LIB";
const FROM_HERE: &str = "../../target/staticlib";

fn main() {
    let folder = env::var_os(VARIABLE).map_or_else(default_folder, PathBuf::from);
    let library = folder.join("libcp_swap.a");
    assert!(library.is_file(), "{} is missing: run bindings/library, or set {VARIABLE}", library.display());
    println!("cargo:rerun-if-env-changed={VARIABLE}");
    println!("cargo:rerun-if-changed={}", library.display());
    println!("cargo:rustc-link-search=native={}", folder.display());
    println!("cargo:rustc-link-lib=static=cp_swap");
}

fn default_folder() -> PathBuf {
    PathBuf::from(env::var_os("CARGO_MANIFEST_DIR").expect("cargo names the manifest's folder"))
        .join(FROM_HERE)
}

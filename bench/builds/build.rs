//! Links the copies of either build of libcp_swap.a that bench/before-after lays ready.

use std::env;
use std::path::{Path, PathBuf};

const FROM_HERE: &str = "../target/before-after";
const COPIES: usize = 4;

fn main() {
    let here = env::var_os("CARGO_MANIFEST_DIR").expect("cargo names the manifest's folder");
    let folder = PathBuf::from(here).join(FROM_HERE);
    println!("cargo:rustc-link-search=native={}", folder.display());
    for copy in 0..COPIES {
        // Now the one lies first, now the other.
        let builds = if copy % 2 == 0 { ["before", "after"] } else { ["after", "before"] };
        for build in builds {
            link(&folder, &format!("{build}_{copy}"));
        }
    }
}

fn link(folder: &Path, name: &str) {
    let library = folder.join(format!("lib{name}.a"));
    assert!(library.is_file(), "{} is missing: run bench/before-after", library.display());
    println!("cargo:rerun-if-changed={}", library.display());
    println!("cargo:rustc-link-lib=static={name}");
}

//! Points the modules at the original's files, wherever they lie. Nothing is copied into
//! the repository: the one file that has to be completed goes to cargo's output folder.

use std::path::{Path, PathBuf};
use std::{env, fs};

const SOURCE_VARIABLE: &str = "CP_SWAP_SOURCE";
const DEFAULT_SOURCE: &str = "../../../shared/docs/src";
const PROGRAM: &str = "programs/cp-swap/src";

const MODULES: [(&str, &[&str]); 3] = [
    ("curve", &["constant_product", "fees"]),
    ("instructions", &["deposit", "swap_base_input", "swap_base_output", "withdraw"]),
    ("states", &["config", "creator_fee_share", "events", "oracle", "pool"]),
];

fn main() {
    println!("cargo:rerun-if-env-changed={SOURCE_VARIABLE}");
    let program = source_folder().join(PROGRAM);
    let mut text = module(&program.join("error.rs"));
    for (folder, names) in MODULES {
        text += &format!("pub mod {folder} {{\n");
        for name in names {
            text += &module(&program.join(folder).join(format!("{name}.rs")));
        }
        if folder == "curve" {
            text += &module(&completed_calculator(&program));
        }
        text += &names.iter().map(|name| format!("pub use {name}::*;\n")).collect::<String>();
        text += if folder == "curve" { "pub use calculator::*;\n}\n" } else { "}\n" };
    }
    text += "pub mod utils {\n";
    text += &module(&program.join("utils/math.rs"));
    text += &module(&manifest_folder().join("src/token.rs"));
    text += "pub use math::*;\n}\n";
    fs::write(output_folder().join("original.rs"), text).expect("cargo's output folder can be written");
}

/// The published calculator ends in the doc comment of a test module that was cut off.
/// Every byte of it is kept; an empty item follows, for the comment to stand on.
fn completed_calculator(program: &Path) -> PathBuf {
    let published = program.join("curve/calculator.rs");
    let mut bytes = fs::read(&published).unwrap_or_else(|error| missing(&published, &error));
    bytes.extend_from_slice(b"\nconst _: () = ();\n");
    println!("cargo:rerun-if-changed={}", published.display());
    let completed = output_folder().join("calculator.rs");
    fs::write(&completed, bytes).expect("cargo's output folder can be written");
    completed
}

fn module(file: &Path) -> String {
    if let Err(error) = fs::metadata(file) {
        missing(file, &error);
    }
    println!("cargo:rerun-if-changed={}", file.display());
    let name = file.file_stem().expect("a file has a name").to_string_lossy();
    format!("#[path = {:?}]\npub mod {name};\n", file.display().to_string())
}

fn missing(file: &Path, error: &dyn std::fmt::Display) -> ! {
    panic!("{}: {error}; set {SOURCE_VARIABLE} to the folder that holds {PROGRAM}", file.display())
}

fn source_folder() -> PathBuf {
    let given = env::var_os(SOURCE_VARIABLE).map(PathBuf::from);
    let folder = given.unwrap_or_else(|| manifest_folder().join(DEFAULT_SOURCE));
    fs::canonicalize(&folder).unwrap_or_else(|error| missing(&folder, &error))
}

fn manifest_folder() -> PathBuf {
    PathBuf::from(env::var_os("CARGO_MANIFEST_DIR").expect("cargo names the manifest's folder"))
}

fn output_folder() -> PathBuf {
    PathBuf::from(env::var_os("OUT_DIR").expect("cargo names the output folder"))
}

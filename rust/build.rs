//! Links the proved library, libpktfmt.a. It stands in the folder that the environment variable PKTFMT_LIB_DIR names;
//! where that is not set, in target/library of the repository.

use std::path::{Path, PathBuf};
use std::process::exit;

const VARIABLE: &str = "PKTFMT_LIB_DIR";
const FILE: &str = "libpktfmt.a";
const ADVICE: &str = "In the folder of the repository `tools/library target/library` builds it for this machine, and \
    there it is found. If it stands elsewhere, set PKTFMT_LIB_DIR to the absolute path of that folder.";

fn main() {
    println!("cargo:rerun-if-env-changed={VARIABLE}");
    match folder() {
        Ok(folder) => link(&folder),
        Err(words) => {
            eprintln!("pktfmt-checked: {words} {ADVICE}");
            exit(1)
        }
    }
}

fn folder() -> Result<PathBuf, String> {
    let (folder, named) = match std::env::var_os(VARIABLE) {
        Some(folder) => (PathBuf::from(folder), true),
        None => (default_folder(), false),
    };
    println!("cargo:rerun-if-changed={}", folder.join(FILE).display());
    if !folder.is_absolute() {
        return Err(format!("{VARIABLE} is `{}`, which is no absolute path.", folder.display()));
    }
    if !folder.join(FILE).is_file() {
        let whose = if named { format!("which {VARIABLE} names") } else { format!("and {VARIABLE} is not set") };
        return Err(format!("There is no {FILE} in `{}`, {whose}.", folder.display()));
    }
    Ok(folder)
}

/// Where `tools/library target/library` writes the library, in the folder of the repository.
fn default_folder() -> PathBuf {
    Path::new(env!("CARGO_MANIFEST_DIR")).with_file_name("target").join("library")
}

fn link(folder: &Path) {
    println!("cargo:rustc-link-search=native={}", folder.display());
    println!("cargo:rustc-link-lib=static=pktfmt");
}

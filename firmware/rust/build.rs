//! Finds the static library: `libgondzselu.a` in the folder that `GONDZSELU_LIB_DIR` names, as
//! an install puts it; without that variable, `target/staticlib/libfirmware.a` of the
//! repository that this crate lies in, as `./build firmware` writes it.

use std::env;
use std::path::{Path, PathBuf};
use std::process::exit;

const VARIABLE: &str = "GONDZSELU_LIB_DIR";

/// The folder and the library's name in it.
fn place() -> (PathBuf, &'static str) {
    match env::var_os(VARIABLE) {
        Some(folder) => (PathBuf::from(folder), "gondzselu"),
        None => {
            let here = env::var_os("CARGO_MANIFEST_DIR").expect("cargo names the crate's folder");
            let built = Path::new(&here).join("../../target/staticlib");
            (built, "firmware")
        }
    }
}

fn main() {
    println!("cargo:rerun-if-env-changed={VARIABLE}");
    println!("cargo:rerun-if-changed=build.rs");
    let (folder, name) = place();
    let file = folder.join(format!("lib{name}.a"));
    println!("cargo:rerun-if-changed={}", file.display());
    if env::var_os(VARIABLE).is_some() && !folder.is_absolute() {
        eprintln!(
            "{VARIABLE} is `{}`: name the folder from the root",
            folder.display()
        );
        exit(1);
    }
    if !file.is_file() {
        eprintln!(
            "no library of the register store: {} is not there.\n\
             Set {VARIABLE} to the folder of an installed libgondzselu.a,\n\
             or leave it unset and run `./build firmware` in the repository.",
            file.display()
        );
        exit(1);
    }
    println!("cargo:rustc-link-search=native={}", folder.display());
    println!("cargo:rustc-link-lib=static={name}");
}

//! Links the archive of the proved book, which `tools/archive wickdamson` writes at the root of the repository; or the one in the
//! folder that the variable WICKDAMSON_LIB names.

use std::env;
use std::path::{Path, PathBuf};
use std::process::exit;

fn main() {
    let here = env::var("CARGO_MANIFEST_DIR").unwrap_or_default();
    println!("cargo:rerun-if-env-changed=WICKDAMSON_LIB");
    let folder = match env::var_os("WICKDAMSON_LIB") {
        Some(folder) => PathBuf::from(folder),
        None => Path::new(&here).join("../../target/staticlib"),
    };
    let archive = folder.join("libwickdamson.a");
    println!("cargo:rerun-if-changed={}", archive.display());
    if !archive.is_file() {
        eprintln!("error: {} is missing.", archive.display());
        eprintln!("It is the archive of the proved book. Build it at the root of the repository first: tools/archive wickdamson");
        exit(1);
    }
    println!("cargo:rustc-link-search=native={}", folder.display());
    println!("cargo:rustc-link-lib=static=wickdamson");
}

//! Links the core's archive, which `bash scripts/build` makes.

use std::path::Path;
use std::process::exit;

/// Where the script puts the archive, seen from this package.
const ARCHIVES: &str = "../../target/staticlib";

fn main() {
    let package = std::env::var_os("CARGO_MANIFEST_DIR").expect("cargo names the package");
    let directory = Path::new(&package).join(ARCHIVES);
    let archive = directory.join("librepository.a");
    println!("cargo:rerun-if-changed=build.rs");
    println!("cargo:rerun-if-changed={}", archive.display());
    if !archive.is_file() {
        missing(&archive);
    }
    println!("cargo:rustc-link-search=native={}", directory.display());
    println!("cargo:rustc-link-lib=static=repository");
}

fn missing(archive: &Path) -> ! {
    eprintln!("the core's archive is missing: {}", archive.display());
    eprintln!("make it with `bash scripts/build` at the top of the repository");
    exit(1)
}

//! Tells cargo where the proved library's archive is. It looks, and runs
//! nothing.

use std::env;
use std::path::Path;
use std::process::exit;

/// The environment variable that names the archive's folder. A relative name
/// is taken from this package's folder, wherever cargo is run.
const FOLDER: &str = "VADIVUZHEN_LIB";

fn main() {
    println!("cargo:rerun-if-env-changed={FOLDER}");
    let package = env::var_os("CARGO_MANIFEST_DIR").expect("cargo names the package");
    let folder = env::var_os(FOLDER).unwrap_or("../crates/vadivuzhen/out".into());
    let archive = Path::new(&package).join(folder).join("libvadivuzhen.a");
    println!("cargo:rerun-if-changed={}", archive.display());
    let Ok(archive) = archive.canonicalize() else {
        eprintln!("the proved library is not at {}", archive.display());
        eprintln!("run `rt lib` in crates/vadivuzhen,");
        eprintln!("or set {FOLDER} to the folder that has libvadivuzhen.a");
        exit(1);
    };
    let folder = archive.parent().expect("an archive is in a folder");
    println!("cargo:rustc-link-search=native={}", folder.display());
    println!("cargo:rustc-link-lib=static=vadivuzhen");
}

//! Finds the proved reader, `libpae.a`, and links it. Documentation and checks need no library, so
//! that one which is missing is warned of here; linking then fails.

use std::os::unix::process::parent_id;
use std::path::{Path, PathBuf};
use std::{env, fs};

/// The folder that may hold the library instead of the repository's own.
const FOLDER_VARIABLE: &str = "URTHMOLI_LIB_DIR";

fn main() {
    println!("cargo::rerun-if-env-changed={FOLDER_VARIABLE}");
    let folder = library_folder();
    let library = folder.join("libpae.a");
    println!("cargo::rerun-if-changed={}", library.display());
    println!("cargo::rustc-link-search=native={}", folder.display());
    println!("cargo::rustc-link-lib=static=pae");
    if !library.is_file() {
        println!(
            "cargo::warning=there is no {}, so that nothing can be linked: run `tools/library` \
             in the repository, or set {FOLDER_VARIABLE} to the folder that holds libpae.a",
            library.display()
        );
    }
}

/// The folder in the variable, else the one that `tools/library` writes to.
fn library_folder() -> PathBuf {
    let named = env::var_os(FOLDER_VARIABLE).filter(|name| !name.is_empty());
    match named.map(PathBuf::from) {
        Some(folder) if folder.is_relative() => {
            println!("cargo::rerun-if-env-changed=PWD");
            started_in().join(folder)
        }
        Some(folder) => folder,
        None => package_folder().join("../../target/staticlib"),
    }
}

/// The folder where cargo was started. This program was started by cargo in the package's folder, so
/// that cargo's own is asked for.
fn started_in() -> PathBuf {
    fs::read_link(format!("/proc/{}/cwd", parent_id()))
        .ok()
        .or_else(|| env::var_os("PWD").map(PathBuf::from))
        .unwrap_or_else(|| package_folder().to_path_buf())
}

fn package_folder() -> &'static Path {
    Path::new(env!("CARGO_MANIFEST_DIR"))
}

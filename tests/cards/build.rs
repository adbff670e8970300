//! Links libpae.a from the folder that PAE_LIB names.
fn main() {
    println!("cargo::rerun-if-env-changed=PAE_LIB");
    let folder = std::env::var("PAE_LIB").expect("PAE_LIB names the folder of libpae.a");
    println!("cargo::rerun-if-changed={folder}/libpae.a");
    println!("cargo::rustc-link-search=native={folder}");
}

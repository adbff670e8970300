//! Links libpae.a from the folder that PAE_LIB names, and libpae_beside.a from the folder in PAE_BESIDE, if it is set.
fn main() {
    println!("cargo::rerun-if-env-changed=PAE_LIB");
    let folder = std::env::var("PAE_LIB").expect("PAE_LIB names the folder of libpae.a");
    println!("cargo::rerun-if-changed={folder}/libpae.a");
    println!("cargo::rustc-link-search=native={folder}");
    println!("cargo::rerun-if-env-changed=PAE_BESIDE");
    println!("cargo::rustc-check-cfg=cfg(beside)");
    if let Ok(folder) = std::env::var("PAE_BESIDE") {
        println!("cargo::rerun-if-changed={folder}/libpae_beside.a");
        println!("cargo::rustc-link-search=native={folder}");
        println!("cargo::rustc-cfg=beside");
    }
}

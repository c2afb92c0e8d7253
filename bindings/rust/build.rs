//! Links libder_c.a from the folder that DER_C_LIB names, or else from the folder lib of this crate, which a
//! released one has, or from the first of these that has it.
use std::path::Path;

const FOLDERS: [&str; 3] = ["/usr/local/lib", "/usr/lib/x86_64-linux-gnu", "/usr/lib"];

fn has_archive(folder: &str) -> bool {
    Path::new(folder).join("libder_c.a").is_file()
}

fn main() {
    println!("cargo:rerun-if-env-changed=DER_C_LIB");
    // a page of documentation links nothing
    if std::env::var_os("DOCS_RS").is_some() {
        return;
    }
    let crate_folder = std::env::var("CARGO_MANIFEST_DIR").expect("cargo names the folder of the crate");
    let own = format!("{crate_folder}/lib");
    let folders = [own.as_str(), FOLDERS[0], FOLDERS[1], FOLDERS[2]];
    let named = std::env::var("DER_C_LIB").ok();
    let folder = match &named {
        Some(folder) if has_archive(folder) => folder,
        Some(folder) => panic!("DER_C_LIB names the folder {folder}, which has no libder_c.a"),
        None => folders.into_iter().find(|it| has_archive(it)).unwrap_or_else(|| {
            panic!(
                "there is no libder_c.a in {}: let DER_C_LIB name the folder that has it",
                folders.join(", ")
            )
        }),
    };
    println!("cargo:rustc-link-search=native={folder}");
    println!("cargo:rustc-link-lib=static=der_c");
    println!("cargo:rerun-if-changed={folder}/libder_c.a");
}

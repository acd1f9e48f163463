//! Links libdesk.a, from the folder that BARGAINDUNE_LIB names, or from where `tools/build desk_c` puts it in this repository.
use std::path::PathBuf;

fn main() {
    println!("cargo:rerun-if-env-changed=BARGAINDUNE_LIB");
    let folder = match std::env::var_os("BARGAINDUNE_LIB") {
        Some(path) => PathBuf::from(path),
        None => PathBuf::from(env!("CARGO_MANIFEST_DIR")).join("../../target/staticlib"),
    };
    let archive = folder.join("libdesk.a");
    if !archive.is_file() {
        panic!(
            "no {}: run `tools/build desk_c` in the repository, or set BARGAINDUNE_LIB to the folder that has it",
            archive.display()
        );
    }
    println!("cargo:rerun-if-changed={}", archive.display());
    println!("cargo:rustc-link-search=native={}", folder.display());
    println!("cargo:rustc-link-lib=static=desk");
}

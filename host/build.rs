//! With the feature `proved`, links the proved library `libpfs.a`. It is looked for in the folder that the
//! environment variable `PFS_LIB_DIR` names, else in `../target/staticlib` beside this package.

use std::env;
use std::path::PathBuf;

fn library_folder() -> PathBuf {
    match env::var_os("PFS_LIB_DIR") {
        Some(folder) => PathBuf::from(folder),
        None => {
            let package = env::var_os("CARGO_MANIFEST_DIR").unwrap_or_default();
            PathBuf::from(package).join("../target/staticlib")
        }
    }
}

fn main() {
    println!("cargo:rerun-if-changed=build.rs");
    println!("cargo:rerun-if-env-changed=PFS_LIB_DIR");
    if env::var_os("CARGO_FEATURE_PROVED").is_none() {
        return;
    }
    let folder = library_folder();
    let folder = folder.canonicalize().unwrap_or(folder);
    let library = folder.join("libpfs.a");
    println!("cargo:rerun-if-changed={}", library.display());
    if !library.exists() {
        println!("cargo::error=the proved library is not there: {}", library.display());
        println!(
            "cargo::error=run `tools/staticlib` in the repository's root, or name its folder in PFS_LIB_DIR"
        );
        println!("cargo::error=without the proofs, `cargo run --example pfs_model` tries the command line on the model");
    }
    println!("cargo:rustc-link-search=native={}", folder.display());
    println!("cargo:rustc-link-lib=static=pfs");
    // For the test that links it from C.
    println!("cargo:rustc-env=PFS_LIB_FOLDER={}", folder.display());
}

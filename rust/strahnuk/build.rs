//! Tells the linker where the archive libabi.a lies: in the folder that STRAHNUK_LIB names, or else where link/archive puts it.
use std::env;
use std::path::PathBuf;

fn main() {
    println!("cargo:rerun-if-changed=build.rs");
    println!("cargo:rerun-if-env-changed=STRAHNUK_LIB");
    let folder = match env::var_os("STRAHNUK_LIB") {
        Some(folder) => PathBuf::from(folder),
        None => {
            PathBuf::from(env::var_os("CARGO_MANIFEST_DIR").expect("cargo sets CARGO_MANIFEST_DIR"))
                .join("../../target/staticlib")
        }
    };
    let archive = folder.join("libabi.a");
    if !archive.is_file() {
        panic!(
            "{} is missing: run link/archive in the project's root folder, or set STRAHNUK_LIB to the folder of libabi.a",
            archive.display()
        );
    }
    // The linker runs in a folder of its own, so a relative path would point elsewhere.
    let folder = folder.canonicalize().expect("the archive's folder can be named in full");
    println!("cargo:rerun-if-changed={}", folder.join("libabi.a").display());
    println!("cargo:rustc-link-search=native={}", folder.display());
}

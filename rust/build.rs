//! Links the proved library, `libvcm.a`, from the folder that `tools/library` writes to, or from VCM_LIB_DIR.
//!
//! The build script of a crate that depends on this one finds the library's folder in DEP_VCM_LIBDIR and, where the C header is at hand,
//! the header's in DEP_VCM_INCLUDE.
use std::env;
use std::path::{Path, PathBuf};
use std::process::ExitCode;

// `cargo:` and not `cargo::`, which is younger than the oldest compiler that the crate is for.
fn main() -> ExitCode {
    println!("cargo:rerun-if-changed=build.rs");
    println!("cargo:rerun-if-env-changed=VCM_LIB_DIR");
    let root = Path::new(env!("CARGO_MANIFEST_DIR")).join("..");
    let folder = match env::var_os("VCM_LIB_DIR") {
        Some(folder) => PathBuf::from(folder),
        None => root.join("target/staticlib"),
    };
    let library = folder.join("libvcm.a");
    println!("cargo:rerun-if-changed={}", library.display());
    if !library.is_file() {
        eprintln!(
            "{} is not there: run `tools/library` of the repository, or set VCM_LIB_DIR to the folder that has it",
            library.display()
        );
        return ExitCode::FAILURE;
    }
    println!("cargo:rustc-link-search=native={}", folder.display());
    println!("cargo:rustc-link-lib=static=vcm");
    println!("cargo:libdir={}", folder.display());
    let include = root.join("include");
    if include.join("vcm.h").is_file() {
        println!("cargo:include={}", include.display());
    }
    ExitCode::SUCCESS
}

//! Looks for Debian's SQLite, with which the peer `sqlite` is built; without it that peer is missing, and the benchmark says so.
use std::path::Path;

const FOLDERS: [&str; 7] = [
    "/usr/lib/x86_64-linux-gnu",
    "/lib/x86_64-linux-gnu",
    "/usr/lib/aarch64-linux-gnu",
    "/usr/lib64",
    "/usr/lib",
    "/usr/local/lib64",
    "/usr/local/lib",
];
const NAMES: [&str; 2] = ["libsqlite3.so.0", "libsqlite3.so"];

fn main() {
    println!("cargo::rerun-if-changed=build.rs");
    println!("cargo::rustc-check-cfg=cfg(sqlite)");
    let library = FOLDERS
        .iter()
        .flat_map(|folder| NAMES.iter().map(move |name| Path::new(folder).join(name)))
        .find(|path| path.is_file());
    match library {
        Some(path) => {
            println!("cargo::rerun-if-changed={}", path.display());
            println!("cargo::rustc-cfg=sqlite");
            println!("cargo::rustc-link-arg-bins={}", path.display());
        }
        // A file that is not there has cargo look again the next time.
        None => println!("cargo::rerun-if-changed={}/{}", FOLDERS[0], NAMES[0]),
    }
}

//! Links the library of the crate `outside` to the programs that compare with it. The variable
//! BENCH_LIB names its folder, seen from here; without it the folder is ../target/staticlib. Where
//! the library is not there the programs are built without it.

use std::env;
use std::path::PathBuf;

const PROGRAMS: [&str; 3] = ["fuzz", "damage", "speed"];

fn main() {
    println!("cargo::rustc-check-cfg=cfg(product)");
    println!("cargo::rerun-if-env-changed=BENCH_LIB");
    let named = env::var_os("BENCH_LIB").map(PathBuf::from);
    let folder = named.unwrap_or_else(default_folder);
    let library = folder.join("liboutside.a");
    println!("cargo::rerun-if-changed={}", library.display());
    if let Ok(library) = library.canonicalize() {
        println!("cargo::rustc-cfg=product");
        for program in PROGRAMS {
            println!("cargo::rustc-link-arg-bin={program}={}", library.display());
        }
    }
}

fn default_folder() -> PathBuf {
    let manifest = env::var_os("CARGO_MANIFEST_DIR").expect("cargo names the manifest's folder");
    PathBuf::from(manifest).join("../target/staticlib")
}

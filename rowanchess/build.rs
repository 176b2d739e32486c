//! Links the proved library, which `tools/archive edge` makes from crates/edge_c.

use std::env;
use std::path::PathBuf;
use std::process::exit;

fn main() {
    println!("cargo:rerun-if-env-changed=ROWANCHESS_LIB");
    let default = concat!(env!("CARGO_MANIFEST_DIR"), "/../target/staticlib");
    let folder = PathBuf::from(env::var("ROWANCHESS_LIB").unwrap_or(default.into()));
    let library = folder.join("libedge.a");
    println!("cargo:rerun-if-changed={}", library.display());
    if !library.is_file() {
        eprintln!("rowanchess: no {}", library.display());
        eprintln!(
            "Make it with `tools/archive edge` at the top of the repository, or name its folder by ROWANCHESS_LIB."
        );
        exit(1);
    }
    println!("cargo:rustc-link-search=native={}", folder.display());
    println!("cargo:rustc-link-lib=static=edge");
}

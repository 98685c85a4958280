//! Links the archives that `make library` puts into build/, or into the folder that MDP_HANDLER_LIBRARY names.

use std::env;
use std::path::PathBuf;

fn main() {
    let crate_folder = PathBuf::from(env::var_os("CARGO_MANIFEST_DIR").expect("cargo sets CARGO_MANIFEST_DIR"));
    let folder = env::var_os("MDP_HANDLER_LIBRARY").map_or(crate_folder.join("../../build"), PathBuf::from);
    let archive = folder.join("libmdp_handler.a");
    assert!(archive.exists(), "there is no {}; make library builds it", archive.display());
    println!("cargo:rerun-if-env-changed=MDP_HANDLER_LIBRARY");
    println!("cargo:rerun-if-changed={}", archive.display());
    println!("cargo:rustc-link-search=native={}", folder.display());
    println!("cargo:rustc-link-lib=static=mdp_handler");
    println!("cargo:rustc-link-lib=static=libc_c");
}

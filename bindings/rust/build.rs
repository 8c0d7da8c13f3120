//! Points the linker at the folder of `libpiece_picker.a`: the one that `PIECE_PICKER_LIB` names, else `build/lib` of the repository.

use std::env;
use std::path::PathBuf;

fn main() {
    println!("cargo:rerun-if-env-changed=PIECE_PICKER_LIB");
    let here = PathBuf::from(env::var_os("CARGO_MANIFEST_DIR").unwrap_or_default());
    let folder = env::var_os("PIECE_PICKER_LIB").map_or_else(|| here.join("../../build/lib"), PathBuf::from);
    println!("cargo:rerun-if-changed={}", folder.join("libpiece_picker.a").display());
    println!("cargo:rustc-link-search=native={}", folder.display());
}

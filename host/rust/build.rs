// Links libhost.a, which `rt lib` in crates/host writes; LANTHANUMBAT_LIB names another folder that has it.
use std::{env, path::PathBuf};

fn main() {
    let default = || PathBuf::from(env::var_os("CARGO_MANIFEST_DIR").unwrap()).join("../../crates/host/out");
    let folder = env::var_os("LANTHANUMBAT_LIB").map_or_else(default, PathBuf::from);
    println!("cargo:rerun-if-env-changed=LANTHANUMBAT_LIB");
    println!("cargo:rerun-if-changed={}", folder.join("libhost.a").display());
    println!("cargo:rustc-link-search=native={}", folder.display());
    println!("cargo:rustc-link-lib=static=host");
}

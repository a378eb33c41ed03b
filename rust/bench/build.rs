//! Links an older library beside the present one, for `bench/run --beside`.
//!
//! MISTDROVER_OLDER is the folder of `libolder.a`, the copy with the prefix `older_` that `bench/run`
//! makes; without it no older library is linked or timed.

use std::path::PathBuf;

const VARIABLE: &str = "MISTDROVER_OLDER";

fn main() {
    println!("cargo:rerun-if-env-changed={VARIABLE}");
    println!("cargo:rustc-check-cfg=cfg(older)");
    let Some(folder) = std::env::var_os(VARIABLE).filter(|named| !named.is_empty()) else {
        return;
    };
    let folder = PathBuf::from(folder);
    println!("cargo:rerun-if-changed={}", folder.join("libolder.a").display());
    println!("cargo:rustc-cfg=older");
    println!("cargo:rustc-link-search=native={}", folder.display());
    println!("cargo:rustc-link-lib=static=older");
}

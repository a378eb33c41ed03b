//! Links the proved static library `libmistdrover.a`.
//!
//! Its folder is MISTDROVER_LIB, an absolute path or one from the folder `rust/`; without it,
//! `../target/staticlib`, where `tools/staticlib` puts it.

use std::path::{Path, PathBuf};

const VARIABLE: &str = "MISTDROVER_LIB";
const DEFAULT: &str = "../target/staticlib";

fn main() {
    println!("cargo:rerun-if-env-changed={VARIABLE}");
    let folder = library_folder();
    let library = folder.join("libmistdrover.a");
    println!("cargo:rerun-if-changed={}", library.display());
    if !library.is_file() {
        panic!(
            "\n\n{} is not there. Build it with `tools/staticlib` at the top of the \
             repository, or name its folder in {VARIABLE}.\n(`cargo test -p plain` needs no library.)\n",
            library.display()
        );
    }
    println!("cargo:rustc-link-search=native={}", folder.display());
    println!("cargo:rustc-link-lib=static=mistdrover");
}

fn library_folder() -> PathBuf {
    let workspace = Path::new(&std::env::var("CARGO_MANIFEST_DIR").expect("set by cargo"))
        .parent()
        .expect("the crate stands in the workspace")
        .to_path_buf();
    let named = std::env::var(VARIABLE).ok().filter(|named| !named.is_empty());
    workspace.join(named.as_deref().unwrap_or(DEFAULT))
}

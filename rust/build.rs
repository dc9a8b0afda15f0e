//! Says where the archive of the proved library is. `STEWPEBBLE_LIB_DIR` names the folder that holds `libstewpebble.a`;
//! without it the folder is the one that `bin/archive` of the repository fills for the processor that is compiled for.
//! Only linking needs the archive: `cargo check`, `cargo clippy` and `cargo doc` work without it.
use std::env::var;
use std::path::PathBuf;

/// The folder that `bin/archive` fills. The package is somewhere below the repository, which the header marks.
fn filled_by_the_repository() -> PathBuf {
    let package = PathBuf::from(var("CARGO_MANIFEST_DIR").unwrap_or_default());
    let root = package.ancestors().find(|folder| folder.join("include/stewpebble.h").is_file()).unwrap_or(&package);
    root.join("target/native").join(var("CARGO_CFG_TARGET_ARCH").unwrap_or_default())
}

fn main() {
    println!("cargo:rerun-if-env-changed=STEWPEBBLE_LIB_DIR");
    let folder = var("STEWPEBBLE_LIB_DIR").map_or_else(|_| filled_by_the_repository(), PathBuf::from);
    let archive = folder.join("libstewpebble.a");
    println!("cargo:rerun-if-changed={}", archive.display());
    if !archive.is_file() {
        println!("cargo:warning={} is not there, so nothing can be linked: run bin/archive in the repository, or name the folder of libstewpebble.a by STEWPEBBLE_LIB_DIR", archive.display());
    }
    println!("cargo:rustc-link-search=native={}", folder.display());
    println!("cargo:rustc-link-lib=static=stewpebble");
}

//! Points the linker at the archive that `tools/staticlib` makes in the repository's `target/staticlib`; `QSPI_ABI_DIR` names
//! another folder.

use std::env;
use std::path::{Path, PathBuf};

fn main() {
    println!("cargo::rerun-if-env-changed=QSPI_ABI_DIR");
    let folder = env::var_os("QSPI_ABI_DIR").map_or_else(default_folder, PathBuf::from);
    let archive = folder.join("libqspi_abi.a");
    // Without this line cargo would keep linking the archive of the first build.
    println!("cargo::rerun-if-changed={}", archive.display());
    if !archive.exists() {
        println!("cargo::warning={} is missing: run `tools/staticlib` or set QSPI_ABI_DIR", archive.display());
    }
    println!("cargo::rustc-link-search=native={}", folder.display());
    println!("cargo::rustc-link-lib=static=qspi_abi");
}

fn default_folder() -> PathBuf {
    let manifest = env::var_os("CARGO_MANIFEST_DIR").expect("cargo sets CARGO_MANIFEST_DIR");
    Path::new(&manifest).join("../../target/staticlib")
}

//! Writes the published driver with the patch of document 02 on it, for `src/lib.rs`. A patch that does not apply stops the build.
//! `../lean/zedboard-bsp` has this script too.

use std::path::Path;
use std::{env, fs};

fn main() {
    for file in [patched::published(), patched::patch()] {
        println!("cargo::rerun-if-changed={}", file.display());
    }
    if let Err(error) = write() {
        println!("cargo::error={error}");
    }
}

fn write() -> Result<(), String> {
    let folder = env::var("OUT_DIR").map_err(|error| format!("OUT_DIR: {error}"))?;
    let file = Path::new(&folder).join("qspi_spansion.rs");
    fs::write(&file, patched::qspi_spansion()?).map_err(|error| format!("{}: {error}", file.display()))
}

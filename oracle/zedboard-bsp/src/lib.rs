//! The published driver of the flash chip, with the patch of document 02 on it (`build.rs`).
#![no_std]

pub mod qspi_spansion {
    include!(concat!(env!("OUT_DIR"), "/qspi_spansion.rs"));
}

//! The published register blocks that the flash path needs. `slcr` stands in for a file that is not at hand.
#![no_std]

#[path = "../../published/zynq7000/src/qspi.rs"]
#[rustfmt::skip]
pub mod qspi;
pub mod slcr;

// Copied from the published lib.rs, which a test checks: the rest of that file names modules that are not at hand.
include!("published_items.rs");

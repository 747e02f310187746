//! Stand-in for `derive-mmio`. Assumes of it: a field's register is at the field's offset in the `repr(C)` block, each
//! `read_` and `write_` is one access of that word, `modify_` is one read and then one write, fields with a leading
//! underscore have no accessors, `#[mmio(..)]` lists what a field allows (all of it without), and a block named by
//! `Inner` is reached at its own offset. The accesses go to `::recorder::read` and `::recorder::write` of the crate
//! that derives, in place of volatile accesses.

pub use macros::Mmio;

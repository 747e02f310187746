//! Stand-in for `thiserror`. Assumes of it: `#[error("..")]` is the text of `Display`, `{0}` in it is the variant's
//! field, and `#[from]` makes the field the error's source and gives the `From` that `?` uses.

pub use macros::Error;

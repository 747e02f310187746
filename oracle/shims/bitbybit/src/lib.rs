//! Stand-in for `bitbybit`. Assumes of it: `bit(n)` and `bits(a..=b)` count from the lowest bit, a field's `with_` and
//! `set_` leave all other bits as they are, a builder starts from `default` and can be built once every writable field
//! was set, `Option<Enum>` is read as a `Result` with the raw bits and written as the enum, `bitenum` adds `Clone` and
//! `Copy`. Checked as there: overlaps, a field's width, and that an exhaustive enum is exhaustive.

pub use macros::{bitenum, bitfield};

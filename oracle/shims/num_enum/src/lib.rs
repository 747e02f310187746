//! Stand-in for `num_enum`. Assumes of it: `TryFromPrimitive` gives the variant whose discriminant is the number, and
//! an error with that number where there is none.

pub use macros::TryFromPrimitive;

/// The number that is no variant of `Enum`.
#[derive(Debug, Clone, Copy, PartialEq, Eq)]
pub struct TryFromPrimitiveError<Enum: TryFromPrimitive> {
    pub number: Enum::Primitive,
}

/// An enum with a number for each variant.
pub trait TryFromPrimitive {
    type Primitive;
}

//! Stand-in for `arbitrary-int`. Assumes of it: `uN` holds a number below 2^N in the next wider primitive, `new` takes
//! that primitive and panics on a number too wide, `value` and `as_u32` give the number back, `ZERO` and `MAX` are 0 and
//! 2^N - 1, and the prelude names the types as well as the trait.

use core::fmt;

/// An unsigned number of `BITS` bits, kept in `T`.
#[derive(Clone, Copy, PartialEq, Eq, PartialOrd, Ord, Hash)]
pub struct UInt<T, const BITS: u32>(T);

/// What all widths have in common.
pub trait Integer: Sized {
    const ZERO: Self;
    const MAX: Self;

    #[allow(clippy::wrong_self_convention, reason = "the real crate's name")]
    fn as_u32(self) -> u32;
}

macro_rules! storage {
    ($($t:ty)*) => {$(
        impl<const BITS: u32> UInt<$t, BITS> {
            const LIMIT: $t = <$t>::MAX >> (<$t>::BITS - BITS);

            /// Panics where the number is too wide.
            #[inline]
            pub const fn new(value: $t) -> Self {
                assert!(value <= Self::LIMIT, "value is too wide for its type");
                Self(value)
            }

            #[inline]
            pub const fn value(self) -> $t {
                self.0
            }
        }

        impl<const BITS: u32> Integer for UInt<$t, BITS> {
            const ZERO: Self = Self(0);
            const MAX: Self = Self(Self::LIMIT);

            #[inline]
            fn as_u32(self) -> u32 {
                u32::from(self.0)
            }
        }

        impl<const BITS: u32> From<UInt<$t, BITS>> for u32 {
            #[inline]
            fn from(number: UInt<$t, BITS>) -> u32 {
                u32::from(number.0)
            }
        }
    )*};
}

storage!(u8 u16 u32);

impl<T: fmt::Debug, const BITS: u32> fmt::Debug for UInt<T, BITS> {
    fn fmt(&self, f: &mut fmt::Formatter<'_>) -> fmt::Result {
        self.0.fmt(f)
    }
}

macro_rules! widths {
    ($($name:ident = $t:ty, $bits:literal;)*) => {$(
        #[allow(non_camel_case_types)]
        pub type $name = UInt<$t, $bits>;
    )*};
}

widths! {
    u1 = u8, 1; u2 = u8, 2; u3 = u8, 3; u4 = u8, 4; u6 = u8, 6; u7 = u8, 7; u10 = u16, 10; u24 = u32, 24;
}

pub mod prelude {
    pub use crate::{Integer, u1, u2, u3, u4, u6, u7, u10, u24};
}

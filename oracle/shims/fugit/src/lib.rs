//! Stand-in for `fugit`. Assumes of it: a rate or duration is one raw number in its unit, and `*`, `/` by a number and
//! `<` between equal units are those of the raw number: `*` overflows as `u32` does, `/` by 0 panics.

use core::ops::{Div, Mul};

/// A number of hertz times `NOM / DENOM`.
#[derive(Clone, Copy, Debug, PartialEq, Eq, PartialOrd, Ord)]
pub struct Rate<T, const NOM: u32, const DENOM: u32> {
    raw: T,
}

impl<T, const NOM: u32, const DENOM: u32> Rate<T, NOM, DENOM> {
    #[inline]
    pub const fn from_raw(raw: T) -> Self {
        Self { raw }
    }
}

impl<T: Copy, const NOM: u32, const DENOM: u32> Rate<T, NOM, DENOM> {
    #[inline]
    pub const fn to_raw(self) -> T {
        self.raw
    }
}

impl<const NOM: u32, const DENOM: u32> Mul<u32> for Rate<u32, NOM, DENOM> {
    type Output = Self;

    #[inline]
    fn mul(self, factor: u32) -> Self {
        Self::from_raw(self.raw * factor)
    }
}

impl<const NOM: u32, const DENOM: u32> Div<u32> for Rate<u32, NOM, DENOM> {
    type Output = Self;

    #[inline]
    fn div(self, divisor: u32) -> Self {
        Self::from_raw(self.raw / divisor)
    }
}

/// A number of seconds times `NOM / DENOM`.
#[derive(Clone, Copy, Debug, PartialEq, Eq, PartialOrd, Ord)]
pub struct Duration<T, const NOM: u32, const DENOM: u32> {
    raw: T,
}

impl<T: Copy, const NOM: u32, const DENOM: u32> Duration<T, NOM, DENOM> {
    #[inline]
    pub const fn from_raw(raw: T) -> Self {
        Self { raw }
    }

    #[inline]
    pub const fn to_raw(self) -> T {
        self.raw
    }
}

pub type HertzU32 = Rate<u32, 1, 1>;
pub type KilohertzU32 = Rate<u32, 1_000, 1>;
pub type MegahertzU32 = Rate<u32, 1_000_000, 1>;

pub type SecsDurationU32 = Duration<u32, 1, 1>;
pub type MillisDurationU32 = Duration<u32, 1, 1_000>;
pub type MicrosDurationU32 = Duration<u32, 1, 1_000_000>;
pub type NanosDurationU32 = Duration<u32, 1, 1_000_000_000>;

//! Stand-in for `embedded-hal`. Assumes of it: `MODE_0` to `MODE_3` are polarity (0, 0, 1, 1) and phase (0, 1, 0, 1),
//! and can be matched on.

pub mod spi {
    /// Clock polarity.
    #[derive(Clone, Copy, Debug, PartialEq, Eq)]
    pub enum Polarity {
        IdleLow,
        IdleHigh,
    }

    /// Clock phase.
    #[derive(Clone, Copy, Debug, PartialEq, Eq)]
    pub enum Phase {
        CaptureOnFirstTransition,
        CaptureOnSecondTransition,
    }

    /// SPI mode.
    #[derive(Clone, Copy, Debug, PartialEq, Eq)]
    pub struct Mode {
        pub polarity: Polarity,
        pub phase: Phase,
    }

    pub const MODE_0: Mode = Mode { polarity: Polarity::IdleLow, phase: Phase::CaptureOnFirstTransition };
    pub const MODE_1: Mode = Mode { polarity: Polarity::IdleLow, phase: Phase::CaptureOnSecondTransition };
    pub const MODE_2: Mode = Mode { polarity: Polarity::IdleHigh, phase: Phase::CaptureOnFirstTransition };
    pub const MODE_3: Mode = Mode { polarity: Polarity::IdleHigh, phase: Phase::CaptureOnSecondTransition };
}

//! Stub of the pins: types for the published constructors to ask for. Pins are SLCR registers, which are left out.

/// A pin that a peripheral uses.
pub struct IoPeriphPin(());

impl IoPeriphPin {
    /// Configures nothing.
    pub fn new_with_full_config(_pin: impl mio::MioPin, _config: zynq7000::slcr::mio::Config) -> Self {
        Self(())
    }
}

pub mod mio {
    use arbitrary_int::{prelude::*, u2, u3};

    /// A pin by its type.
    pub trait MioPin {}

    /// The pin named by `I`.
    pub struct Pin<I>(I);

    impl<I> Pin<I> {
        pub const fn new(id: I) -> Self {
            Self(id)
        }

        pub fn id(&self) -> &I {
            &self.0
        }
    }

    impl<I> MioPin for Pin<I> {}

    macro_rules! pins {
        ($($name:ident)*) => {$(
            pub struct $name;
        )*};
    }

    pins!(Mio0 Mio1 Mio2 Mio3 Mio4 Mio5 Mio6 Mio8 Mio9 Mio10 Mio11 Mio12 Mio13);

    /// Multiplexer setting, of which the QSPI pins need `new_with_l0`.
    pub struct MuxConfig(());

    impl MuxConfig {
        pub const fn new_with_l0() -> Self {
            Self(())
        }

        pub fn l3_sel(&self) -> u3 {
            u3::ZERO
        }

        pub fn l2_sel(&self) -> u2 {
            u2::ZERO
        }

        pub fn l1_sel(&self) -> bool {
            false
        }

        pub fn l0_sel(&self) -> bool {
            true
        }
    }
}

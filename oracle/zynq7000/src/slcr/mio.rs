//! Stub of the pin registers' fields.

use arbitrary_int::{u2, u3};

/// Edge rate of an output.
#[bitbybit::bitenum(u1, exhaustive = true)]
#[derive(Debug)]
pub enum Speed {
    SlowCmosEdge = 0,
    FastCmosEdge = 1,
}

/// Voltage of a pin.
#[bitbybit::bitenum(u3, exhaustive = false)]
#[derive(Debug)]
pub enum IoType {
    LvCmos18 = 0b001,
    LvCmos25 = 0b010,
    LvCmos33 = 0b011,
    Hstl = 0b100,
}

/// Pin configuration.
#[bitbybit::bitfield(u32, default = 0x0, debug, forbid_overlaps)]
pub struct Config {
    #[bit(13, rw)]
    disable_hstl_rcvr: bool,
    #[bit(12, rw)]
    pullup: bool,
    #[bits(9..=11, rw)]
    io_type: Option<IoType>,
    #[bit(8, rw)]
    speed: Speed,
    #[bits(5..=7, rw)]
    l3_sel: u3,
    #[bits(3..=4, rw)]
    l2_sel: u2,
    #[bit(2, rw)]
    l1_sel: bool,
    #[bit(1, rw)]
    l0_sel: bool,
    #[bit(0, rw)]
    tri_enable: bool,
}

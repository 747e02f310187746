//! What a model is like: the numbers that the device picks, the registers at the start, and what is broken.
//! The default is a prompt device that shows no error, with one S25FL256S.

/// The config register between transfers: bits 10, 14 and 15 set.
pub const IDLE_CONFIG: u32 = 0x8008_C4C1;

#[derive(Clone, Debug)]
pub struct Settings {
    /// Looks at the interrupt status that find nothing before each reply.
    pub looks: u32,
    /// Status reads that show a program or an erase as busy.
    pub busy: u32,
    /// Words that wait in RX at the start.
    pub waiting: Vec<u32>,
    /// The program or erase that fails.
    pub failure: Option<Failure>,
    pub mode: Mode,
    /// Whether a byte comes before the data of a fast read (0B).
    pub dummy_byte: bool,
    /// The controller's config register at the start.
    pub config: u32,
    /// Status register 1 at the start; busy and latch are not taken from it.
    pub status: u8,
    pub config_register: u8,
    /// What follows the command byte of RDID.
    pub ids: [u8; 8],
}

/// A program or erase that fails: which one, counted from 0, and how the status then shows it.
#[derive(Clone, Copy, Debug, PartialEq, Eq)]
pub struct Failure {
    pub work: u32,
    /// Status reads that show busy before the error.
    pub after: u32,
    /// The status bits: 5 for an erase, 6 for a program, or the other one's.
    pub bits: u8,
    /// Whether bit 0 stays set beside them until the status is cleared.
    pub stays_busy: bool,
}

/// What is broken.
#[derive(Clone, Copy, Debug, PartialEq, Eq)]
pub enum Mode {
    Sound,
    /// Bit 4 of the interrupt status never shows.
    Stuck,
    /// Bit 4 always shows; RX reads as 0 where no word is.
    AlwaysReady,
    /// A program or an erase never ends.
    BusyForEver,
}

impl Default for Settings {
    fn default() -> Self {
        Settings {
            looks: 0,
            busy: 0,
            waiting: Vec::new(),
            failure: None,
            mode: Mode::Sound,
            dummy_byte: true,
            config: IDLE_CONFIG,
            status: 0,
            config_register: 0,
            ids: [0x01, 0x02, 0x19, 0x4D, 0x01, 0x80, b'R', b'0'],
        }
    }
}

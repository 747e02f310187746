//! Why a call was refused or stopped, by the numbers of the port's papers.

use core::fmt;
use verified::qspi_script::Status;

/// Gives the enum of the errors and the ways between an error, its number and the driver's status.
macro_rules! errors {
    ($($(#[$note:meta])* $name:ident = $number:literal, $text:literal;)*) => {
        /// Why a call was refused or stopped.
        #[derive(Clone, Copy, Debug, PartialEq, Eq)]
        #[non_exhaustive]
        pub enum Error {
            $($(#[$note])* $name,)*
            /// An earlier call was stopped inside a transfer: chip select may be low, and words may wait that this call would
            /// send ahead of its own. No access is made. Reset the controller, then
            /// [initialize](crate::QspiLowLevel::initialize) it.
            ResetNeeded,
            /// The flash may be at work for an earlier call: it would ignore this one, and the status that ends that work would be
            /// taken for this one's. No access is made. [wait_until_idle](crate::Flash::wait_until_idle) first.
            FlashBusy,
        }

        impl Error {
            /// The number of the refusal; [ResetNeeded](Error::ResetNeeded) and [FlashBusy](Error::FlashBusy) have none, they are
            /// this package's own.
            pub const fn number(self) -> Option<u32> {
                match self {
                    $(Error::$name => Some($number),)*
                    Error::ResetNeeded | Error::FlashBusy => None,
                }
            }

            const fn text(self) -> &'static str {
                match self {
                    $(Error::$name => $text,)*
                    Error::ResetNeeded => "an earlier call was stopped inside a transfer: reset the controller",
                    Error::FlashBusy => "the flash may be at work for an earlier call: wait until it is idle",
                }
            }

            /// The error of a status; none where the call is done or goes on.
            pub(crate) const fn of(status: Status) -> Option<Error> {
                match status {
                    Status::Going | Status::Done => None,
                    $(Status::$name => Some(Error::$name),)*
                }
            }
        }
    };
}

errors! {
    /// Address plus length, of a sector 65,536, is above FFFFFF. No access was made.
    OutOfRange = 1, "address plus length is above FFFFFF";
    /// The sector's address is not a multiple of 65,536. No access was made.
    Alignment = 2, "the address is no start of a sector";
    /// More than 240 bytes for one program command. No access was made.
    DataTooLarge = 3, "more than 240 bytes for one program command";
    /// The length is not a multiple of 4.
    NotAligned = 4, "the length is not a multiple of 4";
    /// The data would cross the end of a page.
    CrossesPageBoundary = 5, "the data would cross the end of a page";
    /// Address plus length of a read is above 2^32. No access was made.
    AddressSpan = 10, "address plus length is above 2^32";
    /// An input is wider than its field. No access was made.
    FieldTooWide = 12, "an input is wider than its field";
    /// The flash reported a failed erase. The status is cleared, writing is disabled.
    EraseErrorBitSet = 21, "the flash reported a failed erase";
    /// The flash reported a failed program. The status is cleared, writing is disabled.
    ProgrammingErrorBitSet = 22, "the flash reported a failed program";
    /// The budget was used up, or [wait](crate::Bus::wait) broke off. [needs_reset](crate::QspiLowLevel::needs_reset) says whether
    /// a transfer is open; a program or an erase may still be under way.
    RepliesEnded = 23, "no answer within the budget";
    /// Fewer than two words of log were left for the access that was due, which was not made.
    LogFull = 24, "the log is full";
    /// Never met: each step is lent what the start was told.
    LentLengthChanged = 25, "the lent memory has another length than at the start";
    /// A list names a sector twice. No access was made.
    RepeatedSector = 32, "the list names a sector twice";
    /// A list of more than 256 sectors. No access was made.
    ListTooLong = 33, "more than 256 sectors in a list";
}

impl fmt::Display for Error {
    fn fmt(&self, f: &mut fmt::Formatter<'_>) -> fmt::Result {
        match self.number() {
            Some(number) => write!(f, "{} ({number})", self.text()),
            None => f.write_str(self.text()),
        }
    }
}

impl core::error::Error for Error {}

/// Why a save stopped, and how far it came.
#[derive(Clone, Copy, Debug, PartialEq, Eq)]
pub struct WritePagesError {
    /// Why it stopped.
    pub error: Error,
    /// Bytes of the chunks that are finished: the first so many of the data are in the flash.
    pub programmed: usize,
}

impl fmt::Display for WritePagesError {
    fn fmt(&self, f: &mut fmt::Formatter<'_>) -> fmt::Result {
        write!(f, "{}; {} bytes are programmed", self.error, self.programmed)
    }
}

impl core::error::Error for WritePagesError {
    fn source(&self) -> Option<&(dyn core::error::Error + 'static)> {
        Some(&self.error)
    }
}

/// Why a list of erases was refused or stopped, and how far it came.
#[derive(Clone, Copy, Debug, PartialEq, Eq)]
pub struct EraseSectorsError {
    /// Why it stopped.
    pub error: Error,
    /// Sectors that are finished: the first so many of the list are erased.
    pub finished: usize,
    /// The place in the list, from 0, of the entry that it is refused for: with [OutOfRange](Error::OutOfRange),
    /// [Alignment](Error::Alignment) and [RepeatedSector](Error::RepeatedSector), and with no other error.
    pub place: Option<usize>,
}

impl fmt::Display for EraseSectorsError {
    fn fmt(&self, f: &mut fmt::Formatter<'_>) -> fmt::Result {
        match self.place {
            Some(place) => write!(f, "{}: entry {place} of the list", self.error),
            None => write!(f, "{}; finished sectors: {}", self.error, self.finished),
        }
    }
}

impl core::error::Error for EraseSectorsError {
    fn source(&self) -> Option<&(dyn core::error::Error + 'static)> {
        Some(&self.error)
    }
}

//! How long a call may wait, and how much log it needs for that: two words for each access.

/// How long a call may wait, in accesses that bring it no further. Each number is for a whole call.
#[derive(Clone, Copy, Debug, PartialEq, Eq)]
pub struct Budget {
    /// Looks at the interrupt status that find no reply yet, and old replies that are drained before a transfer. The one after
    /// them ends the call.
    pub looks: u32,
    /// Status transfers that show the flash at work. The one after them ends the call.
    pub busy: u32,
}

/// Gives the calls without a length, each by the name of its method.
macro_rules! calls {
    ($($call:ident = $method:literal,)*) => {
        /// A call, as far as its log depends on it.
        #[derive(Clone, Copy, Debug, PartialEq, Eq)]
        pub enum Call {
            $(#[doc = concat!("`", $method, "`.")] $call,)*
            /// `erase_sectors` of so many.
            EraseSectors(usize),
            /// `program` of so many bytes.
            Program(usize),
            /// `write_pages` of so many bytes.
            WritePages(usize),
            /// `read_page_read` of so many bytes.
            ReadPageRead(usize),
            /// `read_fast_read` of so many bytes, with or without a dummy byte.
            ReadFastRead(usize, bool),
        }
    };
}

calls! {
    Initialize = "initialize",
    EnableLinearAddressing = "enable_linear_addressing",
    EnableIoMode = "enable_io_mode",
    Disable = "disable",
    New = "new",
    SetWriteProtection = "set_write_protection",
    WriteEnable = "write_enable",
    WriteDisable = "write_disable",
    ClearStatus = "clear_status",
    WriteStatus = "write_status",
    WriteStatusAndConfigRegister = "write_status_and_config_register",
    ReadStatusRegister1 = "read_status_register_1",
    ReadConfigurationRegister = "read_configuration_register",
    ReadRdidBase = "read_rdid_base",
    ReadRdidExtended = "read_rdid_extended",
    EraseSector = "erase_sector",
}

/// A transfer of one word: four accesses to open it, the word, two to start it, a look, the reply, three to close it.
const ONE_WORD: u64 = 12;
/// The same where each reply takes two looks, as in a program and in a read. A further word and its reply are four accesses.
const TWO_LOOKS: u64 = ONE_WORD + 1;
/// Write enable, the command, the first status read.
const ERASE: u64 = 3 * ONE_WORD;
/// Write enable, the command without data, the first status read.
const PROGRAM: u64 = 2 * ONE_WORD + TWO_LOOKS;
/// Clear status and write disable, after the flash has reported an error.
const FAILURE: u64 = 2 * ONE_WORD;
/// Bytes of a chunk of `write_pages`.
const CHUNK: u64 = 128;
/// Bytes of the chunks of a read, without a dummy byte.
const READ_CHUNK: u64 = 248;

impl Call {
    /// The most accesses that a call makes where each look finds its reply and the first status read is clean.
    const fn accesses(self) -> u64 {
        match self {
            Call::Initialize => 2,
            Call::EnableLinearAddressing => 4,
            Call::EnableIoMode => 5,
            Call::Disable => 3,
            Call::New => 5 * ONE_WORD,
            Call::SetWriteProtection => 4 * ONE_WORD,
            Call::WriteStatus | Call::WriteStatusAndConfigRegister => 2 * ONE_WORD,
            Call::WriteEnable
            | Call::WriteDisable
            | Call::ClearStatus
            | Call::ReadStatusRegister1
            | Call::ReadConfigurationRegister
            | Call::ReadRdidBase => ONE_WORD,
            // Two words and two replies more.
            Call::ReadRdidExtended => ONE_WORD + 6,
            Call::EraseSector => ERASE + FAILURE,
            Call::EraseSectors(count) => (count as u64).saturating_mul(ERASE).saturating_add(FAILURE),
            Call::Program(length) => program(length as u64).saturating_add(FAILURE),
            Call::WritePages(length) => write_pages(length as u64).saturating_add(FAILURE),
            Call::ReadPageRead(length) => read(length as u64, false),
            Call::ReadFastRead(length, dummy_byte) => read(length as u64, dummy_byte),
        }
    }
}

/// A data word is four bytes and four accesses, so one a byte.
const fn program(length: u64) -> u64 {
    length.saturating_add(PROGRAM)
}

/// Each chunk is a program.
const fn write_pages(length: u64) -> u64 {
    length.saturating_add(PROGRAM * length.div_ceil(CHUNK))
}

/// Each chunk is a transfer: the command, and as many words as the bytes to read fill.
const fn read(length: u64, dummy_byte: bool) -> u64 {
    let dummy = dummy_byte as u64;
    let chunk = READ_CHUNK - dummy;
    let rest = length % chunk;
    let last = if rest == 0 { 0 } else { TWO_LOOKS + 4 * (rest + dummy).div_ceil(4) };
    (length / chunk).saturating_mul(TWO_LOOKS + READ_CHUNK).saturating_add(last)
}

/// The log words with which a call never ends by [LogFull](crate::Error::LogFull), whatever the bus answers: where it waits too
/// long, the budget ends it first. A call that no log of this machine is long enough for gets [usize::MAX].
///
/// ```
/// # use qspi_flash::{Budget, Call, log_words};
/// const BUDGET: Budget = Budget { looks: 4096, busy: 100 };
/// const WORDS: usize = log_words(Call::WritePages(128), BUDGET);
/// let mut log = [0u32; WORDS];
/// # assert_eq!(log.len(), 2 * (165 + 24 + 12 * 100 + 2 * 4096));
/// ```
pub const fn log_words(call: Call, budget: Budget) -> usize {
    let waiting = ONE_WORD * budget.busy as u64 + 2 * budget.looks as u64;
    let words = call.accesses().saturating_add(waiting).saturating_mul(2);
    if words > usize::MAX as u64 { usize::MAX } else { words as usize }
}

// Also where `usize` has 32 bits.
const _: () = assert!(log_words(Call::ReadPageRead(usize::MAX), Budget { looks: 0, busy: 0 }) == usize::MAX);

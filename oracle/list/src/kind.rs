//! The kinds of call: their numbers in a record, in the order of [Call], and their names in a line.

use call::Call;

pub const NAMES: [&str; 23] = [
    "calculate",
    "loopback",
    "linear_config",
    "initialize",
    "enable_linear",
    "enable_io_mode",
    "disable",
    "new",
    "write_enable",
    "write_disable",
    "clear_status",
    "write_status",
    "write_both",
    "read_status",
    "read_config",
    "read_id",
    "read_long_id",
    "erase_sector",
    "program",
    "write_pages",
    "read_page_read",
    "read_fast_read",
    "erase_sectors",
];

pub fn number(call: &Call) -> usize {
    match call {
        Call::Calculate { .. } => 0,
        Call::CalculateWithLoopback { .. } => 1,
        Call::LinearModeConfig { .. } => 2,
        Call::Initialize { .. } => 3,
        Call::EnableLinearAddressing { .. } => 4,
        Call::EnableIoMode { .. } => 5,
        Call::Disable => 6,
        Call::New { .. } => 7,
        Call::WriteEnable => 8,
        Call::WriteDisable => 9,
        Call::ClearStatus => 10,
        Call::WriteStatus { .. } => 11,
        Call::WriteStatusAndConfigRegister { .. } => 12,
        Call::ReadStatusRegister1 => 13,
        Call::ReadConfigurationRegister => 14,
        Call::ReadRdidBase => 15,
        Call::ReadRdidExtended => 16,
        Call::EraseSector { .. } => 17,
        Call::Program { .. } => 18,
        Call::WritePages { .. } => 19,
        Call::ReadPageRead { .. } => 20,
        Call::ReadFastRead { .. } => 21,
        Call::EraseSectors { .. } => 22,
    }
}

/// How many values a call of a kind answers with.
pub fn values(kind: usize) -> usize {
    match NAMES[kind] {
        "calculate" | "loopback" | "read_id" => 4,
        "linear_config" | "initialize" | "read_status" | "read_config" | "erase_sectors" => 1,
        "read_long_id" => 9,
        _ => 0,
    }
}

/// Whether the value of a kind is the place that is refused, so that a call which is not done has it too.
pub fn names_a_place(kind: usize) -> bool {
    NAMES[kind] == "erase_sectors"
}

/// The answers that the Rust, the end of its log or replies, or the rules of a list can give to a call of a kind.
pub fn answers(kind: usize) -> &'static [u32] {
    match NAMES[kind] {
        "calculate" => &[0, 6, 7],
        "loopback" => &[0, 6],
        "linear_config" => &[0],
        "initialize" => &[0, 24],
        "erase_sector" => &[0, 1, 2, 21, 23, 24],
        "program" => &[0, 1, 3, 4, 5, 22, 23, 24],
        "write_pages" => &[0, 1, 4, 5, 22, 23, 24],
        "erase_sectors" => &[0, 1, 2, 21, 23, 24, 32, 33],
        _ => &[0, 23, 24],
    }
}

/// Whether a call of a kind polls the flash's status for its end.
pub fn polls(kind: usize) -> bool {
    matches!(NAMES[kind], "erase_sector" | "program" | "write_pages" | "erase_sectors")
}

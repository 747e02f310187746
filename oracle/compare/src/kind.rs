//! The kinds of call.

use call::Call;

/// Gives the enum of the kinds, their list and the kind of a call.
macro_rules! kinds {
    ($($kind:ident = $name:literal),* $(,)?) => {
        /// A kind of call, by the Rust's name.
        #[derive(Clone, Copy, Debug, PartialEq, Eq, PartialOrd, Ord)]
        pub enum Kind { $($kind),* }

        impl Kind {
            pub const ALL: &[Kind] = &[$(Kind::$kind),*];

            pub const fn name(self) -> &'static str {
                match self { $(Kind::$kind => $name),* }
            }

            pub const fn of(call: &Call) -> Kind {
                match call { $(Call::$kind { .. } => Kind::$kind),* }
            }
        }
    };
}

kinds! {
    Calculate = "calculate",
    CalculateWithLoopback = "calculate_with_loopback",
    LinearModeConfig = "linear_mode_config_for_common_devices",
    Initialize = "initialize",
    EnableLinearAddressing = "enable_linear_addressing",
    EnableIoMode = "enable_io_mode",
    Disable = "disable",
    New = "new",
    WriteEnable = "write_enable",
    WriteDisable = "write_disable",
    ClearStatus = "clear_status",
    WriteStatus = "write_status",
    WriteStatusAndConfigRegister = "write_status_and_config_register",
    ReadStatusRegister1 = "read_status_register_1",
    ReadConfigurationRegister = "read_configuration_register",
    ReadRdidBase = "read_rdid_base",
    ReadRdidExtended = "read_rdid_extended",
    EraseSector = "erase_sector",
    Program = "program",
    WritePages = "write_pages",
    ReadPageRead = "read_page_read",
    ReadFastRead = "read_fast_read",
    EraseSectors = "erase_sectors",
}

impl Kind {
    pub const fn index(self) -> usize {
        self as usize
    }

    /// Random calls of this kind in a round: more where a call can take many ways, none where its sweep has them all.
    pub const fn weight(self) -> usize {
        match self {
            Kind::LinearModeConfig => 0,
            Kind::EraseSector | Kind::Program | Kind::WritePages | Kind::ReadPageRead | Kind::ReadFastRead => 4,
            Kind::EraseSectors => 4,
            _ => 1,
        }
    }

    /// Calls that only calculate are not lent a log.
    pub const fn has_log(self) -> bool {
        !matches!(self, Kind::Calculate | Kind::CalculateWithLoopback | Kind::LinearModeConfig)
    }
}

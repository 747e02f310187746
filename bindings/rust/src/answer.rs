//! The numbers of an answer.

/// Gives the enum of the numbers and the ways between a number, its case and its name.
macro_rules! answers {
    ($($(#[$note:meta])* $name:ident = $number:literal),* $(,)?) => {
        /// How a call can end, with document 01's number and name; from 31 on they are document 02's.
        #[derive(Clone, Copy, Debug, PartialEq, Eq)]
        #[repr(u32)]
        #[non_exhaustive]
        pub enum Answer { $($(#[$note])* $name = $number),* }

        impl Answer {
            /// Every answer, in the order of the numbers.
            pub const ALL: &[Answer] = &[$(Answer::$name),*];

            /// The name in document 01 or 02.
            pub const fn name(self) -> &'static str {
                match self { $(Answer::$name => stringify!($name)),* }
            }

            /// The answer with this number.
            pub const fn from_number(number: u32) -> Option<Answer> {
                match number { $($number => Some(Answer::$name),)* _ => None }
            }
        }
    };
}

answers! {
    /// The call is done.
    Done = 0,
    /// The sector or the data end above the last byte's address.
    OutOfRange = 1,
    /// The sector's address is not a multiple of 65,536.
    Alignment = 2,
    /// More than 240 bytes for one program command.
    DataTooLarge = 3,
    /// The length is not a multiple of 4.
    NotAligned = 4,
    /// The data would cross the end of a page.
    CrossesPageBoundary = 5,
    /// The reference divisor is above 63.
    RefDivOutOfRange = 6,
    /// The divided reference clock is below cpu_1x.
    RefClockSmallerThanCpu1xClock = 7,
    /// A clock of 0 would have to divide.
    ZeroClock = 8,
    /// A loopback target above 2,147,483,647 Hz.
    TargetTooFast = 9,
    /// A read that would end above 2^32.
    AddressSpan = 10,
    /// A byte that is no listed code.
    UnknownCode = 11,
    /// An input is wider than its field.
    FieldTooWide = 12,
    /// Status bit 5 was set; status is cleared and writes are disabled.
    EraseErrorBitSet = 21,
    /// Status bit 6 was set; status is cleared and writes are disabled.
    ProgrammingErrorBitSet = 22,
    /// A read was due and no reply was left.
    RepliesEnded = 23,
    /// An access was due and fewer than two words of log were left.
    LogFull = 24,
    /// The interface clock would need a baud rate divisor above 256.
    BaudDivOutOfRange = 31,
    /// A list names a sector twice.
    RepeatedSector = 32,
    /// A list has more than 256 entries.
    ListTooLong = 33,
}

impl Answer {
    /// The number in document 01 or 02.
    pub const fn number(self) -> u32 {
        self as u32
    }
}

#[cfg(test)]
mod tests {
    use super::Answer;

    #[test]
    fn numbers_and_cases_are_inverse() {
        let listed = Answer::ALL.iter().filter(|a| Answer::from_number(a.number()) == Some(**a));
        assert_eq!(listed.count(), Answer::ALL.len());
        let known = (0..100).filter(|n| Answer::from_number(*n).is_some());
        assert_eq!(known.count(), Answer::ALL.len());
    }
}

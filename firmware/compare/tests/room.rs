//! The length of a log is said twice, for the archive by `qspi::room` and for the board by `qspi_flash`: they agree.

use qspi::room;
use qspi_flash::{Budget, Call, log_words};

/// Clear status and write disable: `qspi::room` leaves them to its caller.
const FAILURE: u64 = 24;

#[test]
fn both_give_the_same_length() {
    let budgets = [(0, 0), (1, 0), (0, 1), (7, 3), (4096, 64)].map(|(looks, busy)| Budget { looks, busy });
    for length in (0..3000).chain([65_535, 65_536, 16_777_212]) {
        let bytes = length as u64;
        for (call, accesses) in [
            (Call::EraseSectors(length), room::erase_sectors_accesses(bytes) + FAILURE),
            (Call::Program(length), room::program_accesses(bytes) + FAILURE),
            (Call::WritePages(length), room::write_pages_accesses(bytes) + FAILURE),
            (Call::ReadPageRead(length), room::read_accesses(bytes, false)),
            (Call::ReadFastRead(length, false), room::read_accesses(bytes, false)),
            (Call::ReadFastRead(length, true), room::read_accesses(bytes, true)),
        ] {
            for budget in budgets {
                let words = room::log_words(accesses, budget.busy.into(), budget.looks.into());
                assert_eq!(log_words(call, budget) as u64, words, "{call:?}, {budget:?}");
            }
        }
    }
}

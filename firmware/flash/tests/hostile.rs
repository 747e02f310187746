//! Buses that answer anything: a call makes the accesses that its log has and no others, and the budget ends it before the log does.

mod common;

use common::{Row, flash, rows};
use model::Model;
use qspi_flash::{Budget, Error, Flash, QspiLowLevel, log_words};

/// Replies of a bus that never shows bit 4, always shows it, shows it by chance, or shows a flash that is always at work.
const ANSWERS: &[fn(u32) -> u32] =
    &[|_| 0, |_| u32::MAX, |_| 0x10, |random| random, |random| random & 0x10, |random| random | 0x0100_0000];

/// A long log, so that `new` is done before the bus turns.
const LONG: usize = 4000;

struct Outcome {
    ended: Result<(), Error>,
    used: usize,
    waits: Vec<u32>,
    needs_reset: bool,
}

/// A call on a turned bus with this much log. What went over the bus is what the log has.
fn hostile(row: &Row, budget: Budget, room: usize, seed: u32, answer: fn(u32) -> u32) -> Outcome {
    let mut log = vec![0xA5A5_5A5A; LONG.max(room)];
    let (bus, _) = flash(Model::default(), &mut log, budget).release().release();
    log.fill(0xA5A5_5A5A);
    let mut board = Flash::over(QspiLowLevel::new(bus, &mut log[..room], budget));
    board.low_level().bus().turn(seed, answer);
    let (mut controller, ended) = (row.make)(board);
    let logged = controller.log().to_vec();
    assert_eq!(logged, controller.bus().seen, "{:?}: log and bus differ", row.call);
    let outcome = Outcome {
        ended,
        used: logged.len(),
        waits: controller.bus().waits.clone(),
        needs_reset: controller.needs_reset(),
    };
    assert!(
        log[logged.len()..].iter().all(|&word| word == 0xA5A5_5A5A),
        "{:?}: the log behind the used words",
        row.call
    );
    outcome
}

fn budgets() -> impl Iterator<Item = Budget> {
    [0, 1, 2, 7, 40].into_iter().flat_map(|looks| [0, 1, 3].map(|busy| Budget { looks, busy }))
}

#[test]
fn the_budget_ends_a_call_before_the_log_does() {
    let mut ended_by_budget = 0;
    for (row, budget) in rows().flat_map(|row| budgets().map(move |budget| (row, budget))) {
        let room = log_words(row.call, budget);
        for (seed, &answer) in (1..60).flat_map(|seed| ANSWERS.iter().map(move |answer| (seed, answer))) {
            let outcome = hostile(row, budget, room, seed, answer);
            assert_ne!(outcome.ended, Err(Error::LogFull), "{:?} with {budget:?}", row.call);
            assert!(outcome.waits.len() <= budget.busy as usize, "{:?} waits too often", row.call);
            ended_by_budget += usize::from(outcome.ended == Err(Error::RepliesEnded));
        }
    }
    assert!(ended_by_budget > 10_000, "only {ended_by_budget} calls were ended by the budget");
}

#[test]
fn a_bus_that_never_shows_a_reply_ends_each_transfer_with_23() {
    let budget = Budget { looks: 5, busy: 0 };
    for row in rows() {
        let outcome = hostile(row, budget, log_words(row.call, budget), 1, |_| 0);
        let transfers = outcome.used > 10;
        let expected = if transfers { Err(Error::RepliesEnded) } else { Ok(()) };
        assert_eq!((outcome.ended, outcome.needs_reset), (expected, transfers), "{:?}", row.call);
    }
}

#[test]
fn a_bus_that_always_shows_a_reply_is_drained_as_long_as_the_budget_lasts() {
    for row in rows().filter(|row| row.transfers()) {
        for looks in 0..20 {
            let budget = Budget { looks, busy: 0 };
            let outcome = hostile(row, budget, log_words(row.call, budget), 1, |_| u32::MAX);
            if outcome.used > 0 {
                // A look, and for each word that is drained its read and another look.
                assert_eq!((outcome.ended, outcome.used), (Err(Error::RepliesEnded), 2 * (1 + 2 * looks as usize)));
                assert!(!outcome.needs_reset, "{:?}", row.call);
            }
        }
    }
}

#[test]
fn a_log_of_any_length_holds_what_was_made_and_nothing_else_was() {
    let budget = Budget { looks: 3, busy: 1 };
    let mut full = 0;
    for row in rows() {
        for room in 0..=log_words(row.call, budget).min(700) {
            for &answer in ANSWERS {
                let outcome = hostile(row, budget, room, room as u32 + 1, answer);
                assert!(outcome.used <= room);
                if outcome.ended == Err(Error::LogFull) {
                    assert_eq!(outcome.used, room - room % 2, "{:?}: room is left", row.call);
                    full += 1;
                }
            }
        }
    }
    assert!(full > 1000, "only {full} logs were full");
}

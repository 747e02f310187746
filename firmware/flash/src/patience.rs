//! What is left of a call's budget.

use crate::Budget;
use verified::qspi_transfer::Phase;
use verified::zynq7000::qspi::InterruptStatus;

pub(crate) struct Patience {
    budget: Budget,
    looks: u32,
    busy: u32,
    in_a_row: u32,
    ended: bool,
}

impl Patience {
    pub fn new(budget: Budget) -> Self {
        Patience { budget, looks: 0, busy: 0, in_a_row: 0, ended: false }
    }

    /// Whether no further reply is waited for.
    pub fn has_ended(&self) -> bool {
        self.ended
    }

    pub fn end(&mut self) {
        self.ended = true;
    }

    /// A word was read: in vain, where it is a status that shows no reply though one is due, or an old one though none is.
    pub fn look(&mut self, phase: Phase, word: u32) {
        let waits = InterruptStatus(word).rx_above_threshold();
        let in_vain = match phase {
            Phase::Wait | Phase::WaitAgain => !waits,
            Phase::DrainStatus => waits,
            _ => false,
        };
        if in_vain {
            self.ended |= self.looks == self.budget.looks;
            self.looks = self.looks.saturating_add(1);
        }
    }

    /// A program or an erase has begun.
    pub fn begin(&mut self) {
        self.in_a_row = 0;
    }

    /// A status transfer showed the flash at work; how many have since the work began.
    pub fn busy(&mut self) -> u32 {
        self.ended |= self.busy == self.budget.busy;
        self.busy = self.busy.saturating_add(1);
        self.in_a_row = self.in_a_row.saturating_add(1);
        self.in_a_row
    }
}

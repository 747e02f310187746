//! Counts of runs, and what must have been seen.

use crate::inputs::{LARGEST_SAVE, LONG};
use crate::kind::Kind;
use crate::observe::Observed;
use crate::oracle::Ran;
use crate::sides::Case;
use call::{Call, Ended};
use std::fmt::Write;

const ANSWERS: usize = 34;
const LARGEST_PROGRAM: usize = 240;

/// Answers that the Rust, a stop of its recorder, or the papers' rules for lists and quotients can give to a kind of call.
const fn expected(kind: Kind) -> &'static [u32] {
    match kind {
        Kind::Calculate => &[0, 6, 7, 31],
        Kind::CalculateWithLoopback => &[0, 6],
        Kind::LinearModeConfig => &[0],
        Kind::Initialize => &[0, 24],
        Kind::EraseSector => &[0, 1, 2, 21, 23, 24],
        Kind::Program => &[0, 1, 3, 4, 5, 22, 23, 24],
        Kind::WritePages => &[0, 1, 4, 5, 22, 23, 24],
        Kind::EraseSectors => &[0, 1, 2, 21, 23, 24, 32, 33],
        _ => &[0, 23, 24],
    }
}

/// Gives the marks: turns of a run that must have been taken at least once.
macro_rules! marks {
    ($($mark:ident = $name:literal),* $(,)?) => {
        #[derive(Clone, Copy, Debug)]
        enum Mark { $($mark),* }

        const MARKS: &[&str] = &[$($name),*];
    };
}

marks! {
    Drain = "waiting words drained",
    Late = "status read without a word",
    Flicker = "word shown, then hidden",
    LastWait = "a wait for the last reply of a program",
    EmptyProgram = "a program without data that is done",
    LargestProgram = "a program of 240 bytes that is done",
    BusyErase = "busy polls of an erase",
    BusyProgram = "busy polls of a program",
    ErrorWhileErasing = "an error bit and busy together, erase",
    ErrorWhileProgramming = "an error bit and busy together, program",
    NotAlignedAfterChunks = "4 after finished chunks",
    CrossesAfterChunks = "5 after finished chunks",
    FailedAfterChunks = "22 after finished chunks",
    StoppedAfterChunks = "23 or 24 after finished chunks",
    BusyList = "busy polls of a list",
    ErrorInList = "an error bit and busy together, list",
    FailedAfterSectors = "21 after finished sectors",
    StoppedAfterSectors = "23 or 24 after finished sectors",
    BothRules = "an entry that meets 1 and 2",
    BadAfterRepeat = "1 or 2 behind a repeat",
    RepeatAtTheEnd = "32 at place 255",
    TooLongAndBad = "33 although the first entry is bad",
    EverySector = "all 255 sectors in one list",
    FailedLast = "21 after 254 sectors",
    LargestList = "a list of more than 16,777,216 entries",
    LastEqual = "quotient 32",
    FirstRuled = "quotient 33",
    LastAccepted = "quotient 256",
    FirstRefused = "quotient 257",
    SixBefore31 = "6 although the quotient is above 256",
    SevenBefore31 = "7 although the quotient is above 256",
    SixBeforeZero = "6 although the interface target is 0",
    SevenBeforeZero = "7 although the interface target is 0",
    SeveralChunksRead = "a read of several chunks",
    InterfaceType11 = "11 for the memory interface type",
    Density11 = "11 for the density",
    SectorArch11 = "11 for the sector architecture",
    Listed = "every id code listed",
    LongSave = "a save of 70,000 bytes",
    LargestSave = "the save of 16,777,212 bytes",
    NotAlignedLate = "4 after more than 65,536 bytes",
    FailedLate = "22 after more than 65,536 bytes",
    StoppedLate = "23 or 24 after more than 65,536 bytes",
    LongRead = "a read of 70,000 bytes",
    LongFastRead = "a fast read of 70,000 bytes",
    LongDummyRead = "a fast read of 70,000 bytes with a dummy byte",
    LargestRead = "a read of more than 16,777,216 bytes",
    LargestFastRead = "a fast read of more than 16,777,216 bytes",
    LargestDummyRead = "a fast read of more than 16,777,216 bytes with a dummy byte",
    ManyDrains = "70,000 waiting words drained",
    ManyWaits = "70,000 status reads without a word",
    ManyPolls = "70,000 busy polls",
    JunkLatency = "a latency above 3 that is not looked at",
    JunkCode = "a baud rate code beside loopback",
    EmptyReplies = "empty replies without memory",
    EmptyLog = "an empty log without memory",
    EmptyData = "empty data without memory",
    EmptyBuffer = "an empty buffer without memory",
    EmptyList = "an empty list without memory",
}

/// What was run and seen.
#[derive(Clone, Debug)]
pub struct Tally {
    runs: Vec<u64>,
    answers: Vec<[u64; ANSWERS]>,
    /// Runs in which U3's rule decided on the Rust's answer.
    ruled: u64,
    marks: [u64; MARKS.len()],
}

impl Tally {
    pub fn new() -> Self {
        let kinds = Kind::ALL.len();
        Tally { runs: vec![0; kinds], answers: vec![[0; ANSWERS]; kinds], ruled: 0, marks: [0; MARKS.len()] }
    }

    pub fn total(&self) -> u64 {
        self.runs.iter().sum()
    }

    pub fn runs(&self, kind: Kind) -> u64 {
        self.runs[kind.index()]
    }

    /// Counts a run that was compared.
    pub fn count(&mut self, case: &Case, ran: &Ran) {
        let (kind, ended) = (Kind::of(&case.call), &ran.ended);
        self.runs[kind.index()] += 1;
        self.ruled += u64::from(ran.ruled);
        if let Some(count) = self.answers[kind.index()].get_mut(ended.answer as usize) {
            *count += 1;
        }
        self.mark_clocks(&case.call, ended);
        self.mark_chunks(&case.call, ended);
        self.mark_sectors(&case.call, ended);
        self.mark_ids(ended);
        self.mark_long(&case.call, ended);
        self.mark_junk(case);
    }

    /// Notes the turns that a whole run took. Status bits have a meaning where a call polls for them.
    pub fn observe(&mut self, kind: Kind, seen: &Observed) {
        self.mark(Mark::Drain, seen.drains > 0);
        self.mark(Mark::Late, seen.waits > 0);
        self.mark(Mark::Flicker, seen.flickers > 0);
        self.mark(Mark::LastWait, seen.last_waits > 0);
        self.mark(Mark::ManyDrains, seen.drains >= LONG);
        self.mark(Mark::ManyWaits, seen.waits >= LONG);
        self.mark(Mark::ManyPolls, seen.busy >= LONG);
        match kind {
            Kind::EraseSector => {
                self.mark(Mark::BusyErase, seen.busy > 0);
                self.mark(Mark::ErrorWhileErasing, seen.errors_while_busy > 0);
            }
            Kind::Program | Kind::WritePages => {
                self.mark(Mark::BusyProgram, seen.busy > 0);
                self.mark(Mark::ErrorWhileProgramming, seen.errors_while_busy > 0);
            }
            Kind::EraseSectors => {
                self.mark(Mark::BusyList, seen.busy > 0);
                self.mark(Mark::ErrorInList, seen.errors_while_busy > 0);
            }
            _ => {}
        }
    }

    fn mark(&mut self, mark: Mark, seen: bool) {
        self.marks[mark as usize] += u64::from(seen);
    }

    fn mark_clocks(&mut self, call: &Call, ended: &Ended) {
        let Call::Calculate { src_sel, clocks, target_ref, target_interface } = call else {
            return;
        };
        // As if neither 6 nor 7 came before it.
        let reference = clocks.reference(*src_sel);
        let divided = reference / reference.div_ceil(*target_ref);
        let quotient = (*target_interface != 0).then(|| divided.div_ceil(*target_interface));
        let (too_large, zero) = (quotient.is_some_and(|quotient| quotient > 256), quotient.is_none());
        match ended.answer {
            6 => {
                self.mark(Mark::SixBefore31, too_large);
                self.mark(Mark::SixBeforeZero, zero);
            }
            7 => {
                self.mark(Mark::SevenBefore31, too_large);
                self.mark(Mark::SevenBeforeZero, zero);
            }
            _ => {
                self.mark(Mark::LastEqual, quotient == Some(32));
                self.mark(Mark::FirstRuled, quotient == Some(33));
                self.mark(Mark::LastAccepted, quotient == Some(256));
                self.mark(Mark::FirstRefused, quotient == Some(257));
            }
        }
    }

    fn mark_chunks(&mut self, call: &Call, ended: &Ended) {
        let after = ended.programmed > 0;
        match (call, ended.answer) {
            (Call::Program { data, .. }, 0) => {
                self.mark(Mark::EmptyProgram, data.is_empty());
                self.mark(Mark::LargestProgram, data.len() == LARGEST_PROGRAM);
            }
            (Call::WritePages { .. }, 4) => self.mark(Mark::NotAlignedAfterChunks, after),
            (Call::WritePages { .. }, 5) => self.mark(Mark::CrossesAfterChunks, after),
            (Call::WritePages { .. }, 22) => self.mark(Mark::FailedAfterChunks, after),
            (Call::WritePages { .. }, 23 | 24) => self.mark(Mark::StoppedAfterChunks, after),
            (Call::ReadPageRead { length, .. } | Call::ReadFastRead { length, .. }, 0) => {
                self.mark(Mark::SeveralChunksRead, *length > 248);
            }
            _ => {}
        }
    }

    fn mark_sectors(&mut self, call: &Call, ended: &Ended) {
        let Call::EraseSectors { list } = call else {
            return;
        };
        let place = ended.place as usize;
        match ended.answer {
            0 => self.mark(Mark::EverySector, ended.finished == 255),
            1 | 2 => {
                self.mark(Mark::BothRules, ended.answer == 1 && list[place] % 0x1_0000 != 0);
                self.mark(Mark::BadAfterRepeat, (1..place).any(|later| list[..later].contains(&list[later])));
            }
            21 => {
                self.mark(Mark::FailedAfterSectors, ended.finished > 0);
                self.mark(Mark::FailedLast, ended.finished == 254);
            }
            23 | 24 => self.mark(Mark::StoppedAfterSectors, ended.finished > 0),
            32 => self.mark(Mark::RepeatAtTheEnd, place == 255),
            33 => {
                self.mark(Mark::TooLongAndBad, list[0] % 0x1_0000 != 0);
                self.mark(Mark::LargestList, list.len() > 1 << 24);
            }
            _ => {}
        }
    }

    fn mark_long(&mut self, call: &Call, ended: &Ended) {
        let late = ended.programmed > 0x1_0000;
        match (call, ended.answer) {
            (Call::WritePages { data, .. }, 0) => {
                self.mark(Mark::LongSave, data.len() == LONG);
                self.mark(Mark::LargestSave, data.len() == LARGEST_SAVE);
            }
            (Call::WritePages { .. }, 4) => self.mark(Mark::NotAlignedLate, late),
            (Call::WritePages { .. }, 22) => self.mark(Mark::FailedLate, late),
            (Call::WritePages { .. }, 23 | 24) => self.mark(Mark::StoppedLate, late),
            (Call::ReadPageRead { length, .. }, 0) => {
                self.mark(Mark::LongRead, *length == LONG);
                self.mark(Mark::LargestRead, *length > 1 << 24);
            }
            (Call::ReadFastRead { length, dummy_byte, .. }, 0) => {
                let (long, largest) = match *dummy_byte {
                    false => (Mark::LongFastRead, Mark::LargestFastRead),
                    true => (Mark::LongDummyRead, Mark::LargestDummyRead),
                };
                self.mark(long, *length == LONG);
                self.mark(largest, *length > 1 << 24);
            }
            _ => {}
        }
    }

    /// What was handed to the port where nothing may look.
    fn mark_junk(&mut self, case: &Case) {
        match &case.call {
            Call::New { latency: None, .. } => self.mark(Mark::JunkLatency, case.junk.latency() > 3),
            Call::Initialize { baud_rate_div: None, .. } => self.mark(Mark::JunkCode, case.junk.baud_rate_div() > 0),
            Call::Program { data, .. } | Call::WritePages { data, .. } => self.mark(Mark::EmptyData, data.is_empty()),
            Call::ReadPageRead { length, .. } | Call::ReadFastRead { length, .. } => {
                self.mark(Mark::EmptyBuffer, *length == 0);
            }
            Call::EraseSectors { list } => self.mark(Mark::EmptyList, list.is_empty()),
            _ => {}
        }
        let logged = Kind::of(&case.call).has_log();
        self.mark(Mark::EmptyReplies, logged && case.given == 0);
        self.mark(Mark::EmptyLog, logged && case.room == 0);
    }

    fn mark_ids(&mut self, ended: &Ended) {
        let codes = match ended.values.len() {
            4 if ended.used > 0 => [ended.values[2], ended.values[3], 0],
            9 => [ended.values[2], ended.values[3], ended.values[6]],
            _ => return,
        };
        let marks = [Mark::InterfaceType11, Mark::Density11, Mark::SectorArch11];
        for (mark, code) in marks.into_iter().zip(codes) {
            self.mark(mark, code == 11);
        }
        self.mark(Mark::Listed, codes == [0; 3]);
    }

    /// One line for each kind, and a line in all. `differs` is the kind with a difference.
    pub fn table(&self, kinds: &[Kind], differs: Option<Kind>) -> String {
        let mut text = String::new();
        for &kind in kinds {
            let differences = u32::from(differs == Some(kind));
            let runs = self.runs(kind);
            writeln!(text, "{:<38} {runs:>10} runs {differences:>3} differences", kind.name()).unwrap();
        }
        let differences = u32::from(differs.is_some());
        writeln!(text, "{:<38} {:>10} runs {differences:>3} differences", "total", self.total()).unwrap();
        if kinds.contains(&Kind::Calculate) {
            text.push_str(&self.split());
        }
        text
    }

    /// Runs of `calculate` by what they were compared with.
    fn split(&self) -> String {
        let alone = self.runs(Kind::Calculate) - self.ruled;
        format!("of calculate {alone} runs with the Rust alone, {} by U3's rule on the Rust's answer\n", self.ruled)
    }

    /// Runs by answer, then the turns that were taken.
    pub fn answer_table(&self) -> String {
        let mut text = String::from("answer       runs  name\n");
        for answer in 0..ANSWERS {
            let runs: u64 = self.answers.iter().map(|row| row[answer]).sum();
            if runs > 0 {
                let name = qspi::Answer::from_number(answer as u32).map_or("?", qspi::Answer::name);
                writeln!(text, "{answer:>6} {runs:>10}  {name}").unwrap();
            }
        }
        text.push_str("  seen       runs  of what\n");
        for (name, runs) in MARKS.iter().zip(self.marks) {
            writeln!(text, "       {runs:>10}  {name}").unwrap();
        }
        text
    }

    /// What should have been seen and was not.
    pub fn missing(&self) -> Vec<String> {
        let mut missing = Vec::new();
        for &kind in Kind::ALL {
            for &answer in expected(kind) {
                if self.answers[kind.index()][answer as usize] == 0 {
                    missing.push(format!("{} never answered {answer}", kind.name()));
                }
            }
        }
        let unseen = MARKS.iter().zip(self.marks).filter(|(_, runs)| *runs == 0);
        missing.extend(unseen.map(|(name, _)| format!("never seen: {name}")));
        missing
    }
}

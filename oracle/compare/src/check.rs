//! Runs a probe on both sides: whole, with more than it needs, and cut.

use crate::device::{Device, Knobs};
use crate::domain;
use crate::junk::Junk;
use crate::kind::Kind;
use crate::mutants::Mutant;
use crate::noise::Noise;
use crate::observe::observe;
use crate::oracle;
use crate::rng::Rng;
use crate::sides::{Case, Failure, Sides};
use crate::tally::Tally;
use call::Call;
use recorder::Source;
use std::rc::Rc;

/// What answers the Rust's reads while it runs live.
#[derive(Clone, Debug)]
pub enum On {
    Device(Knobs),
    Noise,
}

impl On {
    /// Log words for a live run: an end for one that polls for ever.
    fn room(&self) -> usize {
        match self {
            On::Device(knobs) => knobs.room,
            On::Noise => Knobs::plain().room,
        }
    }

    pub fn source(self, rng: &mut Rng) -> Box<dyn Source> {
        match self {
            On::Device(knobs) => Box::new(Device::new(knobs, rng.fork())),
            On::Noise => Box::new(Noise::new(rng.fork())),
        }
    }
}

/// Where replies and room are cut.
#[derive(Clone, Copy, Debug, PartialEq, Eq)]
pub enum Cuts {
    /// Nowhere, and the run is made with one size of log and replies alone.
    Once,
    /// Nowhere.
    Whole,
    /// At so many places in the last sixteenth of the run.
    Late(usize),
    /// At so many random places.
    Random(usize),
    /// At every place where the run is short enough, else at random ones.
    Every,
    /// At every place, however long the run is.
    All,
}

/// A call with what it runs on.
#[derive(Clone, Debug)]
pub struct Probe {
    pub call: Call,
    pub on: On,
    pub cuts: Cuts,
    pub seed: u64,
}

/// Log words that a run is lent at most beyond its need; more where it makes no access, so that one which did would be seen.
const SPARE: usize = 6;
const SPARE_OF_A_REFUSAL: usize = 80;

/// A run that is no agreement.
#[derive(Clone, Debug)]
pub struct Found {
    pub case: Case,
    pub failure: Failure,
}

/// Limits of a checker.
#[derive(Clone, Copy, Debug)]
pub struct Limits {
    /// Accesses up to which a run is cut at every place.
    pub every: usize,
    /// Random cuts where there are more.
    pub cuts: usize,
}

pub struct Checker {
    sides: Sides,
    limits: Limits,
    pub tally: Tally,
}

/// A live run: its log, and its replies with some more behind them.
struct Live {
    call: Call,
    log: Vec<u32>,
    list: Rc<[u32]>,
    reads: usize,
    seed: u64,
}

impl Checker {
    pub fn new(limits: Limits, mutant: Option<&'static Mutant>) -> Self {
        Checker { sides: Sides::new(mutant), limits, tally: Tally::new() }
    }

    pub fn probe(&mut self, probe: Probe) -> Result<(), Box<Found>> {
        debug_assert!(domain::holds(&probe.call), "{:?} is out of the domain", probe.call);
        let mut rng = Rng::new(probe.seed);
        let live = self.live(probe.call, probe.on, &mut rng)?;
        if probe.cuts == Cuts::Once {
            return self.once(live);
        }
        self.whole(&live, &mut rng)?;
        let accesses = live.log.len() / 2;
        match probe.cuts {
            Cuts::Once | Cuts::Whole => Ok(()),
            Cuts::All => self.every_cut(&live),
            Cuts::Every if accesses <= self.limits.every => self.every_cut(&live),
            Cuts::Every => self.random_cuts(&live, 0, self.limits.cuts, &mut rng),
            Cuts::Random(count) => self.random_cuts(&live, 0, count, &mut rng),
            Cuts::Late(count) => self.random_cuts(&live, live.log.len() / 16 * 15, count, &mut rng),
        }
    }

    /// Runs both sides once and counts it.
    fn compare(&mut self, case: Case) -> Result<oracle::Ran, Box<Found>> {
        match self.sides.run(&case) {
            Ok(ran) => {
                debug_assert!(ran.ruled != domain::rust_alone(&case.call), "{:?}", case.call);
                self.tally.count(&case, &ran);
                Ok(ran)
            }
            Err(failure) => Err(Box::new(Found { case, failure })),
        }
    }

    fn live(&mut self, call: Call, on: On, rng: &mut Rng) -> Result<Live, Box<Found>> {
        let room = on.room();
        match self.sides.live(&call, on.source(rng), room) {
            Ok(ran) => {
                self.tally.observe(Kind::of(&call), &observe(&ran.log));
                let mut list = oracle::replies(&ran.log);
                let reads = list.len();
                list.extend((0..rng.index(4)).map(|_| rng.word()));
                Ok(Live { call, log: ran.log, list: list.into(), reads, seed: rng.next() })
            }
            Err(failure) => Err(Box::new(Found { case: Case::empty(call), failure })),
        }
    }

    /// The run with a little more than it needs. Its log is let go first: a long one is made three times otherwise.
    fn once(&mut self, mut live: Live) -> Result<(), Box<Found>> {
        let room = std::mem::take(&mut live.log).len() + 1;
        self.compare(live.cut(live.list.len(), room))?;
        Ok(())
    }

    /// The run with just what it needs, and with more; once where there is no log that it could need.
    fn whole(&mut self, live: &Live, rng: &mut Rng) -> Result<(), Box<Found>> {
        if Kind::of(&live.call).has_log() {
            let ran = self.compare(live.cut(live.reads, live.log.len()))?;
            assert!(ran.log == live.log, "the Rust does not repeat its run: {:?}", live.call);
        }
        let spare = if live.log.is_empty() { SPARE_OF_A_REFUSAL } else { SPARE };
        self.compare(live.cut(live.list.len(), live.log.len() + rng.index(spare)))?;
        Ok(())
    }

    /// Every number of log words, every number of replies, and both at each read.
    fn every_cut(&mut self, live: &Live) -> Result<(), Box<Found>> {
        for room in 0..live.log.len() {
            self.compare(live.cut(live.list.len(), room))?;
        }
        for given in 0..live.reads {
            self.compare(live.cut(given, live.log.len()))?;
        }
        for access in 0..live.log.len() / 2 {
            self.compare(live.cut_both(access, access % 2))?;
        }
        Ok(())
    }

    /// Cuts at random places from the log word `begin` on.
    fn random_cuts(&mut self, live: &Live, begin: usize, count: usize, rng: &mut Rng) -> Result<(), Box<Found>> {
        if live.log.is_empty() {
            return Ok(());
        }
        let reads = live.reads_before(begin / 2);
        for _ in 0..count {
            let room = begin + rng.index(live.log.len() - begin);
            let case = match rng.index(4) {
                0 => live.cut(live.list.len(), room),
                1 => live.cut(reads + rng.index(live.reads - reads + 1), live.log.len()),
                2 => live.cut_both(room / 2, room % 2),
                _ => live.cut(reads + rng.index(live.list.len() - reads + 1), room),
            };
            self.compare(case)?;
        }
        Ok(())
    }

    /// Runs both sides once, without a count.
    pub fn agrees(&mut self, case: &Case) -> Result<(), Failure> {
        self.sides.run(case).map(|_| ())
    }
}

impl Live {
    fn cut(&self, given: usize, room: usize) -> Case {
        let junk = Rng::new(self.seed ^ (given as u64) << 32 ^ room as u64).next();
        Case { call: self.call.clone(), replies: Rc::clone(&self.list), given, room, junk: Junk::new(junk) }
    }

    /// Replies and room end at the same access, the room with `odd` words more: 24 is tested before 23.
    fn cut_both(&self, access: usize, odd: usize) -> Case {
        self.cut(self.reads_before(access), 2 * access + odd)
    }

    /// How many of the first accesses are reads.
    fn reads_before(&self, access: usize) -> usize {
        self.log[..2 * access].chunks_exact(2).filter(|access| access[0] >= 0x100).count()
    }
}

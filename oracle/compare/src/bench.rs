//! How fast the port is beside the published Rust, on the same inputs in the same process.

use crate::device::{Device, Knobs};
use crate::kind::Kind;
use crate::oracle;
use crate::rng::Rng;
use crate::sides::read_length;
use call::{Call, Clocks};
use std::hint::black_box;
use std::time::{Duration, Instant};

/// Rounds, each with one sample of every side, of which the median counts.
const ROUNDS: usize = 41;
/// How long a sample is, about.
const SAMPLE: Duration = Duration::from_millis(4);
/// Rounds before the first that counts.
const WARM_UP: usize = 3;

const HEADER: &str = "\
Both sides in one process, on the same replies; logs and buffers are allocated and touched before timing; the sides' order
rotates from round to round. A ratio is the median over all rounds of (Rust time / port time): above 1 the port is faster.
`recorder` is the published driver with the comparison's recorder, `lean` the same text with the lean one.

case                       accesses   recorder    lean   port ns/access   port accesses/s";

/// A call with its replies and the memory that it needs.
struct Bench {
    name: &'static str,
    call: Call,
    replies: Vec<u32>,
    log: Vec<u32>,
    buffer: Vec<u8>,
}

/// What a side answers: the number and both used counts.
type Answered = (u32, usize, usize);

impl Bench {
    /// Takes the replies of a quick device.
    fn new(name: &'static str, call: Call) -> Self {
        let device = Device::new(Knobs::plain().lasting(), Rng::new(1));
        let mut buffer = vec![0xAA; read_length(&call)];
        let ran = driver::run(&call, Box::new(device), usize::MAX, &mut buffer);
        assert!(ran.ended.answer == 0, "{name} is not done");
        Bench { name, replies: oracle::replies(&ran.log), log: vec![0x5555_5555; ran.log.len()], buffer, call }
    }

    fn accesses(&self) -> usize {
        self.log.len() / 2
    }

    fn port(&mut self) -> Answered {
        port(black_box(&self.call), black_box(&self.replies), &mut self.log, &mut self.buffer)
    }

    fn lean(&mut self, driver: &mut driver_lean::Driver) -> Answered {
        driver.run(black_box(&self.call), black_box(&self.replies), &mut self.log, &mut self.buffer)
    }

    /// Times every side in turns.
    fn measure(&mut self) -> Measured {
        let mut recorder = driver::Bench::new(self.replies.clone(), usize::MAX);
        let mut lean = driver_lean::Driver::new();
        let expected = (0, self.log.len(), self.replies.len());
        assert_eq!(self.port(), expected, "{}", self.name);
        assert_eq!(self.lean(&mut lean), expected, "{}", self.name);
        assert_eq!(recorder.run(&self.call, &mut self.buffer), expected, "{}", self.name);
        let repeats = repeats(|| {
            black_box(self.port());
        });
        let mut samples = [const { Vec::new() }; 3];
        for round in 0..ROUNDS + WARM_UP {
            for turn in 0..3 {
                let side = (round + turn) % 3;
                let time = match side {
                    0 => timed(repeats, || black_box(self.port())),
                    1 => timed(repeats, || black_box(recorder.run(black_box(&self.call), &mut self.buffer))),
                    _ => timed(repeats, || black_box(self.lean(&mut lean))),
                };
                if round >= WARM_UP {
                    samples[side].push(time);
                }
            }
        }
        Measured::from(samples)
    }
}

/// Medians: seconds of a call on the port, and the ratios.
struct Measured {
    port: f64,
    recorder: f64,
    lean: f64,
}

impl Measured {
    fn from([port, recorder, lean]: [Vec<f64>; 3]) -> Self {
        let ratios = |side: &[f64]| median(side.iter().zip(&port).map(|(side, port)| side / port).collect());
        Measured { recorder: ratios(&recorder), lean: ratios(&lean), port: median(port.clone()) }
    }
}

fn median(mut numbers: Vec<f64>) -> f64 {
    numbers.sort_by(f64::total_cmp);
    numbers[numbers.len() / 2]
}

/// Seconds of one call, over some of them.
fn timed<T>(repeats: usize, mut call: impl FnMut() -> T) -> f64 {
    let begin = Instant::now();
    for _ in 0..repeats {
        call();
    }
    begin.elapsed().as_secs_f64() / repeats as f64
}

/// How often a call goes into a sample.
fn repeats(mut call: impl FnMut()) -> usize {
    let mut repeats = 1;
    loop {
        let begin = Instant::now();
        (0..repeats).for_each(|_| call());
        if begin.elapsed() * 2 > SAMPLE {
            return repeats;
        }
        repeats *= 2;
    }
}

/// The port's call itself, without what the comparison makes of its result.
#[inline]
fn port(call: &Call, replies: &[u32], log: &mut [u32], buffer: &mut [u8]) -> Answered {
    match *call {
        Call::Calculate { src_sel, clocks, target_ref, target_interface } => {
            let config = qspi::calculate(src_sel, hertz(clocks), target_ref, target_interface);
            (black_box(config).answer, 0, 0)
        }
        Call::CalculateWithLoopback { src_sel, clocks, target_interface } => {
            let config = qspi::calculate_with_loopback(src_sel, hertz(clocks), target_interface);
            (black_box(config).answer, 0, 0)
        }
        Call::WriteEnable => plain(qspi::write_enable(replies, log)),
        Call::WriteStatusAndConfigRegister { sr, cr } => {
            plain(qspi::write_status_and_config_register(sr, cr, replies, log))
        }
        Call::ReadStatusRegister1 => {
            let ran = qspi::read_status_register_1(replies, log);
            (ran.answer, ran.used, ran.replies)
        }
        Call::ReadRdidExtended => {
            let ran = black_box(qspi::read_rdid_extended(replies, log));
            (ran.answer, ran.used, ran.replies)
        }
        Call::EraseSector { addr } => plain(qspi::erase_sector(addr, replies, log)),
        Call::Program { addr, ref data } => plain(qspi::program(addr, data, replies, log)),
        Call::WritePages { addr, ref data } => {
            let ran = qspi::write_pages(addr, data, replies, log);
            (ran.answer, ran.used, ran.replies)
        }
        Call::ReadPageRead { addr, .. } => plain(qspi::read_page_read(addr, buffer, replies, log)),
        Call::ReadFastRead { addr, dummy_byte, .. } => {
            plain(qspi::read_fast_read(addr, dummy_byte, buffer, replies, log))
        }
        Call::EraseSectors { ref list } => {
            let ran = qspi::erase_sectors(list, replies, log);
            (ran.answer, ran.used, ran.replies)
        }
        _ => unreachable!("{} is not measured", Kind::of(call).name()),
    }
}

fn plain(ran: qspi::Ran) -> Answered {
    (ran.answer, ran.used, ran.replies)
}

fn hertz(clocks: Clocks) -> qspi::Clocks {
    let Clocks { io_ref_clk, arm_ref_clk, ddr_ref_clk, cpu_1x_clk } = clocks;
    qspi::Clocks { io_ref_clk, arm_ref_clk, ddr_ref_clk, cpu_1x_clk }
}

fn write_pages(length: usize) -> Call {
    Call::WritePages { addr: 0, data: Rng::new(2).bytes(length) }
}

/// The Rust's side erases one sector after the other; it has no list to test.
fn erase_sectors(count: u32) -> Call {
    Call::EraseSectors { list: (0..count).map(|sector| sector << 16).collect() }
}

/// Document 01's clocks.
const CLOCKS: Clocks = Clocks {
    io_ref_clk: 1_000_000_000,
    arm_ref_clk: 1_333_333_333,
    ddr_ref_clk: 1_066_666_666,
    cpu_1x_clk: 111_111_111,
};

/// The calls that are measured. That of `calculate` has quotient 32, the last at which both sides give the same.
fn benches() -> Vec<(&'static str, Call)> {
    vec![
        ("write_pages 128 B", write_pages(128)),
        ("write_pages 4 KiB", write_pages(4 << 10)),
        ("write_pages 64 KiB", write_pages(64 << 10)),
        ("write_pages 1 MiB", write_pages(1 << 20)),
        ("program 240 B", Call::Program { addr: 0, data: Rng::new(3).bytes(240) }),
        ("read_page_read 4 KiB", Call::ReadPageRead { addr: 0, length: 4 << 10 }),
        ("read_page_read 1 MiB", Call::ReadPageRead { addr: 0, length: 1 << 20 }),
        ("read_fast_read 4 KiB", Call::ReadFastRead { addr: 0, dummy_byte: true, length: 4 << 10 }),
        ("read_fast_read 1 MiB", Call::ReadFastRead { addr: 0, dummy_byte: true, length: 1 << 20 }),
        ("erase_sector", Call::EraseSector { addr: 0 }),
        ("erase_sectors, 2", erase_sectors(2)),
        ("erase_sectors, 255", erase_sectors(255)),
        ("write_enable", Call::WriteEnable),
        ("read_status_register_1", Call::ReadStatusRegister1),
        ("read_rdid_extended", Call::ReadRdidExtended),
        ("write both registers", Call::WriteStatusAndConfigRegister { sr: 0x1C, cr: 0x02 }),
        (
            "calculate",
            Call::Calculate { src_sel: 0, clocks: CLOCKS, target_ref: 200_000_000, target_interface: 6_250_000 },
        ),
        (
            "calculate_with_loopback",
            Call::CalculateWithLoopback { src_sel: 0, clocks: CLOCKS, target_interface: 7_936_508 },
        ),
    ]
}

/// Measures every call.
pub fn run() {
    println!("{HEADER}");
    for (name, call) in benches() {
        let mut bench = Bench::new(name, call);
        let measured = bench.measure();
        println!("{}", line(&bench, &measured));
    }
}

fn line(bench: &Bench, measured: &Measured) -> String {
    let accesses = bench.accesses();
    let ratios = format!("{:<25} {accesses:>9} {:>10.2} {:>7.2}", bench.name, measured.recorder, measured.lean);
    if accesses == 0 {
        return format!("{ratios}   {:>8.2} ns a call", measured.port * 1e9);
    }
    let an_access = measured.port / accesses as f64;
    format!("{ratios} {:>16.2} {:>14.0} M", an_access * 1e9, 1e-6 / an_access)
}

/// Runs one call on the port, for a tool that counts instructions inside of it; gives its accesses.
pub fn once(kind: Kind, length: usize) -> Result<usize, String> {
    let call = match kind {
        Kind::WritePages => write_pages(length),
        Kind::ReadPageRead => Call::ReadPageRead { addr: 0, length },
        Kind::ReadFastRead => Call::ReadFastRead { addr: 0, dummy_byte: true, length },
        _ => return Err(format!("{} has no length", kind.name())),
    };
    let mut bench = Bench::new(kind.name(), call);
    bench.port();
    Ok(bench.accesses())
}

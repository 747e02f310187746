//! The list as bytes. The program that replays it says at its top what they are.

use crate::answer::{BUFFER_BYTES, Case, LOG_WORDS};
use crate::kind;
use call::{Call, Clocks};

/// Replies that the replaying program has memory for.
const MOST_REPLIES: usize = 1024;
/// Bytes of the whole list have to stay below this.
const MOST_BYTES: usize = 98_304;

/// Data byte `i` of a seed.
pub fn data(seed: u8, length: usize) -> Vec<u8> {
    (0..length).map(|i| (7 * i + usize::from(seed)) as u8).collect()
}

/// What a record has of a call.
#[derive(Default)]
struct Fields {
    flags: u8,
    first: u8,
    second: u8,
    word: u32,
    length: usize,
    /// The numbers of a clock call.
    numbers: Vec<u32>,
    /// The list of a call that has one.
    list: Vec<u32>,
}

fn flags(flags: &[bool]) -> u8 {
    flags.iter().rev().fold(0, |byte, flag| 2 * byte + u8::from(*flag))
}

fn numbers(clocks: &Clocks, targets: &[u32]) -> Vec<u32> {
    let Clocks { io_ref_clk, arm_ref_clk, ddr_ref_clk, cpu_1x_clk } = *clocks;
    [&[io_ref_clk, arm_ref_clk, ddr_ref_clk, cpu_1x_clk], targets].concat()
}

fn fields(call: &Call) -> Fields {
    let none = Fields::default();
    match call {
        Call::Calculate { src_sel, clocks, target_ref, target_interface } => {
            Fields { first: *src_sel, numbers: numbers(clocks, &[*target_ref, *target_interface]), ..none }
        }
        Call::CalculateWithLoopback { src_sel, clocks, target_interface } => {
            Fields { first: *src_sel, numbers: numbers(clocks, &[*target_interface]), ..none }
        }
        Call::LinearModeConfig { micron, operating_mode, two_devices } => {
            Fields { flags: flags(&[*micron, *two_devices]), first: *operating_mode, ..none }
        }
        Call::Initialize { src_sel, ref_clk_div, baud_rate_div, phase, polarity } => Fields {
            flags: flags(&[baud_rate_div.is_none(), *phase, *polarity]),
            first: src_sel + 4 * baud_rate_div.unwrap_or(0),
            second: *ref_clk_div,
            ..none
        },
        Call::EnableLinearAddressing { config } => Fields { word: *config, ..none },
        Call::EnableIoMode { dual_flash } => Fields { flags: flags(&[*dual_flash]), ..none },
        Call::New { set_quad, latency, clear_protection } => Fields {
            flags: flags(&[*set_quad, latency.is_some(), *clear_protection]),
            first: latency.unwrap_or(0),
            ..none
        },
        Call::WriteStatus { sr } => Fields { first: *sr, ..none },
        Call::WriteStatusAndConfigRegister { sr, cr } => Fields { first: *sr, second: *cr, ..none },
        Call::EraseSector { addr } => Fields { word: *addr, ..none },
        Call::Program { addr, data } | Call::WritePages { addr, data } => {
            let seed = data.first().copied().unwrap_or(0);
            assert!(*data == self::data(seed, data.len()), "the data follow from their first byte");
            Fields { first: seed, word: *addr, length: data.len(), ..none }
        }
        Call::ReadPageRead { addr, length } => Fields { word: *addr, length: *length, ..none },
        Call::EraseSectors { list } => Fields { length: list.len(), list: list.clone(), ..none },
        Call::ReadFastRead { addr, dummy_byte, length } => {
            Fields { flags: flags(&[*dummy_byte]), word: *addr, length: *length, ..none }
        }
        _ => none,
    }
}

fn pair(number: usize) -> [u8; 2] {
    u16::try_from(number).expect("a number of two bytes").to_le_bytes()
}

/// The list, and where each record begins, the one that is cut short too.
pub struct Encoded {
    pub bytes: Vec<u8>,
    pub starts: Vec<usize>,
    pub words: usize,
}

pub fn encoded(cases: &[Case]) -> Encoded {
    let mut dictionary = Vec::new();
    let mut records: Vec<Vec<u8>> = cases.iter().map(|case| record(case, &mut dictionary)).collect();
    records.push(cut_short(records[records.len() - 1].clone()));
    assert!(dictionary.len() <= 256, "{} words of replies are too many", dictionary.len());
    let mut bytes = pair(dictionary.len()).to_vec();
    bytes.extend(dictionary.iter().flat_map(|word| word.to_le_bytes()));
    let mut starts = Vec::new();
    for record in records {
        starts.push(bytes.len());
        bytes.extend(record);
    }
    assert!(bytes.len() < MOST_BYTES, "{} bytes are too many", bytes.len());
    Encoded { bytes, starts, words: dictionary.len() }
}

fn record(case: &Case, dictionary: &mut Vec<u32>) -> Vec<u8> {
    let fields = fields(&case.call);
    let words = fields.numbers.iter().chain(&fields.list);
    let mut body: Vec<u8> = words.flat_map(|number| number.to_le_bytes()).collect();
    body.extend(case.replies.iter().map(|word| place(dictionary, *word)));
    assert!(case.replies.len() <= MOST_REPLIES && case.room <= LOG_WORDS && fields.length <= BUFFER_BYTES);
    let mut record = vec![kind::number(&case.call) as u8, fields.flags, fields.first, fields.second];
    record.extend(fields.word.to_le_bytes());
    record.extend(pair(fields.length));
    record.extend(pair(case.room));
    record.extend(pair(body.len()));
    record.extend(body);
    record
}

/// A record that lacks its last byte.
fn cut_short(mut record: Vec<u8>) -> Vec<u8> {
    record.pop();
    record
}

/// A word's place in the dictionary, which takes it up where it is new.
fn place(dictionary: &mut Vec<u32>, word: u32) -> u8 {
    let place = dictionary.iter().position(|known| *known == word).unwrap_or_else(|| {
        dictionary.push(word);
        dictionary.len() - 1
    });
    place as u8
}

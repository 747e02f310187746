//! Where the replies of a call come from: a model on which the erased driver runs live, noise, or a mixture of both.
//! A live run also says how many log words the call needs.

use crate::check::caught;
use crate::rng::Rng;
use model::{Failure, IDLE_CONFIG, Mode, Model, Settings};
use replay::call::Call;
use replay::ways::{self, Lent};
use verified::qspi_transfer::Due;

/// Replies, and about so many log words that the call uses with them.
pub(crate) struct Drawn {
    pub replies: Vec<u32>,
    pub used: usize,
}

pub(crate) fn draw(rng: &mut Rng, call: Call, list: &[u32], data: &[u8], buffer: usize) -> Drawn {
    match rng.below(10) {
        0 | 1 => noise(rng),
        2 => mixture(rng, call, list, data, buffer),
        _ => live(rng, call, list, data, buffer),
    }
}

/// The driver steps on a model; a contradiction or a panic shows again when the case is checked.
fn live(rng: &mut Rng, call: Call, list: &[u32], data: &[u8], buffer: usize) -> Drawn {
    let settings = settings(rng, call);
    let ends = settings.mode == Mode::Sound;
    // A device that never answers fills any log.
    let lengths = 4 * data.len().min(5000) + 4 * buffer + 200 * list.len();
    let room = if ends { 2 * (4000 + lengths) } else { rng.below(400) };
    let mut model = Model::new(settings);
    let mut bytes = vec![0; buffer];
    if let Call::ReadPageRead { addr } | Call::ReadFastRead { addr, .. } = call {
        bytes.fill_with(|| rng.byte());
        model.load(addr, &bytes);
    }
    let (mut replies, mut log) = (Vec::new(), vec![0; room]);
    let make = |asked| match asked {
        Ok(Some(Due::Read(offset))) => {
            let word = model.read(offset);
            replies.push(word);
            Some(word)
        }
        Ok(Some(Due::Write(offset, value))) => {
            model.write(offset, value);
            None
        }
        Ok(None) | Err(_) => None,
    };
    let lent = Lent { list, data, buffer: &mut bytes, log: &mut log };
    let ended = caught(|| ways::stepped_by(call, lent, make)).and_then(Result::ok);
    Drawn { replies, used: ended.map_or(room, |ended| ended.used) }
}

fn settings(rng: &mut Rng, call: Call) -> Settings {
    let drives_dummy = matches!(call, Call::ReadFastRead { dummy_byte: true, .. });
    Settings {
        looks: rng.pick(&[0, 0, 0, 0, 1, 2, 4]),
        busy: rng.pick(&[0, 0, 1, 2, 5]),
        waiting: if rng.chance(20) { (0..rng.below(4)).map(|_| rng.word()).collect() } else { Vec::new() },
        failure: rng.chance(25).then(|| failure(rng)),
        mode: if rng.chance(95) { Mode::Sound } else { rng.pick(&[Mode::Stuck, Mode::AlwaysReady, Mode::BusyForEver]) },
        dummy_byte: drives_dummy,
        config: if rng.chance(80) { IDLE_CONFIG } else { rng.word() },
        status: if rng.flag() { 0 } else { rng.byte() & 0x9C },
        config_register: rng.byte(),
        ids: ids(rng),
    }
}

fn failure(rng: &mut Rng) -> Failure {
    let bits = rng.pick(&[1 << 5, 1 << 6, 1 << 5 | 1 << 6]);
    // Where the bit is not the call's own, busy must not stay: the status would be read for ever.
    let stays_busy = bits == (1 << 5 | 1 << 6) && rng.flag();
    Failure { work: rng.below(4) as u32, after: rng.below(3) as u32, bits, stays_busy }
}

/// Codes that the Rust lists, and others.
fn ids(rng: &mut Rng) -> [u8; 8] {
    let mut ids = rng.next().to_le_bytes();
    for (place, codes) in [(1, [0x20, 0x02]), (2, [0x18, 0x19]), (4, [0x00, 0x01])] {
        if rng.chance(70) {
            ids[place] = rng.pick(&codes);
        }
    }
    ids
}

/// A word that has a meaning for some register, or any.
fn noise_word(rng: &mut Rng) -> u32 {
    match rng.below(8) {
        0 => rng.word(),
        1 => 0,
        2 => rng.word() & !0x10,
        3 => u32::from(rng.byte() & 0x63) << 24 | 0x10,
        4 => IDLE_CONFIG,
        _ => rng.word() | 0x10,
    }
}

fn noise(rng: &mut Rng) -> Drawn {
    let most = rng.pick(&[8, 40, 40, 200, 200, 1000]);
    let replies: Vec<u32> = (0..rng.below(most)).map(|_| noise_word(rng)).collect();
    let used = replies.len() * 4 + 200;
    Drawn { replies, used }
}

/// Live replies, some of them changed: the run goes another way from there on.
fn mixture(rng: &mut Rng, call: Call, list: &[u32], data: &[u8], buffer: usize) -> Drawn {
    let mut drawn = live(rng, call, list, data, buffer);
    for _ in 0..rng.below(4) {
        if drawn.replies.is_empty() {
            break;
        }
        let at = rng.below(drawn.replies.len());
        drawn.replies[at] = if rng.flag() { noise_word(rng) } else { drawn.replies[at] ^ 1 << rng.below(32) };
    }
    drawn.replies.extend(noise(rng).replies);
    drawn.used += 400;
    drawn
}

//! The config word of `initialize`, field by field, of the erased package against the stored output of the program
//! `config_words`.

use verified::zynq7000::qspi::BaudRateDivisor;
use verified::zynq7000_hal::qspi::config_by_field;

const STORED: &str = include_str!("../../../crates/config_words/stdout");
const DIVISORS: [BaudRateDivisor; 8] = [
    BaudRateDivisor::_2,
    BaudRateDivisor::_4,
    BaudRateDivisor::_8,
    BaudRateDivisor::_16,
    BaudRateDivisor::_32,
    BaudRateDivisor::_64,
    BaudRateDivisor::_128,
    BaudRateDivisor::_256,
];

/// As the program shows it.
fn shown(divisor: BaudRateDivisor, mode: usize) -> String {
    let (phase, polarity) = (mode / 2 == 1, mode % 2 == 1);
    let words = config_by_field(divisor, phase, polarity).map(|word| format!(" {word:08x}")).concat();
    format!("divisor {} phase {} polarity {} ->{words}", divisor.divisor(), phase as u8, polarity as u8)
}

#[test]
fn every_stored_line_is_answered() {
    let lines: Vec<&str> = STORED.lines().collect();
    assert_eq!(lines.len(), 32);
    for (i, line) in lines.iter().enumerate() {
        assert_eq!(shown(DIVISORS[i / 4], i % 4), *line);
    }
}

// Made by tools/erase from crates/zynq7000/src/bits.rt; a change belongs there.
//! One bit of a register word, by its number: bit 0 is the lowest. Crates above pass a number below
//! 32; `proofs/BitLaws.antt` shows that setting and clearing leave every other bit as it was.
//! The number has no type of its own: each is a constant of a register, by which words are shifted too,
//! so that a type would be taken apart at every use.

// Whether the bit is set.
// requires { at < 32 }
pub fn is_set(word: u32, at: u32) -> bool {
    (word >> at) % 2 == 1
}

// The word with the bit set.
// requires { at < 32 }
pub fn put(word: u32, at: u32) -> u32 {
    if is_set(word, at) {
        word
    } else {
        word + (1 << at)
    }
}

// The word with the bit clear.
// requires { at < 32 }
pub fn clear(word: u32, at: u32) -> u32 {
    if !is_set(word, at) {
        word
    } else {
        word - (1 << at)
    }
}

// A one-bit field's part of a word.
// requires { at < 32 }
pub fn flag(on: bool, at: u32) -> u32 {
    if on { 1 << at } else { 0 }
}

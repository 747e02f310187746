//! The published files are what they were, and what the stubs copied from them is still in them.

use std::{
    collections::BTreeSet,
    fs,
    path::{Path, PathBuf},
};

/// The files under `published` that are not the publisher's: they must stand where the published `mod.rs` looks.
const STUBS: [&str; 2] = ["zynq7000-hal/src/clocks/fpga.rs", "zynq7000-hal/src/clocks/pll.rs"];

fn oracle() -> PathBuf {
    Path::new(env!("CARGO_MANIFEST_DIR")).join("..")
}

/// File and sum, as `SHA256SUMS` lists them.
fn listed() -> Vec<(String, String)> {
    let text = fs::read_to_string(oracle().join("published/SHA256SUMS")).unwrap();
    let line = |line: &str| line.split_once("  ").map(|(sum, file)| (file.to_string(), sum.to_string())).unwrap();
    text.lines().map(line).collect()
}

fn files(directory: &Path, found: &mut BTreeSet<PathBuf>) {
    for entry in fs::read_dir(directory).unwrap() {
        let path = entry.unwrap().path();
        if path.is_dir() { files(&path, found) } else { _ = found.insert(path) }
    }
}

#[test]
fn sha256_is_sha256() {
    let text = b"abcdbcdecdefdefgefghfghighijhijkijkljklmklmnlmnomnopnopq";
    assert_eq!(sha256(b"abc"), "ba7816bf8f01cfea414140de5dae2223b00361a396177a9cb410ff61f20015ad");
    assert_eq!(sha256(text), "248d6a61d20638b8e5c026930c3e6039a33ce45964ff2167f6ecedd419db06c1");
}

#[test]
fn sums_hold() {
    for (file, sum) in listed() {
        assert_eq!(sha256(&fs::read(oracle().join("published").join(&file)).unwrap()), sum, "{file}");
    }
}

#[test]
fn every_file_is_listed_or_a_stub() {
    let root = oracle().join("published");
    let mut found = BTreeSet::new();
    files(&root, &mut found);
    let names = listed().into_iter().map(|(file, _)| file).chain(STUBS.map(String::from));
    let expected = names.chain(["SHA256SUMS".to_string()]).map(|file| root.join(file)).collect();
    assert_eq!(found, expected);
    for stub in STUBS {
        assert!(fs::read_to_string(root.join(stub)).unwrap().starts_with("//! NOT PUBLISHED"), "{stub}");
    }
}

#[test]
fn copied_items_are_verbatim() {
    for (name, items) in [("zynq7000", 2), ("zynq7000-hal", 3)] {
        let copied = fs::read_to_string(oracle().join(name).join("src/published_items.rs")).unwrap();
        let published = fs::read_to_string(oracle().join("published").join(name).join("src/lib.rs")).unwrap();
        let paragraphs = copied.trim_end().split("\n\n").collect::<Vec<_>>();
        assert_eq!(paragraphs.len(), items, "{name}");
        for paragraph in paragraphs {
            assert!(published.contains(paragraph), "{name}:\n{paragraph}");
        }
    }
}

/// FIPS 180-4.
fn sha256(message: &[u8]) -> String {
    let mut state =
        [0x6a09e667, 0xbb67ae85, 0x3c6ef372, 0xa54ff53a, 0x510e527f, 0x9b05688c, 0x1f83d9ab, 0x5be0cd19_u32];
    let mut padded = message.to_vec();
    padded.push(0x80);
    padded.resize(padded.len().next_multiple_of(64) + if padded.len() % 64 > 56 { 64 } else { 0 } - 8, 0);
    padded.extend((message.len() as u64 * 8).to_be_bytes());
    for block in padded.chunks_exact(64) {
        sha256_block(&mut state, block);
    }
    state.map(|word| format!("{word:08x}")).concat()
}

fn sha256_block(state: &mut [u32; 8], block: &[u8]) {
    let mut w = [0; 64];
    for (word, bytes) in w.iter_mut().zip(block.chunks_exact(4)) {
        *word = u32::from_be_bytes(bytes.try_into().unwrap());
    }
    for i in 16..64 {
        let s0 = w[i - 15].rotate_right(7) ^ w[i - 15].rotate_right(18) ^ (w[i - 15] >> 3);
        let s1 = w[i - 2].rotate_right(17) ^ w[i - 2].rotate_right(19) ^ (w[i - 2] >> 10);
        w[i] = w[i - 16].wrapping_add(s0).wrapping_add(w[i - 7]).wrapping_add(s1);
    }
    let [mut a, mut b, mut c, mut d, mut e, mut f, mut g, mut h] = *state;
    for i in 0..64 {
        let s1 = e.rotate_right(6) ^ e.rotate_right(11) ^ e.rotate_right(25);
        let choice = (e & f) ^ (!e & g);
        let t1 = h.wrapping_add(s1).wrapping_add(choice).wrapping_add(K[i]).wrapping_add(w[i]);
        let s0 = a.rotate_right(2) ^ a.rotate_right(13) ^ a.rotate_right(22);
        let majority = (a & b) ^ (a & c) ^ (b & c);
        (h, g, f, e, d, c, b, a) = (g, f, e, d.wrapping_add(t1), c, b, a, t1.wrapping_add(s0).wrapping_add(majority));
    }
    for (word, add) in state.iter_mut().zip([a, b, c, d, e, f, g, h]) {
        *word = word.wrapping_add(add);
    }
}

#[rustfmt::skip]
const K: [u32; 64] = [
    0x428a2f98, 0x71374491, 0xb5c0fbcf, 0xe9b5dba5, 0x3956c25b, 0x59f111f1, 0x923f82a4, 0xab1c5ed5,
    0xd807aa98, 0x12835b01, 0x243185be, 0x550c7dc3, 0x72be5d74, 0x80deb1fe, 0x9bdc06a7, 0xc19bf174,
    0xe49b69c1, 0xefbe4786, 0x0fc19dc6, 0x240ca1cc, 0x2de92c6f, 0x4a7484aa, 0x5cb0a9dc, 0x76f988da,
    0x983e5152, 0xa831c66d, 0xb00327c8, 0xbf597fc7, 0xc6e00bf3, 0xd5a79147, 0x06ca6351, 0x14292967,
    0x27b70a85, 0x2e1b2138, 0x4d2c6dfc, 0x53380d13, 0x650a7354, 0x766a0abb, 0x81c2c92e, 0x92722c85,
    0xa2bfe8a1, 0xa81a664b, 0xc24b8b70, 0xc76c51a3, 0xd192e819, 0xd6990624, 0xf40e3585, 0x106aa070,
    0x19a4c116, 0x1e376c08, 0x2748774c, 0x34b0bcb5, 0x391c0cb3, 0x4ed8aa4a, 0x5b9cca4f, 0x682e6ff3,
    0x748f82ee, 0x78a5636f, 0x84c87814, 0x8cc70208, 0x90befffa, 0xa4506ceb, 0xbef9a3f7, 0xc67178f2,
];

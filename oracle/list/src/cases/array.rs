//! Calls on the flash array: erase, program, `write_pages` and both reads.

use super::List;
use crate::device::Manner;
use crate::record::data;
use crate::words::STATUSES;
use call::Call;

/// Lengths that a read is tried with, at each end of a chunk and of a word.
const READ_LENGTHS: [usize; 30] = [
    0, 1, 2, 3, 4, 5, 6, 7, 8, 9, 127, 128, 129, 239, 240, 241, 243, 244, 245, 246, 247, 248, 249, 250, 255, 256, 257,
    495, 496, 497,
];

pub fn add(list: &mut List) {
    erase(list);
    program_lengths(list);
    program_addresses(list);
    program_statuses(list);
    pages_lengths(list);
    pages_addresses(list);
    pages_statuses(list);
    reads(list);
    noise(list);
}

fn erase(list: &mut List) {
    let erase = |addr| Call::EraseSector { addr };
    let addresses = [
        0x0000_0000,
        0x0003_0000,
        0x007F_0000,
        0x00FE_0000,
        // 1: the sum of address and sector is above FFFFFF.
        0x00FF_0000,
        0x00FF_0001,
        0x0100_0000,
        0x8000_0000,
        0xFFFE_0000,
        0xFFFE_FFFF,
        // 2.
        0x0000_0001,
        0x0000_FFFF,
        0x0003_0004,
        0x0003_8000,
        0x00FE_FFFF,
    ];
    for addr in addresses {
        list.whole(erase(addr), Manner::plain());
    }
    for byte in STATUSES {
        list.whole(erase(0x0012_0000), Manner::status(&[byte, 0x01, 0x00]));
    }
    for statuses in [&[0x01, 0x01, 0x03, 0x00][..], &[0x01, 0x41, 0x40], &[0x01, 0x01, 0x21], &[0x03, 0x20]] {
        list.cut(erase(0x00AB_0000), Manner::status(statuses));
        list.cut(erase(0x00AB_0000), Manner::status(statuses).slow());
    }
    list.every_cut(erase(0x00C0_0000), Manner::status(&[0x01, 0x21]), 3);
}

fn program(addr: u32, length: usize) -> Call {
    Call::Program { addr, data: data(length as u8 ^ addr as u8 ^ 0xC3, length) }
}

/// Around every limit of the length, at the start of a page.
fn program_lengths(list: &mut List) {
    let lengths = [
        0, 1, 2, 3, 4, 5, 8, 12, 124, 127, 128, 129, 132, 236, 238, 239, 240, 241, 242, 243, 244, 245, 247, 248, 249,
        252, 255, 256, 257, 495, 496, 497,
    ];
    for length in lengths {
        list.whole(program(0x0001_0000, length), Manner::plain());
    }
}

/// Page ends, sector ends and the range limit, and which refusal comes first.
fn program_addresses(list: &mut List) {
    let rows = [
        (0x0000_0100, 4),
        (0x0000_00F0, 16),
        (0x0000_00F0, 20),
        (0x0000_00F0, 18),
        (0x0000_0010, 240),
        (0x0000_0011, 240),
        (0x0000_0014, 240),
        (0x0000_00FC, 4),
        (0x0000_00FD, 4),
        (0x0000_00FF, 0),
        (0x0000_FFF8, 8),
        (0x0000_FFFC, 8),
        (0x00FF_FFFB, 4),
        (0x00FF_FFFC, 4),
        (0x00FF_FFFC, 3),
        (0x00FF_FFFD, 2),
        (0x00FF_FFFD, 3),
        (0x00FF_FFFF, 0),
        (0x00FF_FFFF, 1),
        (0x0100_0000, 0),
        (0x0100_0000, 4),
        (0x00FF_FF0F, 240),
        (0x00FF_FF10, 240),
        (0x00FF_FE00, 511),
        (0x00FF_FE00, 512),
        (0x8000_0000, 8),
        (0xFFFF_FFFB, 4),
        (0xFFFF_FFFF, 0),
    ];
    for (addr, length) in rows {
        list.whole(program(addr, length), Manner::plain());
    }
}

fn program_statuses(list: &mut List) {
    for byte in STATUSES {
        list.whole(program(0x0012_3480, 4), Manner::status(&[byte, 0x01, 0x00]));
    }
    for statuses in [&[0x01, 0x03, 0x01, 0x00][..], &[0x01, 0x21, 0x20], &[0x01, 0x01, 0x41], &[0x01, 0x40]] {
        list.cut(program(0x00AB_CD04, 24), Manner::status(statuses));
        list.cut(program(0x00AB_CD04, 12), Manner::status(statuses).slow());
    }
    list.cut(program(0x0000_0000, 0), Manner::status(&[0x01, 0x00]).slow());
    list.every_cut(program(0x0055_AA00, 8), Manner::status(&[0x41]), 3);
}

fn pages(addr: u32, length: usize) -> Call {
    Call::WritePages { addr, data: data(length as u8 ^ addr as u8 ^ 0x3C, length) }
}

fn pages_lengths(list: &mut List) {
    let lengths = [0, 1, 3, 4, 5, 124, 127, 128, 129, 130, 132, 240, 244, 247, 248, 249, 256, 257, 260, 384, 400];
    for length in lengths {
        list.whole(pages(0x0001_FF00, length), Manner::plain());
    }
}

/// 5 before and after chunks, page and sector ends, and the range limit.
fn pages_addresses(list: &mut List) {
    let rows = [
        (0x0000_0040, 256),
        (0x0000_00C0, 256),
        (0x0000_0080, 256),
        (0x0000_00FC, 4),
        (0x0000_00FC, 8),
        (0x0000_0084, 124),
        (0x0000_0084, 128),
        (0x0000_0004, 252),
        (0x0000_0004, 256),
        (0x0000_FF80, 256),
        (0x00FF_FFFB, 4),
        (0x00FF_FFFC, 4),
        (0x00FF_FF7F, 128),
        (0x00FF_FF80, 128),
        (0x00FF_FE80, 383),
        (0x00FF_FE80, 384),
        (0x00FF_FFFF, 0),
        (0x0100_0000, 0),
        (0x00FF_FFFE, 1),
        (0x00FF_FFFF, 1),
        (0x8000_0000, 8),
        (0xFFFF_FE6F, 400),
        (0xFFFF_FFFF, 0),
    ];
    for (addr, length) in rows {
        list.whole(pages(addr, length), Manner::plain());
    }
}

/// Busy and errors in the first chunk and in later ones, and cuts.
fn pages_statuses(list: &mut List) {
    for byte in STATUSES {
        list.whole(pages(0x0000_2080, 8), Manner::status(&[byte, 0x01, 0x00]));
    }
    for statuses in [&[0x00, 0x40][..], &[0x01, 0x00, 0x01, 0x41], &[0x02, 0x20, 0x01, 0x60]] {
        list.whole(pages(0x0000_3000, 132), Manner::status(statuses));
        list.whole(pages(0x0000_3000, 260), Manner::status(statuses));
    }
    for _ in 0..6 {
        list.cut(pages(0x0007_FF00, 132), Manner::status(&[0x00, 0x01, 0x00]));
        list.cut(pages(0x0000_1200, 12), Manner::status(&[0x01, 0x00]).slow());
    }
    last_places(list);
}

/// The last accesses of the first chunk, where the count changes, and the first of the second.
fn last_places(list: &mut List) {
    let call = pages(0x0000_4480, 132);
    let manner = Manner::status(&[0x00]);
    let whole = list.on_device(&call, &manner);
    let first = list.on_device(&pages(0x0000_4480, 128), &manner);
    for room in first.used() - 6..first.used() + 5 {
        list.push(&call, whole.within(room), room);
    }
    for given in first.replies.len() - 2..first.replies.len() + 3 {
        list.push(&call, &whole.replies[..given], whole.used());
    }
}

/// Reads of each length by each of the three ways; across the end of the low 24 bits, past it, and to the end of 32 bits.
fn reads(list: &mut List) {
    let ways: [fn(u32, usize) -> Call; 3] = [
        |addr, length| Call::ReadPageRead { addr, length },
        |addr, length| Call::ReadFastRead { addr, dummy_byte: false, length },
        |addr, length| Call::ReadFastRead { addr, dummy_byte: true, length },
    ];
    let addresses = [0x0000_0102, 0x0000_00FF, 0x0000_FFFE, 0x0012_3456, 0x00AB_CDEF];
    for (i, length) in READ_LENGTHS.into_iter().enumerate() {
        for (way, read) in ways.into_iter().enumerate() {
            // The fast read without a dummy byte goes as the page read but for its command.
            if way == 1 && i > 9 && i % 3 != 0 {
                continue;
            }
            list.whole(read(addresses[(i + way) % addresses.len()], length), Manner::plain());
        }
    }
    let limits = [
        (0x00FF_FFFF, 1),
        (0x00FF_FFFF, 2),
        (0x00FF_FFFC, 9),
        (0x00FF_FF80, 250),
        (0x0100_0000, 5),
        (0x8000_0003, 4),
        (0xFFFF_FFFF, 0),
        (0xFFFF_FFFE, 1),
        (0xFFFF_FF00, 255),
    ];
    for read in ways {
        for (addr, length) in limits {
            list.whole(read(addr, length), Manner::plain());
        }
        for length in [1, 6, 11] {
            list.cut(read(0x0044_3322, length), Manner::plain().slow());
        }
        list.cut(read(0x0000_0101, 251), Manner::plain());
        list.every_cut(read(0x0000_0102, 5), Manner::plain(), 5);
    }
    list.whole(ways[0](0x0000_0000, 750), Manner::plain());
    list.cut(ways[2](0x00FF_FF00, 745), Manner { hides: 4, ..Manner::plain() });
}

fn noise(list: &mut List) {
    for i in 0..12 {
        let calls = [
            Call::New { set_quad: true, latency: Some(i % 4), clear_protection: i % 2 == 0 },
            Call::EraseSector { addr: 0x0001_0000 * u32::from(i) },
            program(0x0000_0020 + u32::from(i), 16),
            pages(0x0000_0F00 + 4 * u32::from(i), 20),
            Call::ReadPageRead { addr: 0x00FF_FFF8 + u32::from(i), length: 10 + usize::from(i) },
            Call::ReadFastRead { addr: 0x0000_0FF8 + u32::from(i), dummy_byte: i % 3 > 0, length: 4 + usize::from(i) },
            Call::ReadRdidExtended,
        ];
        for call in calls {
            list.noise(call, 30 + 7 * usize::from(i));
        }
    }
}

//! The array of 16 MiB, FF where nothing was put: only pages that were written take memory.
//! Addresses have 24 bits and wrap.

use std::collections::BTreeMap;

pub(crate) const SECTOR: u32 = 0x1_0000;
pub(crate) const PAGE: u32 = 0x100;
const LAST: u32 = 0xFF_FFFF;

#[derive(Default)]
pub(crate) struct Array {
    pages: BTreeMap<u32, [u8; PAGE as usize]>,
}

impl Array {
    pub fn byte(&self, addr: u32) -> u8 {
        let addr = addr & LAST;
        self.pages.get(&(addr / PAGE)).map_or(0xFF, |page| page[(addr % PAGE) as usize])
    }

    fn byte_mut(&mut self, addr: u32) -> &mut u8 {
        let addr = addr & LAST;
        &mut self.pages.entry(addr / PAGE).or_insert([0xFF; PAGE as usize])[(addr % PAGE) as usize]
    }

    pub fn load(&mut self, addr: u32, bytes: &[u8]) {
        for (i, byte) in (0..).zip(bytes) {
            *self.byte_mut(addr.wrapping_add(i)) = *byte;
        }
    }

    /// Old AND new; what goes past the end of the page goes on at its beginning.
    pub fn program(&mut self, addr: u32, bytes: &[u8]) {
        let page = addr / PAGE * PAGE;
        for (i, byte) in (addr % PAGE..).zip(bytes) {
            *self.byte_mut(page + i % PAGE) &= byte;
        }
    }

    pub fn erase(&mut self, addr: u32) {
        let sector = (addr & LAST) / SECTOR;
        self.pages.retain(|page, _| page / (SECTOR / PAGE) != sector);
    }
}

//! The bytes of `write_pages` that were programmed and the sectors of a list that were erased, as a log shows them: the Rust
//! counts nothing.

const READ: u32 = 0x100;
const ENABLE: u32 = 0x14;
const RX_DATA: u32 = READ | 0x20;
const TX_DATA: [u32; 4] = [0x1C, 0x80, 0x84, 0x88];

const PAGE_PROGRAM: u32 = 0x02;
const SECTOR_ERASE: u32 = 0xD8;
const READ_STATUS: u32 = 0x05;

/// Bits of the status byte: the error of a program, that of an erase, and busy.
const PROGRAM_ERROR: u32 = 0x40;
const ERASE_ERROR: u32 = 0x20;
const BUSY: u32 = 0x01;

/// What went over the wire from a write of 1 to the enable register to the write of 0 after it.
#[derive(Default)]
pub struct Transfer {
    sent: Vec<u32>,
    received: Vec<u32>,
}

impl Transfer {
    fn command(&self) -> Option<u32> {
        self.sent.first().map(|word| word & 0xFF)
    }

    /// The byte of a status read.
    pub fn status(&self) -> Option<u32> {
        let reply = self.received.last().filter(|_| self.command() == Some(READ_STATUS));
        reply.map(|word| word >> 24)
    }
}

/// The transfers that were closed.
pub fn transfers(log: &[u32]) -> Vec<Transfer> {
    let mut closed = Vec::new();
    let mut open = None;
    for access in log.chunks_exact(2) {
        match (access[0], access[1], &mut open) {
            (ENABLE, 1, _) => open = Some(Transfer::default()),
            (ENABLE, _, _) => closed.extend(open.take()),
            (RX_DATA, word, Some(transfer)) => transfer.received.push(word),
            (offset, word, Some(transfer)) if TX_DATA.contains(&offset) => transfer.sent.push(word),
            _ => {}
        }
    }
    closed
}

/// Each page program counts its data words once a status read shows neither an error nor busy.
pub fn programmed(log: &[u32]) -> usize {
    let mut bytes = 0;
    let mut chunk = 0;
    for transfer in transfers(log) {
        if transfer.command() == Some(PAGE_PROGRAM) {
            chunk = 4 * (transfer.sent.len() - 1);
        }
        if transfer.status().is_some_and(|status| status & (PROGRAM_ERROR | BUSY) == 0) {
            bytes += std::mem::take(&mut chunk);
        }
    }
    bytes
}

/// Each sector erase counts once a status read shows neither an error nor busy.
pub fn sectors(log: &[u32]) -> usize {
    let mut sectors = 0;
    let mut begun = false;
    for transfer in transfers(log) {
        begun |= transfer.command() == Some(SECTOR_ERASE);
        if transfer.status().is_some_and(|status| status & (ERASE_ERROR | BUSY) == 0) {
            sectors += usize::from(std::mem::take(&mut begun));
        }
    }
    sectors
}

#[cfg(test)]
mod tests {
    use super::*;

    /// A page program of two data words, and a status read that gives this byte.
    fn log(status: u32) -> Vec<u32> {
        let program = [[0x14, 1], [0x1C, 0x0001_0002], [0x1C, 7], [0x1C, 8], [0x14, 0]];
        [program.concat(), status_read(status)].concat()
    }

    fn status_read(status: u32) -> Vec<u32> {
        [[0x14, 1], [0x84, 5], [0x104, 0x10], [0x120, status << 24], [0x14, 0]].concat()
    }

    /// Sector erases, each with a status read that gives a byte.
    fn erases(statuses: &[u32]) -> Vec<u32> {
        let erase = [[0x14, 1], [0x1C, 0x0000_05D8], [0x14, 0]].concat();
        statuses.iter().flat_map(|status| [erase.clone(), status_read(*status)].concat()).collect()
    }

    #[test]
    fn a_clean_status_counts_the_chunk() {
        assert_eq!([0x00, 0x20, 0x01, 0x40, 0x41].map(|status| programmed(&log(status))), [8, 8, 0, 0, 0]);
    }

    #[test]
    fn a_clean_status_counts_the_sector() {
        assert_eq!([0x00, 0x40, 0x01, 0x20, 0x21].map(|status| sectors(&erases(&[status]))), [1, 1, 0, 0, 0]);
        assert_eq!(sectors(&[erases(&[0, 1]), status_read(0), status_read(0)].concat()), 2);
    }

    #[test]
    fn not_before_its_closing() {
        let (chunk, list) = (log(0), erases(&[0, 0]));
        assert_eq!(programmed(&chunk[..chunk.len() - 2]), 0);
        assert_eq!(sectors(&list[..list.len() - 2]), 1);
    }

    #[test]
    fn a_word_drained_between_transfers_is_no_status() {
        let mut log = log(0x01);
        log.extend([0x120, 0]);
        assert_eq!(programmed(&log), 0);
    }
}

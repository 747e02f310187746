//! What a log shows by itself: chunks and sectors that ended clean, and which turns a run took. It goes by the writes of 1 and
//! 0 to the enable register, and knows nothing of how either driver is made.

const READ: u32 = 0x100;
const INTERRUPT_STATUS: u32 = READ | 0x04;
const RX_DATA: u32 = READ | 0x20;
const ENABLE: u32 = 0x14;
const TX_DATA: [u32; 4] = [0x1C, 0x80, 0x84, 0x88];

const RX_WAITS: u32 = 1 << 4;
const PAGE_PROGRAM: u8 = 0x02;
const SECTOR_ERASE: u8 = 0xD8;
const READ_STATUS: u8 = 0x05;
const BUSY: u8 = 1;
const ERASE_ERROR: u8 = 1 << 5;
const PROGRAM_ERROR: u8 = 1 << 6;

/// What was seen in a log.
#[derive(Clone, Copy, Debug, Default, PartialEq, Eq)]
pub struct Observed {
    /// Bytes of the page programs whose status loop ended clean, the closing of the last status transfer included.
    pub programmed: usize,
    /// Sector erases whose status loop ended so.
    pub erased: usize,
    /// RX words taken outside a transfer.
    pub drains: usize,
    /// Status polls that showed busy without an error.
    pub busy: usize,
    /// Status polls with an error bit and bit 0 set together.
    pub errors_while_busy: usize,
    /// Two interrupt status reads in a row inside a transfer, the first with a word waiting and the second without.
    pub flickers: usize,
    /// Interrupt status reads inside a transfer that showed no word.
    pub waits: usize,
    /// Those of page programs that had all replies but the last.
    pub last_waits: usize,
}

/// The transfer that a log is in.
#[derive(Clone, Copy, Debug, Default)]
struct Transfer {
    command: Option<u8>,
    data_words: usize,
    replies: usize,
    reply: Option<u32>,
}

impl Transfer {
    /// A page program of which the last reply alone is out.
    fn lacks_the_last(&self) -> bool {
        self.command == Some(PAGE_PROGRAM) && self.replies == self.data_words
    }
}

/// What is out and has no clean status yet.
#[derive(Clone, Copy, Debug)]
enum Work {
    Program { bytes: usize },
    Erase,
}

impl Work {
    /// The bit that says it failed.
    const fn error(self) -> u8 {
        match self {
            Work::Program { .. } => PROGRAM_ERROR,
            Work::Erase => ERASE_ERROR,
        }
    }
}

#[derive(Clone, Copy, Debug, Default)]
struct Observer {
    seen: Observed,
    transfer: Option<Transfer>,
    pending: Option<Work>,
    /// The last access was an interrupt status read that showed a word.
    shown: bool,
}

/// Reads a log from its start.
pub fn observe(log: &[u32]) -> Observed {
    let mut observer = Observer::default();
    for access in log.chunks_exact(2) {
        observer.access(access[0], access[1]);
    }
    observer.seen
}

impl Observer {
    fn access(&mut self, offset: u32, value: u32) {
        let shown = std::mem::take(&mut self.shown);
        match offset {
            ENABLE if value == 1 => self.transfer = Some(Transfer::default()),
            ENABLE => self.close(),
            INTERRUPT_STATUS => self.interrupt_status(value, shown),
            RX_DATA => self.rx_data(value),
            _ if TX_DATA.contains(&offset) => self.tx_data(value),
            _ => {}
        }
    }

    fn interrupt_status(&mut self, value: u32, shown: bool) {
        self.shown = value & RX_WAITS != 0;
        if let Some(transfer) = &self.transfer
            && !self.shown
        {
            self.seen.waits += 1;
            self.seen.last_waits += usize::from(transfer.lacks_the_last());
            self.seen.flickers += usize::from(shown);
        }
    }

    fn rx_data(&mut self, value: u32) {
        match &mut self.transfer {
            Some(transfer) => {
                transfer.replies += 1;
                transfer.reply = Some(value);
            }
            None => self.seen.drains += 1,
        }
    }

    fn tx_data(&mut self, value: u32) {
        if let Some(transfer) = &mut self.transfer {
            match transfer.command {
                None => transfer.command = Some(value as u8),
                Some(_) => transfer.data_words += 1,
            }
        }
    }

    fn close(&mut self) {
        let Some(transfer) = self.transfer.take() else {
            return;
        };
        match (transfer.command, transfer.reply) {
            (Some(PAGE_PROGRAM), _) => self.pending = Some(Work::Program { bytes: 4 * transfer.data_words }),
            (Some(SECTOR_ERASE), _) => self.pending = Some(Work::Erase),
            (Some(READ_STATUS), Some(reply)) => self.status((reply >> 24) as u8),
            _ => {}
        }
    }

    fn status(&mut self, status: u8) {
        let busy = status & BUSY != 0;
        if busy && status & (ERASE_ERROR | PROGRAM_ERROR) == 0 {
            self.seen.busy += 1;
        }
        if busy && status & (ERASE_ERROR | PROGRAM_ERROR) != 0 {
            self.seen.errors_while_busy += 1;
        }
        match self.pending {
            Some(work) if status & work.error() != 0 => self.pending = None,
            Some(Work::Program { bytes }) if !busy => self.finish(bytes, 0),
            Some(Work::Erase) if !busy => self.finish(0, 1),
            _ => {}
        }
    }

    fn finish(&mut self, bytes: usize, sectors: usize) {
        self.pending = None;
        self.seen.programmed += bytes;
        self.seen.erased += sectors;
    }
}

#[cfg(test)]
mod tests {
    use super::*;

    /// A page program of two data words.
    const PROGRAM: [u32; 10] = [0x14, 1, 0x1C, 0x0001_0002, 0x1C, 7, 0x1C, 8, 0x14, 0];
    const ERASE: [u32; 6] = [0x14, 1, 0x1C, 0x0000_05D8, 0x14, 0];

    /// The work and a status transfer with this reply.
    fn work(command: &[u32], status: u32) -> Vec<u32> {
        [command, &[0x14, 1, 0x84, 5, 0x104, 0x10, 0x120, status << 24, 0x14, 0]].concat()
    }

    #[test]
    fn a_clean_status_finishes_a_chunk() {
        let programmed = [0x00, 0x20, 0x01, 0x40].map(|status| observe(&work(&PROGRAM, status)).programmed);
        assert_eq!(programmed, [8, 8, 0, 0]);
    }

    #[test]
    fn a_clean_status_finishes_a_sector() {
        let erased = [0x00, 0x40, 0x01, 0x20, 0x21, 0x41].map(|status| observe(&work(&ERASE, status)).erased);
        assert_eq!(erased, [1, 1, 0, 0, 0, 0]);
    }

    #[test]
    fn the_last_wait_is_the_one_behind_all_other_replies() {
        let (reply, wait) = ([0x120, 0], [0x104, 0]);
        let waits = |replies: usize| {
            let log = [&PROGRAM[..8], &reply.repeat(replies), &wait].concat();
            observe(&log).last_waits
        };
        assert_eq!([0, 1, 2, 3].map(waits), [0, 0, 1, 0]);
        assert_eq!(observe(&[&ERASE[..4], &wait[..]].concat()).last_waits, 0);
    }

    #[test]
    fn the_closing_belongs_to_it() {
        let (chunk, sector) = (work(&PROGRAM, 0), work(&ERASE, 0));
        assert_eq!(observe(&chunk[..chunk.len() - 2]).programmed, 0);
        assert_eq!(observe(&sector[..sector.len() - 2]).erased, 0);
    }

    #[test]
    fn a_sector_counts_once_and_a_failed_one_never() {
        let status = &work(&ERASE, 0)[ERASE.len()..];
        assert_eq!(observe(&[&work(&ERASE, 0), status, &work(&ERASE, 1), status].concat()).erased, 2);
        assert_eq!(observe(&[&work(&ERASE, 0x20), status].concat()).erased, 0);
    }
}

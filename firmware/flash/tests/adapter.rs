//! The calls have the shapes of the embedded-storage traits: the bodies of an adapter are a dozen lines. The traits and their helpers
//! stand here as recalled of that crate (0.3), which was not at hand.

use model::Model;
use nor_flash::{ErrorType, NorFlash, NorFlashError, NorFlashErrorKind, ReadNorFlash};
use qspi_flash::{AS_IT_IS, Budget, Bus, Error, Flash, QspiLowLevel};

mod nor_flash {
    pub trait NorFlashError: core::fmt::Debug {
        fn kind(&self) -> NorFlashErrorKind;
    }

    #[derive(Clone, Copy, Debug, PartialEq, Eq)]
    pub enum NorFlashErrorKind {
        NotAligned,
        OutOfBounds,
        Other,
    }

    impl NorFlashError for NorFlashErrorKind {
        fn kind(&self) -> NorFlashErrorKind {
            *self
        }
    }

    pub trait ErrorType {
        type Error: NorFlashError;
    }

    pub trait ReadNorFlash: ErrorType {
        const READ_SIZE: usize;
        fn read(&mut self, offset: u32, bytes: &mut [u8]) -> Result<(), Self::Error>;
        fn capacity(&self) -> usize;
    }

    pub trait NorFlash: ReadNorFlash {
        const WRITE_SIZE: usize;
        const ERASE_SIZE: usize;
        fn erase(&mut self, from: u32, to: u32) -> Result<(), Self::Error>;
        fn write(&mut self, offset: u32, bytes: &[u8]) -> Result<(), Self::Error>;
    }

    pub fn check_read<T: ReadNorFlash>(flash: &T, offset: u32, length: usize) -> Result<(), NorFlashErrorKind> {
        let offset = offset as usize;
        if length > flash.capacity() || offset > flash.capacity() - length {
            return Err(NorFlashErrorKind::OutOfBounds);
        }
        if (offset | length) & (T::READ_SIZE - 1) != 0 {
            return Err(NorFlashErrorKind::NotAligned);
        }
        Ok(())
    }

    pub fn check_erase<T: NorFlash>(flash: &T, from: u32, to: u32) -> Result<(), NorFlashErrorKind> {
        let (from, to) = (from as usize, to as usize);
        if from > to || to > flash.capacity() {
            return Err(NorFlashErrorKind::OutOfBounds);
        }
        if (from | to) & (T::ERASE_SIZE - 1) != 0 {
            return Err(NorFlashErrorKind::NotAligned);
        }
        Ok(())
    }

    pub fn check_write<T: NorFlash>(flash: &T, offset: u32, length: usize) -> Result<(), NorFlashErrorKind> {
        let offset = offset as usize;
        if length > flash.capacity() || offset > flash.capacity() - length {
            return Err(NorFlashErrorKind::OutOfBounds);
        }
        if (offset | length) & (T::WRITE_SIZE - 1) != 0 {
            return Err(NorFlashErrorKind::NotAligned);
        }
        Ok(())
    }
}

// The adapter.

struct Storage<'l, B>(Flash<'l, B>);

fn kind(error: Error) -> NorFlashErrorKind {
    match error {
        Error::OutOfRange | Error::AddressSpan => NorFlashErrorKind::OutOfBounds,
        _ => NorFlashErrorKind::Other,
    }
}

impl<B> ErrorType for Storage<'_, B> {
    type Error = NorFlashErrorKind;
}

impl<B: Bus> ReadNorFlash for Storage<'_, B> {
    const READ_SIZE: usize = 1;

    fn read(&mut self, offset: u32, bytes: &mut [u8]) -> Result<(), NorFlashErrorKind> {
        nor_flash::check_read(self, offset, bytes.len())?;
        self.0.read_page_read(offset, bytes).map_err(kind)
    }

    // The last sector cannot be erased, nor its last byte written: 01, rule 1.
    fn capacity(&self) -> usize {
        0xFF_0000
    }
}

impl<B: Bus> NorFlash for Storage<'_, B> {
    const WRITE_SIZE: usize = 4;
    const ERASE_SIZE: usize = 0x1_0000;

    fn erase(&mut self, from: u32, to: u32) -> Result<(), NorFlashErrorKind> {
        nor_flash::check_erase(self, from, to)?;
        (from..to).step_by(Self::ERASE_SIZE).try_for_each(|sector| self.0.erase_sector(sector)).map_err(kind)
    }

    // The first piece ends where a chunk of 128 bytes may begin, so that no chunk crosses a page.
    fn write(&mut self, offset: u32, bytes: &[u8]) -> Result<(), NorFlashErrorKind> {
        nor_flash::check_write(self, offset, bytes.len())?;
        let (first, rest) = bytes.split_at(bytes.len().min(128 - offset as usize % 128));
        let pieces = [(offset, first), (offset + first.len() as u32, rest)];
        pieces
            .into_iter()
            .try_for_each(|(at, piece)| self.0.write_pages(at, piece).map(drop).map_err(|e| kind(e.error)))
    }
}

// A caller that knows the traits alone.
fn rewrite<S: NorFlash>(storage: &mut S, at: u32, bytes: &[u8], back: &mut [u8]) -> Result<(), S::Error> {
    let sector = at - at % S::ERASE_SIZE as u32;
    storage.erase(sector, sector + S::ERASE_SIZE as u32)?;
    storage.write(at, bytes)?;
    storage.read(at, back)
}

fn bytes(length: usize) -> Vec<u8> {
    (0..length).map(|i| (i * 7 + 1) as u8).collect()
}

fn with_storage(test: impl FnOnce(&mut Storage<'_, Model>)) {
    let mut log = vec![0; 100_000];
    let controller = QspiLowLevel::new(Model::default(), &mut log, Budget { looks: 1000, busy: 1000 });
    let Ok(flash) = Flash::new(controller, AS_IT_IS) else { panic!("new is refused") };
    test(&mut Storage(flash));
}

#[test]
fn a_caller_of_the_traits_saves_and_reads_back() {
    with_storage(|storage| {
        for (at, length) in [(0x03_0000, 0), (0x03_0000, 128), (0x03_0044, 700), (0x03_007C, 8), (0x03_00FC, 260)] {
            let mut back = vec![0; length];
            rewrite(storage, at, &bytes(length), &mut back).unwrap();
            assert_eq!(bytes(length), back, "{length} bytes at {at:06X}");
        }
        let last = storage.capacity() as u32 - 256;
        let mut back = vec![0; 256];
        rewrite(storage, last, &bytes(256), &mut back).unwrap();
        assert_eq!(bytes(256), back);
    });
}

#[test]
fn what_is_not_aligned_or_out_of_bounds_is_refused_before_any_access() {
    with_storage(|storage| {
        let accesses = storage.0.low_level().bus().accesses();
        let not_aligned =
            |ended: Result<(), NorFlashErrorKind>| assert_eq!(ended.unwrap_err().kind(), NorFlashErrorKind::NotAligned);
        let out_of_bounds = |ended: Result<(), NorFlashErrorKind>| {
            assert_eq!(ended.unwrap_err().kind(), NorFlashErrorKind::OutOfBounds)
        };
        not_aligned(storage.erase(0, 5));
        not_aligned(storage.erase(4, 0x1_0000));
        not_aligned(storage.write(0x03_0001, &bytes(8)));
        not_aligned(storage.write(0x03_0000, &bytes(3)));
        out_of_bounds(storage.erase(0xFE_0000, 0x100_0000));
        out_of_bounds(storage.erase(0x1_0000, 0));
        out_of_bounds(storage.write(0xFFFF_FFFC, &bytes(200)));
        out_of_bounds(storage.read(0xFF_0000, &mut [0; 1]));
        out_of_bounds(storage.read(0xFE_FFFF, &mut [0; 2]));
        out_of_bounds(storage.read(0x100_0000, &mut [0; 1]));
        out_of_bounds(storage.read(u32::MAX, &mut [0; 2]));
        assert_eq!(storage.0.low_level().bus().accesses(), accesses);
    });
}

//! What the published text gets from `num_enum` and `thiserror`, value by value. `../run --real-crates` runs
//! this file a second time, over the crates themselves.

use std::error::Error;
use std::fmt::Debug;

use num_enum::{TryFromPrimitive, TryFromPrimitiveError};
use zedboard_bsp::qspi_spansion::{
    AddrError, Density, EraseError, MemoryInterfaceType, PAGE_SIZE, ProgramPageError, SectorArchictecture,
};
use zynq7000_hal::clocks::{ClockModuleId, ClockReadError};
use zynq7000_hal::qspi::ClockCalculationError;

/// Each byte that is listed gives its variant, and any other an error with that byte.
fn conversions<T>(listed: &[(u8, &str)])
where
    T: TryFrom<u8, Error = TryFromPrimitiveError<T>> + TryFromPrimitive<Primitive = u8> + Debug,
{
    for byte in 0..=u8::MAX {
        match (T::try_from(byte), listed.iter().find(|(code, _)| *code == byte)) {
            (Ok(value), Some((_, name))) => assert_eq!(format!("{value:?}"), *name),
            (Err(error), None) => assert_eq!(error.number, byte),
            (found, _) => panic!("{byte:02X} is {found:?}"),
        }
    }
}

#[test]
fn every_byte_is_converted() {
    conversions::<MemoryInterfaceType>(&[(0x20, "_128Mb"), (0x02, "_256Mb")]);
    conversions::<Density>(&[(0x18, "_128Mb"), (0x19, "_256Mb")]);
    conversions::<SectorArchictecture>(&[(0x00, "Uniform"), (0x01, "Hybrid")]);
}

/// The texts, and whether there is a source.
fn says(error: impl Error, text: &str, source: Option<&str>) {
    assert_eq!(error.to_string(), text);
    assert_eq!(error.source().map(ToString::to_string).as_deref(), source, "{text}");
}

#[test]
fn every_error_has_its_text_and_its_source() {
    says(AddrError::OutOfRange, "address out of range", None);
    says(AddrError::Alignment, "address not aligned", None);
    says(EraseError::EraseErrorBitSet, "erase error bit set in status register", None);
    says(ProgramPageError::ProgrammingErrorBitSet, "programming error bit set in status register", None);
    says(ProgramPageError::DataTooLarge, &format!("program data is larger than page size {PAGE_SIZE}"), None);
    says(ProgramPageError::NotAligned, "program data is not aligned to 4 bytes", None);
    says(ProgramPageError::CrossesPageBoundary, "program data crosses page boundary", None);
    says(EraseError::Addr(AddrError::OutOfRange), "address error: address out of range", Some("address out of range"));
    says(
        ProgramPageError::Addr(AddrError::Alignment),
        "address error: address not aligned",
        Some("address not aligned"),
    );
    says(ClockCalculationError::RefDivOutOfRange, "reference divisor out of range", None);
    says(ClockCalculationError::RefClockSmallerThanCpu1xClock, "violated clock ratio restriction", None);
    says(ClockReadError::DivisorNotEven, "divisor is not even", None);
    says(ClockReadError::DivisorZero(ClockModuleId::Ddr.into()), "divisor is zero", None);
}

/// What `?` makes of an error.
fn question_mark<T: From<AddrError>>(error: AddrError) -> Result<(), T> {
    Err(error)?
}

#[test]
fn an_address_error_is_converted_on_its_way() {
    assert_eq!(question_mark(AddrError::OutOfRange), Err(EraseError::Addr(AddrError::OutOfRange)));
    assert_eq!(question_mark(AddrError::Alignment), Err(EraseError::Addr(AddrError::Alignment)));
    assert_eq!(question_mark(AddrError::OutOfRange), Err(ProgramPageError::Addr(AddrError::OutOfRange)));
    assert_eq!(question_mark(AddrError::Alignment), Err(ProgramPageError::Addr(AddrError::Alignment)));
}

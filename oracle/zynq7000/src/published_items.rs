/// SPI clock phase, controlling when data is driven relative to the SPI clock edges.
#[bitbybit::bitenum(u1, exhaustive = true)]
#[derive(Debug, PartialEq, Eq)]
#[cfg_attr(feature = "defmt", derive(defmt::Format))]
pub enum SpiClockPhase {
    /// Clock is active outside the word.
    ActiveOutsideOfWord = 0,
    /// Clock is inactive outside the word.
    InactiveOutsideOfWord = 1,
}

/// SPI clock polarity, the quiescent state of the SPI clock line.
#[bitbybit::bitenum(u1, exhaustive = true)]
#[derive(Debug, PartialEq, Eq)]
#[cfg_attr(feature = "defmt", derive(defmt::Format))]
pub enum SpiClockPolarity {
    /// Clock is low when quiescent.
    QuiescentLow = 0,
    /// Clock is high when quiescent.
    QuiescentHigh = 1,
}

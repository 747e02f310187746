// Made by tools/erase from crates/zedboard_bsp/src/qspi_spansion/device_id.rt; a change belongs there.
//! The ids that the chip answers to RDID.

use crate::zedboard_bsp::qspi_spansion::words;

// A byte that the Rust doesn't list as a code (refusal 11).
#[derive(Clone, Copy, Debug, PartialEq, Eq)]
pub struct UnknownCode(pub u8);

#[derive(Clone, Copy, Debug, PartialEq, Eq)]
pub enum MemoryInterfaceType {
    _128Mb = 0x20,
    _256Mb = 0x02,
}

// The three conversions have a table each, and share nothing but the refusal.
impl TryFrom<u8> for MemoryInterfaceType {
    type Error = UnknownCode;

    fn try_from(code: u8) -> Result<Self, UnknownCode> {
        match code {
            0x20 => Ok(MemoryInterfaceType::_128Mb),
            0x02 => Ok(MemoryInterfaceType::_256Mb),
            _ => Err(UnknownCode(code)),
        }
    }
}

#[derive(Clone, Copy, Debug, PartialEq, Eq)]
pub enum Density {
    _128Mb = 0x18,
    _256Mb = 0x19,
}

impl TryFrom<u8> for Density {
    type Error = UnknownCode;

    fn try_from(code: u8) -> Result<Self, UnknownCode> {
        match code {
            0x18 => Ok(Density::_128Mb),
            0x19 => Ok(Density::_256Mb),
            _ => Err(UnknownCode(code)),
        }
    }
}

#[derive(Clone, Copy, Debug, PartialEq, Eq)]
pub enum SectorArchictecture {
    // Uniform 256 kB sectors.
    Uniform = 0x00,
    // 32 4kB sectors and 64 kB sectors.
    Hybrid = 0x01,
}

impl TryFrom<u8> for SectorArchictecture {
    type Error = UnknownCode;

    fn try_from(code: u8) -> Result<Self, UnknownCode> {
        match code {
            0x00 => Ok(SectorArchictecture::Uniform),
            0x01 => Ok(SectorArchictecture::Hybrid),
            _ => Err(UnknownCode(code)),
        }
    }
}

#[derive(Clone, Copy, Debug, PartialEq, Eq)]
pub struct BaseDeviceId {
    manufacturer_id: u8,
    device_id: u16,
}

impl BaseDeviceId {
    pub fn new(manufacturer_id: u8, device_id: u16) -> BaseDeviceId {
        BaseDeviceId {
            manufacturer_id,
            device_id,
        }
    }

    // The id in the reply to RDID. Its first byte came in while the command went out.
    pub fn from_reply(reply: u32) -> BaseDeviceId {
        let raw = words::bytes_of(reply);
        BaseDeviceId::new(raw[1], u16::from_be_bytes([raw[2], raw[3]]))
    }

    pub fn manufacturer_id(self) -> u8 {
        self.manufacturer_id
    }

    pub fn device_id_raw(self) -> u16 {
        self.device_id
    }

    pub fn memory_interface_type(self) -> Result<MemoryInterfaceType, UnknownCode> {
        MemoryInterfaceType::try_from((self.device_id / 256) as u8)
    }

    pub fn density(self) -> Result<Density, UnknownCode> {
        Density::try_from((self.device_id % 256) as u8)
    }
}

#[derive(Clone, Copy, Debug, PartialEq, Eq)]
pub struct ExtendedDeviceId {
    base: BaseDeviceId,
    id_cfi_len: u8,
    sector_arch: u8,
    family_id: u8,
    model_number: [u8; 2],
}

impl ExtendedDeviceId {
    // The id in the three replies to RDID and two zero words.
    pub fn from_replies(first: u32, second: u32, third: u32) -> ExtendedDeviceId {
        let base = BaseDeviceId::from_reply(first);
        let middle = words::bytes_of(second);
        let last = words::bytes_of(third);
        ExtendedDeviceId {
            base,
            id_cfi_len: middle[0],
            sector_arch: middle[1],
            family_id: middle[2],
            model_number: [middle[3], last[0]],
        }
    }

    pub fn base_id(self) -> BaseDeviceId {
        self.base
    }

    pub fn id_cfi_len(self) -> u8 {
        self.id_cfi_len
    }

    pub fn sector_arch_raw(self) -> u8 {
        self.sector_arch
    }

    pub fn sector_arch(self) -> Result<SectorArchictecture, UnknownCode> {
        SectorArchictecture::try_from(self.sector_arch)
    }

    pub fn family_id(self) -> u8 {
        self.family_id
    }

    pub fn model_number_raw(self) -> [u8; 2] {
        self.model_number
    }

    // The Rust's two `char`s, as the bytes that they are.
    pub fn model_number(self) -> [u8; 2] {
        Self::model_number_raw(self)
    }
}

//! What a device is made of.
use crate::sys;

/// The numbers of a configuration but for its units. docs/FORMATS.md, "Configuration", has the range
/// of each.
///
/// The default is a small device: two dies of 24 blocks of 16 pages, an RPMB area of 128 KiB in
/// region 0, 64 slots and four spare blocks, of profile 0. There is room for a unit of 64 blocks.
#[derive(Clone, Copy, Debug, PartialEq, Eq, Hash)]
pub struct Config {
    /// How many dies there are.
    pub dies: u8,
    /// The blocks of a die.
    pub blocks: u16,
    /// The pages of a block, each of which has [`PAGE_BYTES`](crate::PAGE_BYTES).
    pub pages: u16,
    /// The area of each RPMB region, 0 to 3, in steps of 128 KiB; 0 where the region is not there.
    pub rpmb: [u8; 4],
    /// For how many blocks of 4096 bytes the write cache has room.
    pub slots: u16,
    /// How many blocks may go bad before the device takes no more writes.
    pub spare: u16,
    /// 0 for the device of a few commands, 1 for one that tells more of itself and has attentions.
    pub profile: u8,
    /// The serial number, which profile 1 alone tells.
    pub serial: u64,
}

impl Default for Config {
    fn default() -> Config {
        Config {
            dies: 2,
            blocks: 24,
            pages: 16,
            rpmb: [1, 0, 0, 0],
            slots: 64,
            spare: 4,
            profile: 0,
            serial: 1,
        }
    }
}

impl Config {
    /// The same numbers for a device of this profile, 0 or 1, with this serial number.
    pub fn with_profile(self, profile: u8, serial: u64) -> Config {
        Config {
            profile,
            serial,
            ..self
        }
    }

    /// How many blocks of 4096 bytes one command may have.
    pub fn most_blocks(&self) -> u32 {
        match self.slots {
            0..=255 => 32,
            _ => 128,
        }
    }

    pub(crate) fn row(&self) -> sys::ConfigRow {
        sys::ConfigRow {
            dies: self.dies,
            blocks: self.blocks,
            pages: self.pages,
            rpmb: self.rpmb,
            slots: self.slots,
            spare: self.spare,
            profile: self.profile,
            serial: self.serial,
        }
    }
}

/// Which number a unit has for the attribute bBootLunEn (JESD220, 14).
#[derive(Clone, Copy, Debug, Default, PartialEq, Eq, Hash)]
pub enum Boot {
    /// The device does not boot from it.
    #[default]
    None,
    /// Boot unit A, number 1.
    A,
    /// Boot unit B, number 2.
    B,
}

/// When the writes of a unit are refused.
#[derive(Clone, Copy, Debug, Default, PartialEq, Eq, Hash)]
pub enum Protection {
    /// Never.
    #[default]
    Never,
    /// While fPowerOnWPEn is set.
    PowerOn,
    /// While fPermanentWPEn is set.
    Permanent,
}

/// A unit of a configuration. Its LUN is its place in the list, from 0 on.
#[derive(Clone, Copy, Debug, Default, PartialEq, Eq, Hash)]
pub struct Unit {
    /// How many blocks of 4096 bytes it has.
    pub blocks: u32,
    /// Whether the device boots from it.
    pub boot: Boot,
    /// When its writes are refused.
    pub protect: Protection,
}

impl Unit {
    /// A unit of so many blocks of 4096 bytes, from which nothing boots, and which is never protected.
    pub fn new(blocks: u32) -> Unit {
        Unit {
            blocks,
            ..Unit::default()
        }
    }

    pub(crate) fn row(&self) -> sys::UnitRow {
        sys::UnitRow {
            blocks: self.blocks,
            boot: match self.boot {
                Boot::None => 0,
                Boot::A => 1,
                Boot::B => 2,
            },
            protect: match self.protect {
                Protection::Never => 0,
                Protection::PowerOn => 1,
                Protection::Permanent => 2,
            },
        }
    }
}

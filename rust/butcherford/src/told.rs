//! What a device of profile 1 tells of itself, by whole commands.
use crate::command::{number_at, Data};
use crate::device::Device;
use crate::error::Result;

/// For so many bytes a command has room that is to bring all there are.
const ROOM: u32 = 0xFFFF;
/// MODE SENSE(6) counts its bytes in one.
const ROOM_OF_SIX: u32 = 0xFF;
const INQUIRY: u8 = 0x12;
const MODE_SENSE_6: u8 = 0x1A;
const MODE_SENSE_10: u8 = 0x5A;
const MAINTENANCE_IN: u8 = 0xA3;
const REPORT_SUPPORTED_OPERATION_CODES: u8 = 0x0C;
const SERVICE_ACTION_IN_16: u8 = 0x9E;
const READ_CAPACITY_16: u8 = 0x10;

/// What READ CAPACITY(16) tells of a unit (SBC-3).
#[derive(Clone, Copy, Debug, PartialEq, Eq, Hash)]
pub struct LongCapacity {
    /// The address of the last block.
    pub last_address: u64,
    /// How many bytes a block has.
    pub block_bytes: u32,
    /// Whether blocks may be unmapped (LBPME).
    pub unmaps: bool,
    /// Whether blocks that were unmapped are read as zeros (LBPRZ).
    pub unmapped_are_zeros: bool,
}

/// A page of vital product data (SPC-4, SBC-3).
#[derive(Clone, Copy, Debug, PartialEq, Eq, Hash)]
pub enum VpdPage {
    /// Which pages there are.
    SupportedPages = 0x00,
    /// The unit serial number, in ASCII.
    SerialNumber = 0x80,
    /// Designators of the unit.
    Identification = 0x83,
    /// Which units share mode pages.
    ModePagePolicy = 0x87,
    /// Block limits, which a unit of the configuration alone has, as those below.
    BlockLimits = 0xB0,
    /// Block device characteristics.
    BlockCharacteristics = 0xB1,
    /// Logical block provisioning.
    Provisioning = 0xB2,
}

/// Mode pages (SPC-4, SBC-3). The number is that of bytes 2 and 3 of a MODE SENSE.
#[derive(Clone, Copy, Debug, PartialEq, Eq, Hash)]
pub enum ModePages {
    /// Read-write error recovery, 01h.
    ErrorRecovery = 0x0100,
    /// Caching, 08h.
    Caching = 0x0800,
    /// Control, 0Ah.
    Control = 0x0A00,
    /// All pages.
    All = 0x3F00,
    /// All pages and all subpages.
    AllWithSubpages = 0x3FFF,
}

/// Which values of mode pages are told (SPC-4, MODE SENSE, page control). The number is as of
/// [`ModePages`].
#[derive(Clone, Copy, Debug, PartialEq, Eq, Hash)]
pub enum ModeValues {
    /// Those that apply.
    Current = 0x0000,
    /// Ones in the bits that may be changed.
    Changeable = 0x4000,
    /// Those at delivery.
    Default = 0x8000,
    /// Those that are saved, which this device has not.
    Saved = 0xC000,
}

/// What MODE SENSE tells.
#[derive(Clone, Debug, PartialEq, Eq, Hash)]
pub struct ModeData {
    /// Whether the unit is protected now, or the device takes no more writes (WP).
    pub is_protected: bool,
    /// Whether READ and WRITE take DPO and FUA (DPOFUA).
    pub takes_fua: bool,
    /// The pages, each from its code on.
    pub pages: Vec<Vec<u8>>,
}

/// A command that a unit takes, as REPORT SUPPORTED OPERATION CODES tells it (SPC-4).
#[derive(Clone, Copy, Debug, PartialEq, Eq, Hash)]
pub struct SupportedOperation {
    /// Its operation code.
    pub code: u8,
    /// Its service action, where commands share the code.
    pub service_action: Option<u16>,
    /// How many bytes its CDB has.
    pub cdb_bytes: u16,
}

/// What a device of profile 1 tells. One of profile 0 refuses these commands: 5/20/00, and 5/24/00 a
/// page of [`inquiry_page`](Device::inquiry_page).
impl Device {
    /// The last address of the unit and the size of a block, and whether blocks may be unmapped.
    ///
    /// # Errors
    ///
    /// As [`command`](Device::command).
    pub fn read_capacity_16(&mut self, lun: u8) -> Result<LongCapacity> {
        let mut cdb = [0; 16];
        cdb[..2].copy_from_slice(&[SERVICE_ACTION_IN_16, READ_CAPACITY_16]);
        cdb[13] = 32;
        let told = self.command(lun, &cdb, Data::Receive(32))?;
        let provisioning = byte_at(&told, 14);
        Ok(LongCapacity {
            last_address: u64::from(number_at(&told, 0)) << 32 | u64::from(number_at(&told, 4)),
            block_bytes: number_at(&told, 8),
            unmaps: provisioning & 0x80 != 0,
            unmapped_are_zeros: provisioning & 0x40 != 0,
        })
    }

    /// The bytes of a page of vital product data, behind its header.
    ///
    /// # Errors
    ///
    /// As [`command`](Device::command); [`CheckCondition`](crate::Error::CheckCondition) 5/24/00 where
    /// the unit has no such page.
    pub fn inquiry_page(&mut self, lun: u8, page: VpdPage) -> Result<Vec<u8>> {
        let cdb = [INQUIRY, 0x01, page as u8, 0xFF, 0xFF];
        let told = self.command(lun, &cdb, Data::Receive(ROOM))?;
        Ok(rest_of(&told, 4))
    }

    /// Mode pages of the unit, by MODE SENSE(10).
    ///
    /// # Errors
    ///
    /// As [`command`](Device::command); [`CheckCondition`](crate::Error::CheckCondition) 5/39/00 of
    /// saved values.
    pub fn mode_sense(
        &mut self,
        lun: u8,
        pages: ModePages,
        values: ModeValues,
    ) -> Result<ModeData> {
        let [page, subpage] = (pages as u16 | values as u16).to_be_bytes();
        let cdb = [MODE_SENSE_10, 0, page, subpage, 0, 0, 0, 0xFF, 0xFF, 0];
        let told = self.command(lun, &cdb, Data::Receive(ROOM))?;
        // The last two bytes of the header count those of the block descriptors behind it.
        let descriptors = usize::from(byte_at(&told, 6)) << 8 | usize::from(byte_at(&told, 7));
        Ok(mode_data(
            byte_at(&told, 3),
            &rest_of(&told, 8 + descriptors),
        ))
    }

    /// Mode pages of the unit, by MODE SENSE(6).
    ///
    /// # Errors
    ///
    /// As [`mode_sense`](Device::mode_sense).
    pub fn mode_sense_6(
        &mut self,
        lun: u8,
        pages: ModePages,
        values: ModeValues,
    ) -> Result<ModeData> {
        let [page, subpage] = (pages as u16 | values as u16).to_be_bytes();
        let cdb = [MODE_SENSE_6, 0, page, subpage, 0xFF, 0];
        let told = self.command(lun, &cdb, Data::Receive(ROOM_OF_SIX))?;
        let descriptors = usize::from(byte_at(&told, 3));
        Ok(mode_data(
            byte_at(&told, 2),
            &rest_of(&told, 4 + descriptors),
        ))
    }

    /// The commands that the unit takes.
    ///
    /// # Errors
    ///
    /// As [`command`](Device::command).
    pub fn supported_operations(&mut self, lun: u8) -> Result<Vec<SupportedOperation>> {
        let told = self.report_operations(lun, 0, 0, 0)?;
        Ok(told
            .get(4..)
            .unwrap_or_default()
            .chunks_exact(8)
            .map(supported)
            .collect())
    }

    /// The bits that the unit takes of the CDB with this operation code, and with this service action
    /// where commands share the code: CDB usage data. `None` where it does not take the command.
    ///
    /// # Errors
    ///
    /// As [`command`](Device::command); [`CheckCondition`](crate::Error::CheckCondition) 5/24/00 where
    /// a code with service actions comes without one, or one without comes with it.
    pub fn supported_operation(
        &mut self,
        lun: u8,
        code: u8,
        service_action: Option<u16>,
    ) -> Result<Option<Vec<u8>>> {
        let option = if service_action.is_some() { 2 } else { 1 };
        let told = self.report_operations(lun, option, code, service_action.unwrap_or(0))?;
        let is_there = byte_at(&told, 1) & 0x07 == 0x03;
        Ok(is_there.then(|| rest_of(&told, 4)))
    }

    fn report_operations(
        &mut self,
        lun: u8,
        option: u8,
        code: u8,
        service_action: u16,
    ) -> Result<Vec<u8>> {
        let mut cdb = [0; 12];
        cdb[..2].copy_from_slice(&[MAINTENANCE_IN, REPORT_SUPPORTED_OPERATION_CODES]);
        cdb[2..4].copy_from_slice(&[option, code]);
        cdb[4..6].copy_from_slice(&service_action.to_be_bytes());
        cdb[6..10].copy_from_slice(&ROOM.to_be_bytes());
        self.command(lun, &cdb, Data::Receive(ROOM))
    }
}

/// What a device-specific parameter and the pages behind it say.
fn mode_data(parameter: u8, pages: &[u8]) -> ModeData {
    ModeData {
        is_protected: parameter & 0x80 != 0,
        takes_fua: parameter & 0x10 != 0,
        pages: parts_of(pages),
    }
}

/// Pages that follow one another. Byte 1 of each counts those behind it.
fn parts_of(pages: &[u8]) -> Vec<Vec<u8>> {
    let (mut found, mut rest) = (Vec::new(), pages);
    while rest.len() >= 2 {
        let (page, behind) = rest.split_at(rest.len().min(2 + usize::from(rest[1])));
        found.push(page.to_vec());
        rest = behind;
    }
    found
}

/// A command descriptor of eight bytes: the service action counts where bit 0 of byte 5 is set.
fn supported(told: &[u8]) -> SupportedOperation {
    let number = |start| u16::from(byte_at(told, start)) << 8 | u16::from(byte_at(told, start + 1));
    SupportedOperation {
        code: byte_at(told, 0),
        service_action: (byte_at(told, 5) & 0x01 != 0).then(|| number(2)),
        cdb_bytes: number(6),
    }
}

/// The byte that stands there; one that is missing is zero.
fn byte_at(told: &[u8], place: usize) -> u8 {
    told.get(place).copied().unwrap_or(0)
}

/// The bytes from there on.
fn rest_of(told: &[u8], start: usize) -> Vec<u8> {
    told.get(start..).unwrap_or_default().to_vec()
}

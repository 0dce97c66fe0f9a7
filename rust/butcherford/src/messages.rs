//! Messages of a host, and what a RESPONSE says.
//!
//! Any thread may call these functions: no device has a part in them.
use crate::command::{Fua, PRE_FETCH_16, READ_16, SYNCHRONIZE_CACHE_16, WRITE_16};
use crate::error::{expect, Result};
use crate::sys::{self, FrameRow};
use crate::told::{ModePages, ModeValues, VpdPage};

/// How many bytes a message without data has.
pub const HEADER_BYTES: usize = sys::UFS_HEADER_BYTES;
/// How many bytes a frame of the replay protected memory block has.
pub const FRAME_BYTES: usize = sys::UFS_FRAME_BYTES;
/// How many bytes the list of an UNMAP with one descriptor has.
const UNMAP_LIST_BYTES: usize = 24;

/// Which way the data of a COMMAND go: its flags.
#[derive(Clone, Copy, Debug, Default, PartialEq, Eq, Hash)]
pub enum Direction {
    /// There are none.
    #[default]
    None,
    /// The host sends them, as for a write.
    ToDevice,
    /// The device sends them, as for a read.
    FromDevice,
}

impl Direction {
    fn flags(self) -> u8 {
        match self {
            Direction::None => 0x00,
            Direction::ToDevice => 0x20,
            Direction::FromDevice => 0x40,
        }
    }
}

/// A COMMAND (JESD220, 10.7.1) whose data have so many bytes. A CDB of fewer than 16 bytes is padded
/// with zeros.
///
/// # Errors
///
/// [`BadNumber`](crate::Error::BadNumber) where the CDB has more than 16 bytes.
pub fn command(
    direction: Direction,
    lun: u8,
    tag: u8,
    expected: u32,
    cdb: &[u8],
) -> Result<[u8; HEADER_BYTES]> {
    let mut message = [0; HEADER_BYTES];
    // SAFETY: the CDB has as many bytes as the call is told, is never NULL as a slice, and is borrowed
    // during the call, which only reads it, so nobody writes it. The message is this call's own.
    expect(unsafe {
        sys::ufs_command(
            direction.flags(),
            lun,
            tag,
            expected,
            cdb.as_ptr(),
            cdb.len(),
            message.as_mut_ptr(),
            message.len(),
        )
    })?;
    Ok(message)
}

/// A DATA OUT (JESD220, 10.7.3) with these data of a command, from this offset in bytes on. It is
/// padded with zeros to a multiple of four bytes.
///
/// # Errors
///
/// [`BadNumber`](crate::Error::BadNumber) where the data are none or more than 4096 bytes.
pub fn data_out(lun: u8, tag: u8, offset: u32, data: &[u8]) -> Result<Vec<u8>> {
    let mut message = vec![0; sys::UFS_MESSAGE_BYTES];
    // SAFETY: as in `command`, of the data in place of the CDB.
    expect(unsafe {
        sys::ufs_data_out(
            lun,
            tag,
            offset,
            data.as_ptr(),
            data.len(),
            message.as_mut_ptr(),
            message.len(),
        )
    })?;
    message.truncate(HEADER_BYTES + (data.len() + 3) / 4 * 4);
    Ok(message)
}

/// A message of so many bytes, which this call of the library writes into a room of its own.
fn written<const N: usize>(write: impl FnOnce(*mut u8, usize) -> u32) -> Result<[u8; N]> {
    let mut message = [0; N];
    expect(write(message.as_mut_ptr(), N))?;
    Ok(message)
}

/// The COMMAND of a READ(10) of so many blocks of 4096 bytes, from this address on.
///
/// # Errors
///
/// None: the room is as long as the message.
pub fn read(lun: u8, tag: u8, address: u32, blocks: u16) -> Result<[u8; HEADER_BYTES]> {
    // SAFETY: the room is `written`'s own, and has as many bytes as the call is told.
    written(|into, room| unsafe { sys::ufs_read(lun, tag, address, blocks, into, room) })
}

/// The COMMAND of a WRITE(10) of so many blocks of 4096 bytes, from this address on.
///
/// # Errors
///
/// None: the room is as long as the message.
pub fn write(lun: u8, tag: u8, address: u32, blocks: u16, fua: Fua) -> Result<[u8; HEADER_BYTES]> {
    let has_fua = fua == Fua::Yes;
    // SAFETY: as in `read`.
    written(|into, room| unsafe { sys::ufs_write(lun, tag, address, blocks, has_fua, into, room) })
}

/// The COMMAND of a VERIFY(10) of so many blocks of 4096 bytes, from this address on. Where it compares
/// (BYTCHK 01), the device asks for the host's data block by block, as for a [`write()`]. Profile 1 has
/// it.
///
/// # Errors
///
/// None: the room is as long as the message.
pub fn verify(
    lun: u8,
    tag: u8,
    address: u32,
    blocks: u16,
    compare: bool,
) -> Result<[u8; HEADER_BYTES]> {
    // SAFETY: as in `read`.
    written(|into, room| unsafe { sys::ufs_verify(lun, tag, address, blocks, compare, into, room) })
}

/// The COMMAND of a SYNCHRONIZE CACHE(10). It is answered once all that was accepted before is
/// durable, or at once where it is immediate.
///
/// # Errors
///
/// None: the room is as long as the message.
pub fn flush(lun: u8, tag: u8, immediate: bool) -> Result<[u8; HEADER_BYTES]> {
    // SAFETY: as in `read`.
    written(|into, room| unsafe { sys::ufs_flush(lun, tag, immediate, into, room) })
}

/// The COMMAND of an UNMAP whose list has one descriptor: [`unmap_list`] is its DATA OUT.
///
/// # Errors
///
/// None: the room is as long as the message.
pub fn unmap(lun: u8, tag: u8) -> Result<[u8; HEADER_BYTES]> {
    // SAFETY: as in `read`.
    written(|into, room| unsafe { sys::ufs_unmap(lun, tag, into, room) })
}

/// The DATA OUT of the list of an [`unmap`]: so many blocks, from this address on, become zeros.
///
/// # Errors
///
/// None: the room is as long as the message.
pub fn unmap_list(
    lun: u8,
    tag: u8,
    address: u64,
    blocks: u32,
) -> Result<[u8; HEADER_BYTES + UNMAP_LIST_BYTES]> {
    // SAFETY: as in `read`.
    written(|into, room| unsafe { sys::ufs_unmap_list(lun, tag, address, blocks, into, room) })
}

/// The COMMAND of a command on blocks in sixteen bytes, with FUA or IMMED where that option is set.
fn blocks_16(
    operation: u8,
    lun: u8,
    tag: u8,
    address: u64,
    blocks: u32,
    option: bool,
) -> Result<[u8; HEADER_BYTES]> {
    // SAFETY: as in `read`.
    written(|into, room| unsafe {
        sys::ufs_blocks_16(operation, lun, tag, address, blocks, option, into, room)
    })
}

/// The COMMAND of a READ(16), a [`read`] with an address of 64 bits. Profile 1 has it, and the three
/// below.
///
/// # Errors
///
/// [`BadNumber`](crate::Error::BadNumber) where there are 1,048,576 blocks or more: a COMMAND cannot
/// count their bytes.
pub fn read_16(lun: u8, tag: u8, address: u64, blocks: u32) -> Result<[u8; HEADER_BYTES]> {
    blocks_16(READ_16, lun, tag, address, blocks, false)
}

/// The COMMAND of a WRITE(16), a [`write`] with an address of 64 bits.
///
/// # Errors
///
/// As [`read_16`].
pub fn write_16(
    lun: u8,
    tag: u8,
    address: u64,
    blocks: u32,
    fua: Fua,
) -> Result<[u8; HEADER_BYTES]> {
    blocks_16(WRITE_16, lun, tag, address, blocks, fua == Fua::Yes)
}

/// The COMMAND of a SYNCHRONIZE CACHE(16), a [`flush`] in sixteen bytes.
///
/// # Errors
///
/// None: the room is as long as the message.
pub fn flush_16(lun: u8, tag: u8, immediate: bool) -> Result<[u8; HEADER_BYTES]> {
    blocks_16(SYNCHRONIZE_CACHE_16, lun, tag, 0, 0, immediate)
}

/// The COMMAND of a PRE-FETCH(16) of so many blocks, from this address on; 0 are all up to the end of
/// the unit.
///
/// # Errors
///
/// None: the room is as long as the message.
pub fn prefetch_16(lun: u8, tag: u8, address: u64, blocks: u32) -> Result<[u8; HEADER_BYTES]> {
    blocks_16(PRE_FETCH_16, lun, tag, address, blocks, false)
}

/// A command that asks for bytes of the device's own.
#[derive(Clone, Copy, Debug, PartialEq, Eq, Hash)]
pub enum Operation {
    /// TEST UNIT READY, which brings no bytes.
    TestUnitReady,
    /// REQUEST SENSE.
    RequestSense,
    /// INQUIRY.
    Inquiry,
    /// READ CAPACITY(10).
    ReadCapacity,
    /// REPORT LUNS, of the units of the configuration and of the well-known ones.
    ReportLuns,
    /// READ CAPACITY(16), of profile 1.
    ReadCapacity16,
}

impl Operation {
    /// The number that the library has for it: its operation code.
    fn code(self) -> u8 {
        match self {
            Operation::TestUnitReady => 0x00,
            Operation::RequestSense => 0x03,
            Operation::Inquiry => 0x12,
            Operation::ReadCapacity => 0x25,
            Operation::ReportLuns => 0xA0,
            Operation::ReadCapacity16 => 0x9E,
        }
    }
}

/// The COMMAND with this operation code. The host has room for so many bytes.
///
/// # Errors
///
/// [`BadNumber`](crate::Error::BadNumber) where there is room for more than 255 bytes and it is a
/// REQUEST SENSE, or for more than 65,535 and it is an INQUIRY.
pub fn ask(operation: Operation, lun: u8, tag: u8, allocation: u32) -> Result<[u8; HEADER_BYTES]> {
    let code = operation.code();
    // SAFETY: as in `read`.
    written(|into, room| unsafe { sys::ufs_ask(code, lun, tag, allocation, into, room) })
}

/// A command that asks for what is selected (SPC-4). Profile 1 has them, and profile 0 REPORT LUNS alone.
#[derive(Clone, Copy, Debug, PartialEq, Eq, Hash)]
pub enum Selection {
    /// INQUIRY, of a page of vital product data.
    InquiryPage(VpdPage),
    /// MODE SENSE(6), of mode pages.
    ModeSense6(ModePages, ModeValues),
    /// MODE SENSE(10), of mode pages.
    ModeSense10(ModePages, ModeValues),
    /// REPORT LUNS: with 0 of the units that are not well known, with 1 of those that are, with 2 of all.
    ReportLuns(u8),
    /// REPORT SUPPORTED OPERATION CODES, of all commands.
    AllOperations,
    /// REPORT SUPPORTED OPERATION CODES, of the command with this operation code, and with this service
    /// action where commands share the code.
    OneOperation(u8, Option<u16>),
    /// SEND DIAGNOSTIC, with a self-test or without. It brings no bytes.
    Diagnostic {
        /// Whether the device tests itself.
        self_test: bool,
    },
}

impl Selection {
    /// The numbers that the library has for it: its operation code, and bytes of its CDB.
    fn numbers(self) -> (u8, u32) {
        match self {
            Selection::InquiryPage(page) => (0x12, page as u32),
            Selection::ModeSense6(pages, values) => (0x1A, pages as u32 | values as u32),
            Selection::ModeSense10(pages, values) => (0x5A, pages as u32 | values as u32),
            Selection::ReportLuns(selection) => (0xA0, u32::from(selection)),
            Selection::AllOperations => (0xA3, 0),
            Selection::OneOperation(code, None) => (0xA3, 1 << 24 | u32::from(code) << 16),
            Selection::OneOperation(code, Some(action)) => {
                (0xA3, 2 << 24 | u32::from(code) << 16 | u32::from(action))
            }
            Selection::Diagnostic { self_test } => (0x1D, u32::from(self_test)),
        }
    }
}

/// The COMMAND that asks for what is selected. The host has room for so many bytes.
///
/// # Errors
///
/// [`BadNumber`](crate::Error::BadNumber) where the selection of REPORT LUNS is above 2, or there is
/// room for more than 255 bytes of a MODE SENSE(6), or for more than 65,535 of a MODE SENSE(10) or an
/// INQUIRY.
pub fn ask_for(
    selection: Selection,
    lun: u8,
    tag: u8,
    allocation: u32,
) -> Result<[u8; HEADER_BYTES]> {
    let (code, selected) = selection.numbers();
    // SAFETY: as in `read`.
    written(|into, room| unsafe {
        sys::ufs_ask_for(code, selected, lun, tag, allocation, into, room)
    })
}

/// The fields of a QUERY REQUEST (JESD220, 10.7.8).
#[derive(Clone, Copy, Debug, Default, PartialEq, Eq, Hash)]
pub struct Query {
    /// The opcode: 01h reads a descriptor, 03h an attribute, 05h a flag; 04h writes an attribute; 06h
    /// sets a flag, 07h clears it, 08h toggles it.
    pub opcode: u8,
    /// Which descriptor, attribute or flag is meant (IDN).
    pub idn: u8,
    /// Its index.
    pub index: u8,
    /// Its selector.
    pub selector: u8,
    /// For how many bytes of a descriptor the host has room.
    pub length: u16,
    /// The value that an attribute gets.
    pub value: u32,
}

/// A QUERY REQUEST (JESD220, 10.7.8) without data. Its function is that of the opcode.
///
/// # Errors
///
/// None: the room is as long as the message.
pub fn query(tag: u8, asked: &Query) -> Result<[u8; HEADER_BYTES]> {
    // SAFETY: as in `read`.
    written(|into, room| unsafe {
        sys::ufs_query(
            tag,
            asked.opcode,
            asked.idn,
            asked.index,
            asked.selector,
            asked.length,
            asked.value,
            into,
            room,
        )
    })
}

/// A TASK MANAGEMENT REQUEST (JESD220, 10.7.6): `meant` is the tag of the task that is meant.
///
/// # Errors
///
/// None: the room is as long as the message.
pub fn task_management(lun: u8, tag: u8, function: u8, meant: u8) -> Result<[u8; HEADER_BYTES]> {
    // SAFETY: as in `read`.
    written(|into, room| unsafe { sys::ufs_task_management(lun, tag, function, meant, into, room) })
}

/// A NOP OUT (JESD220, 10.7.11).
///
/// # Errors
///
/// None: the room is as long as the message.
pub fn nop(tag: u8) -> Result<[u8; HEADER_BYTES]> {
    // SAFETY: as in `read`.
    written(|into, room| unsafe { sys::ufs_nop(tag, into, room) })
}

/// A reset of which a LINK EVENT tells.
#[derive(Clone, Copy, Debug, PartialEq, Eq, Hash)]
pub enum LinkReset {
    /// A hardware reset: units that are protected until the next power cycle are so no more.
    Hardware = 1,
    /// A reset of the link or of the host's controller.
    Link = 2,
}

/// A LINK EVENT, with which whatever stands between a host and a device of profile 1 tells the device of a
/// reset. It has no task tag and no reply: all tasks and exchanges end, and each LUN has an attention. A
/// device of profile 0 takes none.
///
/// # Errors
///
/// None: the room is as long as the message.
pub fn link_event(reset: LinkReset) -> Result<[u8; HEADER_BYTES]> {
    // SAFETY: as in `read`.
    written(|into, room| unsafe { sys::ufs_link_event(reset as u8, into, room) })
}

/// What a RESPONSE says (JESD220, 10.7.2). The sense key, code and qualifier are 0 where there are no
/// sense data.
#[derive(Clone, Copy, Debug, Default, PartialEq, Eq, Hash)]
pub struct Answer {
    /// The task tag.
    pub tag: u8,
    /// 0 if the status is GOOD, else 1.
    pub response: u8,
    /// 00h GOOD, 02h CHECK CONDITION, 08h BUSY, 28h TASK SET FULL.
    pub status: u8,
    /// The sense key.
    pub sense_key: u8,
    /// The additional sense code (ASC).
    pub sense_code: u8,
    /// Its qualifier (ASCQ).
    pub sense_qualifier: u8,
    /// The residual, in bytes (docs/FORMATS.md, "Residuals").
    pub residual: u32,
}

/// Reads a reply that is a RESPONSE.
///
/// # Errors
///
/// [`BadNumber`](crate::Error::BadNumber) where it is none.
pub fn response(reply: &[u8]) -> Result<Answer> {
    let mut row = sys::AnswerRow {
        tag: 0,
        response: 0,
        status: 0,
        sense_key: 0,
        sense_code: 0,
        sense_qualifier: 0,
        residual: 0,
    };
    // SAFETY: as in `command`, of the reply in place of the CDB. The row is this call's own.
    expect(unsafe { sys::ufs_response(reply.as_ptr(), reply.len(), &mut row) })?;
    Ok(Answer {
        tag: row.tag,
        response: row.response,
        status: row.status,
        sense_key: row.sense_key,
        sense_code: row.sense_code,
        sense_qualifier: row.sense_qualifier,
        residual: row.residual,
    })
}

/// The MAC of frames of the replay protected memory block (JESD220, 12.4) under this key. Each frame
/// has 512 bytes, of which the MAC covers those from 228 on.
///
/// # Errors
///
/// [`BadNumber`](crate::Error::BadNumber) where the frames are none or not whole.
pub fn rpmb_mac(key: &[u8; 32], frames: &[u8]) -> Result<[u8; 32]> {
    let mut mac = [0; 32];
    // SAFETY: as in `command`, of the key and the frames in place of the CDB.
    expect(unsafe {
        sys::ufs_rpmb_mac(
            key.as_ptr(),
            key.len(),
            frames.as_ptr(),
            frames.len(),
            mac.as_mut_ptr(),
            mac.len(),
        )
    })?;
    Ok(mac)
}

/// A frame of the replay protected memory block (JESD220, 12.4), but for its stuff bytes.
/// docs/FORMATS.md says which fields a request has; the others are 0.
#[derive(Clone, Copy, Debug, PartialEq, Eq, Hash)]
pub struct Frame {
    /// The key that is to be programmed, or the MAC.
    pub key_or_mac: [u8; 32],
    /// One block of the area.
    pub data: [u8; 256],
    /// The nonce.
    pub nonce: [u8; 16],
    /// The write counter.
    pub write_counter: u32,
    /// The address in the area, in blocks of 256 bytes.
    pub address: u16,
    /// How many such blocks there are.
    pub block_count: u16,
    /// The result of a response.
    pub result: u16,
    /// What is asked for or answered: the message type.
    pub message_type: u16,
}

impl Default for Frame {
    /// All fields are 0.
    fn default() -> Frame {
        Frame::of(FrameRow {
            key_or_mac: [0; 32],
            data: [0; 256],
            nonce: [0; 16],
            write_counter: 0,
            address: 0,
            block_count: 0,
            result: 0,
            message_type: 0,
        })
    }
}

impl Frame {
    fn of(row: FrameRow) -> Frame {
        Frame {
            key_or_mac: row.key_or_mac,
            data: row.data,
            nonce: row.nonce,
            write_counter: row.write_counter,
            address: row.address,
            block_count: row.block_count,
            result: row.result,
            message_type: row.message_type,
        }
    }

    fn row(&self) -> FrameRow {
        FrameRow {
            key_or_mac: self.key_or_mac,
            data: self.data,
            nonce: self.nonce,
            write_counter: self.write_counter,
            address: self.address,
            block_count: self.block_count,
            result: self.result,
            message_type: self.message_type,
        }
    }
}

/// The bytes of a frame, with zeros as its stuff bytes.
///
/// Where a request has a MAC, write its last frame once more, with what [`rpmb_mac`] made of all of
/// them in `key_or_mac`.
///
/// # Errors
///
/// None: the room is as long as the frame.
pub fn rpmb_frame(frame: &Frame) -> Result<[u8; FRAME_BYTES]> {
    let row = frame.row();
    // SAFETY: as in `read`. The row is this call's own, and is only read.
    written(|into, room| unsafe { sys::ufs_rpmb_frame(&row, into, room) })
}

/// The fields of a frame.
///
/// # Errors
///
/// [`BadNumber`](crate::Error::BadNumber) where it has not [`FRAME_BYTES`] bytes.
pub fn rpmb_fields(bytes: &[u8]) -> Result<Frame> {
    let mut row = Frame::default().row();
    // SAFETY: as in `command`, of the frame in place of the CDB. The row is this call's own.
    expect(unsafe { sys::ufs_rpmb_fields(bytes.as_ptr(), bytes.len(), &mut row) })?;
    Ok(Frame::of(row))
}

/// The COMMAND of a SECURITY PROTOCOL OUT, which brings so many frames for the region.
///
/// # Errors
///
/// [`BadNumber`](crate::Error::BadNumber) where the region is above 3, or the frames are none or more
/// than 8.
pub fn security_out(tag: u8, region: u8, frames: u8) -> Result<[u8; HEADER_BYTES]> {
    // SAFETY: as in `read`.
    written(|into, room| unsafe { sys::ufs_rpmb_command(true, tag, region, frames, into, room) })
}

/// The COMMAND of a SECURITY PROTOCOL IN, which asks for so many frames of the region.
///
/// # Errors
///
/// As [`security_out`].
pub fn security_in(tag: u8, region: u8, frames: u8) -> Result<[u8; HEADER_BYTES]> {
    // SAFETY: as in `read`.
    written(|into, room| unsafe { sys::ufs_rpmb_command(false, tag, region, frames, into, room) })
}

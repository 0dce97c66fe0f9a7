//! What goes wrong.
use crate::sys;
use std::fmt;

/// What a call of this crate answers.
pub type Result<T> = std::result::Result<T, Error>;

/// Why a call did not do what it was to do.
///
/// The variants up to [`Backlog`](Error::Backlog) are the faults of the library, as `ufs.h` has them.
/// The call changed nothing then, but for a stop to which memory was refused. Those from [`CheckCondition`](Error::CheckCondition) on are what the
/// device answered to a whole command, or that it did not.
#[derive(Clone, Copy, Debug, PartialEq, Eq, Hash)]
#[non_exhaustive]
pub enum Error {
    /// The device is closed: memory was refused to a [`stop`](crate::Device::stop) before.
    NoDevice,
    /// The handle holds a device already. No call of this crate brings this about.
    IsOpen,
    /// Memory was refused.
    NoMemory,
    /// A number of the configuration is out of its range.
    Range,
    /// Units, RPMB areas and slots need more blocks than there are.
    TooLittleSpare,
    /// Two units have the same boot number.
    TwoBootUnits,
    /// The dies of the image hold another configuration.
    OtherConfig,
    /// The bytes are no image of dies of these sizes.
    BadImage,
    /// Nothing is due. The calls of this crate say so by `None` or `false`.
    Nothing,
    /// The die has no job in flight that ends so.
    NoJob,
    /// A buffer has too little room. No call of this crate brings this about.
    NoRoom,
    /// A number or a length is none that the call knows.
    BadNumber,
    /// The dies are the caller's own, so the library cannot stop or save them.
    HasOwnDies,
    /// The message has fewer than 32 bytes.
    MessageShort,
    /// The data segment's length is wrong for the message's kind or for its bytes.
    MessageLength,
    /// The message asks for a digest, which this device does not have.
    MessageDigest,
    /// The message has an extra header segment, which this device does not have.
    MessageEhs,
    /// No message of a host has this transaction code.
    MessageCode,
    /// A reserved byte or bit of the message is set, or a field is outside its set.
    MessageReserved,
    /// The task tag is in use.
    TagInUse,
    /// No data with this tag, LUN, offset and count were asked for.
    NotAskedFor,
    /// 32 short exchanges are open.
    Backlog,
    /// The command ended with CHECK CONDITION: these are sense key, additional sense code and its
    /// qualifier (SPC-4). docs/FORMATS.md, "Sense data", says what each means.
    CheckCondition {
        /// The sense key.
        key: u8,
        /// The additional sense code (ASC).
        code: u8,
        /// Its qualifier (ASCQ).
        qualifier: u8,
    },
    /// The command ended with BUSY: the write cache has no room for it.
    Busy,
    /// The command ended with TASK SET FULL: 32 of them are open.
    TaskSetFull,
    /// The dies worked for many rounds, and no answer came: as where a device is nearly full. The
    /// command stays open.
    NoAnswer,
    /// The library told a fault, or the device a status, that this crate does not know.
    Unknown(u32),
}

/// The faults with their numbers (`enum ufs_fault`).
const FAULTS: [(u32, Error); 22] = [
    (1, Error::NoDevice),
    (2, Error::IsOpen),
    (3, Error::NoMemory),
    (4, Error::Range),
    (5, Error::TooLittleSpare),
    (6, Error::TwoBootUnits),
    (7, Error::OtherConfig),
    (8, Error::BadImage),
    (9, Error::Nothing),
    (10, Error::NoJob),
    (11, Error::NoRoom),
    (12, Error::BadNumber),
    (13, Error::HasOwnDies),
    (21, Error::MessageShort),
    (22, Error::MessageLength),
    (23, Error::MessageDigest),
    (24, Error::MessageEhs),
    (25, Error::MessageCode),
    (26, Error::MessageReserved),
    (27, Error::TagInUse),
    (28, Error::NotAskedFor),
    (29, Error::Backlog),
];
/// The longest text of a fault has fewer bytes.
const TEXT_BYTES: usize = 256;

impl Error {
    /// The number of a fault of the library (`enum ufs_fault` in `ufs.h`); `None` where the library
    /// took the call, and the device refused what it asks for.
    pub fn fault(self) -> Option<u32> {
        FAULTS
            .iter()
            .find(|(_, error)| *error == self)
            .map(|(number, _)| *number)
    }

    /// The error of a fault of the library.
    pub(crate) fn of(number: u32) -> Error {
        FAULTS
            .iter()
            .find(|(it, _)| *it == number)
            .map_or(Error::Unknown(number), |(_, error)| *error)
    }
}

/// The answer of a call of the library, of which 0 says that it went well.
pub(crate) fn expect(number: u32) -> Result<()> {
    match number {
        0 => Ok(()),
        _ => Err(Error::of(number)),
    }
}

/// Whether a call of the library did something: `not_due` is its fault where there is nothing to do.
pub(crate) fn did(number: u32, not_due: u32) -> Result<bool> {
    if number == not_due {
        return Ok(false);
    }
    expect(number).map(|()| true)
}

/// What the library says of a fault.
fn text(fault: u32) -> String {
    let mut room = [0u8; TEXT_BYTES];
    // SAFETY: `room` has as many bytes as the call is told, and is lent to it alone.
    let length = unsafe { sys::ufs_fault_text(fault, room.as_mut_ptr().cast(), room.len()) };
    String::from_utf8_lossy(room.get(..length).unwrap_or_default()).into_owned()
}

impl fmt::Display for Error {
    fn fmt(&self, out: &mut fmt::Formatter<'_>) -> fmt::Result {
        match *self {
            Error::CheckCondition {
                key,
                code,
                qualifier,
            } => {
                write!(out, "CHECK CONDITION {key:X}/{code:02X}/{qualifier:02X}")
            }
            Error::Busy => out.write_str("BUSY"),
            Error::TaskSetFull => out.write_str("TASK SET FULL"),
            Error::NoAnswer => out.write_str("the dies worked for many rounds, and no answer came"),
            Error::Unknown(number) => write!(out, "a fault or a status {number:02X}h"),
            fault => out.write_str(&text(fault.fault().unwrap_or_default())),
        }
    }
}

impl std::error::Error for Error {}

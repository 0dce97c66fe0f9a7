//! Whole commands: they write the messages, and let the dies work until the answer is there.
use crate::device::Device;
use crate::error::{Error, Result};
use crate::messages::{command, data_out, query, response, Answer, Direction, Query, HEADER_BYTES};

/// How many bytes a logical block has.
pub const BLOCK_BYTES: usize = 4096;

/// So many rounds bring an answer that comes at all, also while the device mends or collects.
const MOST_ROUNDS: u16 = 4096;
/// So many rounds free slots of the write cache, if anything does.
const ROUNDS_WHILE_BUSY: u16 = 256;
/// Whole commands have the task tags from here to FFh.
const FIRST_TAG: u8 = 0x80;
/// The unit that is the device as a whole.
const LUN_DEVICE: u8 = 0xD0;
/// The well-known units: REPORT LUNS, BOOT, RPMB, and the device as a whole.
const WELL_KNOWN_LUNS: [u8; 4] = [0x81, 0xB0, 0xC4, LUN_DEVICE];
const DATA_IN: u8 = 0x22;
const TASK_MANAGEMENT_RESPONSE: u8 = 0x24;
const READY_TO_TRANSFER: u8 = 0x31;
const CHECK_CONDITION: u8 = 0x02;
const BUSY: u8 = 0x08;
const TASK_SET_FULL: u8 = 0x28;
const TEST_UNIT_READY: u8 = 0x00;
const READ_CAPACITY_10: u8 = 0x25;
const READ_10: u8 = 0x28;
const WRITE_10: u8 = 0x2A;
const VERIFY_10: u8 = 0x2F;
const SYNCHRONIZE_CACHE_10: u8 = 0x35;
const UNMAP: u8 = 0x42;
const SEND_DIAGNOSTIC: u8 = 0x1D;
const PRE_FETCH_10: u8 = 0x34;
pub(crate) const READ_16: u8 = 0x88;
pub(crate) const WRITE_16: u8 = 0x8A;
pub(crate) const PRE_FETCH_16: u8 = 0x90;
pub(crate) const SYNCHRONIZE_CACHE_16: u8 = 0x91;
/// The bit of a WRITE(10) that asks for an answer only once the blocks are durable.
const FUA: u8 = 0x08;
/// BYTCHK 01 of a VERIFY(10): the host sends what the blocks are compared with.
const BYTCHK: u8 = 0x02;
/// The bit of a SEND DIAGNOSTIC that asks for a self-test.
const SELF_TEST: u8 = 0x04;
/// The queries that read and set a flag, and the flag fDeviceInit (JESD220, 10.7.8 and 14).
const READ_FLAG: u8 = 0x05;
const SET_FLAG: u8 = 0x06;
const DEVICE_INIT: u8 = 0x01;
/// The sense of a device that mends: NOT READY, in process of becoming ready.
const BECOMING_READY: Error = Error::CheckCondition {
    key: 2,
    code: 0x04,
    qualifier: 1,
};
/// The sense of an attention: UNIT ATTENTION, power on, reset, or bus device reset occurred.
const ATTENTION: Error = Error::CheckCondition {
    key: 6,
    code: 0x29,
    qualifier: 0,
};

/// Whether a write has FUA (force unit access).
#[derive(Clone, Copy, Debug, PartialEq, Eq, Hash)]
pub enum Fua {
    /// It is answered once the write cache has the blocks. They are durable behind a
    /// [`flush`](Device::flush), or a later write with FUA.
    No,
    /// It is answered once the blocks are durable, and all that was accepted before them.
    Yes,
}

/// The data of a whole command.
#[derive(Clone, Copy, Debug, PartialEq, Eq)]
pub enum Data<'a> {
    /// There are none.
    None,
    /// The host sends these.
    Send(&'a [u8]),
    /// The host has room for so many bytes.
    Receive(u32),
}

/// What READ CAPACITY(10) tells of a unit.
#[derive(Clone, Copy, Debug, PartialEq, Eq, Hash)]
pub struct Capacity {
    /// The address of the last block.
    pub last_address: u32,
    /// How many bytes a block has.
    pub block_bytes: u32,
}

impl Device {
    /// A whole command with this CDB, as of SBC-3: it sends its data, or gives those that it
    /// received, and lets the dies work until it ends.
    ///
    /// # Errors
    ///
    /// [`CheckCondition`](Error::CheckCondition), [`Busy`](Error::Busy) and
    /// [`TaskSetFull`](Error::TaskSetFull) are what it ended with; [`NoAnswer`](Error::NoAnswer);
    /// [`BadNumber`](Error::BadNumber) where the CDB has more than 16 bytes.
    pub fn command(&mut self, lun: u8, cdb: &[u8], data: Data<'_>) -> Result<Vec<u8>> {
        let tag = self.next_tag();
        let (direction, expected, sent): (_, _, &[u8]) = match data {
            Data::None => (Direction::None, 0, &[]),
            Data::Receive(count) => (Direction::FromDevice, count, &[]),
            Data::Send(sent) => (Direction::ToDevice, length_of(sent)?, sent),
        };
        self.host(&command(direction, lun, tag, expected, cdb)?)?;
        let mut received = Vec::new();
        loop {
            let reply = self.hear(tag)?;
            match reply.first() {
                Some(&DATA_IN) => received.extend_from_slice(data_of(&reply)),
                Some(&READY_TO_TRANSFER) => {
                    let (offset, asked) = asked_for(&reply, sent);
                    self.host(&data_out(lun, tag, offset, asked)?)?;
                }
                _ => return expect_good(response(&reply)?).map(|()| received),
            }
        }
    }

    fn next_tag(&mut self) -> u8 {
        self.last_tag = self.last_tag.wrapping_add(1) | FIRST_TAG;
        self.last_tag
    }

    /// The next reply with this tag. The dies work until it is due; other replies are kept.
    ///
    /// Task management has tags of its own, so that its answers are none of these.
    fn hear(&mut self, tag: u8) -> Result<Vec<u8>> {
        for _ in 0..MOST_ROUNDS {
            if let Some(reply) = self.due_reply(tag)? {
                return Ok(reply);
            }
            self.settle(1)?;
        }
        Err(Error::NoAnswer)
    }

    /// A reply with this tag, if one is due.
    fn due_reply(&mut self, tag: u8) -> Result<Option<Vec<u8>>> {
        while let Some(reply) = self.next_reply()? {
            if reply.get(3) == Some(&tag) && reply.first() != Some(&TASK_MANAGEMENT_RESPONSE) {
                return Ok(Some(reply));
            }
            self.kept.push_back(reply);
        }
        Ok(None)
    }

    /// Lets the dies work until the device has mended and takes READs and WRITEs, and ends its
    /// attentions.
    ///
    /// It is [`mend`](Device::mend) and then [`end_attentions`](Device::end_attentions): whoever wants
    /// to meet the attentions calls `mend` alone.
    ///
    /// # Errors
    ///
    /// [`NoAnswer`](Error::NoAnswer) where it does not become ready.
    pub fn make_ready(&mut self) -> Result<()> {
        self.mend()?;
        self.end_attentions()
    }

    /// Lets the dies work until the device has mended. On a device of profile 1 it ends no attention.
    ///
    /// # Errors
    ///
    /// [`NoAnswer`](Error::NoAnswer) where it does not mend.
    pub fn mend(&mut self) -> Result<()> {
        if self.profile > 0 {
            self.device_init(SET_FLAG)?;
        }
        for _ in 0..MOST_ROUNDS {
            if self.has_mended()? {
                return Ok(());
            }
            self.settle(1)?;
        }
        Err(Error::NoAnswer)
    }

    /// Profile 1 tells it by fDeviceInit, which was set before; profile 0 by TEST UNIT READY alone.
    fn has_mended(&mut self) -> Result<bool> {
        match self.profile {
            0 => self.is_ready(LUN_DEVICE, BECOMING_READY),
            _ => Ok(!self.device_init(READ_FLAG)?),
        }
    }

    /// Sets fDeviceInit or reads it, and gives what it is then.
    fn device_init(&mut self, opcode: u8) -> Result<bool> {
        let asked = Query {
            opcode,
            idn: DEVICE_INIT,
            ..Query::default()
        };
        let tag = self.next_tag();
        self.host(&query(tag, &asked)?)?;
        let reply = self.hear(tag)?;
        match reply.get(6) {
            Some(0) => Ok(number_at(&reply, 20) != 0),
            response => Err(Error::Unknown(response.copied().unwrap_or(0).into())),
        }
    }

    /// Ends the attention of each LUN, well-known ones too: a TEST UNIT READY meets it, where there is
    /// one.
    ///
    /// On a device of profile 1 each LUN has an attention after each opening, also after a
    /// [`stop`](Device::stop), after a
    /// [`messages::link_event`](crate::messages::link_event), and after a logical unit reset of it, for
    /// which a caller may ask by
    /// [`messages::task_management`](crate::messages::task_management). The first command to the LUN is
    /// refused by 6/29/00 then, but for INQUIRY, REPORT LUNS and REQUEST SENSE. The device has to have
    /// mended.
    ///
    /// # Errors
    ///
    /// As [`command`](Device::command).
    pub fn end_attentions(&mut self) -> Result<()> {
        if self.profile > 0 {
            let units = (0..=u8::MAX).take(self.unit_count);
            for lun in units.chain(WELL_KNOWN_LUNS) {
                self.is_ready(lun, ATTENTION)?;
            }
        }
        Ok(())
    }

    /// Whether a TEST UNIT READY is answered GOOD, and not refused so.
    fn is_ready(&mut self, lun: u8, refused: Error) -> Result<bool> {
        match self.command(lun, &[TEST_UNIT_READY], Data::None) {
            Ok(_) => Ok(true),
            Err(error) if error == refused => Ok(false),
            Err(error) => Err(error),
        }
    }

    /// The blocks of the unit from this address on. A block that was never written is zeros.
    ///
    /// # Errors
    ///
    /// As [`command`](Device::command); [`CheckCondition`](Error::CheckCondition) 5/21/00 past the
    /// end of the unit, 3/11/00 where a die could not read. [`BadNumber`](Error::BadNumber) where no
    /// address has so many blocks.
    pub fn read(&mut self, lun: u8, address: u32, count: u32) -> Result<Vec<u8>> {
        self.read_by(READ_10, lun, u64::from(address), count)
    }

    /// As [`read`](Device::read) by READ(16), which takes an address of 64 bits. Profile 1 has it.
    ///
    /// # Errors
    ///
    /// As [`read`](Device::read); [`CheckCondition`](Error::CheckCondition) 5/20/00 of profile 0.
    pub fn read_16(&mut self, lun: u8, address: u64, count: u32) -> Result<Vec<u8>> {
        self.read_by(READ_16, lun, address, count)
    }

    fn read_by(&mut self, operation: u8, lun: u8, address: u64, count: u32) -> Result<Vec<u8>> {
        let mut found = Vec::new();
        for (start, some) in parts(operation, address, count, self.most_blocks())? {
            let room = Data::Receive(some * BLOCK_BYTES as u32);
            found.extend(self.command(lun, &blocks_cdb(operation, 0, start, some), room)?);
        }
        Ok(found)
    }

    /// Writes whole blocks of the unit from this address on.
    ///
    /// Up to [`most_blocks`](Device::most_blocks) are kept as a whole or not at all; more take several
    /// commands. A command that is answered BUSY is tried again while the dies work.
    ///
    /// # Errors
    ///
    /// As [`command`](Device::command); [`CheckCondition`](Error::CheckCondition) 5/21/00 past the
    /// end of the unit, 7/27/00 where the unit is protected or the device takes no more writes.
    /// [`BadNumber`](Error::BadNumber) where the data are no whole blocks, or no address has so many.
    pub fn write(&mut self, lun: u8, address: u32, data: &[u8], fua: Fua) -> Result<()> {
        self.write_by(WRITE_10, lun, u64::from(address), data, fua)
    }

    /// As [`write`](Device::write) by WRITE(16), which takes an address of 64 bits. Profile 1 has it.
    ///
    /// # Errors
    ///
    /// As [`write`](Device::write); [`CheckCondition`](Error::CheckCondition) 5/20/00 of profile 0.
    pub fn write_16(&mut self, lun: u8, address: u64, data: &[u8], fua: Fua) -> Result<()> {
        self.write_by(WRITE_16, lun, address, data, fua)
    }

    fn write_by(
        &mut self,
        operation: u8,
        lun: u8,
        address: u64,
        data: &[u8],
        fua: Fua,
    ) -> Result<()> {
        let blocks = whole_blocks(data)?;
        let bits = match fua {
            Fua::Yes => FUA,
            Fua::No => 0,
        };
        let most = self.most_blocks();
        let chunks = data.chunks(most as usize * BLOCK_BYTES);
        for ((start, some), chunk) in parts(operation, address, blocks, most)?.zip(chunks) {
            self.send(lun, &blocks_cdb(operation, bits, start, some), chunk)?;
        }
        Ok(())
    }

    /// SYNCHRONIZE CACHE: it returns once all that the device accepted before, of any unit, is durable.
    ///
    /// # Errors
    ///
    /// As [`command`](Device::command).
    pub fn flush(&mut self, lun: u8) -> Result<()> {
        self.command(lun, &blocks_cdb(SYNCHRONIZE_CACHE_10, 0, 0, 0), Data::None)
            .map(|_| ())
    }

    /// As [`flush`](Device::flush) by SYNCHRONIZE CACHE(16). Profile 1 has it.
    ///
    /// # Errors
    ///
    /// As [`command`](Device::command).
    pub fn flush_16(&mut self, lun: u8) -> Result<()> {
        self.command(lun, &blocks_cdb(SYNCHRONIZE_CACHE_16, 0, 0, 0), Data::None)
            .map(|_| ())
    }

    /// PRE-FETCH: it tells the unit that these blocks may be read soon; 0 are all up to its end. It is
    /// a PRE-FETCH(10), or a PRE-FETCH(16) where that has no room for the numbers. Profile 1 has both.
    ///
    /// # Errors
    ///
    /// As [`command`](Device::command); [`CheckCondition`](Error::CheckCondition) 5/21/00 past the
    /// end of the unit.
    pub fn prefetch(&mut self, lun: u8, address: u64, count: u32) -> Result<()> {
        let is_short = u32::try_from(address).is_ok() && u16::try_from(count).is_ok();
        let operation = if is_short { PRE_FETCH_10 } else { PRE_FETCH_16 };
        self.command(lun, &blocks_cdb(operation, 0, address, count), Data::None)
            .map(|_| ())
    }

    /// VERIFY(10) with BYTCHK 00: the device reads these blocks, and sends none. Profile 1 has it. More
    /// than [`most_blocks`](Device::most_blocks) take several commands.
    ///
    /// # Errors
    ///
    /// As [`read`](Device::read); [`CheckCondition`](Error::CheckCondition) 5/20/00 of profile 0.
    pub fn verify(&mut self, lun: u8, address: u32, count: u32) -> Result<()> {
        let most = self.most_blocks();
        for (start, some) in parts(VERIFY_10, u64::from(address), count, most)? {
            self.command(lun, &blocks_cdb(VERIFY_10, 0, start, some), Data::None)?;
        }
        Ok(())
    }

    /// VERIFY(10) with BYTCHK 01: the device compares whole blocks from this address on with these data.
    /// It writes nothing. Profile 1 has it. More than [`most_blocks`](Device::most_blocks) take several
    /// commands, each of which compares with what is there as it comes.
    ///
    /// # Errors
    ///
    /// As [`verify`](Device::verify); [`CheckCondition`](Error::CheckCondition) E/1D/00 (MISCOMPARE)
    /// where a block is another one. [`BadNumber`](Error::BadNumber) where the data are no whole blocks,
    /// or no address has so many.
    pub fn compare(&mut self, lun: u8, address: u32, data: &[u8]) -> Result<()> {
        let blocks = whole_blocks(data)?;
        let most = self.most_blocks();
        let chunks = data.chunks(most as usize * BLOCK_BYTES);
        let starts = parts(VERIFY_10, u64::from(address), blocks, most)?;
        for ((start, some), chunk) in starts.zip(chunks) {
            let cdb = blocks_cdb(VERIFY_10, BYTCHK, start, some);
            self.command(lun, &cdb, Data::Send(chunk))?;
        }
        Ok(())
    }

    /// SEND DIAGNOSTIC: it asks whether the unit, or the device (LUN D0h), is in order, which a self-test
    /// looks for. Profile 1 has it.
    ///
    /// # Errors
    ///
    /// As [`command`](Device::command); [`CheckCondition`](Error::CheckCondition) 4/3E/03 of a self-test
    /// where the device takes no more writes.
    pub fn send_diagnostic(&mut self, lun: u8, self_test: bool) -> Result<()> {
        let bits = if self_test { SELF_TEST } else { 0 };
        self.command(lun, &[SEND_DIAGNOSTIC, bits], Data::None)
            .map(|_| ())
    }

    /// Makes blocks of the unit zeros, which a [`flush`](Device::flush) behind it makes durable.
    ///
    /// # Errors
    ///
    /// As [`write`](Device::write).
    pub fn unmap(&mut self, lun: u8, address: u32, count: u32) -> Result<()> {
        for (start, some) in parts(UNMAP, u64::from(address), count, self.most_blocks())? {
            let list = unmap_list(start, some);
            self.send(lun, &unmap_cdb(&list), &list)?;
        }
        Ok(())
    }

    /// The last address of the unit, and the size of a block.
    ///
    /// # Errors
    ///
    /// As [`command`](Device::command).
    pub fn read_capacity(&mut self, lun: u8) -> Result<Capacity> {
        let told = self.command(lun, &[READ_CAPACITY_10], Data::Receive(8))?;
        Ok(Capacity {
            last_address: number_at(&told, 0),
            block_bytes: number_at(&told, 4),
        })
    }

    /// A command with data. While the device is BUSY the dies work, and the command is tried again.
    fn send(&mut self, lun: u8, cdb: &[u8], data: &[u8]) -> Result<()> {
        for _ in 0..ROUNDS_WHILE_BUSY {
            match self.command(lun, cdb, Data::Send(data)) {
                Err(Error::Busy) => self.settle(1)?,
                answer => return answer.map(|_| ()),
            }
        }
        Err(Error::Busy)
    }
}

/// Whether a CDB with this operation code has sixteen bytes: its bits 7 to 5 say so (SPC-4).
fn is_long(operation: u8) -> bool {
    operation >> 5 == 4
}

/// Address and count of each command with this operation code that so many blocks take.
fn parts(
    operation: u8,
    address: u64,
    count: u32,
    most: u32,
) -> Result<impl Iterator<Item = (u64, u32)>> {
    let end = u128::from(address) + u128::from(count);
    if end > 1 << if is_long(operation) { 64 } else { 32 } {
        return Err(Error::BadNumber);
    }
    let starts = (0..count).step_by(most as usize);
    Ok(starts.map(move |done| (address + u64::from(done), most.min(count - done))))
}

fn whole_blocks(data: &[u8]) -> Result<u32> {
    match data.len() % BLOCK_BYTES {
        0 => u32::try_from(data.len() / BLOCK_BYTES).map_err(|_| Error::BadNumber),
        _ => Err(Error::BadNumber),
    }
}

fn length_of(data: &[u8]) -> Result<u32> {
    u32::try_from(data.len()).map_err(|_| Error::BadNumber)
}

/// The CDB of a command on blocks, of ten bytes or sixteen (SBC-3). The numbers have room in it.
fn blocks_cdb(operation: u8, bits: u8, address: u64, count: u32) -> Vec<u8> {
    let (address, count) = (address.to_be_bytes(), count.to_be_bytes());
    if is_long(operation) {
        [&[operation, bits], &address[..], &count[..], &[0, 0]].concat()
    } else {
        [&[operation, bits], &address[4..], &[0], &count[2..], &[0]].concat()
    }
}

/// The CDB of an UNMAP with this list (SBC-3).
fn unmap_cdb(list: &[u8; 24]) -> [u8; 10] {
    let mut cdb = [0; 10];
    cdb[0] = UNMAP;
    cdb[8] = list.len() as u8;
    cdb
}

/// The list of an UNMAP: a header of 8 bytes, and one descriptor of 16. The header has the length of
/// what follows its first two bytes, and that of the descriptors.
fn unmap_list(address: u64, count: u32) -> [u8; 24] {
    let mut list = [0; 24];
    list[1] = 22;
    list[3] = 16;
    list[8..16].copy_from_slice(&address.to_be_bytes());
    list[16..20].copy_from_slice(&count.to_be_bytes());
    list
}

/// The big-endian number of four bytes that stands there; bytes that are missing are zeros.
pub(crate) fn number_at(told: &[u8], start: usize) -> u32 {
    let at = |place: usize| u32::from(told.get(start + place).copied().unwrap_or(0));
    at(0) << 24 | at(1) << 16 | at(2) << 8 | at(3)
}

/// The data segment of a DATA IN, whose count stands in bytes 16 to 19.
fn data_of(reply: &[u8]) -> &[u8] {
    let rest = reply.get(HEADER_BYTES..).unwrap_or_default();
    &rest[..rest.len().min(number_at(reply, 16) as usize)]
}

/// The offset and those of the data that a READY TO TRANSFER asks for: bytes 12 to 15, and 16 to 19.
fn asked_for<'a>(reply: &[u8], sent: &'a [u8]) -> (u32, &'a [u8]) {
    let (offset, count) = (number_at(reply, 12), number_at(reply, 16));
    let rest = sent.get(offset as usize..).unwrap_or_default();
    (offset, &rest[..rest.len().min(count as usize)])
}

fn expect_good(answer: Answer) -> Result<()> {
    match answer.status {
        0 => Ok(()),
        CHECK_CONDITION => Err(Error::CheckCondition {
            key: answer.sense_key,
            code: answer.sense_code,
            qualifier: answer.sense_qualifier,
        }),
        BUSY => Err(Error::Busy),
        TASK_SET_FULL => Err(Error::TaskSetFull),
        status => Err(Error::Unknown(u32::from(status))),
    }
}

//! Attentions, and what is told of LUNs that are not there and of a device that mends. What comes is told
//! by docs/PROFILE_1.md, by SPC-4 (REQUEST SENSE, sense data) and by SAM-5 (unit attention condition).
mod common;

use butcherford::messages::{
    command, link_event, nop, query, response, task_management, Direction, LinkReset, Query,
};
use butcherford::{Config, Data, Device, Error, Unit};
use common::{bytes, hex, ready_with};

const UNITS: [Unit; 2] = [unit(32), unit(16)];
/// The units, then REPORT LUNS, BOOT, RPMB and UFS DEVICE.
const LUNS: [u8; 6] = [0, 1, 0x81, 0xB0, 0xC4, 0xD0];
const READY: [u8; 6] = [0; 6];
const SENSE: [u8; 6] = [0x03, 0, 0, 0, 18, 0];
const INQUIRY: [u8; 6] = [0x12, 0, 0, 0, 36, 0];
const REPORT_LUNS: [u8; 12] = [0xA0, 0, 0, 0, 0, 0, 0, 0, 0, 24, 0, 0];
const ATTENTION: Error = sense(6, 0x29, 0);
const BECOMING_READY: Error = sense(2, 0x04, 1);
const NO_UNIT: Error = sense(5, 0x25, 0);
/// The functions of task management (JESD220, 10.7.6).
const ABORT_TASK_SET: u8 = 0x02;
const LOGICAL_UNIT_RESET: u8 = 0x08;
/// The opcodes of queries that read and set a flag.
const READ_FLAG: u8 = 0x05;
const SET_FLAG: u8 = 0x06;

const fn unit(blocks: u32) -> Unit {
    Unit {
        blocks,
        boot: butcherford::Boot::None,
        protect: butcherford::Protection::Never,
    }
}

const fn sense(key: u8, code: u8, qualifier: u8) -> Error {
    Error::CheckCondition {
        key,
        code,
        qualifier,
    }
}

/// Sense data of the fixed format.
fn sense_data(key: u8, code: u8, qualifier: u8) -> Vec<u8> {
    let told = [
        0x70, 0, key, 0, 0, 0, 0, 10, 0, 0, 0, 0, code, qualifier, 0, 0, 0, 0,
    ];
    told.to_vec()
}

/// The 36 bytes of INQUIRY, of which the first one is this.
fn identity(first: u8) -> Vec<u8> {
    let rest = [0, 0x06, 0x02, 0x1F, 0, 0, 0x02];
    [&[first], &rest[..], b"PROFILE UFS PROFILE 2.1 0001"].concat()
}

fn profile_1() -> Config {
    Config::default().with_profile(1, 1)
}

/// A device of profile 1 right behind its opening.
fn opened() -> Device {
    Device::open(&profile_1(), &UNITS).unwrap()
}

/// What a TEST UNIT READY to each LUN is answered.
fn all_ready(device: &mut Device) -> Vec<Result<(), Error>> {
    let answers = LUNS.map(|lun| device.command(lun, &READY, Data::None).map(|_| ()));
    answers.to_vec()
}

fn refused() -> Vec<Result<(), Error>> {
    vec![Err(ATTENTION); LUNS.len()]
}

fn good() -> Vec<Result<(), Error>> {
    vec![Ok(()); LUNS.len()]
}

/// The service response to a TASK MANAGEMENT REQUEST (JESD220, 10.7.7).
fn managed(device: &mut Device, function: u8, lun: u8) -> u8 {
    let request = task_management(lun, 7, function, 0).unwrap();
    device.host(&request).unwrap();
    let reply = device.reply().unwrap().expect("a response");
    assert_eq!((reply[0], reply[3]), (0x24, 7));
    reply[15]
}

/// The first command to a LUN meets it, and ends it.
#[test]
fn each_lun_has_one_after_an_opening_and_after_a_stop() {
    let mut device = opened();
    for _ in 0..2 {
        device.mend().unwrap();
        assert_eq!(all_ready(&mut device), refused());
        assert_eq!(all_ready(&mut device), good());
        device.stop(&[]).unwrap();
    }
}

#[test]
fn a_device_that_is_made_ready_has_none() {
    let mut device = opened();
    for _ in 0..2 {
        device.make_ready().unwrap();
        assert_eq!(all_ready(&mut device), good());
        device.stop(&[]).unwrap();
    }
}

/// A READ(10) of a block, with task tag 1. Nothing was carried of the 1000h bytes.
#[test]
fn the_refusal_in_its_bytes() {
    let mut device = opened();
    device.host(&bytes(common::READ)).unwrap();
    let header = "21200002000001020000001400001000".to_owned() + &"00".repeat(16);
    let told = [bytes(&header), bytes("0012"), sense_data(6, 0x29, 0)];
    assert_eq!(device.reply(), Ok(Some(told.concat())));
    assert_eq!(device.reply(), Ok(None));
}

/// INQUIRY and REPORT LUNS, which tells both units.
#[test]
fn these_commands_leave_it() {
    let mut device = opened();
    device.mend().unwrap();
    for lun in LUNS {
        let told = device.command(lun, &INQUIRY, Data::Receive(36));
        let first = if lun < 8 { 0x00 } else { 0x1E };
        assert_eq!(told, Ok(identity(first)));
    }
    for lun in [0, 1, 0x81] {
        let told = device
            .command(lun, &REPORT_LUNS, Data::Receive(24))
            .unwrap();
        let wanted = "000000100000000000000000000000000001000000000000";
        assert_eq!(hex(&told, told.len()), wanted);
    }
    assert_eq!(all_ready(&mut device), refused());
}

/// Then it tells that the device mends, and that there is nothing to tell.
#[test]
fn request_sense_tells_it_and_ends_it() {
    let mut device = opened();
    for wanted in [sense_data(6, 0x29, 0), sense_data(2, 0x04, 1)] {
        for lun in LUNS {
            let told = device.command(lun, &SENSE, Data::Receive(18));
            assert_eq!(told.as_ref(), Ok(&wanted));
        }
    }
    let told = device.command(0, &READY, Data::None);
    assert_eq!(told, Err(BECOMING_READY));
    device.mend().unwrap();
    for lun in LUNS {
        let told = device.command(lun, &SENSE, Data::Receive(18));
        assert_eq!(told, Ok(sense_data(0, 0, 0)));
    }
    assert_eq!(all_ready(&mut device), good());
}

/// INQUIRY tells so by the peripheral qualifier, and REQUEST SENSE as data; any other command is refused.
/// The attentions of the others stay.
#[test]
fn luns_that_are_not_there() {
    let mut device = opened();
    device.mend().unwrap();
    for lun in [2, 7, 8, 0x7F, 0x80, 0xC5, 0xFF] {
        let told = device.command(lun, &INQUIRY, Data::Receive(36));
        assert_eq!(told, Ok(identity(0x7F)));
        let told = device.command(lun, &SENSE, Data::Receive(18));
        assert_eq!(told, Ok(sense_data(5, 0x25, 0)));
        for cdb in [&READY[..], &REPORT_LUNS] {
            assert_eq!(device.command(lun, cdb, Data::None), Err(NO_UNIT));
        }
        assert_eq!(device.read(lun, 0, 1), Err(NO_UNIT));
        assert_eq!(device.read_capacity(lun), Err(NO_UNIT));
    }
    assert_eq!(all_ready(&mut device), refused());
}

/// The other LUNs have none. Whoever asked for the reset ends it. Another function sets none, and a reset
/// of a LUN that is not there, whose service response is 09h.
#[test]
fn a_reset_of_a_unit_sets_it_again() {
    let mut device = ready_with(&profile_1(), &UNITS);
    for lun in LUNS {
        assert_eq!(managed(&mut device, LOGICAL_UNIT_RESET, lun), 0x00);
        assert_eq!(device.command(lun, &READY, Data::None), Err(ATTENTION));
        assert_eq!(all_ready(&mut device), good());
        managed(&mut device, LOGICAL_UNIT_RESET, lun);
        device.end_attentions().unwrap();
        assert_eq!(managed(&mut device, ABORT_TASK_SET, lun), 0x00);
        assert_eq!(managed(&mut device, LOGICAL_UNIT_RESET, 2), 0x09);
        assert_eq!(all_ready(&mut device), good());
    }
}

/// A LINK EVENT sets it for each LUN, whatever the reset. Nothing that was asked before is answered.
#[test]
fn a_reset_of_the_link_sets_it_again() {
    for reset in [LinkReset::Hardware, LinkReset::Link] {
        let mut device = ready_with(&profile_1(), &UNITS);
        device.host(&nop(7).unwrap()).unwrap();
        device.host(&link_event(reset).unwrap()).unwrap();
        assert_eq!(device.reply(), Ok(None));
        assert_eq!(all_ready(&mut device), refused());
        assert_eq!(all_ready(&mut device), good());
    }
}

/// Task management has tags of its own: it may have the tag of a NOP OUT that waits for its answer.
#[test]
fn task_management_has_tags_of_its_own() {
    let mut device = ready_with(&profile_1(), &UNITS);
    device.host(&nop(7).unwrap()).unwrap();
    let request = task_management(0, 7, ABORT_TASK_SET, 0).unwrap();
    device.host(&request).unwrap();
    for code in [0x20, 0x24] {
        let reply = device.reply().unwrap().expect("an answer");
        assert_eq!((reply[0], reply[3]), (code, 7));
    }
}

/// What fDeviceInit is once a query with this opcode was answered.
fn device_init(device: &mut Device, opcode: u8) -> u8 {
    let asked = Query {
        opcode,
        idn: 0x01,
        ..Query::default()
    };
    device.host(&query(9, &asked).unwrap()).unwrap();
    let reply = device.reply().unwrap().expect("an answer");
    assert_eq!((reply[0], reply[3], reply[6]), (0x36, 9, 0));
    reply[23]
}

/// It is 1 from when a host sets it until the device has mended. Queries meet no attention.
#[test]
fn initialization_takes_as_long_as_mending() {
    let mut device = opened();
    let asked = [READ_FLAG, SET_FLAG, READ_FLAG];
    assert_eq!(asked.map(|it| device_init(&mut device, it)), [0, 1, 1]);
    device.settle(16).unwrap();
    assert_eq!(asked.map(|it| device_init(&mut device, it)), [0, 0, 0]);
    assert_eq!(all_ready(&mut device), refused());
}

/// The status and the sense of a TEST UNIT READY with these flags.
fn answered(device: &mut Device, flags: u8) -> (u8, [u8; 3]) {
    let mut message = command(Direction::None, 0, 1, 0, &READY).unwrap();
    message[1] = flags;
    device.host(&message).unwrap();
    let told = response(&device.reply().unwrap().expect("a RESPONSE")).unwrap();
    let sense = [told.sense_key, told.sense_code, told.sense_qualifier];
    (told.status, sense)
}

/// Bit 2 of byte 1 of a COMMAND is CP, which changes nothing. Bits 1 and 0 are its task attribute: all but
/// SIMPLE get B/49/00.
#[test]
fn priority_is_taken_and_a_task_attribute_is_not() {
    let mut device = ready_with(&profile_1(), &UNITS);
    for (flags, wanted) in [
        (0x00, (0x00, [0; 3])),
        (0x04, (0x00, [0; 3])),
        (0x01, (0x02, [0x0B, 0x49, 0])),
        (0x02, (0x02, [0x0B, 0x49, 0])),
        (0x03, (0x02, [0x0B, 0x49, 0])),
        (0x05, (0x02, [0x0B, 0x49, 0])),
        (0x00, (0x00, [0; 3])),
    ] {
        assert_eq!(answered(&mut device, flags), wanted, "flags {flags:02x}");
    }
}

/// The flags are faults of the message, and a LUN that is not there refuses all.
#[test]
fn profile_0_has_none_of_these() {
    let mut device = Device::open(&Config::default(), &UNITS).unwrap();
    let told = device.command(0xD0, &READY, Data::None);
    assert_eq!(told, Err(BECOMING_READY));
    assert_eq!(device_init(&mut device, SET_FLAG), 0);
    device.mend().unwrap();
    assert_eq!(all_ready(&mut device), good());
    device.stop(&[]).unwrap();
    device.mend().unwrap();
    managed(&mut device, LOGICAL_UNIT_RESET, 0);
    assert_eq!(all_ready(&mut device), good());
    for cdb in [INQUIRY, SENSE] {
        assert_eq!(device.command(2, &cdb, Data::None), Err(NO_UNIT));
    }
    for flags in [0x01, 0x04] {
        let mut message = command(Direction::None, 0, 1, 0, &READY).unwrap();
        message[1] = flags;
        assert_eq!(device.host(&message), Err(Error::MessageReserved));
    }
}

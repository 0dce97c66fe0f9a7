//! The bytes of messages: those that README spells out, and a MAC of Python's module hmac.
mod common;

use butcherford::messages::{
    ask, ask_for, flush, flush_16, link_event, nop, prefetch_16, query, read, read_16,
    task_management, unmap, unmap_list, verify, write, write_16, LinkReset,
};
use butcherford::messages::{command, data_out, response, Answer, Direction, Operation, Query};
use butcherford::messages::{
    rpmb_fields, rpmb_frame, rpmb_mac, security_in, security_out, Frame, Selection,
};
use butcherford::{Error, Fua, ModePages, ModeValues, VpdPage};
use common::{bytes, DATA_OUT, READ, WRITE};

#[test]
fn messages_of_readme() {
    let write = command(
        Direction::ToDevice,
        0,
        1,
        4096,
        &[0x2A, 8, 0, 0, 0, 0, 0, 0, 1],
    );
    assert_eq!(write.unwrap().to_vec(), bytes(WRITE));
    let read = command(
        Direction::FromDevice,
        0,
        2,
        4096,
        &[0x28, 0, 0, 0, 0, 0, 0, 0, 1],
    );
    assert_eq!(read.unwrap().to_vec(), bytes(READ));
    let out = data_out(0, 1, 0, &[0x5A; 4096]).unwrap();
    assert_eq!(out, [bytes(DATA_OUT), vec![0x5A; 4096]].concat());
}

/// A TEST UNIT READY of unit D0h with task tag 9 has no data: flags 00h, and a CDB of zeros.
#[test]
fn a_command_without_data() {
    let message = command(Direction::None, 0xD0, 9, 0, &[]).unwrap();
    assert_eq!(
        message.to_vec(),
        bytes(&format!("0100d009{}", "00".repeat(28)))
    );
}

/// The fields of the COMMANDs, each with the CDB of docs/FORMATS.md.
#[test]
fn commands_of_the_device() {
    let cases = [
        (write(0, 1, 0, 1, Fua::Yes), WRITE),
        (read(0, 2, 0, 1), READ),
        (
            write(1, 3, 0x01020304, 5, Fua::No),
            "012001030000000000000000000050002a000102030400000500000000000000",
        ),
        (
            flush(0xD0, 7, false),
            "0100d00700000000000000000000000035000000000000000000000000000000",
        ),
        (
            flush(0xD0, 7, true),
            "0100d00700000000000000000000000035020000000000000000000000000000",
        ),
        (
            unmap(0, 7),
            "0120000700000000000000000000001842000000000000001800000000000000",
        ),
        (
            ask(Operation::TestUnitReady, 2, 7, 0),
            "0100020700000000000000000000000000000000000000000000000000000000",
        ),
        (
            ask(Operation::RequestSense, 2, 7, 18),
            "0140020700000000000000000000001203000000120000000000000000000000",
        ),
        (
            ask(Operation::Inquiry, 2, 7, 36),
            "0140020700000000000000000000002412000000240000000000000000000000",
        ),
        (
            ask(Operation::ReadCapacity, 2, 7, 8),
            "0140020700000000000000000000000825000000000000000000000000000000",
        ),
        (
            ask(Operation::ReportLuns, 0xD0, 7, 0x1000),
            "0140d007000000000000000000001000a0000200000000001000000000000000",
        ),
        (
            security_out(7, 1, 2),
            "0120c407000000000000000000000400b5ec0101000000000400000000000000",
        ),
        (
            security_in(7, 3, 8),
            "0140c407000000000000000000001000a2ec0301000000001000000000000000",
        ),
    ];
    for (told, wanted) in cases {
        assert_eq!(told.unwrap().to_vec(), bytes(wanted));
    }
}

/// Those of profile 1, each with the CDB of docs/PROFILE_1.md, or of SPC-4.
#[test]
fn commands_of_profile_1() {
    let modes = (ModePages::AllWithSubpages, ModeValues::Changeable);
    let cases = [
        (
            read_16(0, 7, 0x0102030405060708, 5),
            "0140000700000000000000000000500088000102030405060708000000050000",
        ),
        (
            write_16(1, 3, 9, 128, Fua::Yes),
            "012001030000000000000000000800008a080000000000000009000000800000",
        ),
        (
            flush_16(0xD0, 7, true),
            "0100d00700000000000000000000000091020000000000000000000000000000",
        ),
        (
            prefetch_16(0, 7, 5, 512),
            "0100000700000000000000000000000090000000000000000005000002000000",
        ),
        (
            verify(2, 7, 0x01020304, 5, false),
            "010002070000000000000000000000002f000102030400000500000000000000",
        ),
        (
            verify(2, 7, 0x01020304, 5, true),
            "012002070000000000000000000050002f020102030400000500000000000000",
        ),
        (
            ask(Operation::ReadCapacity16, 0, 2, 32),
            "014000020000000000000000000000209e100000000000000000000000200000",
        ),
        (
            ask_for(Selection::InquiryPage(VpdPage::BlockLimits), 2, 7, 64),
            "014002070000000000000000000000401201b000400000000000000000000000",
        ),
        (
            ask_for(Selection::ModeSense6(modes.0, modes.1), 2, 7, 48),
            "014002070000000000000000000000301a007fff300000000000000000000000",
        ),
        (
            ask_for(
                Selection::ModeSense10(ModePages::Caching, ModeValues::Current),
                2,
                7,
                28,
            ),
            "0140020700000000000000000000001c5a000800000000001c00000000000000",
        ),
        (
            ask_for(Selection::ReportLuns(1), 0xD0, 7, 16),
            "0140d007000000000000000000000010a0000100000000000010000000000000",
        ),
        (
            ask_for(Selection::AllOperations, 2, 7, 512),
            "01400207000000000000000000000200a30c0000000000000200000000000000",
        ),
        (
            ask_for(Selection::OneOperation(0x28, None), 2, 7, 14),
            "0140020700000000000000000000000ea30c012800000000000e000000000000",
        ),
        (
            ask_for(Selection::OneOperation(0x9E, Some(0x10)), 2, 7, 20),
            "01400207000000000000000000000014a30c029e001000000014000000000000",
        ),
        (
            ask_for(Selection::Diagnostic { self_test: true }, 2, 7, 0),
            "010002070000000000000000000000001d040000000000000000000000000000",
        ),
    ];
    for (told, wanted) in cases {
        assert_eq!(told.unwrap().to_vec(), bytes(wanted));
    }
}

/// A list of 22 bytes behind its first two, with 16 of descriptors: three blocks from 0102h on.
#[test]
fn list_of_an_unmap() {
    let header = "0200000700000000000000180000000000000018000000000000000000000000";
    let list = "001600100000000000000000000001020000000300000000";
    let told = unmap_list(0, 7, 0x0102, 3).unwrap();
    assert_eq!(told.to_vec(), bytes(&[header, list].concat()));
}

/// A query that writes attribute 00h, one that reads descriptor 02h of unit 1, ABORT TASK of tag 6 in
/// unit 1, and a NOP OUT.
#[test]
fn short_exchanges() {
    let boot = Query {
        opcode: 0x04,
        value: 2,
        ..Query::default()
    };
    let unit = Query {
        opcode: 0x01,
        idn: 0x02,
        index: 1,
        selector: 3,
        length: 0x2D,
        value: 0,
    };
    let cases = [
        (
            query(7, &boot),
            "1600000700810000000000000400000000000000000000020000000000000000",
        ),
        (
            query(7, &unit),
            "160000070001000000000000010201030000002d000000000000000000000000",
        ),
        (
            task_management(1, 7, 0x01, 6),
            "0400010700010000000000000000000100000006000000000000000000000000",
        ),
        (
            nop(7),
            "0000000700000000000000000000000000000000000000000000000000000000",
        ),
        (
            link_event(LinkReset::Hardware),
            "1f00000000010000000000000000000000000000000000000000000000000000",
        ),
        (
            link_event(LinkReset::Link),
            "1f00000000020000000000000000000000000000000000000000000000000000",
        ),
    ];
    for (told, wanted) in cases {
        assert_eq!(told.unwrap().to_vec(), bytes(wanted));
    }
}

/// 196 stuff bytes, and then the fields in their order; what was written is read again.
#[test]
fn fields_of_a_frame() {
    let frame = Frame {
        key_or_mac: [0x11; 32],
        data: [0x22; 256],
        nonce: [0x33; 16],
        write_counter: 0x01020304,
        address: 0x0506,
        block_count: 0x0708,
        result: 0x090A,
        message_type: 0x0003,
    };
    let written = rpmb_frame(&frame).unwrap();
    let numbers = bytes("0102030405060708090a0003");
    let wanted = [
        vec![0; 196],
        vec![0x11; 32],
        vec![0x22; 256],
        vec![0x33; 16],
        numbers,
    ];
    assert_eq!(written.to_vec(), wanted.concat());
    assert_eq!(rpmb_fields(&written), Ok(frame));
}

/// Five bytes at offset 1000h of unit 3, task tag 7, with zeros up to a multiple of four.
#[test]
fn data_are_padded() {
    let header = "0200030700000000000000050000100000000005000000000000000000000000";
    let wanted = [bytes(header), b"abcde\0\0\0".to_vec()].concat();
    assert_eq!(data_out(3, 7, 0x1000, b"abcde").unwrap(), wanted);
}

/// A RESPONSE with task tag 4: CHECK CONDITION, 5/21/00 in 18 bytes of sense data, and an underflow of
/// 1000h bytes.
#[test]
fn fields_of_a_response() {
    let header = "2120000400000102000000140000100000000000000000000000000000000000";
    let sense = "0012700005000000000a00000000210000000000";
    let told = response(&bytes(&[header, sense].concat()));
    let wanted = Answer {
        tag: 4,
        response: 1,
        status: 2,
        sense_key: 5,
        sense_code: 0x21,
        sense_qualifier: 0,
        residual: 0x1000,
    };
    assert_eq!(told, Ok(wanted));
}

#[test]
fn a_mac_of_two_frames() {
    let key: Vec<u8> = (0..32).collect();
    let frames = [[0x11; 512], [0x22; 512]].concat();
    let mac = rpmb_mac(key.as_slice().try_into().unwrap(), &frames).unwrap();
    let wanted = "7415ffbb6139c2bd61739b2f29cdd0131d0d6fe4ec1312a379c48a68fe47ede5";
    assert_eq!(mac.to_vec(), bytes(wanted));
}

#[test]
fn what_is_no_message() {
    assert_eq!(
        command(Direction::None, 0, 1, 0, &[0; 17]),
        Err(Error::BadNumber)
    );
    assert_eq!(data_out(0, 1, 0, &[]), Err(Error::BadNumber));
    assert_eq!(data_out(0, 1, 0, &[0; 4097]), Err(Error::BadNumber));
    assert_eq!(response(&[]), Err(Error::BadNumber));
    assert_eq!(response(&bytes(READ)), Err(Error::BadNumber));
    assert_eq!(rpmb_mac(&[0; 32], &[]), Err(Error::BadNumber));
    assert_eq!(rpmb_mac(&[0; 32], &[0; 511]), Err(Error::BadNumber));
    assert_eq!(
        ask(Operation::RequestSense, 0, 1, 256),
        Err(Error::BadNumber)
    );
    assert_eq!(ask(Operation::Inquiry, 0, 1, 65_536), Err(Error::BadNumber));
    let all = Selection::ModeSense6(ModePages::All, ModeValues::Current);
    assert_eq!(ask_for(all, 0, 1, 256), Err(Error::BadNumber));
    assert_eq!(
        ask_for(Selection::ReportLuns(3), 0, 1, 16),
        Err(Error::BadNumber)
    );
    assert_eq!(read_16(0, 1, 0, 1 << 20), Err(Error::BadNumber));
    assert_eq!(write_16(0, 1, 0, 1 << 20, Fua::No), Err(Error::BadNumber));
    assert_eq!(security_out(1, 4, 1), Err(Error::BadNumber));
    assert_eq!(security_in(1, 0, 0), Err(Error::BadNumber));
    assert_eq!(security_in(1, 0, 9), Err(Error::BadNumber));
    assert_eq!(rpmb_fields(&[0; 511]), Err(Error::BadNumber));
}

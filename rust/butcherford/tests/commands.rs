//! Whole commands. What comes is told by docs/FORMATS.md, "Commands".
mod common;

use butcherford::{Capacity, Config, Data, Device, Error, Fua, Unit, BLOCK_BYTES};
use butcherford::{LongCapacity, ModeData, ModePages, ModeValues, SupportedOperation, VpdPage};
use common::{blocks, bytes, hex, ready, ready_with, BLOCK};

#[test]
fn writes_and_reads() {
    let mut device = ready();
    device.write(0, 1, &blocks(1, 3), Fua::No).unwrap();
    device.write(0, 2, &blocks(9, 1), Fua::Yes).unwrap();
    let zeros = vec![0; BLOCK_BYTES];
    let wanted = [
        zeros.clone(),
        blocks(1, 1),
        blocks(9, 1),
        blocks(3, 1),
        zeros,
    ]
    .concat();
    assert_eq!(device.read(0, 0, 5).unwrap(), wanted);
    assert_eq!(device.read(0, 0, 0).unwrap(), []);
    device.write(0, 0, &[], Fua::Yes).unwrap();
}

/// A command has at most 32 blocks, or 128 with 256 slots or more; 64 slots hold no 96 blocks at once.
#[test]
fn long_commands_are_split() {
    for (slots, most) in [(64, 32), (255, 32), (256, 128)] {
        let config = Config {
            blocks: 64,
            slots,
            ..Config::default()
        };
        let mut device = ready_with(&config, &[Unit::new(256)]);
        assert_eq!((config.most_blocks(), device.most_blocks()), (most, most));
        device.write(0, 3, &blocks(0, 200), Fua::No).unwrap();
        assert_eq!(device.read(0, 3, 200).unwrap(), blocks(0, 200));
    }
}

/// No die was given a job before the first stop; the second one comes behind a flush.
#[test]
fn a_flush_makes_durable() {
    let mut device = ready();
    device.write(0, 0, &blocks(1, 1), Fua::No).unwrap();
    device.stop(&[]).unwrap();
    device.make_ready().unwrap();
    assert_eq!(device.read(0, 0, 1).unwrap(), [0; BLOCK]);
    device.write(0, 0, &blocks(1, 1), Fua::No).unwrap();
    device.flush(0).unwrap();
    device.stop(&[]).unwrap();
    device.make_ready().unwrap();
    assert_eq!(device.read(0, 0, 1).unwrap(), blocks(1, 1));
}

#[test]
fn unmapped_blocks_are_zeros() {
    let mut device = ready();
    device.write(0, 0, &blocks(1, 40), Fua::No).unwrap();
    device.unmap(0, 1, 35).unwrap();
    let wanted = [blocks(1, 1), vec![0; 35 * BLOCK], blocks(37, 4)].concat();
    assert_eq!(device.read(0, 0, 40).unwrap(), wanted);
}

#[test]
fn units_are_apart() {
    let mut device = ready_with(&Config::default(), &[Unit::new(16), Unit::new(8)]);
    device.write(1, 7, &blocks(5, 1), Fua::Yes).unwrap();
    assert_eq!(device.read(0, 7, 1).unwrap(), [0; BLOCK]);
    assert_eq!(device.read(1, 7, 1).unwrap(), blocks(5, 1));
    let told = Capacity {
        last_address: 7,
        block_bytes: 4096,
    };
    assert_eq!(device.read_capacity(1), Ok(told));
}

/// INQUIRY tells `PROFILE ` in bytes 8 to 15.
#[test]
fn a_command_gives_what_it_received() {
    let told = ready()
        .command(0, &[0x12, 0, 0, 0, 36], Data::Receive(36))
        .unwrap();
    assert_eq!((told.len(), &told[8..16]), (36, &b"PROFILE "[..]));
}

/// A device of profile 1 that is ready, with a unit of 64 blocks.
fn ready_of_profile_1() -> Device {
    let config = Config::default().with_profile(1, 0x0123_4567_89AB_CDEF);
    ready_with(&config, &[Unit::new(64)])
}

/// ILLEGAL REQUEST with this additional sense code.
fn refused(code: u8) -> Error {
    Error::CheckCondition {
        key: 5,
        code,
        qualifier: 0,
    }
}

/// The longer forms do what the shorter ones do.
#[test]
fn commands_of_sixteen_bytes() {
    let mut device = ready_of_profile_1();
    device.write_16(0, 1, &blocks(1, 40), Fua::No).unwrap();
    device.flush_16(0).unwrap();
    device.stop(&[]).unwrap();
    device.make_ready().unwrap();
    assert_eq!(device.read(0, 1, 40).unwrap(), blocks(1, 40));
    assert_eq!(device.read_16(0, 1, 40).unwrap(), blocks(1, 40));
    assert_eq!(device.read_16(0, 1 << 32, 1), Err(refused(0x21)));
    assert_eq!(device.read_16(0, u64::MAX, 1), Err(refused(0x21)));
    assert_eq!(device.read_16(0, u64::MAX, 2), Err(Error::BadNumber));
    assert_eq!(device.read(0, u32::MAX, 2), Err(Error::BadNumber));
}

/// PRE-FETCH of the whole unit, of what is left of it, and past its end, in both forms.
#[test]
fn commands_that_do_nothing() {
    let mut device = ready_of_profile_1();
    for (address, count) in [(0, 64), (60, 0), (64, 0)] {
        device.prefetch(0, address, count).unwrap();
    }
    for (address, count) in [(60, 5), (65, 0), (1 << 32, 0), (0, 1 << 16)] {
        assert_eq!(device.prefetch(0, address, count), Err(refused(0x21)));
    }
    device.send_diagnostic(0, true).unwrap();
    device.send_diagnostic(0xD0, false).unwrap();
}

/// Blocks on the dies, in the write cache and never written can be read; past the end there are none.
/// A command may have 32 blocks.
#[test]
fn blocks_are_verified() {
    let mut device = ready_of_profile_1();
    device.write(0, 0, &blocks(1, 40), Fua::Yes).unwrap();
    device.write(0, 40, &blocks(41, 3), Fua::No).unwrap();
    device.verify(0, 0, 64).unwrap();
    for (address, count) in [(60, 5), (64, 1), (0, 65)] {
        assert_eq!(device.verify(0, address, count), Err(refused(0x21)));
    }
    let long = device.command(0, &[0x2F, 0, 0, 0, 0, 0, 0, 0, 33], Data::None);
    assert_eq!(long, Err(refused(0x24)));
    assert_eq!(device.verify(0, u32::MAX, 2), Err(Error::BadNumber));
}

/// The same blocks are GOOD, and one other byte of the last one is a MISCOMPARE. Nothing is written, and a
/// host that brings a block too few is refused.
#[test]
fn blocks_are_compared() {
    let mut device = ready_of_profile_1();
    device.write(0, 1, &blocks(1, 40), Fua::Yes).unwrap();
    device.write(0, 41, &blocks(41, 3), Fua::No).unwrap();
    let mut data = [vec![0; BLOCK], blocks(1, 43), vec![0; BLOCK]].concat();
    device.compare(0, 0, &data).unwrap();
    device.compare(0, 0, &[]).unwrap();
    *data.last_mut().unwrap() = 1;
    let miscompare = Error::CheckCondition {
        key: 0x0E,
        code: 0x1D,
        qualifier: 0,
    };
    assert_eq!(device.compare(0, 0, &data), Err(miscompare));
    assert_eq!(device.read(0, 44, 1).unwrap(), [0; BLOCK]);
    assert_eq!(device.compare(0, 63, &data), Err(refused(0x21)));
    assert_eq!(device.compare(0, 0, &data[1..]), Err(Error::BadNumber));
    let cdb = [0x2F, 0x02, 0, 0, 0, 0, 0, 0, 2];
    let short = device.command(0, &cdb, Data::Send(&data[..BLOCK]));
    assert_eq!(short, Err(refused(0x24)));
}

#[test]
fn a_capacity_of_64_bits() {
    let told = LongCapacity {
        last_address: 63,
        block_bytes: 4096,
        unmaps: true,
        unmapped_are_zeros: true,
    };
    assert_eq!(ready_of_profile_1().read_capacity_16(0), Ok(told));
}

/// The pages of a unit of the configuration, and of a well-known one. A command may have 32 blocks.
#[test]
fn pages_of_vital_product_data() {
    let mut device = ready_of_profile_1();
    let cases = [
        (0, VpdPage::SupportedPages, "00808387b0b1b2"),
        (0xD0, VpdPage::SupportedPages, "00808387"),
        (0, VpdPage::SerialNumber, "30313233343536373839616263646566"),
        (0, VpdPage::Identification, "0103000830465389abcdef00"),
        (0, VpdPage::ModePagePolicy, "3fff0000"),
        (0, VpdPage::Provisioning, "00840200"),
    ];
    for (lun, page, wanted) in cases {
        let wanted = bytes(wanted);
        assert_eq!(device.inquiry_page(lun, page), Ok(wanted));
    }
    let limits = "0000000100000020000000200000000000000020000000010000000180";
    let told = device.inquiry_page(0, VpdPage::BlockLimits).unwrap();
    assert_eq!((told.len(), hex(&told, 29)), (60, limits.to_string()));
    let told = device.inquiry_page(0, VpdPage::BlockCharacteristics);
    assert_eq!(told, Ok([&[0, 1][..], &[0; 58]].concat()));
    let told = device.inquiry_page(0xD0, VpdPage::BlockLimits);
    assert_eq!(told, Err(refused(0x24)));
}

/// The caching page, and all of them in both forms: none is protected, and there are no saved values.
#[test]
fn mode_pages() {
    let mut device = ready_of_profile_1();
    let page = |front: &[u8], length| [front, &vec![0; length - front.len()]].concat();
    let modes = |pages| {
        Ok(ModeData {
            is_protected: false,
            takes_fua: true,
            pages,
        })
    };
    let told = device.mode_sense(0, ModePages::Caching, ModeValues::Current);
    assert_eq!(told, modes(vec![page(&[0x08, 0x12, 0x04], 20)]));
    let control = [0x0A, 0x0A, 0, 0x10, 0, 0, 0, 0, 0xFF, 0xFF, 0, 0];
    let all = vec![
        page(&[0x01, 0x0A, 0x80], 12),
        page(&[0x08, 0x12, 0x04], 20),
        control.to_vec(),
    ];
    let told = device.mode_sense_6(0, ModePages::All, ModeValues::Default);
    assert_eq!(told, modes(all));
    let none = vec![
        page(&[0x01, 0x0A], 12),
        page(&[0x08, 0x12], 20),
        page(&[0x0A, 0x0A], 12),
    ];
    let told = device.mode_sense(0, ModePages::AllWithSubpages, ModeValues::Changeable);
    assert_eq!(told, modes(none));
    let told = device.mode_sense(0, ModePages::Control, ModeValues::Saved);
    assert_eq!(told, Err(refused(0x39)));
}

/// The commands of the table that a unit takes, and the bits of READ(10), which has DPO, FUA and a group
/// number, and of VERIFY(10), which has BYTCHK in place of FUA. A CDB has as many bytes as bits 7 to 5 of
/// its operation code say.
#[test]
fn commands_that_are_told() {
    let codes = [
        0x00, 0x03, 0x08, 0x0A, 0x12, 0x1A, 0x1D, 0x25, 0x28, 0x2A, 0x2F, 0x34, 0x35, 0x42, 0x5A,
        0x88, 0x8A, 0x90, 0x91, 0x9E, 0xA0, 0xA3,
    ];
    let wanted = codes.map(|code| SupportedOperation {
        code,
        service_action: match code {
            0x9E => Some(0x10),
            0xA3 => Some(0x0C),
            _ => None,
        },
        cdb_bytes: [6, 10, 10, 0, 16, 12][usize::from(code >> 5)],
    });
    let mut device = ready_of_profile_1();
    assert_eq!(device.supported_operations(0), Ok(wanted.to_vec()));
    let read = bytes("2818ffffffff1fffff00");
    assert_eq!(device.supported_operation(0, 0x28, None), Ok(Some(read)));
    let verify = bytes("2f12ffffffff1fffff00");
    assert_eq!(device.supported_operation(0, 0x2F, None), Ok(Some(verify)));
    assert_eq!(device.supported_operation(0, 0x04, None), Ok(None));
    let told = device.supported_operation(0, 0x9E, None);
    assert_eq!(told, Err(refused(0x24)));
}

/// Profile 0 has none of this, and takes dies that a device of profile 1 wrote.
#[test]
fn profile_0_tells_less() {
    let mut device = ready_of_profile_1();
    device.write(0, 7, &blocks(5, 1), Fua::Yes).unwrap();
    let image = device.image().unwrap();
    let mut device = Device::open_image(&Config::default(), &[Unit::new(64)], &image).unwrap();
    device.make_ready().unwrap();
    assert_eq!(device.read(0, 7, 1).unwrap(), blocks(5, 1));
    assert_eq!(device.read_16(0, 7, 1), Err(refused(0x20)));
    assert_eq!(device.flush_16(0), Err(refused(0x20)));
    assert_eq!(device.prefetch(0, 0, 0), Err(refused(0x20)));
    assert_eq!(device.verify(0, 0, 1), Err(refused(0x20)));
    assert_eq!(device.compare(0, 0, &[0; BLOCK]), Err(refused(0x20)));
    assert_eq!(device.read_capacity_16(0), Err(refused(0x20)));
    assert_eq!(device.supported_operations(0), Err(refused(0x20)));
    let told = device.inquiry_page(0, VpdPage::SerialNumber);
    assert_eq!(told, Err(refused(0x24)));
}

/// A NOP OUT is answered by a NOP IN with its tag, also where a whole command came between. At a stop
/// such a reply is gone.
#[test]
fn replies_of_other_tags_are_kept() {
    let nop = |code| [&[code, 0, 0, 5], &[0; 28][..]].concat();
    for stops in [false, true] {
        let mut device = ready();
        device.host(&nop(0x00)).unwrap();
        device.write(0, 0, &blocks(1, 1), Fua::Yes).unwrap();
        if stops {
            device.stop(&[]).unwrap();
        }
        assert_eq!(device.reply(), Ok((!stops).then(|| nop(0x20))));
    }
}

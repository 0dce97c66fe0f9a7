//! The calls of `ufs.h`, one by one. What comes is told by README and docs/FORMATS.md.
mod common;

use butcherford::{Boot, Config, Device, JobKind, Left, Protection, Unit, PAGE_BYTES};
use common::{begin_write, blocks, bytes, data_out, hex, ready, ready_with, take_program};
use common::{BLOCK, READ, README, WRITE};

/// It plays README's script, call by call.
#[test]
fn script_of_readme() {
    let mut device = Device::open(&README, &[Unit::new(256)]).unwrap();
    device.settle(4).unwrap();
    device.host(&bytes(WRITE)).unwrap();
    let asked = device.reply().unwrap().unwrap();
    assert_eq!(hex(&asked, 20), "3100000100000000000000000000000000001000");
    device.host(&data_out(0x5A)).unwrap();
    assert_eq!(device.reply(), Ok(None));
    let job = device.take(0).unwrap().unwrap();
    assert_eq!(
        (job.kind, job.die, job.block, job.page),
        (JobKind::Program, 0, 0, 1)
    );
    assert_eq!(job.content[..BLOCK], [0x5A; BLOCK]);
    assert_eq!(device.take(0), Ok(None));
    assert_eq!(device.work(0), Ok(true));
    assert_eq!(device.work(0), Ok(false));
    assert_eq!(hex(&device.reply().unwrap().unwrap(), 5), "2100000100");
    device.host(&bytes(READ)).unwrap();
    device.settle(1).unwrap();
    let data = device.reply().unwrap().unwrap();
    assert_eq!(hex(&data, 20), "2200000200000000000010000000000000001000");
    assert_eq!(data[32..], [0x5A; BLOCK]);
    assert_eq!(
        device.reply().unwrap().unwrap(),
        bytes(&format!("21000002{}", "00".repeat(28)))
    );
    assert_eq!(device.reply(), Ok(None));
}

/// The spare bytes begin with UFSP and version 2; kind 1 is data, and the block address is 0 (Pages).
#[test]
fn page_of_a_program() {
    let mut device = ready_with(&README, &[Unit::new(256)]);
    begin_write(&mut device, 0x5A);
    let job = take_program(&mut device);
    assert_eq!(hex(&job.content[BLOCK..], 12), "554653500201000000000000");
}

/// A device that is new has a step due, one that is ready and has free blocks has none; a die that is
/// none of the device has no job.
#[test]
fn turns_and_dies_without_a_job() {
    let mut device = Device::open(&Config::default(), &[Unit::new(64)]).unwrap();
    assert_eq!(device.turn(), Ok(true));
    let mut device = ready();
    device.settle(8).unwrap();
    assert_eq!(device.turn(), Ok(false));
    assert_eq!(device.take(2), Ok(None));
    assert_eq!(device.work(2), Ok(false));
}

/// Its first bytes and its length are those of docs/FORMATS.md, and a device over it has the blocks.
#[test]
fn image_there_and_back() {
    let units = [Unit::new(256)];
    let mut device = ready_with(&README, &units);
    device
        .write(0, 9, &blocks(3, 2), butcherford::Fua::Yes)
        .unwrap();
    let image = device.image().unwrap();
    assert_eq!(hex(&image, 14), "554653494d414745040000100040");
    assert_eq!(image.len(), 17_170_510);
    drop(device);
    let mut device = Device::open_image(&README, &units, &image).unwrap();
    device.make_ready().unwrap();
    let wanted = [vec![0; BLOCK], blocks(3, 2), vec![0; BLOCK]].concat();
    assert_eq!(device.read(0, 8, 4).unwrap(), wanted);
}

/// The page with the lowest bit of its check turned: the check begins behind 4096 bytes and 64 spare ones.
fn torn(mut page: [u8; PAGE_BYTES]) -> [u8; PAGE_BYTES] {
    page[4096 + 64] ^= 1;
    page
}

/// The page is blank, which is FFh, or as intended, or has one bit of its check turned; tasks and replies are gone.
#[test]
fn what_a_stop_leaves() {
    for left in [Left::Old, Left::New, Left::Torn] {
        let mut device = ready();
        begin_write(&mut device, 0x5A);
        let job = take_program(&mut device);
        device.stop(&[left]).unwrap();
        assert_eq!(device.reply(), Ok(None));
        let image = device.image().unwrap();
        let block = 14 + usize::from(job.block) * (1 + 16 * PAGE_BYTES);
        let page = block + 1 + usize::from(job.page) * PAGE_BYTES;
        let wanted = match left {
            Left::Old => [0xFF; PAGE_BYTES],
            Left::New => job.content,
            Left::Torn => torn(job.content),
        };
        assert!(image[page..][..PAGE_BYTES] == wanted, "{left:?}");
        device.make_ready().unwrap();
        let byte = if left == Left::New { 0x5A } else { 0 };
        assert_eq!(device.read(0, 0, 1).unwrap(), [byte; BLOCK], "{left:?}");
    }
}

/// Its page holds what is said of it, its block is bad in the image, and the write ends on another block.
#[test]
fn what_a_failed_program_leaves() {
    for left in [Left::Old, Left::New, Left::Torn] {
        let mut device = ready();
        assert_eq!(device.fail(0, left), Ok(false), "no job is in flight");
        begin_write(&mut device, 0x5A);
        let job = take_program(&mut device);
        assert_eq!(device.fail(0, left), Ok(true));
        assert_eq!(device.fail(0, left), Ok(false));
        let image = device.image().unwrap();
        let block = 14 + usize::from(job.block) * (1 + 16 * PAGE_BYTES);
        let page = block + 1 + usize::from(job.page) * PAGE_BYTES;
        let wanted = match left {
            Left::Old => [0xFF; PAGE_BYTES],
            Left::New => job.content,
            Left::Torn => torn(job.content),
        };
        assert_eq!(image[block], 1, "the block is bad");
        assert!(image[page..][..PAGE_BYTES] == wanted, "{left:?}");
        device.settle(8).unwrap();
        assert_eq!(hex(&device.reply().unwrap().unwrap(), 7), "21000001000000");
        assert_eq!(device.read(0, 0, 1).unwrap(), [0x5A; BLOCK], "{left:?}");
    }
}

/// Bytes 4 and 5 of a unit's descriptor are its boot number and its protection (Queries).
#[test]
fn numbers_of_a_unit() {
    let units = [
        Unit::new(16),
        Unit {
            blocks: 8,
            boot: Boot::A,
            protect: Protection::PowerOn,
        },
        Unit {
            blocks: 4,
            boot: Boot::B,
            protect: Protection::Permanent,
        },
    ];
    let mut device = ready_with(&Config::default(), &units);
    let wanted = [
        "23020001000000000001",
        "23020101010100000001",
        "23020201020200000001",
    ];
    for (index, wanted) in (0..).zip(wanted) {
        // A QUERY REQUEST that reads (01h) the first 10 bytes of the descriptor 02h of this unit.
        let mut query = [0; 32];
        (query[0], query[3], query[5]) = (0x16, 5, 0x01);
        (query[12], query[13], query[14], query[19]) = (0x01, 0x02, index, 10);
        device.host(&query).unwrap();
        assert_eq!(hex(&device.reply().unwrap().unwrap()[32..], 10), wanted);
    }
}

/// A device that is moved, here into a box and out of it, goes on.
#[test]
fn a_device_may_be_moved() {
    let mut first = ready();
    let mut other = Box::new(ready());
    first
        .write(0, 0, &blocks(1, 1), butcherford::Fua::Yes)
        .unwrap();
    std::mem::swap(&mut first, &mut *other);
    let mut moved = *other;
    assert_eq!(moved.read(0, 0, 1).unwrap(), blocks(1, 1));
    assert_eq!(first.read(0, 0, 1).unwrap(), [0; BLOCK]);
}

//! The power goes inside each program of a write: README's promise.
mod common;

use butcherford::messages::{command, data_out, Direction};
use butcherford::{Device, Fua, JobKind, Left};
use common::{blocks, ready, BLOCK};

const TAG: u8 = 1;
const ADDRESS: u8 = 5;

/// A WRITE(10) with FUA of these blocks, up to its last data.
fn begin(device: &mut Device, data: &[u8]) {
    let count = (data.len() / BLOCK) as u8;
    let cdb = [0x2A, 0x08, 0, 0, 0, ADDRESS, 0, 0, count];
    let length = data.len() as u32;
    device
        .host(&command(Direction::ToDevice, 0, TAG, length, &cdb).unwrap())
        .unwrap();
    for (number, block) in (0..).zip(data.chunks(BLOCK)) {
        assert_eq!(
            device.reply().unwrap().unwrap()[0],
            0x31,
            "a READY TO TRANSFER"
        );
        device
            .host(&data_out(0, TAG, number * 4096, block).unwrap())
            .unwrap();
    }
    assert_eq!(
        device.reply(),
        Ok(None),
        "a write with FUA waits for the dies"
    );
}

/// Lets the dies work until the program of this number is in flight, and gives its die; `None` where the
/// write has fewer.
fn work_up_to(device: &mut Device, number: u32) -> Option<u8> {
    let mut programs = 0;
    for _ in 0..16 {
        device.turn().unwrap();
        for die in 0..2 {
            if let Some(job) = device.take(die).unwrap() {
                if job.kind == JobKind::Program && programs == number {
                    return Some(die);
                }
                programs += u32::from(job.kind == JobKind::Program);
                device.work(die).unwrap();
            }
        }
    }
    None
}

/// What the unit has where the write was, once the power went inside the program of this number, and
/// whether the write was answered GOOD before; `None` where the write has fewer programs.
fn cut(old: &[u8], new: &[u8], number: u32, left: Left) -> Option<(Vec<u8>, bool)> {
    let mut device = ready();
    let count = (old.len() / BLOCK) as u32;
    device.write(0, u32::from(ADDRESS), old, Fua::Yes).unwrap();
    device.settle(8).unwrap();
    begin(&mut device, new);
    let die = work_up_to(&mut device, number)?;
    let is_answered = device.reply().unwrap().is_some();
    let lefts = [
        if die == 0 { left } else { Left::Old },
        if die == 1 { left } else { Left::Old },
    ];
    device.stop(&lefts).unwrap();
    device.make_ready().unwrap();
    Some((
        device.read(0, u32::from(ADDRESS), count).unwrap(),
        is_answered,
    ))
}

/// How many programs the write of these blocks has. After each cut it is there as a whole or not at all,
/// and as a whole if it was answered; the last program makes it whole where it left what it was to write.
fn programs(old: &[u8], new: &[u8]) -> u32 {
    let mut last = [false; 3];
    for number in 0.. {
        for (place, left) in [Left::Old, Left::New, Left::Torn].into_iter().enumerate() {
            match cut(old, new, number, left) {
                Some((found, is_answered)) => {
                    last[place] = found == new;
                    assert!(
                        last[place] || found == old,
                        "program {number}, {left:?}: a part"
                    );
                    assert!(
                        last[place] || !is_answered,
                        "program {number}, {left:?}: lost"
                    );
                }
                None => {
                    assert_eq!(last, [false, true, false], "old, new and torn");
                    return number;
                }
            }
        }
    }
    unreachable!("a write has few programs")
}

/// A block is one page, so a write of one block is one program, and of four blocks four.
#[test]
fn a_write_is_there_as_a_whole_or_not_at_all() {
    assert_eq!(programs(&blocks(1, 1), &blocks(11, 1)), 1);
    assert_eq!(programs(&blocks(1, 4), &blocks(11, 4)), 4);
}

/// A write that was acknowledged is kept whatever the next one leaves.
#[test]
fn what_was_acknowledged_is_kept() {
    for left in [Left::Old, Left::New, Left::Torn] {
        let mut device = ready();
        device.write(0, 0, &blocks(7, 2), Fua::Yes).unwrap();
        begin(&mut device, &blocks(1, 1));
        work_up_to(&mut device, 0).unwrap();
        device.stop(&[left, left]).unwrap();
        device.make_ready().unwrap();
        assert_eq!(device.read(0, 0, 2).unwrap(), blocks(7, 2));
    }
}

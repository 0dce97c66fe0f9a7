//! Each error once, with the numbers of `ufs.h` and the sense data of docs/FORMATS.md. `IsOpen`,
//! `Nothing` and `NoRoom` come from no call of the crate: of them the number is looked at.
mod common;

use butcherford::{Boot, Config, Data, Device, Error, Fua, Outcome, Unit};
use common::{begin_write, bytes, ready, take_program, BLOCK, DATA_OUT, READ};
use std::collections::HashSet;
use std::process::Command;

/// The numbers of `enum ufs_fault` but for UFS_OK, in the order of the header.
const FAULTS: [Error; 22] = [
    Error::NoDevice,
    Error::IsOpen,
    Error::NoMemory,
    Error::Range,
    Error::TooLittleSpare,
    Error::TwoBootUnits,
    Error::OtherConfig,
    Error::BadImage,
    Error::Nothing,
    Error::NoJob,
    Error::NoRoom,
    Error::BadNumber,
    Error::HasOwnDies,
    Error::MessageShort,
    Error::MessageLength,
    Error::MessageDigest,
    Error::MessageEhs,
    Error::MessageCode,
    Error::MessageReserved,
    Error::TagInUse,
    Error::NotAskedFor,
    Error::Backlog,
];
const NOP: [u8; 32] = nop(5);

const fn nop(tag: u8) -> [u8; 32] {
    let mut message = [0; 32];
    message[3] = tag;
    message
}

/// The message with another byte at this place.
fn with(message: &[u8], place: usize, byte: u8) -> Vec<u8> {
    let mut changed = message.to_vec();
    changed[place] = byte;
    changed
}

#[test]
fn each_fault_has_its_number_and_a_text_of_its_own() {
    let numbers: Vec<u32> = FAULTS.iter().map(|it| it.fault().unwrap()).collect();
    assert_eq!(numbers, (1..=13).chain(21..=29).collect::<Vec<u32>>());
    let texts: HashSet<String> = FAULTS.iter().map(Error::to_string).collect();
    assert!(texts.len() == FAULTS.len() && !texts.contains(""));
    assert_eq!(Error::Nothing.to_string(), "nothing is due");
}

#[test]
fn refusals_have_no_number() {
    let sense = Error::CheckCondition {
        key: 3,
        code: 0x0C,
        qualifier: 0,
    };
    assert_eq!(
        (sense.fault(), sense.to_string().as_str()),
        (None, "CHECK CONDITION 3/0C/00")
    );
    let others = [
        Error::Busy,
        Error::TaskSetFull,
        Error::NoAnswer,
        Error::Unknown(0x18),
    ];
    assert!(others
        .iter()
        .all(|it| it.fault().is_none() && !it.to_string().is_empty()));
    let told: &dyn std::error::Error = &sense;
    assert!(told.source().is_none());
}

#[test]
fn configurations() {
    let unit = Unit::new(8);
    let small = Config::default();
    let open = |config: Config, units: &[Unit]| Device::open(&config, units).unwrap_err();
    assert_eq!(open(Config { dies: 9, ..small }, &[unit]), Error::Range);
    assert_eq!(open(Config { slots: 63, ..small }, &[unit]), Error::Range);
    assert_eq!(open(small.with_profile(2, 1), &[unit]), Error::Range);
    assert_eq!(
        open(small.with_profile(2, 1), &[Unit::new(4096)]),
        Error::Range
    );
    assert_eq!(open(small, &[]), Error::Range);
    assert_eq!(open(small, &[unit; 9]), Error::Range);
    assert_eq!(open(small, &[Unit::new(4096)]), Error::TooLittleSpare);
    assert_eq!(
        open(
            small,
            &[Unit {
                boot: Boot::A,
                ..unit
            }; 2]
        ),
        Error::TwoBootUnits
    );
}

#[test]
fn images() {
    let (config, units) = (Config::default(), [Unit::new(64)]);
    let image = ready().image().unwrap();
    let open =
        |units: &[Unit], image: &[u8]| Device::open_image(&config, units, image).unwrap_err();
    assert_eq!(open(&units, b"no image"), Error::BadImage);
    assert_eq!(open(&units, &[]), Error::BadImage);
    assert_eq!(open(&[Unit::new(65)], &image), Error::OtherConfig);
}

/// The faults of messages of docs/FORMATS.md, "Faults". A COMMAND with task tag 2 is open.
#[test]
fn messages() {
    let mut device = ready();
    device.host(&bytes(READ)).unwrap();
    let out = [bytes(DATA_OUT), vec![0; BLOCK]].concat();
    let cases = [
        (Error::MessageShort, NOP[..31].to_vec()),
        (Error::MessageShort, Vec::new()),
        (Error::MessageLength, [&NOP[..], &[0]].concat()),
        (Error::MessageDigest, with(&NOP, 0, 0x80)),
        (Error::MessageEhs, with(&NOP, 8, 1)),
        (Error::MessageCode, with(&NOP, 0, 0x20)),
        (Error::MessageReserved, with(&NOP, 31, 1)),
        (Error::TagInUse, nop(2).to_vec()),
        (Error::NotAskedFor, out),
    ];
    for (error, message) in cases {
        assert_eq!(device.host(&message), Err(error));
    }
}

/// A NOP OUT while 32 of them wait for their NOP INs.
#[test]
fn backlog() {
    let mut device = ready();
    for tag in 0..32 {
        device.host(&nop(tag)).unwrap();
    }
    assert_eq!(device.host(&nop(32)), Err(Error::Backlog));
}

#[test]
fn jobs() {
    let mut device = ready();
    begin_write(&mut device, 1);
    take_program(&mut device);
    assert_eq!(
        device.done(0, Outcome::Done),
        Err(Error::NoJob),
        "the dies are in memory"
    );
    device.own_dies(Vec::new()).unwrap();
    assert_eq!(
        device.done(0, Outcome::ReadFailed),
        Err(Error::NoJob),
        "it is a program"
    );
    assert_eq!(device.done(0, Outcome::Done), Ok(()));
    assert_eq!(device.done(0, Outcome::Done), Err(Error::NoJob), "it ended");
    assert_eq!(device.stop(&[]), Err(Error::HasOwnDies));
    assert_eq!(device.image(), Err(Error::HasOwnDies));
}

#[test]
fn numbers() {
    let mut device = ready();
    assert_eq!(device.write(0, 0, b"short", Fua::No), Err(Error::BadNumber));
    assert_eq!(device.read(0, u32::MAX, 2), Err(Error::BadNumber));
    assert_eq!(
        device.command(0, &[0; 17], Data::None),
        Err(Error::BadNumber)
    );
    assert_eq!(
        device.stop(&[butcherford::Left::Old; 257]),
        Err(Error::BadNumber)
    );
}

#[test]
fn check_conditions() {
    let sense = |key, code| Error::CheckCondition {
        key,
        code,
        qualifier: 0,
    };
    let mut device = ready();
    assert_eq!(device.read(0, 64, 1).unwrap_err(), sense(5, 0x21));
    let past = device.write(0, 63, &[0; 2 * BLOCK], Fua::Yes);
    assert_eq!(past.unwrap_err(), sense(5, 0x21));
    assert_eq!(device.unmap(0, 64, 1).unwrap_err(), sense(5, 0x21));
    assert_eq!(device.flush(1).unwrap_err(), sense(5, 0x25));
    assert_eq!(device.read_capacity(1).unwrap_err(), sense(5, 0x25));
    let mut device = Device::open(&Config::default(), &[Unit::new(64)]).unwrap();
    let becoming_ready = Error::CheckCondition {
        key: 2,
        code: 4,
        qualifier: 1,
    };
    assert_eq!(device.read(0, 0, 1), Err(becoming_ready));
}

/// Two WRITEs of 32 blocks have all 64 slots from their COMMANDs on.
#[test]
fn busy() {
    let mut device = ready();
    for tag in [1, 2] {
        let cdb = [0x2A, 0, 0, 0, 0, 0, 0, 0, 32];
        let direction = butcherford::messages::Direction::ToDevice;
        let write = butcherford::messages::command(direction, 0, tag, 32 * 4096, &cdb).unwrap();
        device.host(&write).unwrap();
    }
    assert_eq!(device.write(0, 40, &[0; BLOCK], Fua::No), Err(Error::Busy));
}

/// 32 READs are open, since nobody takes their replies.
#[test]
fn task_set_full() {
    let mut device = ready();
    for tag in 0..32 {
        device.host(&with(&bytes(READ), 3, tag)).unwrap();
    }
    assert_eq!(device.command(0, &[0], Data::None), Err(Error::TaskSetFull));
}

/// A WRITE with FUA waits for a die, and nobody does the jobs of these dies. It stays open with its task
/// tag, and the next command has another one.
#[test]
fn no_answer() {
    let mut device = ready();
    device.own_dies(Vec::new()).unwrap();
    assert_eq!(
        device.write(0, 0, &[0; BLOCK], Fua::Yes),
        Err(Error::NoAnswer)
    );
    assert_eq!(device.read_capacity(0).unwrap().last_address, 63);
}

/// What memory allows is little in a process of its own, in which the next test runs.
#[test]
fn memory_is_refused() {
    let test = std::env::current_exe().unwrap();
    let done = Command::new("sh")
        .args([
            "-c",
            "ulimit -v 300000; exec \"$0\" --exact --ignored in_little_memory",
        ])
        .arg(test)
        .output()
        .unwrap();
    let told = String::from_utf8_lossy(&done.stdout);
    assert!(done.status.success() && told.contains("1 passed"), "{told}");
}

/// A device that was dropped gave up its memory, of which there is not enough for 200 of them. One whose
/// memory is refused in a stop is closed from then on.
#[test]
#[ignore = "memory_is_refused runs it"]
fn in_little_memory() {
    let units = [Unit::new(64)];
    for _ in 0..200 {
        Device::open(&Config::default(), &units).expect("memory");
    }
    let large = Config {
        dies: 8,
        blocks: 1024,
        pages: 256,
        ..Config::default()
    };
    assert_eq!(Device::open(&large, &units).unwrap_err(), Error::NoMemory);
    let mut device = Device::open(&Config::default(), &units).unwrap();
    let kept = all_memory();
    let answer = device.stop(&[]);
    drop(kept);
    assert_eq!(answer, Err(Error::NoMemory));
    assert_eq!(device.turn(), Err(Error::NoDevice));
    assert_eq!(device.reply(), Err(Error::NoDevice));
    let image = device.image().expect("the dies are kept");
    assert_eq!(device.stop(&[]), Ok(()));
    assert_eq!(device.image(), Ok(image));
    device.make_ready().expect("the power is back");
}

/// All memory that there is, in ever smaller pieces, down to less than a device takes at once.
fn all_memory() -> Vec<Vec<u8>> {
    let mut kept = Vec::with_capacity(1 << 16);
    let mut size = 1 << 28;
    while size >= 1 << 9 {
        let mut piece = Vec::new();
        match piece.try_reserve_exact(size) {
            Ok(()) => kept.push(piece),
            Err(_) => size /= 2,
        }
    }
    kept
}

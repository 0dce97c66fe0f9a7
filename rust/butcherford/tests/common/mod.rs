//! What the tests share: the configuration and the messages of README's script.
#![allow(dead_code)]
use butcherford::{Config, Device, Job, JobKind, Unit};

pub const BLOCK: usize = 4096;
/// The configuration of README's script, with its unit of 256 blocks.
pub const README: Config = Config {
    dies: 4,
    blocks: 16,
    pages: 64,
    rpmb: [1, 0, 0, 0],
    slots: 64,
    spare: 4,
    profile: 0,
    serial: 1,
};
/// README's WRITE(10) with FUA of block 0 of unit 0, with task tag 1.
pub const WRITE: &str = "012000010000000000000000000010002a080000000000000100000000000000";
/// The header of its DATA OUT.
pub const DATA_OUT: &str = "0200000100000000000010000000000000001000000000000000000000000000";
/// README's READ(10) of the block, with task tag 2.
pub const READ: &str = "0140000200000000000000000000100028000000000000000100000000000000";

/// The bytes of hexadecimal digits.
pub fn bytes(digits: &str) -> Vec<u8> {
    let pair = |at| u8::from_str_radix(&digits[at..at + 2], 16).expect("hexadecimal digits");
    (0..digits.len()).step_by(2).map(pair).collect()
}

/// The hexadecimal digits of the first bytes.
pub fn hex(bytes: &[u8], count: usize) -> String {
    bytes[..count]
        .iter()
        .map(|it| format!("{it:02x}"))
        .collect()
}

/// A DATA OUT of README with a block of these bytes.
pub fn data_out(byte: u8) -> Vec<u8> {
    let mut message = bytes(DATA_OUT);
    message.extend([byte; BLOCK]);
    message
}

/// So many blocks, of which none is like another.
pub fn blocks(first: u16, count: u16) -> Vec<u8> {
    let block = |it: u16| it.to_be_bytes().repeat(BLOCK / 2);
    (first..first + count).flat_map(block).collect()
}

/// A small device that is ready, with a unit of 64 blocks.
pub fn ready() -> Device {
    ready_with(&Config::default(), &[Unit::new(64)])
}

pub fn ready_with(config: &Config, units: &[Unit]) -> Device {
    let mut device = Device::open(config, units).expect("the device opens");
    device.make_ready().expect("it becomes ready");
    device
}

/// README's write of a block with FUA, up to its data.
pub fn begin_write(device: &mut Device, byte: u8) {
    device.host(&bytes(WRITE)).expect("the COMMAND is taken");
    let asked = device.reply().expect("a reply").expect("it is due");
    assert_eq!(asked[0], 0x31, "a READY TO TRANSFER");
    device.host(&data_out(byte)).expect("the DATA OUT is taken");
}

/// Die 0 takes the program of the block.
pub fn take_program(device: &mut Device) -> Job {
    let job = device.take(0).expect("a job").expect("it is due");
    assert_eq!(job.kind, JobKind::Program);
    job
}

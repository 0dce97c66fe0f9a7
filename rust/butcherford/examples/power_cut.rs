//! The power goes inside each program of one write, and leaves its page old, new or torn.
//!
//! A WRITE of three blocks with FUA is handed to a device message by message, and the dies do its jobs one
//! by one, until the power goes inside a program. Then the device is opened again, and the blocks are read:
//! all of them are old, or all are new. The status is 0 only if that is so behind every cut.
//!
//!     BUTCHERFORD_LIB_DIR=DIR/lib cargo run --example power_cut
use butcherford::messages::{command, data_out, response, Direction};
use butcherford::{Config, Device, Error, Fua, JobKind, Left, Unit, BLOCK_BYTES};

const DIES: u8 = 2;
const BLOCKS: usize = 3;
const OLD: [u8; BLOCKS * BLOCK_BYTES] = [b'o'; BLOCKS * BLOCK_BYTES];
const NEW: [u8; BLOCKS * BLOCK_BYTES] = [b'n'; BLOCKS * BLOCK_BYTES];
/// A task tag below 80h, from which on the whole commands of the crate have theirs.
const TAG: u8 = 1;
/// WRITE(10) of BLOCKS blocks at address 0, with FUA (SBC-3).
const WRITE: [u8; 10] = [0x2A, 0x08, 0, 0, 0, 0, 0, 0, BLOCKS as u8, 0];
const RESPONSE: u8 = 0x21;
/// So many rounds do all jobs of a write.
const ROUNDS: usize = 16;

/// A device that is ready, with old blocks.
fn prepared() -> Result<Device, Error> {
    let config = Config {
        dies: DIES,
        ..Config::default()
    };
    let mut device = Device::open(&config, &[Unit::new(64)])?;
    device.make_ready()?;
    device.write(0, 0, &OLD, Fua::Yes)?;
    device.settle(ROUNDS as u16)?;
    Ok(device)
}

/// Hands the device the COMMAND and the data, for which it asks block by block.
fn begin_write(device: &mut Device) -> Result<(), Error> {
    let length = NEW.len() as u32;
    device.host(&command(Direction::ToDevice, 0, TAG, length, &WRITE)?)?;
    for (place, block) in NEW.chunks(BLOCK_BYTES).enumerate() {
        let asked = device.reply()?;
        assert!(asked.is_some(), "a READY TO TRANSFER is due for each block");
        let offset = (place * BLOCK_BYTES) as u32;
        device.host(&data_out(0, TAG, offset, block)?)?;
    }
    Ok(())
}

/// The dies work until the program of this number, from 0 on, is under way. It gives the die, or `None`
/// where all is done before.
fn work_up_to(device: &mut Device, number: usize) -> Result<Option<u8>, Error> {
    let mut programs = 0;
    for round in 0..ROUNDS * usize::from(DIES) {
        let die = (round % usize::from(DIES)) as u8;
        if let Some(job) = device.take(die)? {
            if job.kind == JobKind::Program && programs == number {
                return Ok(Some(die));
            }
            programs += usize::from(job.kind == JobKind::Program);
            device.work(die)?;
        }
    }
    Ok(None)
}

/// Whether the write was answered GOOD.
fn is_answered(device: &mut Device) -> Result<bool, Error> {
    match device.reply()? {
        Some(reply) if reply.first() == Some(&RESPONSE) => Ok(response(&reply)?.status == 0),
        _ => Ok(false),
    }
}

/// One cut: inside the program of this number, which leaves this. It gives whether the blocks are new, or
/// `None` where the write has fewer programs.
fn cut(number: usize, left: Left) -> Result<Option<bool>, Error> {
    let mut device = prepared()?;
    begin_write(&mut device)?;
    let die = match work_up_to(&mut device, number)? {
        Some(die) => die,
        None => return Ok(None),
    };
    let is_answered = is_answered(&mut device)?;
    let mut lefts = [Left::Old; DIES as usize];
    lefts[usize::from(die)] = left;
    device.stop(&lefts)?;
    device.make_ready()?;
    let found = device.read(0, 0, BLOCKS as u32)?;
    assert!(found == OLD || found == NEW, "a part of the write is there");
    assert!(
        found == NEW || !is_answered,
        "a write that was answered is lost"
    );
    Ok(Some(found == NEW))
}

fn main() -> Result<(), Error> {
    for number in 0.. {
        for left in [Left::Old, Left::New, Left::Torn] {
            match cut(number, left)? {
                Some(is_new) => {
                    let found = if is_new { "new" } else { "old" };
                    println!(
                        "program {}, left {left:?}: the blocks are {found}",
                        number + 1
                    );
                }
                None => return Ok(()),
            }
        }
    }
    Ok(())
}

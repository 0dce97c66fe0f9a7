//! A Universal Flash Storage device in software (JESD220), for host drivers and test benches.
//!
//! The device is the library libufs, whose functions are proved; this crate holds it in Rust, and is
//! tested. A block that was written with FUA is there after the power went, and one that was not
//! flushed is not:
//!
//! ```
//! use butcherford::{Config, Device, Error, Fua, Unit};
//!
//! fn main() -> Result<(), Error> {
//!     let mut device = Device::open(&Config::default(), &[Unit::new(64)])?;
//!     device.make_ready()?;
//!     device.write(0, 0, &[b'a'; 4096], Fua::Yes)?; // durable, once it returns
//!     device.write(0, 1, &[b'b'; 4096], Fua::No)?; // not durable until a flush
//!     device.stop(&[])?; // the power goes and comes back
//!     device.make_ready()?;
//!     assert_eq!(device.read(0, 0, 1)?, [b'a'; 4096]);
//!     assert_eq!(device.read(0, 1, 1)?, [0; 4096]);
//!     let refused = device.read(0, 64, 1); // past the end
//!     assert_eq!(refused.unwrap_err().to_string(), "CHECK CONDITION 5/21/00");
//!     Ok(())
//! }
//! ```
//!
//! A [`Device`] has two sets of calls. Those of `ufs.h` are there one by one, with messages of the
//! caller's own: [`host`](Device::host), [`reply`](Device::reply), [`turn`](Device::turn),
//! [`take`](Device::take), [`work`](Device::work), [`fail`](Device::fail),
//! [`settle`](Device::settle), [`stop`](Device::stop) and others, and the functions of
//! [`messages`]. Upon them are whole commands, which let the dies work until they are answered:
//! [`read`](Device::read), [`write`](Device::write), [`flush`](Device::flush),
//! [`unmap`](Device::unmap),
//! [`read_capacity`](Device::read_capacity), and [`command`](Device::command) with a CDB of the
//! caller's own. A device of profile 1 has more: [`read_16`](Device::read_16),
//! [`write_16`](Device::write_16), [`flush_16`](Device::flush_16), [`prefetch`](Device::prefetch),
//! [`verify`](Device::verify), [`compare`](Device::compare),
//! [`send_diagnostic`](Device::send_diagnostic), [`read_capacity_16`](Device::read_capacity_16),
//! [`inquiry_page`](Device::inquiry_page), [`mode_sense`](Device::mode_sense) and
//! [`supported_operations`](Device::supported_operations).
//!
//! A configuration has profile 0, unless [`Config::with_profile`] gives it another one. A device of
//! profile 1 refuses the first command to each LUN behind an opening and behind a stop by UNIT ATTENTION
//! (6/29/00). [`make_ready`](Device::make_ready) ends these attentions, and [`mend`](Device::mend) leaves
//! them.
//!
//! The dies are in memory, or the caller's own: [`Die`].
//!
//! A crate names this one by `butcherford = { path = ".." }`, with the folder that `make install` told
//! in place of the dots. The build finds the library in the folder that the environment variable
//! BUTCHERFORD_LIB_DIR names, or by pkg-config.
#![deny(missing_docs, unsafe_op_in_unsafe_fn)]

mod command;
mod config;
mod device;
mod die;
mod error;
pub mod messages;
mod sys;
mod told;

pub use command::{Capacity, Data, Fua, BLOCK_BYTES};
pub use config::{Boot, Config, Protection, Unit};
pub use device::Device;
pub use die::{Die, DieFailed, Job, JobKind, Left, Outcome, Page, PAGE_BYTES};
pub use error::{Error, Result};
pub use told::{LongCapacity, ModeData, ModePages, ModeValues, SupportedOperation, VpdPage};

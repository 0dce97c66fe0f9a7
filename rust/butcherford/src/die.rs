//! Dies: their jobs, how these end, and dies of the caller's own.
use crate::sys;
use std::cell::RefCell;
use std::fmt;
use std::rc::Rc;

/// How many bytes a page has: 4096, and then 96 spare ones.
pub const PAGE_BYTES: usize = sys::UFS_PAGE_BYTES;

/// The bytes of a page. Each is FFh after an erase.
pub type Page = [u8; PAGE_BYTES];

/// What a die is to do.
#[derive(Clone, Copy, Debug, PartialEq, Eq, Hash)]
pub enum JobKind {
    /// Read the page.
    Read,
    /// Program the page.
    Program,
    /// Erase the block.
    Erase,
}

/// A job of a die.
#[derive(Clone, PartialEq, Eq)]
pub struct Job {
    /// What is to be done.
    pub kind: JobKind,
    /// The number of the die.
    pub die: u8,
    /// The block of the die.
    pub block: u16,
    /// The page of the block; 0 for an erase.
    pub page: u16,
    /// What a program is to write; each byte is 0 for the other kinds.
    pub content: Page,
}

impl Job {
    /// The job that the library told; a row of another kind is none.
    pub(crate) fn of(row: sys::JobRow) -> Option<Job> {
        let kind = match row.kind {
            1 => JobKind::Read,
            2 => JobKind::Program,
            3 => JobKind::Erase,
            _ => return None,
        };
        Some(Job {
            kind,
            die: row.die,
            block: row.block,
            page: row.page,
            content: row.content,
        })
    }
}

impl fmt::Debug for Job {
    fn fmt(&self, out: &mut fmt::Formatter<'_>) -> fmt::Result {
        out.debug_struct("Job")
            .field("kind", &self.kind)
            .field("die", &self.die)
            .field("block", &self.block)
            .field("page", &self.page)
            .finish_non_exhaustive()
    }
}

/// How a job of a die of the caller's own ended.
#[derive(Clone, Copy, Debug)]
pub enum Outcome<'a> {
    /// A read found this page.
    ReadDone(&'a Page),
    /// A read failed.
    ReadFailed,
    /// A program or an erase was done.
    Done,
    /// A program or an erase failed: the block is bad from now on.
    Failed,
}

impl<'a> Outcome<'a> {
    /// The number that the library has for it, and the bytes of the page.
    pub(crate) fn told(self) -> (u8, &'a [u8]) {
        match self {
            Outcome::ReadDone(page) => (0, page),
            Outcome::ReadFailed => (1, &[]),
            Outcome::Done => (2, &[]),
            Outcome::Failed => (3, &[]),
        }
    }
}

/// What a program or an erase leaves in its page, or in each page of its block: the power went while
/// it was under way, or it failed.
#[derive(Clone, Copy, Debug, Default, PartialEq, Eq, Hash)]
pub enum Left {
    /// What was there before.
    #[default]
    Old,
    /// What the job was to make of it.
    New,
    /// What the job was to make of it, with a check of which one bit is turned: it does not hold.
    Torn,
}

impl Left {
    /// The number that the library has for it.
    pub(crate) fn number(self) -> u8 {
        match self {
            Left::Old => 0,
            Left::New => 1,
            Left::Torn => 2,
        }
    }
}

/// A read, a program or an erase of a [`Die`] that failed.
#[derive(Clone, Copy, Debug, Default, PartialEq, Eq, Hash)]
pub struct DieFailed;

impl fmt::Display for DieFailed {
    fn fmt(&self, out: &mut fmt::Formatter<'_>) -> fmt::Result {
        out.write_str("the die did not do it")
    }
}

impl std::error::Error for DieFailed {}

/// A die of the caller's own, which [`Device::own_dies`](crate::Device::own_dies) gives to a device.
///
/// The device asks for blocks and pages of its configuration alone. It programs a block page by page
/// in rising order, after an erase that was done since the opening, and never once the block is bad.
/// It goes by what a die answers: what is done is done, and a read gives what is there.
///
/// Behind `Rc<RefCell<..>>` a die can be looked at from outside while the device has it. Nothing may be
/// borrowed from it while the device works, else the call panics.
pub trait Die {
    /// Reads a page, of a bad block too, into `into`.
    ///
    /// # Errors
    ///
    /// `DieFailed`: `into` may hold anything, and the die is as before.
    fn read(&mut self, block: u16, page: u16, into: &mut Page) -> Result<(), DieFailed>;

    /// Programs the next page of a block.
    ///
    /// # Errors
    ///
    /// `DieFailed`: the page holds what it held, or `content`, or bytes whose check does not hold, and
    /// the block is bad from then on.
    fn program(&mut self, block: u16, page: u16, content: &Page) -> Result<(), DieFailed>;

    /// Erases a block: each byte of each of its pages is FFh then.
    ///
    /// # Errors
    ///
    /// `DieFailed`: each of its pages holds what it held, or FFh alone, or bytes whose check does not
    /// hold, and the block is bad from then on.
    fn erase(&mut self, block: u16) -> Result<(), DieFailed>;
}

impl<D: Die + ?Sized> Die for Rc<RefCell<D>> {
    fn read(&mut self, block: u16, page: u16, into: &mut Page) -> Result<(), DieFailed> {
        self.borrow_mut().read(block, page, into)
    }

    fn program(&mut self, block: u16, page: u16, content: &Page) -> Result<(), DieFailed> {
        self.borrow_mut().program(block, page, content)
    }

    fn erase(&mut self, block: u16) -> Result<(), DieFailed> {
        self.borrow_mut().erase(block)
    }
}

/// A die of the caller's own, and its job in flight.
pub(crate) struct OwnDie {
    pub(crate) die: Box<dyn Die>,
    pub(crate) job: Option<Box<Job>>,
}

impl OwnDie {
    /// Does the job in flight, which stays noted, and gives how it ended; `None` where there is none.
    pub(crate) fn work<'a>(&mut self, room: &'a mut Page) -> Option<Outcome<'a>> {
        let job = self.job.as_deref()?;
        let (block, page) = (job.block, job.page);
        Some(match job.kind {
            JobKind::Read => match self.die.read(block, page, room) {
                Ok(()) => Outcome::ReadDone(room),
                Err(DieFailed) => Outcome::ReadFailed,
            },
            JobKind::Program => ended(self.die.program(block, page, &job.content)),
            JobKind::Erase => ended(self.die.erase(block)),
        })
    }
}

fn ended<'a>(how: Result<(), DieFailed>) -> Outcome<'a> {
    match how {
        Ok(()) => Outcome::Done,
        Err(DieFailed) => Outcome::Failed,
    }
}

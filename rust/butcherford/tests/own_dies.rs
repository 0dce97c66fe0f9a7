//! Dies of the caller's own.
mod common;

use butcherford::{
    Config, Device, Die, DieFailed, Error, Fua, Job, JobKind, Outcome, Page, Unit, PAGE_BYTES,
};
use common::{blocks, ready, BLOCK};
use std::cell::RefCell;
use std::rc::Rc;

/// A die of 24 blocks of 16 pages, as those of `Config::default`.
struct Flash {
    pages: Vec<[Page; 16]>,
    programs: u32,
    /// The program of this number fails, and every read does where this is said.
    failing: Option<u32>,
    cannot_read: bool,
}

impl Flash {
    fn new() -> Rc<RefCell<Flash>> {
        Rc::new(RefCell::new(Flash {
            pages: vec![[[0xFF; PAGE_BYTES]; 16]; 24],
            programs: 0,
            failing: None,
            cannot_read: false,
        }))
    }

    fn page(&mut self, block: u16, page: u16) -> &mut Page {
        &mut self.pages[usize::from(block)][usize::from(page)]
    }
}

impl Die for Flash {
    fn read(&mut self, block: u16, page: u16, into: &mut Page) -> Result<(), DieFailed> {
        *into = *self.page(block, page);
        if self.cannot_read {
            return Err(DieFailed);
        }
        Ok(())
    }

    fn program(&mut self, block: u16, page: u16, content: &Page) -> Result<(), DieFailed> {
        self.programs += 1;
        if self.failing == Some(self.programs) {
            return Err(DieFailed);
        }
        *self.page(block, page) = *content;
        Ok(())
    }

    fn erase(&mut self, block: u16) -> Result<(), DieFailed> {
        self.pages[usize::from(block)] = [[0xFF; PAGE_BYTES]; 16];
        Ok(())
    }
}

/// A device over two such dies, which are blank.
fn over(dies: &[Rc<RefCell<Flash>>; 2]) -> Device {
    over_by(&Config::default(), dies)
}

/// The same with this configuration.
fn over_by(config: &Config, dies: &[Rc<RefCell<Flash>>; 2]) -> Device {
    let mut device = Device::open(config, &[Unit::new(64)]).unwrap();
    let own = dies
        .iter()
        .map(|it| Box::new(Rc::clone(it)) as Box<dyn Die>);
    device.own_dies(own.collect()).unwrap();
    device.make_ready().unwrap();
    device
}

/// The image of the dies (docs/FORMATS.md, "Scripts"), of which no block is bad.
fn image_of(dies: &[Rc<RefCell<Flash>>; 2]) -> Vec<u8> {
    let mut image = b"UFSIMAGE\x02\x00\x00\x18\x00\x10".to_vec();
    for die in dies {
        for block in &die.borrow().pages {
            image.push(0);
            block.iter().for_each(|page| image.extend(page));
        }
    }
    image
}

/// What was written lies on the dies, and is there again where their power was gone.
#[test]
fn they_work_and_keep() {
    let dies = [Flash::new(), Flash::new()];
    let mut device = over(&dies);
    device.write(0, 3, &blocks(1, 5), Fua::Yes).unwrap();
    device.unmap(0, 4, 1).unwrap();
    device.flush(0).unwrap();
    let wanted = [blocks(1, 1), vec![0; BLOCK], blocks(3, 3)].concat();
    assert_eq!(device.read(0, 3, 5).unwrap(), wanted);
    assert!(dies.iter().any(|it| it.borrow().programs > 2));
    drop(device);
    let units = [Unit::new(64)];
    let mut device = Device::open_image(&Config::default(), &units, &image_of(&dies)).unwrap();
    device.make_ready().unwrap();
    assert_eq!(device.read(0, 3, 5).unwrap(), wanted);
}

/// Only the caller knows that a program failed: the block is written elsewhere, and read back.
#[test]
fn a_program_that_fails_is_made_elsewhere() {
    let dies = [Flash::new(), Flash::new()];
    let mut device = over(&dies);
    for die in &dies {
        let next = die.borrow().programs + 1;
        die.borrow_mut().failing = Some(next);
    }
    device.write(0, 0, &blocks(1, 2), Fua::Yes).unwrap();
    assert_eq!(device.read(0, 0, 2).unwrap(), blocks(1, 2));
    assert!(dies
        .iter()
        .all(|it| it.borrow().failing <= Some(it.borrow().programs)));
}

/// A die read that failed for a READ gets 3/11/00, and so does one for a VERIFY.
#[test]
fn a_read_that_fails_is_told() {
    let dies = [Flash::new(), Flash::new()];
    let mut device = over_by(&Config::default().with_profile(1, 1), &dies);
    device.write(0, 0, &blocks(1, 1), Fua::Yes).unwrap();
    dies.iter()
        .for_each(|it| it.borrow_mut().cannot_read = true);
    let sense = Error::CheckCondition {
        key: 3,
        code: 0x11,
        qualifier: 0,
    };
    assert_eq!(device.read(0, 0, 1), Err(sense));
    assert_eq!(device.verify(0, 0, 1), Err(sense));
    assert_eq!(device.compare(0, 0, &blocks(1, 1)), Err(sense));
    dies.iter()
        .for_each(|it| it.borrow_mut().cannot_read = false);
    assert_eq!(device.read(0, 0, 1).unwrap(), blocks(1, 1));
    device.compare(0, 0, &blocks(1, 1)).unwrap();
}

/// The caller takes each job, does it, and ends it by `done`. A block is erased before it is programmed.
#[test]
fn jobs_one_by_one() {
    let mut device = Device::open(&Config::default(), &[Unit::new(64)]).unwrap();
    device.own_dies(Vec::new()).unwrap();
    let mut dies = [Flash::new(), Flash::new()];
    let mut jobs = Vec::new();
    for round in 0..16 {
        device.turn().unwrap();
        if let Some(job) = device.take(round % 2).unwrap() {
            jobs.push((job.die, job.kind));
            do_job(&mut device, &mut dies[usize::from(job.die)], &job);
        }
    }
    device.make_ready().unwrap();
    let first = |die| {
        jobs.iter()
            .find(|(it, _)| *it == die)
            .map(|(_, kind)| *kind)
    };
    assert_eq!([first(0), first(1)], [Some(JobKind::Erase); 2]);
    assert!(jobs.iter().any(|(_, kind)| *kind == JobKind::Program));
    assert_eq!(device.work(0), Ok(false), "no die works by itself");
}

/// Does the job on the die, and tells the device.
fn do_job(device: &mut Device, die: &mut impl Die, job: &Job) {
    let mut page = [0; PAGE_BYTES];
    let answer = match job.kind {
        JobKind::Read => die.read(job.block, job.page, &mut page),
        JobKind::Program => die.program(job.block, job.page, &job.content),
        JobKind::Erase => die.erase(job.block),
    };
    let outcome = match (job.kind, answer) {
        (JobKind::Read, Ok(())) => Outcome::ReadDone(&page),
        (JobKind::Read, Err(DieFailed)) => Outcome::ReadFailed,
        (_, Ok(())) => Outcome::Done,
        (_, Err(DieFailed)) => Outcome::Failed,
    };
    device.done(job.die, outcome).unwrap();
}

#[test]
fn as_many_as_the_configuration_has() {
    let mut device = ready();
    let one: Vec<Box<dyn Die>> = vec![Box::new(Flash::new())];
    assert_eq!(device.own_dies(one), Err(Error::BadNumber));
    assert_eq!(
        device.read(0, 0, 1).unwrap(),
        [0; BLOCK],
        "the dies in memory are there"
    );
}

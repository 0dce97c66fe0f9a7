//! A device: its calls, one by one.
use crate::config::{Config, Unit};
use crate::die::{Die, Job, Left, Outcome, OwnDie, PAGE_BYTES};
use crate::error::{did, expect, Error, Result};
use crate::sys;
use std::collections::VecDeque;
use std::fmt;
use std::marker::PhantomData;
use std::ptr;

/// An open device. It is closed where it is dropped.
///
/// The library lets the thread that opened a device make all calls on it, so a device is neither
/// `Send` nor `Sync`. A `Config` is both, so that this compiles:
///
/// ```
/// fn is_send<T: Send>() {}
/// fn is_sync<T: Sync>() {}
/// is_send::<butcherford::Config>();
/// is_sync::<butcherford::Config>();
/// ```
///
/// And this does not:
///
/// ```compile_fail,E0277
/// fn is_send<T: Send>() {}
/// is_send::<butcherford::Device>();
/// ```
///
/// ```compile_fail,E0277
/// fn is_sync<T: Sync>() {}
/// is_sync::<butcherford::Device>();
/// ```
pub struct Device {
    handle: sys::Handle,
    dies: u8,
    pub(crate) profile: u8,
    pub(crate) unit_count: usize,
    most_blocks: u32,
    /// Dies of the caller's own; none where they are in memory, or the caller does the jobs.
    own: Vec<OwnDie>,
    /// Replies that a whole command heard, and that are for others.
    pub(crate) kept: VecDeque<Vec<u8>>,
    pub(crate) last_tag: u8,
    /// All calls come from one thread: a pointer is neither `Send` nor `Sync`.
    one_thread: PhantomData<*mut ()>,
}

impl fmt::Debug for Device {
    fn fmt(&self, out: &mut fmt::Formatter<'_>) -> fmt::Result {
        out.debug_struct("Device")
            .field("dies", &self.dies)
            .finish_non_exhaustive()
    }
}

impl Drop for Device {
    fn drop(&mut self) {
        // SAFETY: the handle is this device's own, never copied, and this is the thread that opened
        // it, since a `Device` is not `Send`. Where it holds no device the call does nothing.
        unsafe { sys::ufs_close(&mut self.handle) };
    }
}

impl Device {
    /// A device that is closed as yet, for these numbers and so many units.
    fn closed(config: &Config, unit_count: usize) -> Device {
        Device {
            // `UFS_CLOSED`, as which each handle has to begin.
            handle: sys::Handle {
                at: ptr::null_mut(),
                is_open: false,
            },
            dies: config.dies,
            profile: config.profile,
            unit_count,
            most_blocks: config.most_blocks(),
            own: Vec::new(),
            kept: VecDeque::new(),
            last_tag: 0,
            one_thread: PhantomData,
        }
    }

    /// Opens a device over new dies in memory. It takes all memory that it ever needs.
    ///
    /// It is ready for READs and WRITEs behind [`make_ready`](Device::make_ready).
    ///
    /// # Errors
    ///
    /// [`Range`](Error::Range), also of more than eight units;
    /// [`TooLittleSpare`](Error::TooLittleSpare), [`TwoBootUnits`](Error::TwoBootUnits),
    /// [`NoMemory`](Error::NoMemory).
    pub fn open(config: &Config, units: &[Unit]) -> Result<Device> {
        let mut device = Device::closed(config, units.len());
        let rows: Vec<sys::UnitRow> = units.iter().map(Unit::row).collect();
        // SAFETY: the handle begins as UFS_CLOSED. The row of the configuration and those of the
        // units are this call's own, as many as it is told; a vector without any has no NULL pointer.
        expect(unsafe {
            sys::ufs_open(&mut device.handle, &config.row(), rows.as_ptr(), rows.len())
        })?;
        Ok(device)
    }

    /// Opens a device over the dies of an image, which [`image`](Device::image) or `ufsim image save`
    /// made. It mends, so it is ready behind [`make_ready`](Device::make_ready).
    ///
    /// # Errors
    ///
    /// As [`open`](Device::open); and [`BadImage`](Error::BadImage),
    /// [`OtherConfig`](Error::OtherConfig).
    pub fn open_image(config: &Config, units: &[Unit], image: &[u8]) -> Result<Device> {
        let mut device = Device::closed(config, units.len());
        let rows: Vec<sys::UnitRow> = units.iter().map(Unit::row).collect();
        // SAFETY: as in `open`. The image is borrowed during the call, which only reads it, so nobody
        // writes it.
        expect(unsafe {
            sys::ufs_open_image(
                &mut device.handle,
                &config.row(),
                rows.as_ptr(),
                rows.len(),
                image.as_ptr(),
                image.len(),
            )
        })?;
        Ok(device)
    }

    /// How many blocks of 4096 bytes one command may have: 128 with 256 slots or more, else 32.
    pub fn most_blocks(&self) -> u32 {
        self.most_blocks
    }

    /// Hands the device a message of a host (UPIU; JESD220, 10.5 to 10.7). Whole commands of this
    /// crate have the task tags 80h to FFh, so use those below.
    ///
    /// # Errors
    ///
    /// [`MessageShort`](Error::MessageShort) to [`Backlog`](Error::Backlog): the lowest that applies.
    /// Nothing changes then.
    pub fn host(&mut self, message: &[u8]) -> Result<()> {
        // SAFETY: the handle is borrowed mutably, so this call is the only one on it, from the thread
        // that opened it. The message has as many bytes as the call is told, is never NULL as a
        // slice, and is borrowed during the call, which only reads it, so nobody writes it.
        expect(unsafe { sys::ufs_host(&mut self.handle, message.as_ptr(), message.len()) })
    }

    /// Takes a reply that is due; `None` where none is. Replies of one task tag come in order.
    ///
    /// # Errors
    ///
    /// [`NoDevice`](Error::NoDevice).
    pub fn reply(&mut self) -> Result<Option<Vec<u8>>> {
        match self.kept.pop_front() {
            Some(kept) => Ok(Some(kept)),
            None => self.next_reply(),
        }
    }

    /// A reply of the device that no whole command has kept.
    pub(crate) fn next_reply(&mut self) -> Result<Option<Vec<u8>>> {
        let mut room = [0u8; sys::UFS_REPLY_BYTES];
        let mut length = 0;
        // SAFETY: as in `host`. The room has as many bytes as the call is told; it and the length are
        // this call's own.
        let number =
            unsafe { sys::ufs_reply(&mut self.handle, room.as_mut_ptr(), room.len(), &mut length) };
        let is_due = did(number, sys::UFS_NOTHING)?;
        Ok(is_due.then(|| room[..length].to_vec()))
    }

    /// Takes one step of the device's own, of its mending or of a collection, and says whether one
    /// was due.
    ///
    /// # Errors
    ///
    /// [`NoDevice`](Error::NoDevice).
    pub fn turn(&mut self) -> Result<bool> {
        // SAFETY: as in `host`.
        did(unsafe { sys::ufs_turn(&mut self.handle) }, sys::UFS_NOTHING)
    }

    /// Asks for the next job of the die, which is in flight from then on. `None`: the die is owed
    /// none, has one in flight, or is none of the device.
    ///
    /// # Errors
    ///
    /// [`NoDevice`](Error::NoDevice).
    pub fn take(&mut self, die: u8) -> Result<Option<Job>> {
        let mut row = sys::JobRow {
            kind: 0,
            die: 0,
            block: 0,
            page: 0,
            content: [0; PAGE_BYTES],
        };
        // SAFETY: as in `host`. The row is this call's own, and all its bytes are set.
        let number = unsafe { sys::ufs_take(&mut self.handle, die, &mut row) };
        if !did(number, sys::UFS_NOTHING)? {
            return Ok(None);
        }
        let kind = u32::from(row.kind);
        let job = Job::of(row).ok_or(Error::Unknown(kind))?;
        if let Some(own) = self.own.get_mut(usize::from(die)) {
            own.job = Some(Box::new(job.clone()));
        }
        Ok(Some(job))
    }

    /// The die does its job in flight, and the device is told. It says whether the die had one.
    ///
    /// The die is in memory, or one that [`own_dies`](Device::own_dies) gave to the device.
    ///
    /// # Errors
    ///
    /// [`NoDevice`](Error::NoDevice). What a die of the caller's own failed to do is no error of this
    /// call: the device hears of it.
    pub fn work(&mut self, die: u8) -> Result<bool> {
        if !self.own.is_empty() {
            return self.work_on_own(die);
        }
        // SAFETY: as in `host`.
        let number = unsafe { sys::ufs_work(&mut self.handle, die) };
        did(number, sys::UFS_NO_JOB)
    }

    fn work_on_own(&mut self, die: u8) -> Result<bool> {
        let mut room = [0; PAGE_BYTES];
        let own = self.own.get_mut(usize::from(die));
        match own.and_then(|it| it.work(&mut room)) {
            Some(outcome) => self.done(die, outcome).map(|()| true),
            None => Ok(false),
        }
    }

    /// The job in flight of the die in memory fails, and the device is told. It says whether the die
    /// had one.
    ///
    /// The block of a program or an erase is bad from then on, and `left` says what its page, or each
    /// page of the block, holds then. A read that fails changes nothing on the die. A die of the
    /// caller's own fails by itself: this call leaves it as it is, and answers false.
    ///
    /// # Errors
    ///
    /// [`NoDevice`](Error::NoDevice).
    pub fn fail(&mut self, die: u8, left: Left) -> Result<bool> {
        // SAFETY: as in `host`.
        let number = unsafe { sys::ufs_fail(&mut self.handle, die, left.number()) };
        did(number, sys::UFS_NO_JOB)
    }

    /// Ends the job in flight of a die of the caller's own, which did it outside the device.
    ///
    /// # Errors
    ///
    /// [`NoJob`](Error::NoJob) where the dies are in memory, the die has no job in flight, or it is of
    /// another kind. Nothing changes then.
    pub fn done(&mut self, die: u8, outcome: Outcome<'_>) -> Result<()> {
        let (how, page) = outcome.told();
        // SAFETY: as in `host`, of the page in place of the message: that of a read has PAGE_BYTES
        // bytes, and for the other outcomes it is a slice of none.
        expect(unsafe { sys::ufs_done(&mut self.handle, die, how, page.as_ptr(), page.len()) })?;
        if let Some(own) = self.own.get_mut(usize::from(die)) {
            own.job = None;
        }
        Ok(())
    }

    /// From now on the dies are the caller's own: those in memory are given up.
    ///
    /// `dies` has one for each die of the configuration, which [`work`](Device::work),
    /// [`settle`](Device::settle) and whole commands let work. Where it has none the caller does each
    /// job of [`take`](Device::take), and tells how it ended by [`done`](Device::done).
    ///
    /// The dies have to hold what those in memory hold. So open the device over new dies for dies
    /// that are blank, each byte FFh, or over an image of them. Do it right behind the opening: a job
    /// that is in flight already is the caller's to do, and ends by `done`.
    ///
    /// # Errors
    ///
    /// [`BadNumber`](Error::BadNumber) where there are dies, and not as many as the configuration
    /// has; [`NoDevice`](Error::NoDevice). The dies are dropped then.
    pub fn own_dies(&mut self, dies: Vec<Box<dyn Die>>) -> Result<()> {
        if !dies.is_empty() && dies.len() != usize::from(self.dies) {
            return Err(Error::BadNumber);
        }
        // SAFETY: as in `host`.
        expect(unsafe { sys::ufs_own_dies(&mut self.handle) })?;
        self.own = dies
            .into_iter()
            .map(|die| OwnDie { die, job: None })
            .collect();
        Ok(())
    }

    /// So many rounds of a turn and of one job of each die: it is taken, where the die has none in
    /// flight, and done. A new device is ready after some four rounds.
    ///
    /// # Errors
    ///
    /// [`NoDevice`](Error::NoDevice).
    pub fn settle(&mut self, rounds: u16) -> Result<()> {
        if self.own.is_empty() {
            // SAFETY: as in `host`.
            return expect(unsafe { sys::ufs_settle(&mut self.handle, rounds) });
        }
        for _ in 0..rounds {
            self.settle_own()?;
        }
        Ok(())
    }

    fn settle_own(&mut self) -> Result<()> {
        self.turn()?;
        for die in 0..self.dies {
            self.take(die)?;
            self.work(die)?;
        }
        Ok(())
    }

    /// The power goes away and comes back. `lefts[d]` says what the job in flight of die d leaves,
    /// where it is a program or an erase; a die that is not named keeps what it held.
    ///
    /// Tasks, replies and the write cache are gone. The device is opened again over the dies, and
    /// mends, so it is ready behind [`make_ready`](Device::make_ready).
    ///
    /// # Errors
    ///
    /// [`HasOwnDies`](Error::HasOwnDies): open a device over an image of what your dies hold.
    /// [`BadNumber`](Error::BadNumber) where there are more than 256. Nothing changes then.
    /// [`NoMemory`](Error::NoMemory): the power stays off then, and the dies are kept. All calls but
    /// [`image`](Device::image) and a further [`stop`](Device::stop), which opens the device if it gets
    /// the memory, answer [`NoDevice`](Error::NoDevice).
    pub fn stop(&mut self, lefts: &[Left]) -> Result<()> {
        let numbers: Vec<u8> = lefts.iter().map(|it| it.number()).collect();
        // SAFETY: as in `host`, of the numbers in place of the message: they are this call's own.
        let number = unsafe { sys::ufs_stop(&mut self.handle, numbers.as_ptr(), numbers.len()) };
        let answer = expect(number);
        if matches!(answer, Ok(()) | Err(Error::NoMemory)) {
            self.kept.clear();
        }
        answer
    }

    /// Saves the dies in memory as an image (docs/FORMATS.md, "Scripts"). A job in flight has done
    /// nothing yet. The device goes on.
    ///
    /// # Errors
    ///
    /// [`HasOwnDies`](Error::HasOwnDies), [`NoMemory`](Error::NoMemory),
    /// [`NoDevice`](Error::NoDevice).
    pub fn image(&mut self) -> Result<Vec<u8>> {
        let mut length = 0;
        // SAFETY: as in `host`. The length is this call's own.
        expect(unsafe { sys::ufs_image_length(&mut self.handle, &mut length) })?;
        let length = usize::try_from(length).map_err(|_| Error::NoMemory)?;
        let mut image = Vec::new();
        image
            .try_reserve_exact(length)
            .map_err(|_| Error::NoMemory)?;
        image.resize(length, 0);
        // SAFETY: as in `host`. The image has as many bytes as the call is told, all of them set, and
        // is this call's own.
        expect(unsafe { sys::ufs_save(&mut self.handle, image.as_mut_ptr(), image.len()) })?;
        Ok(image)
    }
}

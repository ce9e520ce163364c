//! How a cache that is closed is kept.
use crate::disk;
use crate::image::{Part, Saver, Seal, Which};
use crate::keep::{Keep, NotKept, Progress, Saved};
use crate::kept_file::{Filled, Head, Writer, MOST_BESIDE};
use crate::shards::{drawn, Shards, PAUSE};
use crate::{resume, Engine, Refused};
use std::sync::atomic::{AtomicUsize, Ordering::Relaxed};
use std::sync::{Mutex, MutexGuard, PoisonError, TryLockError};
use std::time::Instant;
use std::{io, ptr, thread};

const NO_SEAL: Seal = [0; 16];
// So many bytes of the file are written before somebody is told again.
const TOLD_EACH: u64 = 4 << 20;

/// What keeps a cache.
#[derive(Debug)]
pub(crate) struct Keeper {
    pub keep: Keep,
    phase: Mutex<Phase>,
    // whoever closes it has this until that is over, and which thread it is
    turn: Mutex<()>,
    closer: AtomicUsize,
}

#[derive(Clone, Copy, Debug, PartialEq, Eq)]
enum Phase {
    Open,
    Closing,
    // a key was changed behind the close
    Changed,
    Sealed,
}

// What stands at the close: until when it may take, what is told of it, and what the owner keeps beside.
struct Closing<'a> {
    shards: &'a Shards,
    keep: &'a Keep,
    seal: Seal,
    second: u64,
    until: Instant,
    told: u64,
}

impl Keeper {
    pub fn new(keep: Keep) -> Keeper {
        Keeper { keep, phase: Mutex::new(Phase::Open), turn: Mutex::new(()), closer: AtomicUsize::new(0) }
    }

    /// The close begins, and lasts as long as what is answered is held. None: another handle closed it, which is waited for; but where
    /// this thread closes it, and calls this as it is told how far that is, and where it may not wait.
    pub fn begin(&self, may_wait: bool) -> Option<MutexGuard<'_, ()>> {
        if self.closer.load(Relaxed) == this_thread() {
            return None;
        }
        let turn = match self.turn.try_lock() {
            Ok(turn) => turn,
            Err(TryLockError::Poisoned(turn)) => turn.into_inner(),
            Err(TryLockError::WouldBlock) if may_wait => self.turn.lock().unwrap_or_else(PoisonError::into_inner),
            Err(TryLockError::WouldBlock) => return None,
        };
        let mut phase = self.phase.lock().unwrap_or_else(PoisonError::into_inner);
        if *phase != Phase::Open {
            return None;
        }
        *phase = Phase::Closing;
        self.closer.store(this_thread(), Relaxed);
        Some(turn)
    }

    /// A key was changed, or all, behind the close, where that can't be refused any more: nothing is kept.
    pub fn forget(&self, shards: &Shards) {
        let mut phase = self.phase.lock().unwrap_or_else(PoisonError::into_inner);
        if *phase == Phase::Sealed {
            unseal(shards, &self.keep);
        }
        *phase = Phase::Changed;
    }

    /// Writes what the shards have, which are closed, and then the seal.
    pub fn save(&self, shards: &Shards, beside: &[u8], until: Instant) -> Result<Saved, NotKept> {
        let device = shards.device.as_ref().ok_or_else(|| io::Error::from(io::ErrorKind::Unsupported))?;
        // (there is none: but so what was written is there for good, which may take long, before the file is begun)
        device.put_seal(NO_SEAL)?;
        let (seal, second) = (drawn_seal(), shards.last_second());
        let closing = Closing { shards, keep: &self.keep, seal, second, until, told: 0 };
        let new = disk::unfinished(&self.keep.path)?;
        let saved = closing.write(&new, beside);
        if saved.is_err() {
            disk::remove(&new);
        }
        let saved = saved?;
        let mut phase = self.phase.lock().unwrap_or_else(PoisonError::into_inner);
        if *phase == Phase::Changed {
            disk::remove(&self.keep.path);
            return Err(NotKept::Changed);
        }
        if let Err(error) = device.put_seal(seal) {
            // (it may be there all the same)
            unseal(shards, &self.keep);
            return Err(error.into());
        }
        *phase = Phase::Sealed;
        Ok(saved)
    }
}

// Takes away what was kept.
fn unseal(shards: &Shards, keep: &Keep) {
    if let Some(device) = &shards.device {
        let _ = device.put_seal(NO_SEAL); // (the file goes too: either is enough)
    }
    disk::remove(&keep.path);
}

// A number that no other thread has at this time.
fn this_thread() -> usize {
    thread_local! {
        static PLACE: u8 = const { 0 };
    }
    PLACE.with(|place| ptr::from_ref(place) as usize)
}

// A number that no other close has.
fn drawn_seal() -> Seal {
    loop {
        let seal = drawn();
        if seal != NO_SEAL {
            return seal;
        }
    }
}

impl Closing<'_> {
    fn write(mut self, new: &std::path::Path, beside: &[u8]) -> Result<Saved, NotKept> {
        if beside.len() > MOST_BESIDE {
            return Err(NotKept::Io(io::ErrorKind::InvalidInput.into()));
        }
        let mut writer = Writer::new(disk::create(new)?)?;
        writer.head(&self.head(beside)?)?;
        let mut saved = Saved { of: self.shards.len() as u64, ..Saved::default() };
        for shard in 0..self.shards.len() {
            saved.shards += u64::from(self.write_shard(&mut writer, shard)?);
            self.tell(writer.bytes(), shard as u64 + 1);
        }
        if saved.shards == 0 {
            return Err(NotKept::Busy);
        }
        let (file, bytes) = writer.end()?;
        saved.bytes = bytes;
        self.is_in_time()?;
        let put = disk::put(&file, new, &self.keep.path);
        if put.is_err() {
            disk::remove(&self.keep.path);
        }
        put?;
        Ok(saved)
    }

    fn head(&self, beside: &[u8]) -> Result<Head, Refused> {
        Ok(Head {
            seal: self.seal,
            closed: self.second,
            shards: self.shards.len() as u32,
            options: resume::options_of(self.shards),
            spread: self.shards.spread.number(),
            absent: self.shards.absent,
            beside: crate::held::copied(beside)?,
        })
    }

    // Whether the shard is kept.
    fn write_shard(&mut self, writer: &mut Writer, shard: usize) -> Result<bool, NotKept> {
        let (seal, second, of) = (self.seal, self.second, self.shards.len() as u32);
        let which = Which { seal, second, shard: shard as u32, of };
        let Some((engine, pad)) = self.shards.take_at_rest(shard) else {
            writer.no_shard()?;
            return Ok(false);
        };
        let Some(mut saver) = self.saver_of(engine, &which)? else {
            writer.no_shard()?;
            return Ok(false);
        };
        writer.shard(&pad)?;
        if let Some(device) = &self.shards.device {
            let pages = u64::from(self.shards.pages);
            writer.numbers(device.digests(shard as u64 * pages, pages))?;
        }
        while writer.part(|out| self.next_of(&mut saver, out))? {
            if writer.bytes() - self.told >= TOLD_EACH {
                self.tell(writer.bytes(), shard as u64);
            }
        }
        Ok(true)
    }

    // None: the library refuses it. Where there is no memory for it, and it wasn't lost by that, it waits for some.
    fn saver_of(&self, mut engine: Engine, which: &Which) -> Result<Option<Saver>, NotKept> {
        loop {
            self.is_in_time()?;
            engine = match Saver::of(engine, which) {
                Ok(saver) => return Ok(Some(saver)),
                Err((engine, Refused::NO_MEMORY)) => engine,
                Err(_) => return Ok(None),
            };
            thread::sleep(PAUSE);
        }
    }

    // The next bytes of an image.
    fn next_of(&self, saver: &mut Saver, out: &mut [u8]) -> Result<Filled, NotKept> {
        self.is_in_time()?;
        Ok(match saver.next(out)? {
            Part::Bytes(length) => Filled::Bytes(length),
            Part::Wants(length) => Filled::Wants(length),
            Part::End => Filled::End,
        })
    }

    fn is_in_time(&self) -> Result<(), NotKept> {
        match Instant::now() < self.until {
            true => Ok(()),
            false => Err(NotKept::TimeIsUp),
        }
    }

    fn tell(&mut self, bytes: u64, shards: u64) {
        self.told = bytes;
        self.keep.watch.tell(Progress { bytes, shards, of: self.shards.len() as u64 });
    }
}

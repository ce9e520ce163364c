use crate::masked::{Masked, Pad};
use crate::{Added, Came, Copied, Counts, Engine, Found, Losses, Operation, Refused, Reply, Take, Ticket};

/// The engine of a shard, and what is left of those before it. A shard is cleared by an empty engine in place of the one that it has:
/// so nothing that was stored before is found, and a ticket of before stores nothing.
///
/// The calls, jobs and tickets of each engine are counted from 0. Here they have numbers that go on, so that none of before is taken
/// for one of now. Both engines have the same pages of flash. So nothing is written as long as an operation of an engine before is
/// under way: to this engine the device is one that answers what it has written last, as to the first one.
pub(crate) struct Generations {
    engine: Masked,
    // whether there is one: there may have been no memory for it
    is_there: bool,
    // the number of the first one, by which leases and changes are known for good
    number: u64,
    // what the numbers of the calls, the jobs and the tickets of engines before stay below
    calls_before: u64,
    jobs_before: u64,
    tickets_before: u64,
    // what the numbers of the engine's own jobs stay below
    jobs: u64,
    // operations under way, of this engine and of those before
    operations: usize,
    operations_before: usize,
    // what those before did
    counts: Counts,
    losses: Losses,
    // items that memory had when it was cleared
    cleared: u64,
}

impl Generations {
    pub fn new(engine: Engine) -> Generations {
        Generations {
            number: engine.number(),
            engine: Masked::new(engine),
            is_there: true,
            calls_before: 0,
            jobs_before: 0,
            tickets_before: 0,
            jobs: 0,
            operations: 0,
            operations_before: 0,
            counts: Counts::default(),
            losses: Losses::default(),
            cleared: 0,
        }
    }

    /// Puts an empty engine in the place of this one, or none, and answers this one, which had items in so many pools.
    pub fn renew(&mut self, engine: Option<Engine>, pools: u8) -> Engine {
        self.counts += self.engine.counts();
        self.losses += self.engine.losses();
        self.cleared += self.engine.items(pools);
        self.calls_before = self.calls_before.saturating_add(self.engine.calls()).saturating_add(1);
        let last_ticket = self.engine.ticket().map_or(0, |ticket| ticket.number);
        self.tickets_before = self.tickets_before.saturating_add(last_ticket).saturating_add(1);
        self.jobs_before = self.jobs_before.saturating_add(std::mem::take(&mut self.jobs));
        self.operations_before += std::mem::take(&mut self.operations);
        self.is_there = engine.is_some();
        std::mem::replace(&mut self.engine, Masked::new(engine.unwrap_or_else(Engine::none))).into_engine()
    }

    /// The same of an engine that was kept, with the pad that its keys have.
    pub fn resumed(engine: Engine, pad: Pad) -> Generations {
        Generations { number: engine.number(), engine: Masked::with(engine, pad), ..Generations::new(Engine::none()) }
    }

    /// Takes the engine out, with the pad that its keys have. What was done is still counted.
    pub fn take(&mut self) -> (Engine, Pad) {
        self.counts += self.engine.counts();
        self.losses += self.engine.losses();
        self.is_there = false;
        let pad = self.engine.pad().clone();
        (std::mem::replace(&mut self.engine, Masked::new(Engine::none())).into_engine(), pad)
    }

    /// Whether there is an engine, and no operation is under way.
    pub fn rests(&self) -> bool {
        self.is_there && self.operations == 0 && self.operations_before == 0
    }

    /// Whether there is an engine.
    #[inline]
    pub fn is_there(&self) -> bool {
        self.is_there
    }

    /// Puts an engine where there is none.
    pub fn fill(&mut self, engine: Engine) {
        self.engine = Masked::new(engine);
        self.is_there = true;
    }

    /// The shard's number, which no other cache of the process has.
    pub fn number(&self) -> u64 {
        self.number
    }

    /// The number of a ticket, which no other of the shard has. One of an engine before has a number of before.
    pub fn number_of(&self, ticket: Ticket) -> u64 {
        match ticket.cache == self.engine.number() {
            true => self.tickets_before.saturating_add(ticket.number),
            false => 0,
        }
    }

    /// The ticket with this number. None: it is of an engine before.
    pub fn ticket_of(&self, number: u64) -> Option<Ticket> {
        let number = number.checked_sub(self.tickets_before)?;
        Some(Ticket { cache: self.engine.number(), number })
    }

    /// The engine of now, for what tells no number of a call or a job.
    #[inline]
    pub fn now(&mut self) -> &mut Masked {
        &mut self.engine
    }

    pub fn add(&mut self, pool: u8, key: &[u8], value: &[u8], ttl: u32) -> Result<Added, Refused> {
        Ok(match self.engine.add(pool, key, value, ttl)? {
            Added::Waits(call) => Added::Waits(call + self.calls_before),
            Added::Stored => Added::Stored,
        })
    }

    #[inline]
    pub fn get(&mut self, key: &[u8]) -> Result<Found, Refused> {
        Ok(match self.engine.get(key)? {
            Found::Waits(call) => Found::Waits(call + self.calls_before),
            found => found,
        })
    }

    #[inline]
    pub fn get_into(&mut self, key: &[u8], out: &mut [u8]) -> Result<Copied, Refused> {
        Ok(match self.engine.get_into(key, out)? {
            Copied::Waits(call) => Copied::Waits(call + self.calls_before),
            copied => copied,
        })
    }

    pub fn take_reply(&mut self, call: u64) -> Result<Reply, Refused> {
        match call.checked_sub(self.calls_before) {
            Some(call) => self.engine.take_reply(call),
            None => Err(Refused::UNKNOWN_CALL),
        }
    }

    pub fn next_reply(&mut self) -> Option<u64> {
        self.engine.next_reply().map(|call| call + self.calls_before)
    }

    /// What was done so far, by those before too.
    pub fn counts(&mut self) -> Counts {
        let mut counts = self.counts;
        counts += self.engine.counts();
        counts
    }

    /// How many losses came of each reason, of those before too.
    pub fn losses(&mut self) -> Losses {
        let mut losses = self.losses;
        losses += self.engine.losses();
        losses
    }

    /// How many items memory had when it was cleared, all together.
    pub fn cleared(&self) -> u64 {
        self.cleared
    }

    // Whether the engine may write: there is one, and no operation of those before is under way.
    fn may_write(&self) -> bool {
        self.is_there && self.operations_before == 0
    }

    pub fn writer_take(&mut self) -> Result<Take, Refused> {
        if !self.may_write() {
            return Ok(Take::Idle);
        }
        let take = self.engine.writer_take();
        self.taken(take)
    }

    pub fn reclaim(&mut self) -> Result<bool, Refused> {
        if !self.may_write() {
            return Ok(false);
        }
        self.engine.reclaim()
    }

    /// Whether a writer finds something to do now.
    pub fn writer_has_work(&mut self) -> Result<bool, Refused> {
        if !self.may_write() {
            return Ok(false);
        }
        self.engine.writer_has_work()
    }

    /// Whether a writer has something to do, maybe later.
    pub fn is_to_be_written(&mut self) -> bool {
        self.is_there && self.engine.writer_has_work() != Ok(false)
    }

    pub fn filler_take(&mut self) -> Result<Take, Refused> {
        if !self.is_there {
            return Ok(Take::Idle);
        }
        let take = self.engine.filler_take();
        self.taken(take)
    }

    pub fn filler_has_work(&mut self) -> Result<bool, Refused> {
        if !self.is_there {
            return Ok(false);
        }
        self.engine.filler_has_work()
    }

    /// What came of an operation. Of an engine before nobody wants to know it any more.
    pub fn finish(&mut self, job: u64, came: &mut Came) -> Result<Take, Refused> {
        let Some(job) = job.checked_sub(self.jobs_before) else {
            self.operations_before = self.operations_before.saturating_sub(1);
            return Ok(Take::Finished);
        };
        let next = self.engine.finish(job, came);
        if !matches!(next, Err(Refused::NO_MEMORY)) {
            self.operations = self.operations.saturating_sub(1);
        }
        self.taken(next)
    }

    /// Whether the job is of this engine.
    pub fn is_of_now(&self, job: u64) -> bool {
        job >= self.jobs_before
    }

    /// The operation for which the job waits. One of an engine before waits for none.
    pub fn operation(&mut self, job: u64) -> Result<Operation, Refused> {
        match job.checked_sub(self.jobs_before) {
            Some(job) => self.engine.operation(job),
            None => Err(Refused::UNKNOWN_JOB),
        }
    }

    // Counts the operation that is taken, and tells its job by a number of the shard's.
    fn taken(&mut self, take: Result<Take, Refused>) -> Result<Take, Refused> {
        let mut numbered = |job: u64| {
            self.operations += 1;
            self.jobs = self.jobs.max(job + 1);
            job + self.jobs_before
        };
        Ok(match take? {
            Take::Work(job, operation) => Take::Work(numbered(job), operation),
            Take::Untold(job) => Take::Untold(numbered(job)),
            other => other,
        })
    }
}

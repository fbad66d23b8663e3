//! The database and its calls.
use crate::declarations::{Declarations, ItemId, JobId, TxId};
use crate::errors::{
    open_error, BoundError, NotOfTheSet, OpenError, OutOfMemory, PlanError, NOT_ADMITTED, NO_ITEM,
};
use crate::ffi;
use crate::replies::{
    entry_of, idle_of, job_of, operation_of, planned_of, reply_of, Entry, IdleReply, Op, StepReply,
};

// A drain hands over no more entries at once.
const PLACES: usize = 64;

// No job is pending, or the item has no age bound.
const NOTHING: u32 = 6;

/// A database. Over an admitted set no job of it is late. It may go to another thread, and is used by one at a time. It closes
/// itself. No call but `open`, `open_trial` and `margin` takes memory, and none waits.
pub struct Database {
    handle: ffi::Handle,
    // Entries that were drained and not handed out yet.
    drained: Box<[ffi::Entry; PLACES]>,
    next: usize,
    end: usize,
}

/// An item's installed value.
#[derive(Clone, Copy, PartialEq, Eq, Debug)]
pub struct Stored {
    /// The value.
    pub value: i64,
    /// Its stamp, a tick.
    pub stamp: u64,
}

/// How far the steps of all transactions may grow.
#[derive(Clone, Copy, PartialEq, Eq, Debug)]
pub struct Margin {
    /// The greatest percentage of its steps, 0 to 1000, at which the set is admitted.
    pub percent: u32,
    /// Why it is not admitted at the next one; None where that is above 1000.
    pub barrier: Option<OpenError>,
}

impl Database {
    /// Compiles and admits the declarations, and opens a database over them at tick 0, whose journal keeps so many entries at
    /// most.
    ///
    /// # Errors
    ///
    /// The first rule that the declarations break, or want of memory.
    pub fn open(declarations: &Declarations, room: usize) -> Result<Database, OpenError> {
        Database::over(declarations, room, true)
    }

    /// Opens a database over declarations that need not be admitted: its jobs may be late, what they read may be too old, and
    /// it has no bounds.
    ///
    /// # Errors
    ///
    /// The first rule that the declarations break, or want of memory.
    pub fn open_trial(declarations: &Declarations, room: usize) -> Result<Database, OpenError> {
        Database::over(declarations, room, false)
    }

    fn over(
        declarations: &Declarations,
        room: usize,
        admitted: bool,
    ) -> Result<Database, OpenError> {
        match ffi::Handle::open(&declarations.tables(), room, admitted) {
            Ok(handle) => Ok(Database {
                handle,
                drained: Box::new([ffi::Entry::default(); PLACES]),
                next: 0,
                end: 0,
            }),
            Err((status, refusal)) => Err(open_error(status, refusal)),
        }
    }

    /// Plans the transaction's next job for a tick.
    ///
    /// # Errors
    ///
    /// Why it is not planned; then all is as it was.
    pub fn plan(&mut self, tx: TxId, tick: u64) -> Result<JobId, PlanError> {
        let answer = self.handle.plan(tx.0, tick).map_err(not_of_the_set)?;
        Ok(planned_of(answer)?)
    }

    /// Plans the transaction's next job for the earliest tick that may be, and answers that tick too.
    ///
    /// # Errors
    ///
    /// Why it is not planned; then all is as it was.
    pub fn plan_next(&mut self, tx: TxId) -> Result<(JobId, u64), PlanError> {
        let answer = self.handle.plan_next(tx.0).map_err(not_of_the_set)?;
        Ok((planned_of(answer)?, answer.tick))
    }

    /// How many releases are planned and did not take place yet.
    #[must_use]
    pub fn planned(&self) -> usize {
        self.handle.planned()
    }

    /// With nothing pending the time goes on to the next planned release.
    pub fn idle(&mut self) -> IdleReply {
        idle_of(self.handle.idle())
    }

    /// A job asks for an operation. A granted one takes a tick.
    ///
    /// # Errors
    ///
    /// The job is of no transaction of the set.
    pub fn step(&mut self, job: JobId, op: Op) -> Result<StepReply, NotOfTheSet> {
        let job = ffi::Job {
            transaction: job.tx.0,
            serial: job.serial,
        };
        let answer = self.handle.step(job, operation_of(op));
        answer.map(reply_of).map_err(not_of_the_set)
    }

    /// The job whose turn it is; None exactly where none is pending.
    #[must_use]
    pub fn running(&self) -> Option<JobId> {
        self.handle.running().ok().map(job_of)
    }

    /// The transaction's pending job, if there is one.
    ///
    /// # Errors
    ///
    /// The number names no transaction of the set.
    pub fn pending(&self, tx: TxId) -> Result<Option<JobId>, NotOfTheSet> {
        let job = some_or_nothing(self.handle.pending(tx.0)).map_err(not_of_the_set)?;
        Ok(job.map(job_of))
    }

    /// How many jobs of the transaction have ended.
    ///
    /// # Errors
    ///
    /// The number names no transaction of the set.
    pub fn ended(&self, tx: TxId) -> Result<u32, NotOfTheSet> {
        self.handle.ended(tx.0).map_err(not_of_the_set)
    }

    /// Each job of the transaction ends at most so many ticks after its release.
    ///
    /// # Errors
    ///
    /// The set is not admitted, or the number names no transaction of it.
    pub fn response(&self, tx: TxId) -> Result<u64, BoundError> {
        self.handle.response(tx.0).map_err(bound_error)
    }

    /// One job of a lower transaction delays a job of the transaction, by at most so many ticks.
    ///
    /// # Errors
    ///
    /// The set is not admitted, or the number names no transaction of it.
    pub fn blocking(&self, tx: TxId) -> Result<u64, BoundError> {
        self.handle.blocking(tx.0).map_err(bound_error)
    }

    /// The age bound of an item in ticks; None of a state item.
    ///
    /// # Errors
    ///
    /// The set is not admitted, or the number names no item of it.
    pub fn age(&self, item: ItemId) -> Result<Option<u64>, BoundError> {
        some_or_nothing(self.handle.age(item.0)).map_err(bound_error)
    }

    /// How far the steps of all transactions may grow, of a set that was not admitted too. It takes memory and gives it back.
    ///
    /// # Errors
    ///
    /// Want of memory.
    pub fn margin(&self) -> Result<Margin, OutOfMemory> {
        let answer = self.handle.margin().map_err(|_| OutOfMemory)?;
        let barrier = match answer.barrier {
            0 => None,
            status => Some(open_error(status, answer.refusal)),
        };
        Ok(Margin {
            percent: answer.percent,
            barrier,
        })
    }

    /// An item's installed value and stamp.
    ///
    /// # Errors
    ///
    /// The number names no item of the set.
    pub fn peek(&self, item: ItemId) -> Result<Stored, NotOfTheSet> {
        match self.handle.peek(item.0) {
            Ok(stored) => Ok(Stored {
                value: stored.value,
                stamp: stored.stamp,
            }),
            Err(status) => Err(not_of_the_set(status)),
        }
    }

    /// The present tick.
    #[must_use]
    pub fn now(&self) -> u64 {
        self.handle.now()
    }

    /// The oldest entries of the journal, which makes room there, until none is left. Those that the iterator has not handed
    /// out when it is dropped come first at the next call.
    pub fn drain(&mut self) -> Drain<'_> {
        Drain { database: self }
    }

    /// How many entries were not handed out yet, and how many were.
    #[must_use]
    pub fn kept(&self) -> (usize, u64) {
        let (kept, drained) = self.handle.kept();
        let waiting = self.end - self.next;
        (kept + waiting, drained - waiting as u64)
    }
}

/// The entries of a journal, the oldest first.
pub struct Drain<'a> {
    database: &'a mut Database,
}

impl Iterator for Drain<'_> {
    type Item = Entry;

    fn next(&mut self) -> Option<Entry> {
        let database = &mut *self.database;
        if database.next == database.end {
            database.next = 0;
            database.end = database.handle.drain(&mut database.drained[..]);
        }
        let entry = database.drained[..database.end].get(database.next)?;
        database.next += 1;
        Some(entry_of(*entry))
    }
}

// The other statuses do not come: the handle is open, and each operation has its number.
pub(crate) fn not_of_the_set(status: u32) -> NotOfTheSet {
    match status {
        NO_ITEM => NotOfTheSet::Item,
        _ => NotOfTheSet::Transaction,
    }
}

fn bound_error(status: u32) -> BoundError {
    match status {
        NOT_ADMITTED => BoundError::NotAdmitted,
        status => BoundError::NotOfTheSet(not_of_the_set(status)),
    }
}

fn some_or_nothing<T>(answer: Result<T, u32>) -> Result<Option<T>, u32> {
    match answer {
        Ok(value) => Ok(Some(value)),
        Err(NOTHING) => Ok(None),
        Err(status) => Err(status),
    }
}

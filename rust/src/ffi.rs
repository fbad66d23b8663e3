//! The records and functions of rtdb.h, and a handle whose methods are safe. All `unsafe` of the crate stands here and in the
//! file of the seats below.
use std::cell::UnsafeCell;
use std::ffi::{c_char, c_void};
use std::ptr::null_mut;

pub(crate) mod seats;

// A handle as C has it: null while it is closed.
#[repr(C)]
struct Raw {
    at: *mut c_void,
}

#[repr(C)]
#[derive(Clone, Copy)]
pub(crate) struct Item {
    pub(crate) kind: u32,
    pub(crate) validity: u64,
    pub(crate) initial: i64,
}

#[repr(C)]
#[derive(Clone, Copy)]
pub(crate) struct Transaction {
    pub(crate) priority: u32,
    pub(crate) reads_at: u32,
    pub(crate) reads: u32,
    pub(crate) writes_at: u32,
    pub(crate) writes: u32,
    pub(crate) period: u64,
    pub(crate) offset: u64,
    pub(crate) deadline: u64,
    pub(crate) steps: u64,
    pub(crate) quiet: u64,
}

#[repr(C)]
#[derive(Clone, Copy)]
pub(crate) struct Together {
    pub(crate) items_at: u32,
    pub(crate) items: u32,
    pub(crate) within: u64,
}

// The tables of a set as C has them, each a pointer and a count.
#[repr(C)]
struct RawTables {
    items: *const Item,
    item_count: usize,
    transactions: *const Transaction,
    transaction_count: usize,
    together: *const Together,
    together_count: usize,
    ids: *const u32,
    id_count: usize,
}

#[repr(C)]
#[derive(Clone, Copy, Default)]
pub(crate) struct Refusal {
    pub(crate) rule: u32,
    pub(crate) which: u32,
    pub(crate) a: u64,
    pub(crate) b: u64,
    pub(crate) c: u64,
}

#[repr(C)]
#[derive(Clone, Copy, Default)]
pub(crate) struct Job {
    pub(crate) transaction: u32,
    pub(crate) serial: u32,
}

#[repr(C)]
#[derive(Clone, Copy, Default)]
pub(crate) struct Time {
    pub(crate) reply: u32,
    pub(crate) job: Job,
    pub(crate) tick: u64,
    pub(crate) count: u64,
}

#[repr(C)]
#[derive(Clone, Copy)]
pub(crate) struct Operation {
    pub(crate) operation: u32,
    pub(crate) item: u32,
    pub(crate) value: i64,
}

#[repr(C)]
#[derive(Clone, Copy, Default)]
pub(crate) struct End {
    pub(crate) kind: u32,
    pub(crate) item: u32,
    pub(crate) other: u32,
    pub(crate) stamp: u64,
}

#[repr(C)]
#[derive(Clone, Copy, Default)]
pub(crate) struct StepAnswer {
    pub(crate) reply: u32,
    pub(crate) outcome: u32,
    pub(crate) job: Job,
    pub(crate) item: u32,
    pub(crate) ceiling: u32,
    pub(crate) count: u64,
    pub(crate) value: i64,
    pub(crate) stamp: u64,
    pub(crate) has_stamp: u32,
    pub(crate) over: End,
}

#[repr(C)]
#[derive(Clone, Copy, Default)]
pub(crate) struct Stored {
    pub(crate) value: i64,
    pub(crate) stamp: u64,
}

#[repr(C)]
#[derive(Clone, Copy, Default)]
pub(crate) struct Entry {
    pub(crate) kind: u32,
    pub(crate) operation: u32,
    pub(crate) job: Job,
    pub(crate) item: u32,
    pub(crate) value: i64,
    pub(crate) tick: u64,
    pub(crate) to: u64,
    pub(crate) answer: StepAnswer,
}

#[repr(C)]
#[derive(Clone, Copy, Default)]
pub(crate) struct Margin {
    pub(crate) percent: u32,
    pub(crate) barrier: u32,
    pub(crate) refusal: Refusal,
}

extern "C" {
    fn rtdb_open(db: *mut Raw, tables: *const RawTables, room: usize, refusal: *mut Refusal)
        -> u32;
    fn rtdb_open_trial(
        db: *mut Raw,
        tables: *const RawTables,
        room: usize,
        refusal: *mut Refusal,
    ) -> u32;
    fn rtdb_close(db: *mut Raw) -> u32;
    fn rtdb_plan(db: *mut Raw, transaction: u32, tick: u64, answer: *mut Time) -> u32;
    fn rtdb_plan_next(db: *mut Raw, transaction: u32, answer: *mut Time) -> u32;
    fn rtdb_pending(db: *mut Raw, transaction: u32, job: *mut Job) -> u32;
    fn rtdb_ended(db: *mut Raw, transaction: u32, count: *mut u32) -> u32;
    fn rtdb_response(db: *mut Raw, transaction: u32, ticks: *mut u64) -> u32;
    fn rtdb_blocking(db: *mut Raw, transaction: u32, ticks: *mut u64) -> u32;
    fn rtdb_age(db: *mut Raw, item: u32, ticks: *mut u64) -> u32;
    fn rtdb_margin(db: *mut Raw, answer: *mut Margin) -> u32;
    fn rtdb_text(status: u32, refusal: *const Refusal, into: *mut c_char, places: usize) -> usize;
    fn rtdb_drain(db: *mut Raw, into: *mut Entry, places: usize, moved: *mut usize) -> u32;
    fn rtdb_kept(db: *mut Raw, kept: *mut usize, drained: *mut u64) -> u32;
    fn rtdb_idle(db: *mut Raw, answer: *mut Time) -> u32;
    fn rtdb_step(db: *mut Raw, job: Job, operation: Operation, answer: *mut StepAnswer) -> u32;
    fn rtdb_running(db: *mut Raw, job: *mut Job) -> u32;
    fn rtdb_peek(db: *mut Raw, item: u32, stored: *mut Stored) -> u32;
    fn rtdb_now(db: *mut Raw, tick: *mut u64) -> u32;
    fn rtdb_planned(db: *mut Raw, count: *mut usize) -> u32;
    fn rtdb_log_open(
        log: *mut RawLog,
        text: *const u8,
        text_length: usize,
        file: *const u8,
        file_length: usize,
        room: usize,
        refusal: *mut Refusal,
    ) -> u32;
    fn rtdb_log_close(log: *mut RawLog) -> u32;
    fn rtdb_log_count(log: *mut RawLog, count: *mut u64) -> u32;
    fn rtdb_log_entry(log: *mut RawLog, place: usize, entry: *mut Entry) -> u32;
    fn rtdb_log_append(log: *mut RawLog, entries: *const Entry, count: usize) -> u32;
    fn rtdb_log_call(log: *mut RawLog, call: *mut Call, bytes: *mut u8, places: usize) -> u32;
    fn rtdb_log_answer(log: *mut RawLog, made: u32) -> u32;
}

/// A handle that closes itself. It is not `Sync`, so the calls by a shared reference come one after the other.
pub(crate) struct Handle(UnsafeCell<Raw>);

// SAFETY: it is proved of the handle's type that it may go to another thread.
unsafe impl Send for Handle {}

/// The tables of a set.
pub(crate) struct Tables<'a> {
    pub(crate) items: &'a [Item],
    pub(crate) transactions: &'a [Transaction],
    pub(crate) together: &'a [Together],
    pub(crate) ids: &'a [u32],
}

impl Tables<'_> {
    // It points to these tables.
    fn raw(&self) -> RawTables {
        RawTables {
            items: self.items.as_ptr(),
            item_count: self.items.len(),
            transactions: self.transactions.as_ptr(),
            transaction_count: self.transactions.len(),
            together: self.together.as_ptr(),
            together_count: self.together.len(),
            ids: self.ids.as_ptr(),
            id_count: self.ids.len(),
        }
    }
}

// In each call the handle is this one's own, no other call uses it, since it is not `Sync`, and each answer is a local that has
// a value. An empty slice has a pointer that is not null.
impl Handle {
    /// Opens a database over the tables, over a set that is admitted or over one that need not be.
    pub(crate) fn open(
        tables: &Tables,
        room: usize,
        admitted: bool,
    ) -> Result<Handle, (u32, Refusal)> {
        let mut raw = Raw { at: null_mut() };
        let mut refusal = Refusal::default();
        let open = if admitted { rtdb_open } else { rtdb_open_trial };
        // SAFETY: each pointer and count of the tables is that of a slice, and the others are of locals.
        let status = unsafe { open(&mut raw, &tables.raw(), room, &mut refusal) };
        match status {
            0 => Ok(Handle(UnsafeCell::new(raw))),
            _ => Err((status, refusal)),
        }
    }

    pub(crate) fn plan(&mut self, transaction: u32, tick: u64) -> Result<Time, u32> {
        let mut answer = Time::default();
        // SAFETY: as above.
        told(
            unsafe { rtdb_plan(self.0.get(), transaction, tick, &mut answer) },
            answer,
        )
    }

    pub(crate) fn plan_next(&mut self, transaction: u32) -> Result<Time, u32> {
        let mut answer = Time::default();
        // SAFETY: as above.
        told(
            unsafe { rtdb_plan_next(self.0.get(), transaction, &mut answer) },
            answer,
        )
    }

    pub(crate) fn idle(&mut self) -> Time {
        let mut answer = Time::default();
        // SAFETY: as above. The handle is open, so the status is 0.
        unsafe { rtdb_idle(self.0.get(), &mut answer) };
        answer
    }

    pub(crate) fn planned(&self) -> usize {
        let mut count = 0;
        // SAFETY: as above.
        unsafe { rtdb_planned(self.0.get(), &mut count) };
        count
    }

    pub(crate) fn step(&mut self, job: Job, operation: Operation) -> Result<StepAnswer, u32> {
        let mut answer = StepAnswer::default();
        // SAFETY: as above.
        told(
            unsafe { rtdb_step(self.0.get(), job, operation, &mut answer) },
            answer,
        )
    }

    pub(crate) fn running(&self) -> Result<Job, u32> {
        let mut job = Job::default();
        // SAFETY: as above.
        told(unsafe { rtdb_running(self.0.get(), &mut job) }, job)
    }

    pub(crate) fn pending(&self, transaction: u32) -> Result<Job, u32> {
        let mut job = Job::default();
        // SAFETY: as above.
        told(
            unsafe { rtdb_pending(self.0.get(), transaction, &mut job) },
            job,
        )
    }

    pub(crate) fn ended(&self, transaction: u32) -> Result<u32, u32> {
        let mut count = 0;
        // SAFETY: as above.
        told(
            unsafe { rtdb_ended(self.0.get(), transaction, &mut count) },
            count,
        )
    }

    pub(crate) fn response(&self, transaction: u32) -> Result<u64, u32> {
        let mut ticks = 0;
        // SAFETY: as above.
        told(
            unsafe { rtdb_response(self.0.get(), transaction, &mut ticks) },
            ticks,
        )
    }

    pub(crate) fn blocking(&self, transaction: u32) -> Result<u64, u32> {
        let mut ticks = 0;
        // SAFETY: as above.
        told(
            unsafe { rtdb_blocking(self.0.get(), transaction, &mut ticks) },
            ticks,
        )
    }

    pub(crate) fn age(&self, item: u32) -> Result<u64, u32> {
        let mut ticks = 0;
        // SAFETY: as above.
        told(unsafe { rtdb_age(self.0.get(), item, &mut ticks) }, ticks)
    }

    pub(crate) fn margin(&self) -> Result<Margin, u32> {
        let mut answer = Margin::default();
        // SAFETY: as above.
        told(unsafe { rtdb_margin(self.0.get(), &mut answer) }, answer)
    }

    pub(crate) fn peek(&self, item: u32) -> Result<Stored, u32> {
        let mut stored = Stored::default();
        // SAFETY: as above.
        told(
            unsafe { rtdb_peek(self.0.get(), item, &mut stored) },
            stored,
        )
    }

    pub(crate) fn now(&self) -> u64 {
        let mut tick = 0;
        // SAFETY: as above.
        unsafe { rtdb_now(self.0.get(), &mut tick) };
        tick
    }

    /// Moves the oldest entries to the head of the slice, and answers how many.
    pub(crate) fn drain(&mut self, into: &mut [Entry]) -> usize {
        let mut moved = 0;
        // SAFETY: as above; the pointer and the count are those of a slice.
        unsafe { rtdb_drain(self.0.get(), into.as_mut_ptr(), into.len(), &mut moved) };
        moved
    }

    pub(crate) fn kept(&self) -> (usize, u64) {
        let (mut kept, mut drained) = (0, 0);
        // SAFETY: as above.
        unsafe { rtdb_kept(self.0.get(), &mut kept, &mut drained) };
        (kept, drained)
    }
}

impl Drop for Handle {
    fn drop(&mut self) {
        // SAFETY: as above.
        unsafe { rtdb_close(self.0.get()) };
    }
}

// No text has more bytes.
const MOST_TEXT: usize = 96;

/// The words of a status, with the numbers of its refusal.
pub(crate) fn text(status: u32, refusal: &Refusal) -> String {
    let mut words = [0; MOST_TEXT];
    // SAFETY: each pointer is of a local, and so is the count.
    let length = unsafe { rtdb_text(status, refusal, words.as_mut_ptr().cast(), words.len()) };
    String::from_utf8_lossy(&words[..length.min(MOST_TEXT)]).into_owned()
}

/// The answer where the call was made, and else the status.
pub(crate) fn told<T>(status: u32, answer: T) -> Result<T, u32> {
    match status {
        0 => Ok(answer),
        _ => Err(status),
    }
}

// A handle of a log as C has it: null while it is closed.
#[repr(C)]
struct RawLog {
    at: *mut c_void,
}

/// A call of the device.
#[repr(C)]
#[derive(Clone, Copy, Default)]
pub(crate) struct Call {
    pub(crate) kind: u32,
    pub(crate) offset: u64,
    pub(crate) count: u64,
}

/// A handle of a log that closes itself. It is not `Sync`.
pub(crate) struct Log(UnsafeCell<RawLog>);

// SAFETY: it is proved of the handle's type that it may go to another thread.
unsafe impl Send for Log {}

// As of `Handle`.
impl Log {
    pub(crate) fn open(text: &[u8], file: &[u8], room: usize) -> Result<Log, (u32, Refusal)> {
        let mut raw = RawLog { at: null_mut() };
        let mut refusal = Refusal::default();
        // SAFETY: each pointer and count is that of a slice, and the others are of locals.
        let status = unsafe {
            rtdb_log_open(
                &mut raw,
                text.as_ptr(),
                text.len(),
                file.as_ptr(),
                file.len(),
                room,
                &mut refusal,
            )
        };
        match status {
            0 => Ok(Log(UnsafeCell::new(raw))),
            _ => Err((status, refusal)),
        }
    }

    pub(crate) fn count(&self) -> u64 {
        let mut count = 0;
        // SAFETY: as above.
        unsafe { rtdb_log_count(self.0.get(), &mut count) };
        count
    }

    pub(crate) fn entry(&self, place: usize) -> Option<Entry> {
        let mut entry = Entry::default();
        // SAFETY: as above.
        let status = unsafe { rtdb_log_entry(self.0.get(), place, &mut entry) };
        (status == 0).then_some(entry)
    }

    pub(crate) fn append(&mut self, entries: &[Entry]) -> Result<(), u32> {
        // SAFETY: as above; the pointer and the count are those of a slice.
        let status = unsafe { rtdb_log_append(self.0.get(), entries.as_ptr(), entries.len()) };
        told(status, ())
    }

    /// The call that is to be made next, with its bytes at the head of the buffer.
    pub(crate) fn call(&self, bytes: &mut [u8; 256]) -> Option<Call> {
        let mut call = Call::default();
        // SAFETY: as above; the pointer and the count are those of an array.
        let status =
            unsafe { rtdb_log_call(self.0.get(), &mut call, bytes.as_mut_ptr(), bytes.len()) };
        (status == 0).then_some(call)
    }

    pub(crate) fn answer(&mut self, made: bool) {
        // SAFETY: as above.
        unsafe { rtdb_log_answer(self.0.get(), u32::from(made)) };
    }
}

impl Drop for Log {
    fn drop(&mut self) {
        // SAFETY: as above.
        unsafe { rtdb_log_close(self.0.get()) };
    }
}

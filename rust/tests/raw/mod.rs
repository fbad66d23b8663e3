//! The functions of rtdb.h by a handle that may be closed, with any numbers, and the record of each answer: what the call has to
//! leave, whole.
use crate::model::set::Set;
use rtdb::{End, Entry, IdleReply, ItemKind, JobId, Op, Outcome, PlanRefused, StepReply};
use std::ffi::c_void;
use std::ptr::null_mut;

pub const CLOSED: u32 = 1;
pub const OPEN: u32 = 2;
pub const NO_OPERATION: u32 = 3;
pub const NO_TRANSACTION: u32 = 4;
pub const NO_ITEM: u32 = 5;
pub const NOTHING: u32 = 6;
pub const NOT_ADMITTED: u32 = 10;

#[repr(C)]
struct Raw {
    at: *mut c_void,
}

#[repr(C)]
struct Item {
    kind: u32,
    validity: u64,
    initial: i64,
}

#[repr(C)]
struct Transaction {
    priority: u32,
    reads_at: u32,
    reads: u32,
    writes_at: u32,
    writes: u32,
    period: u64,
    offset: u64,
    deadline: u64,
    steps: u64,
    quiet: u64,
}

#[repr(C)]
struct Together {
    items_at: u32,
    items: u32,
    within: u64,
}

#[repr(C)]
struct RawTables {
    items: *const Item,
    item_count: usize,
    transactions: *const Transaction,
    transaction_count: usize,
    together: *const Together,
    together_count: usize,
    ids: *const u32,
    id_count: usize,
}

#[repr(C)]
#[derive(Clone, Copy, PartialEq, Eq, Debug)]
struct Refusal {
    rule: u32,
    which: u32,
    a: u64,
    b: u64,
    c: u64,
}

#[repr(C)]
#[derive(Clone, Copy, PartialEq, Eq, Debug, Default)]
pub struct Job {
    pub transaction: u32,
    pub serial: u32,
}

#[repr(C)]
#[derive(Clone, Copy, PartialEq, Eq, Debug, Default)]
pub struct Time {
    pub reply: u32,
    pub job: Job,
    pub tick: u64,
    pub count: u64,
}

#[repr(C)]
#[derive(Clone, Copy)]
pub struct Operation {
    pub operation: u32,
    pub item: u32,
    pub value: i64,
}

#[repr(C)]
#[derive(Clone, Copy, PartialEq, Eq, Debug, Default)]
pub struct EndRecord {
    pub kind: u32,
    pub item: u32,
    pub other: u32,
    pub stamp: u64,
}

#[repr(C)]
#[derive(Clone, Copy, PartialEq, Eq, Debug, Default)]
pub struct Step {
    pub reply: u32,
    pub outcome: u32,
    pub job: Job,
    pub item: u32,
    pub ceiling: u32,
    pub count: u64,
    pub value: i64,
    pub stamp: u64,
    pub has_stamp: u32,
    pub over: EndRecord,
}

#[repr(C)]
#[derive(Clone, Copy, PartialEq, Eq, Debug, Default)]
pub struct Stored {
    pub value: i64,
    pub stamp: u64,
}

#[repr(C)]
#[derive(Clone, Copy, PartialEq, Eq, Debug, Default)]
pub struct EntryRecord {
    pub kind: u32,
    pub operation: u32,
    pub job: Job,
    pub item: u32,
    pub value: i64,
    pub tick: u64,
    pub to: u64,
    pub answer: Step,
}

type Open = unsafe extern "C" fn(*mut Raw, *const RawTables, usize, *mut Refusal) -> u32;

extern "C" {
    fn rtdb_open(db: *mut Raw, tables: *const RawTables, room: usize, refusal: *mut Refusal)
        -> u32;
    fn rtdb_open_trial(
        db: *mut Raw,
        tables: *const RawTables,
        room: usize,
        refusal: *mut Refusal,
    ) -> u32;
    fn rtdb_close(db: *mut Raw) -> u32;
    fn rtdb_plan(db: *mut Raw, transaction: u32, tick: u64, answer: *mut Time) -> u32;
    fn rtdb_plan_next(db: *mut Raw, transaction: u32, answer: *mut Time) -> u32;
    fn rtdb_idle(db: *mut Raw, answer: *mut Time) -> u32;
    fn rtdb_step(db: *mut Raw, job: Job, operation: Operation, answer: *mut Step) -> u32;
    fn rtdb_running(db: *mut Raw, job: *mut Job) -> u32;
    fn rtdb_pending(db: *mut Raw, transaction: u32, job: *mut Job) -> u32;
    fn rtdb_ended(db: *mut Raw, transaction: u32, count: *mut u32) -> u32;
    fn rtdb_response(db: *mut Raw, transaction: u32, ticks: *mut u64) -> u32;
    fn rtdb_blocking(db: *mut Raw, transaction: u32, ticks: *mut u64) -> u32;
    fn rtdb_age(db: *mut Raw, item: u32, ticks: *mut u64) -> u32;
    fn rtdb_peek(db: *mut Raw, item: u32, stored: *mut Stored) -> u32;
    fn rtdb_now(db: *mut Raw, tick: *mut u64) -> u32;
    fn rtdb_planned(db: *mut Raw, count: *mut usize) -> u32;
    fn rtdb_drain(db: *mut Raw, into: *mut EntryRecord, places: usize, moved: *mut usize) -> u32;
    fn rtdb_kept(db: *mut Raw, kept: *mut usize, drained: *mut u64) -> u32;
}

/// A handle, closed at first.
pub struct Handle(Raw);

// SAFETY of each call: the handle is this one's own, no other call uses it, and each answer is a local that has a value.
impl Handle {
    pub fn closed() -> Handle {
        Handle(Raw { at: null_mut() })
    }

    /// The status; the refusal has to stay as it was where the handle opens or is open.
    pub fn open(&mut self, set: &Set, room: usize, admitted: bool) -> u32 {
        let mut numbers: Vec<u32> = Vec::new();
        let mut list = |items: &[u32]| {
            let at = numbers.len() as u32;
            numbers.extend(items);
            (at, items.len() as u32)
        };
        let items: Vec<Item> = set.items.iter().map(item_row).collect();
        let mut transactions = Vec::new();
        for txn in &set.txns {
            let (reads_at, reads) = list(&txn.reads);
            let (writes_at, writes) = list(&txn.writes);
            transactions.push(Transaction {
                priority: txn.times.priority,
                reads_at,
                reads,
                writes_at,
                writes,
                period: txn.times.period,
                offset: txn.times.offset,
                deadline: txn.times.deadline,
                steps: txn.times.steps,
                quiet: txn.times.quiet,
            });
        }
        let mut together = Vec::new();
        for group in &set.together {
            let (items_at, items) = list(&group.items);
            let within = group.within;
            together.push(Together {
                items_at,
                items,
                within,
            });
        }
        let before = Refusal {
            rule: 77,
            which: 77,
            a: 77,
            b: 77,
            c: 77,
        };
        let mut refusal = before;
        let open: Open = if admitted { rtdb_open } else { rtdb_open_trial };
        let tables = RawTables {
            items: items.as_ptr(),
            item_count: items.len(),
            transactions: transactions.as_ptr(),
            transaction_count: transactions.len(),
            together: together.as_ptr(),
            together_count: together.len(),
            ids: numbers.as_ptr(),
            id_count: numbers.len(),
        };
        let status = unsafe { open(&mut self.0, &tables, room, &mut refusal) };
        assert_eq!(refusal == before, status == 0 || status == OPEN);
        status
    }

    pub fn close(&mut self) -> u32 {
        unsafe { rtdb_close(&mut self.0) }
    }

    pub fn plan(&mut self, tx: u32, tick: u64, answer: &mut Time) -> u32 {
        unsafe { rtdb_plan(&mut self.0, tx, tick, answer) }
    }

    pub fn plan_next(&mut self, tx: u32, answer: &mut Time) -> u32 {
        unsafe { rtdb_plan_next(&mut self.0, tx, answer) }
    }

    pub fn idle(&mut self, answer: &mut Time) -> u32 {
        unsafe { rtdb_idle(&mut self.0, answer) }
    }

    pub fn step(&mut self, job: Job, operation: Operation, answer: &mut Step) -> u32 {
        unsafe { rtdb_step(&mut self.0, job, operation, answer) }
    }

    pub fn running(&mut self, job: &mut Job) -> u32 {
        unsafe { rtdb_running(&mut self.0, job) }
    }

    pub fn pending(&mut self, tx: u32, job: &mut Job) -> u32 {
        unsafe { rtdb_pending(&mut self.0, tx, job) }
    }

    pub fn ended(&mut self, tx: u32, count: &mut u32) -> u32 {
        unsafe { rtdb_ended(&mut self.0, tx, count) }
    }

    pub fn response(&mut self, tx: u32, ticks: &mut u64) -> u32 {
        unsafe { rtdb_response(&mut self.0, tx, ticks) }
    }

    pub fn blocking(&mut self, tx: u32, ticks: &mut u64) -> u32 {
        unsafe { rtdb_blocking(&mut self.0, tx, ticks) }
    }

    pub fn age(&mut self, item: u32, ticks: &mut u64) -> u32 {
        unsafe { rtdb_age(&mut self.0, item, ticks) }
    }

    pub fn peek(&mut self, item: u32, stored: &mut Stored) -> u32 {
        unsafe { rtdb_peek(&mut self.0, item, stored) }
    }

    pub fn now(&mut self, tick: &mut u64) -> u32 {
        unsafe { rtdb_now(&mut self.0, tick) }
    }

    pub fn planned(&mut self, count: &mut usize) -> u32 {
        unsafe { rtdb_planned(&mut self.0, count) }
    }

    pub fn drain(&mut self, into: &mut [EntryRecord], moved: &mut usize) -> u32 {
        unsafe { rtdb_drain(&mut self.0, into.as_mut_ptr(), into.len(), moved) }
    }

    pub fn kept(&mut self, kept: &mut usize, drained: &mut u64) -> u32 {
        unsafe { rtdb_kept(&mut self.0, kept, drained) }
    }
}

impl Drop for Handle {
    fn drop(&mut self) {
        self.close();
    }
}

fn item_row(item: &(ItemKind, i64)) -> Item {
    let (kind, validity) = match item.0 {
        ItemKind::Sensor { validity } => (0, validity),
        ItemKind::Derived { validity } => (1, validity),
        ItemKind::State => (2, 77),
    };
    Item {
        kind,
        validity,
        initial: item.1,
    }
}

pub fn job_record(job: JobId) -> Job {
    Job {
        transaction: job.tx.0,
        serial: job.serial,
    }
}

/// An operation of this number, with no item and no value.
pub fn numbered(operation: u32) -> Operation {
    Operation {
        operation,
        item: 0,
        value: 0,
    }
}

/// The operation as its three numbers.
pub fn operation_record(op: Op) -> Operation {
    let (operation, item, value) = match op {
        Op::Read(item) => (0, item.0, 0),
        Op::Write(item, value) => (1, item.0, value),
        Op::Compute => (2, 0, 0),
        Op::Commit => (3, 0, 0),
        Op::Quit => (4, 0, 0),
    };
    Operation {
        operation,
        item,
        value,
    }
}

pub fn plan_record(tick: u64, reply: Result<JobId, PlanRefused>) -> Time {
    let none = Time::default();
    let (reply, tick, count) = match reply {
        Ok(job) => {
            return Time {
                job: job_record(job),
                tick,
                ..none
            }
        }
        Err(PlanRefused::Past { now }) => (1, now, 0),
        Err(PlanRefused::TooSoon { earliest }) => (2, earliest, 0),
        Err(PlanRefused::TooFar { limit }) => (3, limit, 0),
        Err(PlanRefused::CalendarFull { room }) => (4, 0, room),
        Err(PlanRefused::NoSerial { planned }) => (5, 0, planned),
        Err(PlanRefused::Full { room }) => (6, 0, room),
    };
    Time {
        reply,
        tick,
        count,
        ..none
    }
}

pub fn idle_record(reply: IdleReply) -> Time {
    let none = Time::default();
    match reply {
        IdleReply::Advanced { to } => Time { tick: to, ..none },
        IdleReply::NotIdle { running } => Time {
            reply: 7,
            job: job_record(running),
            ..none
        },
        IdleReply::Nothing => Time { reply: 8, ..none },
        IdleReply::Full { room } => Time {
            reply: 6,
            count: room,
            ..none
        },
    }
}

fn end_record(end: Option<End>) -> EndRecord {
    let none = EndRecord::default();
    let kind = match end {
        None => return none,
        Some(End::Committed) => 1,
        Some(End::Overrun) => 2,
        Some(End::Late) => 3,
        Some(End::Stale { item, stamp }) => {
            return EndRecord {
                kind: 4,
                item: item.0,
                stamp,
                ..none
            }
        }
        Some(End::Apart { a, b }) => {
            return EndRecord {
                kind: 5,
                item: a.0,
                other: b.0,
                ..none
            }
        }
        Some(End::Quit) => 6,
    };
    EndRecord { kind, ..none }
}

fn done_record(outcome: Outcome, over: Option<End>) -> Step {
    let done = Step {
        over: end_record(over),
        ..Step::default()
    };
    match outcome {
        Outcome::Got { value, stamp } => Step {
            value,
            stamp: stamp.unwrap_or(0),
            has_stamp: u32::from(stamp.is_some()),
            ..done
        },
        Outcome::Put => Step { outcome: 1, ..done },
        Outcome::Computed => Step { outcome: 2, ..done },
        Outcome::Closed => Step { outcome: 3, ..done },
    }
}

pub fn step_record(reply: StepReply) -> Step {
    let bare = |reply| Step {
        reply,
        ..Step::default()
    };
    match reply {
        StepReply::Done { outcome, over } => done_record(outcome, over),
        StepReply::Blocked { by, ceiling } => Step {
            job: job_record(by),
            ceiling,
            ..bare(1)
        },
        StepReply::NoJob { ended, last } => Step {
            count: u64::from(ended),
            over: end_record(last),
            ..bare(2)
        },
        StepReply::NotYet { running } => Step {
            job: job_record(running),
            ..bare(3)
        },
        StepReply::Undeclared { item } => Step {
            item: item.0,
            ..bare(4)
        },
        StepReply::TooEarly { left } => Step {
            count: left,
            ..bare(5)
        },
        StepReply::Unwritten { item } => Step {
            item: item.0,
            ..bare(6)
        },
        StepReply::Full { room } => Step {
            count: room,
            ..bare(7)
        },
    }
}

pub fn entry_record(entry: Entry) -> EntryRecord {
    let asked = |kind, job, op, tick, answer| {
        let Operation {
            operation,
            item,
            value,
        } = operation_record(op);
        EntryRecord {
            kind,
            operation,
            job: job_record(job),
            item,
            value,
            tick,
            to: 0,
            answer,
        }
    };
    match entry {
        Entry::Planned { tx, tick } => EntryRecord {
            job: Job {
                transaction: tx.0,
                serial: 0,
            },
            tick,
            ..EntryRecord::default()
        },
        Entry::Step {
            job,
            op,
            outcome,
            over,
            tick,
        } => asked(1, job, op, tick, done_record(outcome, over)),
        Entry::Blocked {
            job,
            op,
            by,
            ceiling,
            tick,
        } => asked(
            2,
            job,
            op,
            tick,
            step_record(StepReply::Blocked { by, ceiling }),
        ),
        Entry::Idle { from, to } => EntryRecord {
            kind: 3,
            tick: from,
            to,
            ..EntryRecord::default()
        },
    }
}

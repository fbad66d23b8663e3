//! What a job asks for, what it is told, and the entries of the history.
use crate::declarations::{ItemId, JobId, TxId};
use crate::ffi;

/// What a job asks for.
#[derive(Clone, Copy, PartialEq, Eq, Debug)]
pub enum Op {
    /// The item's value.
    Read(ItemId),
    /// To write the item at its commit.
    Write(ItemId, i64),
    /// To compute for a tick.
    Compute,
    /// To end, and to install its writes.
    Commit,
    /// To end, and to install nothing.
    Quit,
}

// An operation as its number, its item and its value.
pub(crate) fn operation_of(op: Op) -> ffi::Operation {
    let (operation, item, value) = match op {
        Op::Read(item) => (0, item.0, 0),
        Op::Write(item, value) => (1, item.0, value),
        Op::Compute => (2, 0, 0),
        Op::Commit => (3, 0, 0),
        Op::Quit => (4, 0, 0),
    };
    ffi::Operation {
        operation,
        item,
        value,
    }
}

/// What a job is told of a granted operation.
#[derive(Clone, Copy, PartialEq, Eq, Debug)]
pub enum Outcome {
    /// The value with its stamp, or the job's own write with none.
    Got {
        /// The value.
        value: i64,
        /// Its stamp.
        stamp: Option<u64>,
    },
    /// Answers a write.
    Put,
    /// Answers a computation.
    Computed,
    /// Answers a commit and a quit.
    Closed,
}

/// How a job ended. Only a committed job's writes are installed.
#[derive(Clone, Copy, PartialEq, Eq, Debug)]
pub enum End {
    /// Its writes are installed.
    Committed,
    /// It used its declared steps, and the last was neither a commit nor a quit.
    Overrun,
    /// It was pending at its deadline: no job of an admitted set.
    Late,
    /// It read a value past its validity: the first such item, and the stamp.
    Stale {
        /// The item.
        item: ItemId,
        /// The stamp that it read.
        stamp: u64,
    },
    /// It read two items too far apart.
    Apart {
        /// The older one.
        a: ItemId,
        /// The newer one.
        b: ItemId,
    },
    /// It quit, and its writes are not installed.
    Quit,
}

/// What a job is told that asked for an operation.
#[derive(Clone, Copy, PartialEq, Eq, Debug)]
pub enum StepReply {
    /// It took a tick; `over` is Some where the job ended then.
    Done {
        /// What it is told.
        outcome: Outcome,
        /// How it ended.
        over: Option<End>,
    },
    /// It waits on `by`.
    Blocked {
        /// The job that runs now.
        by: JobId,
        /// The ceiling in the way.
        ceiling: u32,
    },
    /// It is not pending.
    NoJob {
        /// So many jobs of its transaction have ended.
        ended: u32,
        /// How the latest did.
        last: Option<End>,
    },
    /// Another job runs.
    NotYet {
        /// The running job.
        running: JobId,
    },
    /// An item that its transaction does not declare so.
    Undeclared {
        /// The item.
        item: ItemId,
    },
    /// It has quiet steps left.
    TooEarly {
        /// So many.
        left: u64,
    },
    /// A commit of a job that has not written this item.
    Unwritten {
        /// The item.
        item: ItemId,
    },
    /// The journal is full.
    Full {
        /// Its room.
        room: u64,
    },
}

/// Why a job is not planned.
#[derive(Clone, Copy, PartialEq, Eq, Debug)]
pub enum PlanRefused {
    /// The tick lies before now.
    Past {
        /// The present tick.
        now: u64,
    },
    /// Less than a period after the last one.
    TooSoon {
        /// The earliest tick.
        earliest: u64,
    },
    /// After the limit.
    TooFar {
        /// The limit.
        limit: u64,
    },
    /// So many releases are planned.
    CalendarFull {
        /// How many.
        room: u64,
    },
    /// So many jobs were planned.
    NoSerial {
        /// How many.
        planned: u64,
    },
    /// The journal is full.
    Full {
        /// Its room.
        room: u64,
    },
}

/// What is answered to idling.
#[derive(Clone, Copy, PartialEq, Eq, Debug)]
pub enum IdleReply {
    /// The time went on.
    Advanced {
        /// To this tick.
        to: u64,
    },
    /// Something is pending.
    NotIdle {
        /// The running job.
        running: JobId,
    },
    /// Nothing is planned.
    Nothing,
    /// The journal is full.
    Full {
        /// Its room.
        room: u64,
    },
}

pub(crate) fn job_of(job: ffi::Job) -> JobId {
    JobId {
        tx: TxId(job.transaction),
        serial: job.serial,
    }
}

pub(crate) fn end_of(end: ffi::End) -> Option<End> {
    match end.kind {
        1 => Some(End::Committed),
        2 => Some(End::Overrun),
        3 => Some(End::Late),
        4 => Some(End::Stale {
            item: ItemId(end.item),
            stamp: end.stamp,
        }),
        5 => Some(End::Apart {
            a: ItemId(end.item),
            b: ItemId(end.other),
        }),
        6 => Some(End::Quit),
        _ => None,
    }
}

pub(crate) fn reply_of(a: ffi::StepAnswer) -> StepReply {
    let stamp = (a.has_stamp == 1).then_some(a.stamp);
    match a.reply {
        0 => StepReply::Done {
            outcome: match a.outcome {
                0 => Outcome::Got {
                    value: a.value,
                    stamp,
                },
                1 => Outcome::Put,
                2 => Outcome::Computed,
                _ => Outcome::Closed,
            },
            over: end_of(a.over),
        },
        1 => StepReply::Blocked {
            by: job_of(a.job),
            ceiling: a.ceiling,
        },
        2 => StepReply::NoJob {
            ended: a.count as u32,
            last: end_of(a.over),
        },
        3 => StepReply::NotYet {
            running: job_of(a.job),
        },
        4 => StepReply::Undeclared {
            item: ItemId(a.item),
        },
        5 => StepReply::TooEarly { left: a.count },
        6 => StepReply::Unwritten {
            item: ItemId(a.item),
        },
        _ => StepReply::Full { room: a.count },
    }
}

pub(crate) fn planned_of(a: ffi::Time) -> Result<JobId, PlanRefused> {
    match a.reply {
        0 => Ok(job_of(a.job)),
        1 => Err(PlanRefused::Past { now: a.tick }),
        2 => Err(PlanRefused::TooSoon { earliest: a.tick }),
        3 => Err(PlanRefused::TooFar { limit: a.tick }),
        4 => Err(PlanRefused::CalendarFull { room: a.count }),
        5 => Err(PlanRefused::NoSerial { planned: a.count }),
        _ => Err(PlanRefused::Full { room: a.count }),
    }
}

/// An event of the history.
#[derive(Clone, Copy, PartialEq, Eq, Debug)]
pub enum Entry {
    /// A job of the transaction was planned for a tick.
    Planned {
        /// The transaction.
        tx: TxId,
        /// The release.
        tick: u64,
    },
    /// A job's operation was granted at a tick.
    Step {
        /// The job.
        job: JobId,
        /// What it asked for.
        op: Op,
        /// What it was told.
        outcome: Outcome,
        /// How it ended, where it ended then.
        over: Option<End>,
        /// When it asked.
        tick: u64,
    },
    /// A job's request for a lock was refused.
    Blocked {
        /// The job.
        job: JobId,
        /// What it asked for.
        op: Op,
        /// The job in the way.
        by: JobId,
        /// The ceiling in the way.
        ceiling: u32,
        /// When it asked.
        tick: u64,
    },
    /// With nothing pending the time went on.
    Idle {
        /// From this tick.
        from: u64,
        /// To this tick.
        to: u64,
    },
}

pub(crate) fn entry_of(e: ffi::Entry) -> Entry {
    let op = match e.operation {
        0 => Op::Read(ItemId(e.item)),
        1 => Op::Write(ItemId(e.item), e.value),
        2 => Op::Compute,
        3 => Op::Commit,
        _ => Op::Quit,
    };
    match (e.kind, reply_of(e.answer)) {
        (1, StepReply::Done { outcome, over }) => Entry::Step {
            job: job_of(e.job),
            op,
            outcome,
            over,
            tick: e.tick,
        },
        (2, StepReply::Blocked { by, ceiling }) => Entry::Blocked {
            job: job_of(e.job),
            op,
            by,
            ceiling,
            tick: e.tick,
        },
        (0, _) => Entry::Planned {
            tx: TxId(e.job.transaction),
            tick: e.tick,
        },
        _ => Entry::Idle {
            from: e.tick,
            to: e.to,
        },
    }
}

pub(crate) fn idle_of(a: ffi::Time) -> IdleReply {
    match a.reply {
        0 => IdleReply::Advanced { to: a.tick },
        7 => IdleReply::NotIdle {
            running: job_of(a.job),
        },
        8 => IdleReply::Nothing,
        _ => IdleReply::Full { room: a.count },
    }
}

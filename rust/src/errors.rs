//! Why a call did not do what was asked. The words of an error are those of docs/FORMATS.md, which the library writes.
use std::error::Error;
use std::fmt;

use crate::declarations::{ItemId, TxId};
use crate::ffi;
use crate::replies::PlanRefused;

// The statuses that errors are made of.
pub(crate) const NO_TRANSACTION: u32 = 4;
pub(crate) const NO_ITEM: u32 = 5;
pub(crate) const NOT_ADMITTED: u32 = 10;
pub(crate) const NO_MEMORY: u32 = 11;

/// Which number of a transaction is out of its range.
#[derive(Clone, Copy, PartialEq, Eq, Debug)]
pub enum Which {
    /// The priority is from 1 to 1,000.
    Priority,
    /// The steps are from 1 to 10,000.
    Steps,
    /// The period is from 1 to 2^30 ticks.
    Period,
    /// The deadline is from 1 tick to the period.
    Deadline,
    /// The offset is at most the period.
    Offset,
    /// The quiet steps are fewer than the steps.
    Quiet,
}

/// Why no database is opened over some declarations: the first rule that they break, and the first place that breaks it.
#[derive(Clone, Copy, PartialEq, Eq, Debug)]
pub enum OpenError {
    /// The room is above 2^20.
    RoomTooLarge,
    /// A list names an item that is not declared: the place among the items of all lists.
    UnknownItem {
        /// From 0.
        place: u64,
    },
    /// There are more than 256 items.
    TooManyItems {
        /// How many.
        count: u64,
    },
    /// There are more than 64 transactions.
    TooManyTxns {
        /// How many.
        count: u64,
    },
    /// Two transactions have one priority.
    SamePrio {
        /// The first that has it.
        a: TxId,
        /// The second.
        b: TxId,
    },
    /// A number of a transaction is out of its range.
    BadTimes {
        /// The transaction.
        tx: TxId,
        /// Its number.
        which: Which,
    },
    /// No transaction may write a sensor or derived item.
    NoWriter {
        /// The item.
        item: ItemId,
    },
    /// More than one may.
    TwoWriters {
        /// The item.
        item: ItemId,
        /// The first that may.
        a: TxId,
        /// The second.
        b: TxId,
    },
    /// An item is derived from itself.
    CyclicDerivation {
        /// The item.
        item: ItemId,
    },
    /// There are more than 64 relative sets.
    TooManySets {
        /// How many.
        count: u64,
    },
    /// A relative set has fewer than two items or a state item.
    BadTogether {
        /// Its place, from 0.
        set: u64,
    },
    /// A transaction may miss its deadline.
    NotSchedulable {
        /// The transaction.
        tx: TxId,
        /// Its demand up to the deadline, in ticks.
        demand: u64,
    },
    /// A transaction may read an item whose age bound is above its validity.
    TooOld {
        /// The transaction.
        tx: TxId,
        /// The item.
        item: ItemId,
        /// The bound, in ticks.
        age: u64,
    },
    /// A transaction may read items of a relative set whose greatest age bound is above the interval.
    TooApart {
        /// The transaction.
        tx: TxId,
        /// The place of the relative set, from 0.
        set: u64,
        /// The bound, in ticks.
        age: u64,
    },
    /// Want of memory.
    OutOfMemory,
    /// A status or a rule that this crate does not know: it is older than the library.
    Other {
        /// The status.
        status: u32,
        /// The rule.
        rule: u32,
    },
}

fn which_of(number: u32) -> Which {
    match number {
        0 => Which::Priority,
        1 => Which::Steps,
        2 => Which::Period,
        3 => Which::Deadline,
        4 => Which::Offset,
        _ => Which::Quiet,
    }
}

// The numbers of items and transactions fit: they are rows of tables that are counted by 32 bits.
fn tx(number: u64) -> TxId {
    TxId(number as u32)
}

fn item(number: u64) -> ItemId {
    ItemId(number as u32)
}

pub(crate) fn open_error(status: u32, r: ffi::Refusal) -> OpenError {
    match (status, r.rule) {
        (7, _) => OpenError::RoomTooLarge,
        (11, _) => OpenError::OutOfMemory,
        (8, 2) => OpenError::UnknownItem { place: r.a },
        (9, 10) => OpenError::TooManyItems { count: r.a },
        (9, 11) => OpenError::TooManyTxns { count: r.a },
        (9, 12) => OpenError::SamePrio {
            a: tx(r.a),
            b: tx(r.b),
        },
        (9, 13) => OpenError::BadTimes {
            tx: tx(r.a),
            which: which_of(r.which),
        },
        (9, 14) => OpenError::NoWriter { item: item(r.a) },
        (9, 15) => OpenError::TwoWriters {
            item: item(r.a),
            a: tx(r.b),
            b: tx(r.c),
        },
        (9, 16) => OpenError::CyclicDerivation { item: item(r.a) },
        (9, 17) => OpenError::TooManySets { count: r.a },
        (9, 18) => OpenError::BadTogether { set: r.a },
        (10, 20) => OpenError::NotSchedulable {
            tx: tx(r.a),
            demand: r.b,
        },
        (10, 21) => OpenError::TooOld {
            tx: tx(r.a),
            item: item(r.b),
            age: r.c,
        },
        (10, 22) => OpenError::TooApart {
            tx: tx(r.a),
            set: r.b,
            age: r.c,
        },
        (status, rule) => OpenError::Other { status, rule },
    }
}

fn number_of(which: Which) -> u32 {
    match which {
        Which::Priority => 0,
        Which::Steps => 1,
        Which::Period => 2,
        Which::Deadline => 3,
        Which::Offset => 4,
        Which::Quiet => 5,
    }
}

fn refusal(rule: u32, a: u64, b: u64, c: u64) -> ffi::Refusal {
    ffi::Refusal {
        rule,
        which: 0,
        a,
        b,
        c,
    }
}

// The status and the record of an error, as `open_error` reads them.
fn told(error: &OpenError) -> (u32, ffi::Refusal) {
    let number = |tx: TxId| u64::from(tx.0);
    let place = |item: ItemId| u64::from(item.0);
    match *error {
        OpenError::RoomTooLarge => (7, refusal(0, 0, 0, 0)),
        OpenError::OutOfMemory => (11, refusal(0, 0, 0, 0)),
        OpenError::UnknownItem { place } => (8, refusal(2, place, 0, 0)),
        OpenError::TooManyItems { count } => (9, refusal(10, count, 0, 0)),
        OpenError::TooManyTxns { count } => (9, refusal(11, count, 0, 0)),
        OpenError::SamePrio { a, b } => (9, refusal(12, number(a), number(b), 0)),
        OpenError::BadTimes { tx, which } => {
            let which = number_of(which);
            (
                9,
                ffi::Refusal {
                    which,
                    ..refusal(13, number(tx), 0, 0)
                },
            )
        }
        OpenError::NoWriter { item } => (9, refusal(14, place(item), 0, 0)),
        OpenError::TwoWriters { item, a, b } => (9, refusal(15, place(item), number(a), number(b))),
        OpenError::CyclicDerivation { item } => (9, refusal(16, place(item), 0, 0)),
        OpenError::TooManySets { count } => (9, refusal(17, count, 0, 0)),
        OpenError::BadTogether { set } => (9, refusal(18, set, 0, 0)),
        OpenError::NotSchedulable { tx, demand } => (10, refusal(20, number(tx), demand, 0)),
        OpenError::TooOld { tx, item, age } => (10, refusal(21, number(tx), place(item), age)),
        OpenError::TooApart { tx, set, age } => (10, refusal(22, number(tx), set, age)),
        OpenError::Other { status, rule } => (status, refusal(rule, 0, 0, 0)),
    }
}

// The words of a status without a record.
fn word(status: u32) -> String {
    ffi::text(status, &refusal(0, 0, 0, 0))
}

impl fmt::Display for OpenError {
    fn fmt(&self, f: &mut fmt::Formatter<'_>) -> fmt::Result {
        let (status, refusal) = told(self);
        f.write_str(&ffi::text(status, &refusal))
    }
}

impl Error for OpenError {}

/// A number names nothing of the database's set.
#[derive(Clone, Copy, PartialEq, Eq, Debug)]
pub enum NotOfTheSet {
    /// No transaction.
    Transaction,
    /// No item.
    Item,
}

impl fmt::Display for NotOfTheSet {
    fn fmt(&self, f: &mut fmt::Formatter<'_>) -> fmt::Result {
        f.write_str(&word(match self {
            NotOfTheSet::Transaction => NO_TRANSACTION,
            NotOfTheSet::Item => NO_ITEM,
        }))
    }
}

impl Error for NotOfTheSet {}

/// Why there is no bound.
#[derive(Clone, Copy, PartialEq, Eq, Debug)]
pub enum BoundError {
    /// The set is not admitted.
    NotAdmitted,
    /// The number names nothing of the set.
    NotOfTheSet(NotOfTheSet),
}

impl fmt::Display for BoundError {
    fn fmt(&self, f: &mut fmt::Formatter<'_>) -> fmt::Result {
        match self {
            BoundError::NotAdmitted => f.write_str(&word(NOT_ADMITTED)),
            BoundError::NotOfTheSet(number) => number.fmt(f),
        }
    }
}

impl Error for BoundError {}

/// Want of memory.
#[derive(Clone, Copy, PartialEq, Eq, Debug)]
pub struct OutOfMemory;

impl fmt::Display for OutOfMemory {
    fn fmt(&self, f: &mut fmt::Formatter<'_>) -> fmt::Result {
        f.write_str(&word(NO_MEMORY))
    }
}

impl Error for OutOfMemory {}

/// Why no job is planned.
#[derive(Clone, Copy, PartialEq, Eq, Debug)]
pub enum PlanError {
    /// The number names no transaction of the set.
    NotOfTheSet,
    /// The database refuses the plan.
    Refused(PlanRefused),
}

impl From<NotOfTheSet> for PlanError {
    fn from(_: NotOfTheSet) -> Self {
        PlanError::NotOfTheSet
    }
}

impl From<PlanRefused> for PlanError {
    fn from(refused: PlanRefused) -> Self {
        PlanError::Refused(refused)
    }
}

impl fmt::Display for PlanError {
    fn fmt(&self, f: &mut fmt::Formatter<'_>) -> fmt::Result {
        match self {
            PlanError::NotOfTheSet => NotOfTheSet::Transaction.fmt(f),
            PlanError::Refused(refused) => refused.fmt(f),
        }
    }
}

impl Error for PlanError {}

impl fmt::Display for PlanRefused {
    fn fmt(&self, f: &mut fmt::Formatter<'_>) -> fmt::Result {
        match self {
            PlanRefused::Past { now } => write!(f, "Past {now}"),
            PlanRefused::TooSoon { earliest } => write!(f, "TooSoon {earliest}"),
            PlanRefused::TooFar { limit } => write!(f, "TooFar {limit}"),
            PlanRefused::CalendarFull { room } => write!(f, "CalendarFull {room}"),
            PlanRefused::NoSerial { planned } => write!(f, "NoSerial {planned}"),
            PlanRefused::Full { room } => write!(f, "Full {room}"),
        }
    }
}

impl Error for PlanRefused {}

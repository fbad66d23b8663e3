//! A database that threads share, each by a seat of its own.
use std::error::Error;
use std::fmt;

use crate::database::not_of_the_set;
use crate::database::Stored;
use crate::declarations::{Declarations, ItemId, JobId, TxId};
use crate::errors::{open_error, NotOfTheSet, OpenError, PlanError};
use crate::ffi;
use crate::ffi::seats::SeatHandle;
use crate::replies::{entry_of, idle_of, operation_of, planned_of, reply_of};
use crate::replies::{Entry, IdleReply, Op, StepReply};

// A drain hands over no more entries at once.
const PLACES: usize = 64;

// Another seat's call has the turn.
const BUSY: u32 = 26;

/// Another seat's call has the turn: nothing was done, and the call may be made again.
#[derive(Clone, Copy, PartialEq, Eq, Debug)]
pub struct Busy;

impl fmt::Display for Busy {
    fn fmt(&self, f: &mut fmt::Formatter<'_>) -> fmt::Result {
        f.write_str("another seat's call has the turn")
    }
}

impl Error for Busy {}

/// A plant's own seat, the operator's: it drains, and may plan for any transaction. No job of the plant is late. All calls by
/// all seats make one history, and none waits. It may go to another thread, and is used by one at a time.
pub struct Plant {
    seat: SeatHandle,
    drained: Box<[ffi::Entry; PLACES]>,
}

/// The seat of a transaction. It may go to another thread, and is used by one at a time. No call takes memory, and none waits.
pub struct Seat {
    seat: SeatHandle,
    tx: TxId,
}

impl Plant {
    /// Compiles and admits the declarations, and opens a plant over them at tick 0, whose journal keeps so many entries at most.
    /// The seats are those of the transactions, in order.
    ///
    /// # Errors
    ///
    /// The first rule that the declarations break, or want of memory.
    pub fn open(declarations: &Declarations, room: usize) -> Result<(Plant, Vec<Seat>), OpenError> {
        let failed = |(status, refusal)| open_error(status, refusal);
        let mut seat = SeatHandle::open(&declarations.tables(), room).map_err(failed)?;
        let mut seats = Vec::new();
        for _ in 0..declarations.transactions() {
            let none = ffi::Refusal::default();
            let (next, tx) = seat
                .open_next()
                .map_err(|status| open_error(status, none))?;
            seats.push(Seat {
                seat: next,
                tx: TxId(tx),
            });
        }
        seats.reverse();
        let drained = Box::new([ffi::Entry::default(); PLACES]);
        Ok((Plant { seat, drained }, seats))
    }

    /// Adds the oldest entries of the journal to a list, at most 64, which makes room there. Answers how many.
    ///
    /// # Errors
    ///
    /// Another seat has the turn.
    pub fn drain(&mut self, into: &mut Vec<Entry>) -> Result<usize, Busy> {
        let moved = self.seat.drain(&mut self.drained[..]).map_err(|_| Busy)?;
        into.extend(self.drained[..moved].iter().map(|e| entry_of(*e)));
        Ok(moved)
    }
}

impl Seat {
    /// The seat's transaction.
    #[must_use]
    pub fn tx(&self) -> TxId {
        self.tx
    }

    /// A job of the seat's transaction asks for an operation. A granted one takes a tick.
    ///
    /// # Errors
    ///
    /// Another seat has the turn.
    pub fn step(&mut self, serial: u32, op: Op) -> Result<StepReply, Busy> {
        let answer = self.seat.step(serial, operation_of(op));
        answer.map(reply_of).map_err(|_| Busy)
    }
}

// The calls of each seat.
macro_rules! calls_of_seats {
    ($name:ident) => {
        impl $name {
            /// Plans a transaction's next job for a tick.
            ///
            /// # Errors
            ///
            /// Another seat has the turn.
            pub fn plan(&mut self, tx: TxId, tick: u64) -> Result<Result<JobId, PlanError>, Busy> {
                let answer = unless_busy(self.seat.plan(tx.0, tick))?;
                Ok(answer
                    .map_err(PlanError::from)
                    .and_then(|a| Ok(planned_of(a)?)))
            }

            /// Plans a transaction's next job for the earliest tick that may be, and answers that tick too.
            ///
            /// # Errors
            ///
            /// Another seat has the turn.
            pub fn plan_next(&mut self, tx: TxId) -> Result<Result<(JobId, u64), PlanError>, Busy> {
                let answer = unless_busy(self.seat.plan_next(tx.0))?;
                Ok(answer
                    .map_err(PlanError::from)
                    .and_then(|a| Ok((planned_of(a)?, a.tick))))
            }

            /// With nothing pending the time goes on to the next planned release.
            ///
            /// # Errors
            ///
            /// Another seat has the turn.
            pub fn idle(&mut self) -> Result<IdleReply, Busy> {
                self.seat.idle().map(idle_of).map_err(|_| Busy)
            }

            /// An item's installed value and stamp.
            ///
            /// # Errors
            ///
            /// Another seat has the turn.
            pub fn peek(&mut self, item: ItemId) -> Result<Result<Stored, NotOfTheSet>, Busy> {
                let answer = unless_busy(self.seat.peek(item.0))?;
                Ok(answer.map(|stored| Stored {
                    value: stored.value,
                    stamp: stored.stamp,
                }))
            }

            /// How many entries of the history the seat has seen.
            #[must_use]
            pub fn front(&self) -> u64 {
                self.seat.front()
            }
        }
    };
}

calls_of_seats!(Plant);
calls_of_seats!(Seat);

// The other statuses say that a number names nothing of the set: the handle is open, and each operation has its number.
fn unless_busy<T>(answer: Result<T, u32>) -> Result<Result<T, NotOfTheSet>, Busy> {
    match answer {
        Ok(answer) => Ok(Ok(answer)),
        Err(BUSY) => Err(Busy),
        Err(status) => Ok(Err(not_of_the_set(status))),
    }
}

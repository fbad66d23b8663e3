//! A main-memory database for plant control: jobs read and write items under the read/write priority ceiling protocol.
//!
//! Items and transactions are declared ([`Declarations`]), and a [`Database`] is opened over them if the set is admitted: then no
//! job of it is late. What each call answers is proved of the library that this crate links; the crate itself passes numbers on,
//! and its only `unsafe` code stands in two files. Threads share a
//! database as a [`Plant`], each by a [`Seat`] of its own.
//!
//! ```
//! use rtdb::{Database, Declarations, ItemKind, Op, Times};
//!
//! # fn main() -> Result<(), Box<dyn std::error::Error>> {
//! let mut declarations = Declarations::new();
//! let level = declarations.item(ItemKind::Sensor { validity: 20 }, 0);
//! let times = Times { priority: 1, period: 10, offset: 0, deadline: 10, steps: 2, quiet: 0 };
//! let sampler = declarations.transaction(times, &[], &[level]);
//! let mut database = Database::open(&declarations, 64)?;
//! let job = database.plan(sampler, 0)?;
//! database.step(job, Op::Write(level, 52))?;
//! database.step(job, Op::Commit)?;
//! assert_eq!(database.peek(level)?.value, 52);
//! # Ok(())
//! # }
//! ```
#![deny(missing_docs)]
#![deny(unsafe_code)]

mod database;
mod declarations;
mod errors;
#[allow(unsafe_code)]
mod ffi;
mod log;
mod plant;
mod replies;

pub use database::{Database, Drain, Margin, Stored};
pub use declarations::{Declarations, ItemId, ItemKind, JobId, Times, TxId};
pub use errors::{BoundError, NotOfTheSet, OpenError, OutOfMemory, PlanError, Which};
pub use log::{FileLog, LogError};
pub use plant::{Busy, Plant, Seat};
pub use replies::{End, Entry, IdleReply, Op, Outcome, PlanRefused, StepReply};

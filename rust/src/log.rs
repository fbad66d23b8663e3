//! A journal on a file.
use std::error::Error;
use std::fmt;
use std::fs::{File, OpenOptions};
use std::io::{self, Read};
use std::os::unix::fs::FileExt;
use std::path::Path;

use crate::declarations::{JobId, TxId};
use crate::errors::{open_error, OpenError};
use crate::ffi;
use crate::replies::{entry_of, operation_of, End, Entry, Op, Outcome};

// A piece has no more entries.
const PIECE: usize = 64;

/// The journal of a database on a file, locked, so that a program that was stopped finds its entries again. It makes the calls
/// of the device that the library hands out, one after the other. Whatever moment the program or the machine stops at, the file is
/// opened as all entries that were kept before, and the first few of the piece that was being added. It is opened on one file by
/// one program, and takes what was drained from one database over its set, in order, from the first entry on.
///
/// It keeps as many bytes as the file has with all entries, and the entries that were found.
pub struct FileLog {
    log: ffi::Log,
    file: File,
}

/// Why a file is not opened as a log, or entries are not kept.
#[derive(Debug)]
pub enum LogError {
    /// A call of the system failed. After it the log takes no more entries: open the file again.
    Io(io::Error),
    /// The room is above 2^20, or the text has 4 GB.
    TooLong,
    /// The text is no head of a report.
    BadText {
        /// The first line that is bad, from 1; None where there is no mode line.
        line: Option<u64>,
    },
    /// The set of the text breaks a rule.
    Set(OpenError),
    /// A record of the file is bad.
    BadRecord {
        /// The first: 0 is the header, and k the k-th entry's.
        number: u64,
    },
    /// The file has more entries than there is room for.
    Full,
    /// A call failed before.
    Stopped,
    /// There is no room for the entries.
    NoRoom,
    /// An entry names what the set has not, or tells what its operation does not.
    Unknown,
    /// Want of memory.
    OutOfMemory,
}

impl FileLog {
    /// Opens the log of a file, or makes it, with room for so many entries. The text declares the set and its names, as the lines
    /// of a report up to its mode line do.
    ///
    /// # Errors
    ///
    /// Why there is none; the file is as it was then, but for `Io`.
    pub fn open(path: impl AsRef<Path>, text: &str, room: usize) -> Result<FileLog, LogError> {
        let mut file = OpenOptions::new()
            .read(true)
            .write(true)
            .create(true)
            .truncate(false)
            .open(path)?;
        file.try_lock().map_err(io::Error::from)?;
        let mut bytes = Vec::new();
        file.read_to_end(&mut bytes)?;
        let log = match ffi::Log::open(text.as_bytes(), &bytes, room) {
            Ok(log) => log,
            Err((7, _)) => return Err(LogError::TooLong),
            Err(refused) => return Err(log_error(refused)),
        };
        let mut log = FileLog { log, file };
        log.make_calls()?;
        Ok(log)
    }

    /// How many entries are kept.
    #[must_use]
    pub fn len(&self) -> u64 {
        self.log.count()
    }

    /// Whether none is.
    #[must_use]
    pub fn is_empty(&self) -> bool {
        self.len() == 0
    }

    /// The entries that were found in the file when it was opened.
    pub fn found(&self) -> impl Iterator<Item = Entry> + '_ {
        (0..).map_while(|place| self.log.entry(place).map(entry_of))
    }

    /// Keeps entries, in pieces of 64 at most, each of which is durable before the next. It takes no memory.
    ///
    /// # Errors
    ///
    /// Why a piece is not kept; those before it are.
    pub fn append(&mut self, entries: &[Entry]) -> Result<(), LogError> {
        let mut forms = [ffi::Entry::default(); PIECE];
        for piece in entries.chunks(PIECE) {
            for (form, entry) in forms.iter_mut().zip(piece) {
                *form = form_of(*entry);
            }
            let answer = self.log.append(&forms[..piece.len()]);
            answer.map_err(|status| log_error((status, ffi::Refusal::default())))?;
            self.make_calls()?;
        }
        Ok(())
    }

    // Makes the calls that the log hands out, and answers each.
    fn make_calls(&mut self) -> Result<(), LogError> {
        let mut bytes = [0; 256];
        while let Some(call) = self.log.call(&mut bytes) {
            let made = match call.kind {
                0 => self
                    .file
                    .write_all_at(&bytes[..call.count as usize], call.offset),
                _ => self.file.sync_all(),
            };
            self.log.answer(made.is_ok());
            made?;
        }
        Ok(())
    }
}

fn log_error((status, refusal): (u32, ffi::Refusal)) -> LogError {
    match status {
        7 => LogError::NoRoom,
        11 => LogError::OutOfMemory,
        20 | 21 => LogError::Stopped,
        22 => LogError::Unknown,
        23 => LogError::BadText {
            line: (refusal.a > 0).then_some(refusal.a),
        },
        24 => LogError::BadRecord { number: refusal.a },
        25 => LogError::Full,
        _ => LogError::Set(open_error(status, refusal)),
    }
}

fn job_form(job: JobId) -> ffi::Job {
    ffi::Job {
        transaction: job.tx.0,
        serial: job.serial,
    }
}

fn end_form(end: Option<End>) -> ffi::End {
    let (kind, item, other, stamp) = match end {
        None => (0, 0, 0, 0),
        Some(End::Committed) => (1, 0, 0, 0),
        Some(End::Overrun) => (2, 0, 0, 0),
        Some(End::Late) => (3, 0, 0, 0),
        Some(End::Stale { item, stamp }) => (4, item.0, 0, stamp),
        Some(End::Apart { a, b }) => (5, a.0, b.0, 0),
        Some(End::Quit) => (6, 0, 0, 0),
    };
    ffi::End {
        kind,
        item,
        other,
        stamp,
    }
}

fn outcome_form(outcome: Outcome, over: Option<End>) -> ffi::StepAnswer {
    let mut answer = ffi::StepAnswer {
        over: end_form(over),
        ..Default::default()
    };
    match outcome {
        Outcome::Got { value, stamp } => {
            answer.value = value;
            answer.stamp = stamp.unwrap_or(0);
            answer.has_stamp = u32::from(stamp.is_some());
        }
        Outcome::Put => answer.outcome = 1,
        Outcome::Computed => answer.outcome = 2,
        Outcome::Closed => answer.outcome = 3,
    }
    answer
}

fn with_op(op: Op, form: ffi::Entry) -> ffi::Entry {
    let asked = operation_of(op);
    ffi::Entry {
        operation: asked.operation,
        item: asked.item,
        value: asked.value,
        ..form
    }
}

fn form_of(entry: Entry) -> ffi::Entry {
    let bare = ffi::Entry::default();
    match entry {
        Entry::Planned {
            tx: TxId(transaction),
            tick,
        } => ffi::Entry {
            job: ffi::Job {
                transaction,
                serial: 0,
            },
            tick,
            ..bare
        },
        Entry::Step {
            job,
            op,
            outcome,
            over,
            tick,
        } => with_op(
            op,
            ffi::Entry {
                kind: 1,
                job: job_form(job),
                tick,
                answer: outcome_form(outcome, over),
                ..bare
            },
        ),
        Entry::Blocked {
            job,
            op,
            by,
            ceiling,
            tick,
        } => with_op(
            op,
            ffi::Entry {
                kind: 2,
                job: job_form(job),
                tick,
                answer: ffi::StepAnswer {
                    reply: 1,
                    job: job_form(by),
                    ceiling,
                    ..Default::default()
                },
                ..bare
            },
        ),
        Entry::Idle { from, to } => ffi::Entry {
            kind: 3,
            tick: from,
            to,
            ..bare
        },
    }
}

impl From<io::Error> for LogError {
    fn from(error: io::Error) -> LogError {
        LogError::Io(error)
    }
}

impl fmt::Display for LogError {
    fn fmt(&self, f: &mut fmt::Formatter<'_>) -> fmt::Result {
        match self {
            LogError::Io(error) => write!(f, "the file of the log: {error}"),
            LogError::TooLong => {
                f.write_str("the room of the log is too large, or its text too long")
            }
            LogError::BadText { line: Some(line) } => write!(f, "line {line} of the text is bad"),
            LogError::BadText { line: None } => f.write_str("the text has no mode line"),
            LogError::Set(error) => write!(f, "the set of the text: {error}"),
            LogError::BadRecord { number } => write!(f, "record {number} of the file is bad"),
            LogError::Full => f.write_str("the file has more entries than there is room for"),
            LogError::Stopped => f.write_str("a call of the log failed before"),
            LogError::NoRoom => f.write_str("there is no room for the entries"),
            LogError::Unknown => f.write_str("an entry is none of the set"),
            LogError::OutOfMemory => f.write_str("want of memory"),
        }
    }
}

impl Error for LogError {
    fn source(&self) -> Option<&(dyn Error + 'static)> {
        match self {
            LogError::Io(error) => Some(error),
            LogError::Set(error) => Some(error),
            _ => None,
        }
    }
}

//! What is declared: items, transactions and relative sets.
use crate::ffi;

/// An item, by its place in the declarations.
#[derive(Clone, Copy, PartialEq, Eq, Debug, Hash, PartialOrd, Ord)]
pub struct ItemId(pub u32);

/// A transaction, by its place in the declarations.
#[derive(Clone, Copy, PartialEq, Eq, Debug, Hash, PartialOrd, Ord)]
pub struct TxId(pub u32);

/// A job: which of its transaction's jobs it is, from 0.
#[derive(Clone, Copy, PartialEq, Eq, Debug, Hash)]
pub struct JobId {
    /// Its transaction.
    pub tx: TxId,
    /// Its place among that transaction's jobs.
    pub serial: u32,
}

/// What an item is.
#[derive(Clone, Copy, PartialEq, Eq, Debug)]
pub enum ItemKind {
    /// Valid for so many ticks after its stamp.
    Sensor {
        /// In ticks.
        validity: u64,
    },
    /// The same, stamped by what its writer read.
    Derived {
        /// In ticks.
        validity: u64,
    },
    /// With no validity.
    State,
}

/// The numbers of a transaction, in ticks. A greater priority is a higher one.
#[derive(Clone, Copy, PartialEq, Eq, Debug)]
pub struct Times {
    /// 1 to 1000, and no other transaction's.
    pub priority: u32,
    /// 1 to 2^30.
    pub period: u64,
    /// At most the period.
    pub offset: u64,
    /// 1 to the period.
    pub deadline: u64,
    /// 1 to 10,000.
    pub steps: u64,
    /// The steps before the first lock.
    pub quiet: u64,
}

/// Items, transactions and relative sets, by which a database is opened.
#[derive(Clone, Default)]
pub struct Declarations {
    items: Vec<ffi::Item>,
    transactions: Vec<ffi::Transaction>,
    together: Vec<ffi::Together>,
    numbers: Vec<u32>,
}

// A place that does not fit lies outside of each table, so it is refused.
fn number(place: usize) -> u32 {
    u32::try_from(place).unwrap_or(u32::MAX)
}

impl Declarations {
    /// None so far.
    #[must_use]
    pub fn new() -> Self {
        Self::default()
    }

    /// Declares an item.
    pub fn item(&mut self, kind: ItemKind, initial: i64) -> ItemId {
        let (kind, validity) = match kind {
            ItemKind::Sensor { validity } => (0, validity),
            ItemKind::Derived { validity } => (1, validity),
            ItemKind::State => (2, 0),
        };
        self.items.push(ffi::Item {
            kind,
            validity,
            initial,
        });
        ItemId(number(self.items.len() - 1))
    }

    fn list(&mut self, items: &[ItemId]) -> (u32, u32) {
        let at = number(self.numbers.len());
        self.numbers.extend(items.iter().map(|i| i.0));
        (at, number(items.len()))
    }

    /// Declares a transaction that may read and write these items.
    pub fn transaction(&mut self, times: Times, reads: &[ItemId], writes: &[ItemId]) -> TxId {
        let (reads_at, reads) = self.list(reads);
        let (writes_at, writes) = self.list(writes);
        self.transactions.push(ffi::Transaction {
            priority: times.priority,
            reads_at,
            reads,
            writes_at,
            writes,
            period: times.period,
            offset: times.offset,
            deadline: times.deadline,
            steps: times.steps,
            quiet: times.quiet,
        });
        TxId(number(self.transactions.len() - 1))
    }

    /// Declares a relative set: sensor or derived items that a job is to read within so many ticks of each other.
    pub fn together(&mut self, items: &[ItemId], within: u64) {
        let (items_at, items) = self.list(items);
        self.together.push(ffi::Together {
            items_at,
            items,
            within,
        });
    }
}

impl Declarations {
    pub(crate) fn transactions(&self) -> usize {
        self.transactions.len()
    }

    pub(crate) fn tables(&self) -> ffi::Tables<'_> {
        ffi::Tables {
            items: &self.items,
            transactions: &self.transactions,
            together: &self.together,
            ids: &self.numbers,
        }
    }
}

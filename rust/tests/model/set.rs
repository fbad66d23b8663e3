//! A set of declarations: why it is not compiled or not admitted, and its bounds.
use rtdb::{ItemId, ItemKind, OpenError, Times, TxId, Which};

/// A transaction, its lists in item order without repeats.
#[derive(Clone, Debug)]
pub struct Txn {
    pub times: Times,
    pub reads: Vec<u32>,
    pub writes: Vec<u32>,
}

/// A relative set, its items in item order without repeats.
#[derive(Clone, Debug)]
pub struct Together {
    pub items: Vec<u32>,
    pub within: u64,
}

#[derive(Clone, Debug, Default)]
pub struct Set {
    pub items: Vec<(ItemKind, i64)>,
    pub txns: Vec<Txn>,
    pub together: Vec<Together>,
}

/// A list in item order, each item once.
pub fn in_order(items: &[u32]) -> Vec<u32> {
    let mut list = items.to_vec();
    list.sort_unstable();
    list.dedup();
    list
}

fn greatest(priorities: impl Iterator<Item = u32>) -> u32 {
    priorities.max().unwrap_or(0)
}

impl Set {
    pub fn validity(&self, item: u32) -> Option<u64> {
        match self.items.get(item as usize)?.0 {
            ItemKind::Sensor { validity } | ItemKind::Derived { validity } => Some(validity),
            ItemKind::State => None,
        }
    }

    fn is_derived(&self, item: u32) -> bool {
        matches!(self.items[item as usize].0, ItemKind::Derived { .. })
    }

    fn dated(&self) -> impl Iterator<Item = u32> + '_ {
        (0..self.items.len() as u32).filter(|i| self.validity(*i).is_some())
    }

    fn writers(&self, item: u32) -> Vec<usize> {
        let all = 0..self.txns.len();
        all.filter(|t| self.txns[*t].writes.contains(&item))
            .collect()
    }

    pub fn write_ceiling(&self, item: u32) -> u32 {
        let writers = self.txns.iter().filter(|t| t.writes.contains(&item));
        greatest(writers.map(|t| t.times.priority))
    }

    pub fn absolute_ceiling(&self, item: u32) -> u32 {
        let users = self
            .txns
            .iter()
            .filter(|t| t.writes.contains(&item) || t.reads.contains(&item));
        greatest(users.map(|t| t.times.priority))
    }

    // What a derived item depends on: the dated items that its writers read.
    fn sources(&self, item: u32) -> Vec<u32> {
        if !self.is_derived(item) {
            return Vec::new();
        }
        let reads = self
            .writers(item)
            .into_iter()
            .flat_map(|t| &self.txns[t].reads);
        reads
            .copied()
            .filter(|i| self.validity(*i).is_some())
            .collect()
    }

    fn reaches_itself(&self, item: u32) -> bool {
        let mut reached = self.sources(item);
        for _ in 0..self.items.len() {
            let further: Vec<u32> = reached.iter().flat_map(|i| self.sources(*i)).collect();
            reached = in_order(&[reached, further].concat());
        }
        reached.contains(&item)
    }

    fn bad_times(&self) -> Option<OpenError> {
        for (tx, txn) in self.txns.iter().enumerate() {
            let t = txn.times;
            let which = match t {
                _ if !(1..=1000).contains(&t.priority) => Which::Priority,
                _ if !(1..=10_000).contains(&t.steps) => Which::Steps,
                _ if !(1..=1 << 30).contains(&t.period) => Which::Period,
                _ if !(1..=t.period).contains(&t.deadline) => Which::Deadline,
                _ if t.offset > t.period => Which::Offset,
                _ if t.quiet >= t.steps => Which::Quiet,
                _ => continue,
            };
            let tx = TxId(tx as u32);
            return Some(OpenError::BadTimes { tx, which });
        }
        None
    }

    fn same_priority(&self) -> Option<OpenError> {
        let priorities: Vec<u32> = self.txns.iter().map(|t| t.times.priority).collect();
        let b = (0..priorities.len()).find(|b| priorities[..*b].contains(&priorities[*b]))?;
        let a = priorities.iter().position(|p| *p == priorities[b])?;
        Some(OpenError::SamePrio {
            a: TxId(a as u32),
            b: TxId(b as u32),
        })
    }

    fn bad_writers(&self) -> Option<OpenError> {
        let none = self.dated().find(|i| self.writers(*i).is_empty());
        if let Some(item) = none {
            return Some(OpenError::NoWriter { item: ItemId(item) });
        }
        let item = self.dated().find(|i| self.writers(*i).len() > 1)?;
        let writers = self.writers(item);
        Some(OpenError::TwoWriters {
            item: ItemId(item),
            a: TxId(writers[0] as u32),
            b: TxId(writers[1] as u32),
        })
    }

    /// The first rule that the set breaks.
    pub fn not_compiled(&self) -> Option<OpenError> {
        if self.items.len() > 256 {
            let count = self.items.len() as u64;
            return Some(OpenError::TooManyItems { count });
        }
        if self.txns.len() > 64 {
            let count = self.txns.len() as u64;
            return Some(OpenError::TooManyTxns { count });
        }
        let of_txns = self.same_priority().or_else(|| self.bad_times());
        let of_items = of_txns.or_else(|| self.bad_writers());
        if of_items.is_some() {
            return of_items;
        }
        if let Some(item) = self.dated().find(|i| self.reaches_itself(*i)) {
            return Some(OpenError::CyclicDerivation { item: ItemId(item) });
        }
        if self.together.len() > 64 {
            let count = self.together.len() as u64;
            return Some(OpenError::TooManySets { count });
        }
        let is_bad =
            |t: &Together| t.items.len() < 2 || t.items.iter().any(|i| self.validity(*i).is_none());
        let set = self.together.iter().position(is_bad)? as u64;
        Some(OpenError::BadTogether { set })
    }

    fn may_block(&self, lower: &Txn, priority: u32) -> bool {
        lower
            .reads
            .iter()
            .any(|i| self.write_ceiling(*i) >= priority)
            || lower
                .writes
                .iter()
                .any(|i| self.absolute_ceiling(*i) >= priority)
    }

    pub fn blocking(&self, tx: usize) -> u64 {
        let priority = self.txns[tx].times.priority;
        let lower = self.txns.iter().filter(|t| t.times.priority < priority);
        let blockers = lower.filter(|t| self.may_block(t, priority));
        blockers
            .map(|t| t.times.steps - t.times.quiet - 1)
            .max()
            .unwrap_or(0)
    }

    fn demand(&self, tx: usize, ticks: u64) -> u64 {
        let own = self.txns[tx].times;
        let higher = self
            .txns
            .iter()
            .map(|t| t.times)
            .filter(|t| t.priority > own.priority);
        let work: u64 = higher.map(|t| t.steps * ticks.div_ceil(t.period)).sum();
        own.steps + self.blocking(tx) + work
    }

    /// The least window that holds its demand.
    pub fn response(&self, tx: usize) -> Option<u64> {
        (1..=self.txns[tx].times.deadline).find(|w| self.demand(tx, *w) <= *w)
    }

    /// The age bound of a dated item of a set in which each transaction has a response.
    pub fn age(&self, item: u32) -> Option<u64> {
        self.validity(item)?;
        let writer = *self.writers(item).first()?;
        let own = self.txns[writer].times.period + self.response(writer)?;
        let sources = self.sources(item);
        Some(
            own + sources
                .iter()
                .filter_map(|i| self.age(*i))
                .max()
                .unwrap_or(0),
        )
    }

    fn not_schedulable(&self, tx: usize) -> Option<OpenError> {
        match self.response(tx) {
            Some(_) => None,
            None => Some(OpenError::NotSchedulable {
                tx: TxId(tx as u32),
                demand: self.demand(tx, self.txns[tx].times.deadline),
            }),
        }
    }

    fn too_old(&self, tx: usize) -> Option<OpenError> {
        let dated = self.txns[tx].reads.iter();
        let mut aged = dated.filter_map(|i| Some((*i, self.age(*i)?, self.validity(*i)?)));
        let (item, age, _) = aged.find(|(_, age, validity)| age > validity)?;
        Some(OpenError::TooOld {
            tx: TxId(tx as u32),
            item: ItemId(item),
            age,
        })
    }

    fn too_apart(&self, tx: usize) -> Option<OpenError> {
        for (set, together) in self.together.iter().enumerate() {
            let reads = &self.txns[tx].reads;
            let read = together.items.iter().filter(|i| reads.contains(i));
            let ages: Vec<u64> = read.filter_map(|i| self.age(*i)).collect();
            let age = ages.iter().copied().max().unwrap_or(0);
            if ages.len() > 1 && age > together.within {
                return Some(OpenError::TooApart {
                    tx: TxId(tx as u32),
                    set: set as u64,
                    age,
                });
            }
        }
        None
    }

    /// Why a compiled set is not admitted. Each refusal is of the highest transaction that meets it.
    pub fn not_admitted(&self) -> Option<OpenError> {
        let mut falling: Vec<usize> = (0..self.txns.len()).collect();
        falling.sort_by_key(|t| std::cmp::Reverse(self.txns[*t].times.priority));
        let slow = falling.iter().find_map(|t| self.not_schedulable(*t));
        let old = || falling.iter().find_map(|t| self.too_old(*t));
        let apart = || falling.iter().find_map(|t| self.too_apart(*t));
        slow.or_else(old).or_else(apart)
    }
}

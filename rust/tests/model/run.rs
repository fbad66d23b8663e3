//! The state of a run and its calls: releases, the lock rule, dispatch with inheritance, strict commits, ends.
use super::set::Set;
use rtdb::{
    End, Entry, IdleReply, ItemId, ItemKind, JobId, Op, Outcome, PlanRefused, StepReply, TxId,
};

const LAST_TICK: u64 = 1 << 40;
const MOST_PLANNED: usize = 65_536;

/// A pending job.
#[derive(Clone, Debug)]
struct Row {
    job: JobId,
    release: u64,
    used: u64,
    // Items that it read from outside, with their stamps.
    reads: Vec<(u32, u64)>,
    // Items that it wrote, with the last value.
    writes: Vec<(u32, i64)>,
    waits_on: Option<JobId>,
}

#[derive(Clone, Debug)]
struct Ended {
    job: JobId,
    end: End,
}

#[derive(Clone, Debug)]
pub struct State {
    set: Set,
    room: usize,
    now: u64,
    items: Vec<(i64, u64)>,
    // Of each transaction, how many jobs were planned, and the last one's tick.
    plans: Vec<(u32, u64)>,
    planned: Vec<(JobId, u64)>,
    rows: Vec<Row>,
    ended: Vec<Ended>,
    kept: Vec<Entry>,
    drained: u64,
}

/// What a pending job has not done yet.
pub struct Progress {
    pub quiet: u64,
    pub reads: Vec<u32>,
    pub writes: Vec<u32>,
}

impl State {
    pub fn opening(set: Set, room: usize) -> State {
        State {
            room,
            now: 0,
            items: set.items.iter().map(|i| (i.1, 0)).collect(),
            plans: vec![(0, 0); set.txns.len()],
            planned: Vec::new(),
            rows: Vec::new(),
            ended: Vec::new(),
            kept: Vec::new(),
            drained: 0,
            set,
        }
    }

    pub fn now(&self) -> u64 {
        self.now
    }

    pub fn planned(&self) -> usize {
        self.planned.len()
    }

    pub fn kept(&self) -> (usize, u64) {
        (self.kept.len(), self.drained)
    }

    pub fn peek(&self, item: u32) -> Option<(i64, u64)> {
        self.items.get(item as usize).copied()
    }

    pub fn pending(&self, tx: u32) -> Option<JobId> {
        self.rows.iter().map(|r| r.job).find(|j| j.tx.0 == tx)
    }

    fn ended_of(&self, tx: u32) -> impl Iterator<Item = &Ended> {
        self.ended.iter().filter(move |e| e.job.tx.0 == tx)
    }

    pub fn ended(&self, tx: u32) -> u32 {
        self.ended_of(tx).count() as u32
    }

    pub fn drain(&mut self, places: usize) -> Vec<Entry> {
        let count = places.min(self.kept.len());
        self.drained += count as u64;
        self.kept.drain(..count).collect()
    }

    fn priority(&self, job: JobId) -> u32 {
        self.set.txns[job.tx.0 as usize].times.priority
    }

    // The greatest of its own priority and of those of the jobs that wait on it.
    fn inherited(&self, job: JobId) -> u32 {
        let waiting = self.rows.iter().filter(|r| r.waits_on == Some(job));
        let priorities = waiting.map(|r| self.inherited(r.job));
        priorities.chain([self.priority(job)]).max().unwrap()
    }

    /// Of the jobs that wait on nobody the one with the greatest inherited priority.
    pub fn running(&self) -> Option<JobId> {
        let free = self.rows.iter().filter(|r| r.waits_on.is_none());
        free.map(|r| r.job).max_by_key(|j| self.inherited(*j))
    }

    /// Why no job of the transaction is planned for a tick, or the job.
    pub fn plan(&mut self, tx: u32, tick: u64) -> Result<JobId, PlanRefused> {
        let (serial, _) = self.plans[tx as usize];
        let earliest = self.earliest(tx);
        if tick < self.now {
            return Err(PlanRefused::Past { now: self.now });
        }
        if tick < earliest {
            return Err(PlanRefused::TooSoon { earliest });
        }
        if tick > LAST_TICK {
            return Err(PlanRefused::TooFar { limit: LAST_TICK });
        }
        if self.planned.len() >= MOST_PLANNED {
            let room = MOST_PLANNED as u64;
            return Err(PlanRefused::CalendarFull { room });
        }
        if self.kept.len() >= self.room {
            let room = self.room as u64;
            return Err(PlanRefused::Full { room });
        }
        let job = JobId {
            tx: TxId(tx),
            serial,
        };
        self.plans[tx as usize] = (serial + 1, tick);
        self.kept.push(Entry::Planned { tx: TxId(tx), tick });
        if tick == self.now {
            self.release(job);
        } else {
            self.planned.push((job, tick));
        }
        Ok(job)
    }

    /// A period after the last planned job, if there is one.
    pub fn earliest(&self, tx: u32) -> u64 {
        match self.plans[tx as usize] {
            (0, _) => 0,
            (_, last) => last + self.set.txns[tx as usize].times.period,
        }
    }

    pub fn plan_next(&mut self, tx: u32) -> Result<(JobId, u64), PlanRefused> {
        let tick = self.now.max(self.earliest(tx));
        Ok((self.plan(tx, tick)?, tick))
    }

    pub fn idle(&mut self) -> IdleReply {
        if let Some(running) = self.running() {
            return IdleReply::NotIdle { running };
        }
        let Some(to) = self.planned.iter().map(|p| p.1).min() else {
            return IdleReply::Nothing;
        };
        if self.kept.len() >= self.room {
            let room = self.room as u64;
            return IdleReply::Full { room };
        }
        let from = self.now;
        self.kept.push(Entry::Idle { from, to });
        self.arrive(to);
        IdleReply::Advanced { to }
    }

    fn release(&mut self, job: JobId) {
        self.rows.push(Row {
            job,
            release: self.now,
            used: 0,
            reads: Vec::new(),
            writes: Vec::new(),
            waits_on: None,
        });
    }

    // The job is gone with its locks, and nobody waits on it.
    fn end(&mut self, job: JobId, end: End) {
        let place = self.rows.iter().position(|r| r.job == job).unwrap();
        self.rows.remove(place);
        self.ended.push(Ended { job, end });
        for row in &mut self.rows {
            if row.waits_on == Some(job) {
                row.waits_on = None;
            }
        }
    }

    // Jobs at their deadline end, higher ones first; then the releases of the tick take place.
    fn arrive(&mut self, tick: u64) {
        self.now = tick;
        let deadline = |r: &Row| r.release + self.set.txns[r.job.tx.0 as usize].times.deadline;
        let late = self.rows.iter().filter(|r| deadline(r) == tick);
        let mut late: Vec<JobId> = late.map(|r| r.job).collect();
        late.sort_by_key(|j| std::cmp::Reverse(self.priority(*j)));
        for job in late {
            self.end(job, End::Late);
        }
        let due: Vec<JobId> = self
            .planned
            .iter()
            .filter(|p| p.1 == tick)
            .map(|p| p.0)
            .collect();
        self.planned.retain(|p| p.1 != tick);
        for job in due {
            self.release(job);
        }
    }

    fn row(&self, job: JobId) -> Option<&Row> {
        self.rows.iter().find(|r| r.job == job)
    }

    /// What is left of the job's quiet steps and of its declared reads and writes.
    pub fn progress(&self, job: JobId) -> Option<Progress> {
        let row = self.row(job)?;
        let txn = &self.set.txns[job.tx.0 as usize];
        let unread = |i: &&u32| !row.reads.iter().any(|r| r.0 == **i);
        let unwritten = |i: &&u32| !row.writes.iter().any(|w| w.0 == **i);
        Some(Progress {
            quiet: txn.times.quiet.saturating_sub(row.used),
            reads: txn.reads.iter().filter(unread).copied().collect(),
            writes: txn.writes.iter().filter(unwritten).copied().collect(),
        })
    }

    fn row_mut(&mut self, job: JobId) -> &mut Row {
        self.rows.iter_mut().find(|r| r.job == job).unwrap()
    }

    // Why the job may not ask for the operation.
    fn not_allowed(&self, row: &Row, op: Op) -> Option<StepReply> {
        let txn = &self.set.txns[row.job.tx.0 as usize];
        let (item, declared) = match op {
            Op::Read(item) => (item, &txn.reads),
            Op::Write(item, _) => (item, &txn.writes),
            Op::Commit => {
                let missed = |i: &&u32| {
                    self.set.validity(**i).is_some() && !row.writes.iter().any(|w| w.0 == **i)
                };
                let item = ItemId(*txn.writes.iter().find(missed)?);
                return Some(StepReply::Unwritten { item });
            }
            Op::Compute | Op::Quit => return None,
        };
        if !declared.contains(&item.0) {
            return Some(StepReply::Undeclared { item });
        }
        let left = txn.times.quiet.saturating_sub(row.used);
        (left > 0).then_some(StepReply::TooEarly { left })
    }

    // The ceilings of the locks that a job holds.
    fn ceilings(&self, row: &Row) -> Vec<u32> {
        let is_written = |item: u32| row.writes.iter().any(|w| w.0 == item);
        let written = row.writes.iter().map(|w| self.set.absolute_ceiling(w.0));
        let read = row.reads.iter().filter(|r| !is_written(r.0));
        let read = read.map(|r| self.set.write_ceiling(r.0));
        written.chain(read).collect()
    }

    // The job in the way of a new lock, and the ceiling.
    fn blocker(&self, row: &Row, op: Op) -> Option<(JobId, u32)> {
        let has_written = |item: ItemId| row.writes.iter().any(|w| w.0 == item.0);
        let has_read = |item: ItemId| row.reads.iter().any(|r| r.0 == item.0);
        let needs = match op {
            Op::Read(item) => !has_written(item) && !has_read(item),
            Op::Write(item, _) => !has_written(item),
            _ => false,
        };
        if !needs {
            return None;
        }
        let others = self.rows.iter().filter(|r| r.job != row.job);
        let locks = others.flat_map(|r| self.ceilings(r).into_iter().map(|c| (c, r.job)));
        let top = locks.max_by_key(|(ceiling, job)| (*ceiling, self.priority(*job)))?;
        (self.priority(row.job) <= top.0).then_some((top.1, top.0))
    }

    /// What a job is told that asks for an operation.
    pub fn step(&mut self, job: JobId, op: Op) -> StepReply {
        let Some(row) = self.row(job) else {
            return StepReply::NoJob {
                ended: self.ended(job.tx.0),
                last: self.ended_of(job.tx.0).last().map(|e| e.end),
            };
        };
        let running = self.running().unwrap();
        if running != job {
            return StepReply::NotYet { running };
        }
        if let Some(refused) = self.not_allowed(row, op) {
            return refused;
        }
        if self.kept.len() >= self.room {
            let room = self.room as u64;
            return StepReply::Full { room };
        }
        let tick = self.now;
        if let Some((by, ceiling)) = self.blocker(row, op) {
            self.row_mut(job).waits_on = Some(by);
            self.kept.push(Entry::Blocked {
                job,
                op,
                by,
                ceiling,
                tick,
            });
            return StepReply::Blocked { by, ceiling };
        }
        let outcome = self.effect(job, op);
        self.arrive(tick + 1);
        let over = self.ended.iter().find(|e| e.job == job).map(|e| e.end);
        self.kept.push(Entry::Step {
            job,
            op,
            outcome,
            over,
            tick,
        });
        StepReply::Done { outcome, over }
    }

    fn effect(&mut self, job: JobId, op: Op) -> Outcome {
        let steps = self.set.txns[job.tx.0 as usize].times.steps;
        let items = self.items.clone();
        let row = self.row_mut(job);
        row.used += 1;
        let is_last = row.used == steps;
        let outcome = match op {
            Op::Read(item) => match row.writes.iter().find(|w| w.0 == item.0) {
                Some(written) => Outcome::Got {
                    value: written.1,
                    stamp: None,
                },
                None => {
                    let (value, stamp) = items[item.0 as usize];
                    if !row.reads.iter().any(|r| r.0 == item.0) {
                        row.reads.push((item.0, stamp));
                    }
                    Outcome::Got {
                        value,
                        stamp: Some(stamp),
                    }
                }
            },
            Op::Write(item, value) => {
                row.writes.retain(|w| w.0 != item.0);
                row.writes.push((item.0, value));
                Outcome::Put
            }
            Op::Compute => Outcome::Computed,
            Op::Commit | Op::Quit => Outcome::Closed,
        };
        match op {
            Op::Commit => self.commit(job),
            Op::Quit => self.end(job, End::Quit),
            _ if is_last => self.end(job, End::Overrun),
            _ => (),
        }
        outcome
    }

    fn commit(&mut self, job: JobId) {
        let row = self.row(job).unwrap().clone();
        let end = self.stale(&row).or_else(|| self.apart(&row));
        if end.is_none() {
            for (item, value) in &row.writes {
                self.items[*item as usize] = (*value, self.stamp(&row, *item));
            }
        }
        self.end(job, end.unwrap_or(End::Committed));
    }

    // The first item in item order that is older at the end tick than its validity.
    fn stale(&self, row: &Row) -> Option<End> {
        let end = self.now + 1;
        let old = row.reads.iter().filter(|(item, stamp)| {
            let validity = self.set.validity(*item);
            validity.is_some_and(|v| end - stamp > v)
        });
        let (item, stamp) = *old.min_by_key(|r| r.0)?;
        Some(End::Stale {
            item: ItemId(item),
            stamp,
        })
    }

    // Of the first relative set that fails the oldest and the newest item that were read, each the first in item order.
    fn apart(&self, row: &Row) -> Option<End> {
        for together in &self.set.together {
            let read = row.reads.iter().filter(|r| together.items.contains(&r.0));
            let mut read: Vec<(u32, u64)> = read.copied().collect();
            read.sort_unstable();
            let least = read.iter().map(|r| r.1).min().unwrap_or(0);
            let greatest = read.iter().map(|r| r.1).max().unwrap_or(0);
            if greatest - least > together.within {
                let first = |stamp| read.iter().find(|r| r.1 == stamp).unwrap().0;
                return Some(End::Apart {
                    a: ItemId(first(least)),
                    b: ItemId(first(greatest)),
                });
            }
        }
        None
    }

    // The release; of a derived item the least stamp of the dated items that were read, if there is one.
    fn stamp(&self, row: &Row, item: u32) -> u64 {
        let dated = row
            .reads
            .iter()
            .filter(|r| self.set.validity(r.0).is_some());
        match self.set.items[item as usize].0 {
            ItemKind::Derived { .. } => dated.map(|r| r.1).min().unwrap_or(row.release),
            _ => row.release,
        }
    }
}

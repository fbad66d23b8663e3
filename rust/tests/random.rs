//! A hundred thousand random calls by the crate and by the functions of rtdb.h, over generated sets, against a model that is made of
//! docs/RULES.md alone. Each answer, each drained entry and each value is compared. Some calls have numbers
//! that name nothing, and some are made by a closed handle.
mod generated;
mod model;
mod raw;

use generated::Random;
use model::run::{Progress, State};
use model::set::Set;
use raw::Handle;
use rtdb::{
    BoundError, Database, Entry, ItemId, JobId, NotOfTheSet, Op, Outcome, PlanError, StepReply,
    TxId,
};
use std::collections::BTreeMap;

const SEED: u64 = 20_261_129;
const SETS: u64 = 125;
const CALLS: u64 = 800;

/// The library by both of its ways, and the model.
struct Run {
    set: Set,
    admitted: bool,
    room: usize,
    database: Database,
    handle: Handle,
    state: State,
    // Entries that the crate took from its journal and has not handed out. They make room there that the handle's has not.
    waiting: usize,
    seen: BTreeMap<String, u64>,
}

// The name of a variant, without its fields.
fn name(value: impl std::fmt::Debug) -> String {
    let text = format!("{value:?}");
    let end = text.find([' ', '(', '{']).unwrap_or(text.len());
    text[..end].to_string()
}

impl Run {
    fn open(set: Set, room: usize) -> Run {
        let refused = set.not_admitted();
        let declarations = generated::declarations(&set);
        let opened = Database::open(&declarations, room);
        assert_eq!(opened.as_ref().err(), refused.as_ref(), "{set:?}");
        let admitted = refused.is_none();
        let mut handle = Handle::closed();
        if !admitted {
            assert_eq!(handle.open(&set, room, true), raw::NOT_ADMITTED);
        }
        assert_eq!(handle.open(&set, room, admitted), 0);
        assert_eq!(handle.open(&set, room, admitted), raw::OPEN);
        Run {
            admitted,
            room,
            database: match opened {
                Ok(database) => database,
                Err(_) => Database::open_trial(&declarations, room).unwrap(),
            },
            handle,
            state: State::opening(set.clone(), room),
            waiting: 0,
            set,
            seen: BTreeMap::new(),
        }
    }

    fn see(&mut self, what: &str, value: &str) {
        *self.seen.entry(format!("{what} {value}")).or_default() += 1;
    }

    fn has_tx(&self, tx: u32) -> bool {
        (tx as usize) < self.set.txns.len()
    }

    fn has_item(&self, item: u32) -> bool {
        (item as usize) < self.set.items.len()
    }

    // The handle's journal is full and the crate's is not: then only the handle is asked, which changes nothing.
    fn handle_alone_is_full(&self) -> bool {
        self.waiting > 0 && self.state.kept().0 >= self.room
    }

    fn plan(&mut self, tx: u32, tick: u64) {
        let mut answer = generated::time();
        let status = self.handle.plan(tx, tick, &mut answer);
        if !self.has_tx(tx) {
            assert_eq!((status, answer), (raw::NO_TRANSACTION, generated::time()));
            let told = self.database.plan(TxId(tx), tick);
            assert_eq!(told, Err(PlanError::NotOfTheSet));
            return;
        }
        let alone = self.handle_alone_is_full();
        let wanted = self.state.plan(tx, tick);
        if !alone {
            let told = self.database.plan(TxId(tx), tick);
            assert_eq!(told, wanted.map_err(PlanError::Refused));
        }
        assert_eq!((status, answer), (0, raw::plan_record(tick, wanted)));
        self.see("plan", &wanted.map_or_else(name, |_| "Planned".into()));
    }

    fn plan_next(&mut self, tx: u32) {
        let mut answer = generated::time();
        let status = self.handle.plan_next(tx, &mut answer);
        if !self.has_tx(tx) {
            assert_eq!((status, answer), (raw::NO_TRANSACTION, generated::time()));
            let told = self.database.plan_next(TxId(tx));
            assert_eq!(told, Err(PlanError::NotOfTheSet));
            return;
        }
        let alone = self.handle_alone_is_full();
        let wanted = self.state.plan_next(tx);
        if !alone {
            let told = self.database.plan_next(TxId(tx));
            assert_eq!(told, wanted.map_err(PlanError::Refused));
        }
        let tick = wanted.map_or(0, |w| w.1);
        let record = raw::plan_record(tick, wanted.map(|w| w.0));
        assert_eq!((status, answer), (0, record));
    }

    fn idle(&mut self) {
        let mut answer = generated::time();
        let status = self.handle.idle(&mut answer);
        let alone = self.handle_alone_is_full();
        let wanted = self.state.idle();
        if !alone {
            assert_eq!(self.database.idle(), wanted);
        }
        assert_eq!((status, answer), (0, raw::idle_record(wanted)));
        self.see("idle", &name(wanted));
    }

    fn step(&mut self, job: JobId, op: Op) {
        let mut answer = generated::step();
        let status = self
            .handle
            .step(raw::job_record(job), raw::operation_record(op), &mut answer);
        if !self.has_tx(job.tx.0) {
            assert_eq!((status, answer), (raw::NO_TRANSACTION, generated::step()));
            assert_eq!(self.database.step(job, op), Err(NotOfTheSet::Transaction));
            return;
        }
        let alone = self.handle_alone_is_full();
        let wanted = self.state.step(job, op);
        if !alone {
            assert_eq!(self.database.step(job, op), Ok(wanted));
        }
        assert_eq!((status, answer), (0, raw::step_record(wanted)));
        self.see("step", &name(wanted));
        if let StepReply::Done { outcome, over } = wanted {
            self.see("outcome", &name(outcome));
            if let Outcome::Got { stamp: None, .. } = outcome {
                self.see("outcome", "own");
            }
            if let Some(end) = over {
                self.see("end", &name(end));
            }
        }
    }

    // An operation whose number names none, which is told before the transaction is looked at.
    fn no_operation(&mut self, job: JobId, operation: u32) {
        let mut answer = generated::step();
        let status = self
            .handle
            .step(raw::job_record(job), raw::numbered(operation), &mut answer);
        assert_eq!((status, answer), (raw::NO_OPERATION, generated::step()));
    }

    fn jobs(&mut self, tx: u32) {
        let running = self.state.running();
        let mut job = raw::Job {
            transaction: 77,
            serial: 77,
        };
        let before = job;
        let status = self.handle.running(&mut job);
        assert_eq!(self.database.running(), running);
        let wanted = running.map_or((raw::NOTHING, before), |j| (0, raw::job_record(j)));
        assert_eq!((status, job), wanted);
        let (mut job, mut count) = (before, 77);
        let status = self.handle.pending(tx, &mut job);
        let of_count = self.handle.ended(tx, &mut count);
        let told = (
            self.database.pending(TxId(tx)),
            self.database.ended(TxId(tx)),
        );
        if !self.has_tx(tx) {
            assert_eq!(
                (status, of_count),
                (raw::NO_TRANSACTION, raw::NO_TRANSACTION)
            );
            assert_eq!((job, count), (before, 77));
            let none = NotOfTheSet::Transaction;
            assert_eq!(told, (Err(none), Err(none)));
            return;
        }
        let (pending, ended) = (self.state.pending(tx), self.state.ended(tx));
        assert_eq!(told, (Ok(pending), Ok(ended)));
        let wanted = pending.map_or((raw::NOTHING, before), |j| (0, raw::job_record(j)));
        assert_eq!((status, job), wanted);
        assert_eq!((of_count, count), (0, ended));
    }

    fn peek(&mut self, item: u32) {
        let before = raw::Stored {
            value: 77,
            stamp: 77,
        };
        let mut stored = before;
        let status = self.handle.peek(item, &mut stored);
        let told = self.database.peek(ItemId(item)).map(|s| (s.value, s.stamp));
        match self.state.peek(item) {
            None => {
                assert_eq!((status, stored), (raw::NO_ITEM, before));
                assert_eq!(told, Err(NotOfTheSet::Item));
            }
            Some((value, stamp)) => {
                assert_eq!((status, stored), (0, raw::Stored { value, stamp }));
                assert_eq!(told, Ok((value, stamp)));
            }
        }
    }

    fn counts(&mut self) {
        let (mut tick, mut size, mut kept, mut drained) = (77, 77, 77, 77);
        assert_eq!(self.handle.now(&mut tick), 0);
        assert_eq!(self.handle.planned(&mut size), 0);
        assert_eq!(self.handle.kept(&mut kept, &mut drained), 0);
        let wanted = (self.state.now(), self.state.planned(), self.state.kept());
        assert_eq!((tick, size, (kept, drained)), wanted);
        let told = (
            self.database.now(),
            self.database.planned(),
            self.database.kept(),
        );
        assert_eq!(told, wanted);
    }

    // The entries that the crate hands out, and those that the function moves, which may be more at once.
    fn drain(&mut self, places: usize) {
        let before = raw::EntryRecord {
            kind: 77,
            ..raw::EntryRecord::default()
        };
        let mut into = vec![before; places];
        let mut moved = 77;
        assert_eq!(self.handle.drain(&mut into, &mut moved), 0);
        let kept = self.state.kept().0;
        let wanted = self.state.drain(places.min(64));
        assert_eq!(moved, wanted.len());
        assert!(into[moved..].iter().all(|e| *e == before));
        let records: Vec<_> = wanted.iter().map(|e| raw::entry_record(*e)).collect();
        assert_eq!(into[..moved], records);
        let told: Vec<Entry> = self.database.drain().take(wanted.len()).collect();
        assert_eq!(told, wanted);
        for left in (kept - moved + 1..=kept).rev() {
            let took = if self.waiting == 0 {
                left.min(64)
            } else {
                self.waiting
            };
            self.waiting = took - 1;
        }
        *self.seen.entry("drained entries".to_string()).or_default() += wanted.len() as u64;
    }

    fn bounds(&mut self, tx: u32, item: u32) {
        let mut ticks = [77; 3];
        let statuses = [
            self.handle.response(tx, &mut ticks[0]),
            self.handle.blocking(tx, &mut ticks[1]),
            self.handle.age(item, &mut ticks[2]),
        ];
        let response = self.database.response(TxId(tx));
        let blocking = self.database.blocking(TxId(tx));
        let age = self.database.age(ItemId(item));
        if !self.admitted {
            assert_eq!((statuses, ticks), ([raw::NOT_ADMITTED; 3], [77; 3]));
            let none = Err(BoundError::NotAdmitted);
            assert_eq!((response, blocking), (none, none));
            assert_eq!(age, Err(BoundError::NotAdmitted));
            return;
        }
        if self.has_tx(tx) {
            let wanted = (
                self.set.response(tx as usize),
                self.set.blocking(tx as usize),
            );
            assert_eq!((response.ok(), blocking), (wanted.0, Ok(wanted.1)));
            assert_eq!(
                (&statuses[..2], &ticks[..2]),
                (&[0; 2][..], &[wanted.0.unwrap(), wanted.1][..])
            );
        } else {
            let none = Err(BoundError::NotOfTheSet(NotOfTheSet::Transaction));
            assert_eq!((response, blocking), (none, none));
            assert_eq!(
                (&statuses[..2], &ticks[..2]),
                (&[raw::NO_TRANSACTION; 2][..], &[77; 2][..])
            );
        }
        if self.has_item(item) {
            let wanted = self.set.age(item);
            assert_eq!(age, Ok(wanted));
            let told = wanted.map_or((raw::NOTHING, 77), |w| (0, w));
            assert_eq!((statuses[2], ticks[2]), told);
        } else {
            assert_eq!(age, Err(BoundError::NotOfTheSet(NotOfTheSet::Item)));
            assert_eq!((statuses[2], ticks[2]), (raw::NO_ITEM, 77));
        }
    }

    // Each call by a closed handle says so and leaves what it would write; the run begins anew then.
    fn closed(&mut self) {
        assert_eq!(self.handle.close(), 0);
        let (mut time, mut step) = (generated::time(), generated::step());
        let (mut job, mut stored) = (raw::Job::default(), raw::Stored::default());
        let (mut count, mut size, mut kept, mut ticks) = (77, 77, 77, 77);
        let mut into = [raw::EntryRecord::default()];
        let h = &mut self.handle;
        let statuses = [
            h.close(),
            h.plan(0, 0, &mut time),
            h.plan_next(0, &mut time),
            h.idle(&mut time),
            h.step(job, raw::numbered(9), &mut step),
            h.running(&mut job),
            h.pending(0, &mut job),
            h.ended(0, &mut count),
            h.response(0, &mut ticks),
            h.blocking(0, &mut ticks),
            h.age(0, &mut ticks),
            h.peek(0, &mut stored),
            h.now(&mut ticks),
            h.planned(&mut size),
            h.drain(&mut into, &mut size),
            h.kept(&mut kept, &mut ticks),
        ];
        assert_eq!(statuses, [raw::CLOSED; 16]);
        assert_eq!((time, step), (generated::time(), generated::step()));
        assert_eq!((job, stored), (raw::Job::default(), raw::Stored::default()));
        assert_eq!((count, size, kept, ticks), (77, 77, 77, 77));
        assert_eq!(into, [raw::EntryRecord::default()]);
        let mut seen = std::mem::take(&mut self.seen);
        *seen.entry("closed handles".to_string()).or_default() += 1;
        *self = Run {
            seen,
            ..Run::open(self.set.clone(), self.room)
        };
    }

    // Mostly the running job; else one that waits, has ended, is not released yet, or is none.
    fn some_job(&self, random: &mut Random) -> JobId {
        let tx = random.place(self.set.txns.len());
        let serial = match random.below(3) {
            _ if !self.has_tx(tx) => 0,
            0 => random.below(4) as u32,
            1 => self.state.ended(tx) + random.below(2) as u32,
            _ => self.state.pending(tx).map_or(0, |j| j.serial),
        };
        let other = JobId {
            tx: TxId(tx),
            serial,
        };
        match self.state.running() {
            Some(job) if !random.one_in(12) => job,
            _ => other,
        }
    }

    // Mostly what is left of the job's declared reads and writes, then a commit; else anything.
    fn some_op(&self, job: JobId, random: &mut Random) -> Op {
        let any = random.place(self.set.items.len());
        let value = random.next() as i64;
        let progress = self.state.progress(job);
        let Some(Progress {
            quiet,
            reads,
            writes,
        }) = progress.filter(|_| !random.one_in(6))
        else {
            return match random.below(8) {
                0 | 1 => Op::Read(ItemId(any)),
                2 | 3 => Op::Write(ItemId(any), value),
                4 => Op::Commit,
                5 => Op::Quit,
                _ => Op::Compute,
            };
        };
        match (random.of(&reads), random.of(&writes)) {
            _ if quiet > 0 => Op::Compute,
            (Some(item), _) => Op::Read(ItemId(item)),
            (_, Some(item)) => Op::Write(ItemId(item), value),
            _ => Op::Commit,
        }
    }

    // Steps, releases and idling, by what the state is.
    fn go_on(&mut self, random: &mut Random) {
        let tx = random.below(self.set.txns.len() as u64) as u32;
        if self.state.running().is_some() || random.one_in(9) {
            let job = self.some_job(random);
            let op = self.some_op(job, random);
            self.step(job, op);
        } else if self.state.planned() < 8 {
            self.plan(
                tx,
                self.state.now().max(self.state.earliest(tx)) + random.below(4),
            );
        } else {
            self.idle();
        }
    }

    fn call(&mut self, random: &mut Random) {
        let tx = random.place(self.set.txns.len());
        let item = random.place(self.set.items.len());
        let tick = match random.below(20) {
            0 => (1 << 40) + 1 + random.below(9),
            1 => self.state.now().saturating_sub(random.below(9)),
            _ => self.state.now() + random.below(30),
        };
        let is_full = self.state.kept().0 >= self.room;
        match random.below(1000) {
            _ if is_full && random.one_in(3) => self.drain(random.below(90) as usize),
            0..=649 => self.go_on(random),
            650..=659 => {
                let job = self.some_job(random);
                self.no_operation(job, 5 + random.below(9) as u32);
            }
            660..=699 => self.plan(tx, tick),
            700..=779 => self.plan_next(tx),
            780..=829 => self.idle(),
            830..=869 => self.jobs(tx),
            870..=909 => self.peek(item),
            910..=939 => self.counts(),
            940..=969 => self.drain(random.below(90) as usize),
            970..=998 => self.bounds(tx, item),
            _ => self.closed(),
        }
    }

    fn finish(&mut self) {
        while self.state.kept().0 > 0 {
            self.drain(64);
        }
        for item in 0..self.set.items.len() as u32 + 1 {
            self.peek(item);
        }
        for tx in 0..self.set.txns.len() as u32 + 1 {
            self.jobs(tx);
        }
        self.counts();
    }
}

#[test]
fn each_call_answers_what_the_model_does() {
    let mut random = Random(SEED);
    let mut seen: BTreeMap<String, u64> = BTreeMap::new();
    let mut admitted = 0;
    for number in 0..SETS {
        let set = generated::set(&mut random, number);
        assert_eq!(set.not_compiled(), None, "{set:?}");
        let room = random.of(&[1, 3, 8, 64, 300]).unwrap();
        let mut run = Run::open(set, room);
        admitted += u64::from(run.admitted);
        for _ in 0..CALLS {
            run.call(&mut random);
        }
        run.finish();
        for (what, count) in run.seen {
            *seen.entry(what).or_default() += count;
        }
    }
    println!("{} calls, {admitted} of {SETS} sets admitted", SETS * CALLS);
    for (what, count) in &seen {
        println!("{what}: {count}");
    }
    assert_eq!(SETS * CALLS, 100_000);
    assert!(admitted > SETS / 10 && admitted < SETS);
    for what in generated::WANTED {
        assert!(seen.contains_key(*what), "no {what}");
    }
}

#[test]
fn each_refusal_is_the_model_s() {
    let mut random = Random(SEED + 1);
    let mut seen: BTreeMap<String, u64> = BTreeMap::new();
    for number in 0..3000 {
        let set = generated::spoiled(&mut random, number);
        let compiled = set.not_compiled();
        let refused = compiled.or_else(|| set.not_admitted());
        let declarations = generated::declarations(&set);
        let told = Database::open(&declarations, 8).err();
        assert_eq!(told, refused, "{set:?}");
        let tried = Database::open_trial(&declarations, 8).err();
        assert_eq!(tried, compiled, "{set:?}");
        *seen
            .entry(refused.map_or("Opened".to_string(), name))
            .or_default() += 1;
    }
    for (what, count) in &seen {
        println!("{what}: {count}");
    }
    for what in generated::REFUSALS {
        assert!(seen.contains_key(*what), "no {what}");
    }
}

// 65,536 releases are planned and did not take place.
#[test]
fn the_calendar_is_full() {
    let mut run = Run::open(generated::calendar(), 64);
    for tick in 1..=65_537 {
        run.plan(0, tick);
        if run.state.kept().0 == 64 {
            run.drain(64);
        }
    }
    assert_eq!(run.seen.get("plan CalendarFull"), Some(&1));
    assert_eq!(run.state.planned(), 65_536);
    for _ in 0..200 {
        match run.state.running() {
            Some(job) => run.step(job, Op::Quit),
            None => run.idle(),
        }
        run.drain(64);
    }
    run.plan(0, 0);
    let first = JobId {
        tx: TxId(0),
        serial: 0,
    };
    run.step(first, Op::Compute);
    run.finish();
}

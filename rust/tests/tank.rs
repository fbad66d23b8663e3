//! The tank in safe Rust, refusals with their numbers, and entries that are handed out in pieces.
use rtdb::{
    BoundError, Database, Declarations, End, Entry, IdleReply, ItemId, ItemKind, JobId,
    NotOfTheSet, Op, OpenError, Outcome, PlanError, PlanRefused, StepReply, Stored, Times, TxId,
    Which,
};

fn times(priority: u32, period: u64, offset: u64, steps: u64) -> Times {
    Times {
        priority,
        period,
        offset,
        deadline: period,
        steps,
        quiet: 0,
    }
}

struct Tank {
    database: Database,
    level: ItemId,
    valve: ItemId,
    sampler: TxId,
    controller: TxId,
}

fn tank() -> Tank {
    let mut d = Declarations::new();
    let level = d.item(ItemKind::Sensor { validity: 20 }, 0);
    let valve = d.item(ItemKind::State, 0);
    let sampler = d.transaction(times(2, 10, 0, 2), &[], &[level]);
    let controller = d.transaction(times(1, 20, 8, 4), &[level], &[valve]);
    let database = Database::open(&d, 64).unwrap();
    Tank {
        database,
        level,
        valve,
        sampler,
        controller,
    }
}

#[derive(Default, Clone, Copy)]
struct Progress {
    serial: u32,
    granted: u32,
    level: i64,
}

fn next(tank: &Tank, tx: TxId, at: &Progress) -> Op {
    match (tx == tank.sampler, at.granted) {
        (true, 0) => Op::Write(tank.level, i64::from(at.serial) * 4 + 52),
        (false, 0) => Op::Read(tank.level),
        (false, 1) => Op::Compute,
        (false, 2) => Op::Write(tank.valve, (at.level - 50).max(0)),
        _ => Op::Commit,
    }
}

#[test]
fn runs_as_in_the_other_languages() {
    let mut tank = tank();
    for k in 0..4 {
        tank.database.plan(tank.sampler, k * 10).unwrap();
    }
    for k in 0..2 {
        tank.database.plan(tank.controller, 8 + k * 20).unwrap();
    }
    assert_eq!(tank.database.planned(), 5);
    let mut progress = [Progress::default(); 2];
    let (mut steps, mut refusals, mut idles, mut committed) = (0, 0, 0, 0);
    loop {
        let Some(job) = tank.database.running() else {
            match tank.database.idle() {
                IdleReply::Advanced { .. } => idles += 1,
                IdleReply::Nothing => break,
                other => panic!("{other:?}"),
            }
            continue;
        };
        let at = &mut progress[job.tx.0 as usize];
        if at.serial != job.serial {
            *at = Progress {
                serial: job.serial,
                ..Progress::default()
            };
        }
        let at = progress[job.tx.0 as usize];
        let op = next(&tank, job.tx, &at);
        match tank.database.step(job, op).unwrap() {
            StepReply::Done { outcome, over } => {
                steps += 1;
                let at = &mut progress[job.tx.0 as usize];
                at.granted += 1;
                if let Outcome::Got { value, .. } = outcome {
                    at.level = value;
                }
                if over == Some(End::Committed) {
                    committed += 1;
                }
            }
            StepReply::Blocked { .. } => refusals += 1,
            other => panic!("{other:?}"),
        }
    }
    assert_eq!((steps, refusals, idles, committed), (16, 2, 3, 6));
    assert_eq!(tank.database.now(), 34);
    assert_eq!(
        tank.database.peek(tank.valve),
        Ok(Stored {
            value: 10,
            stamp: 28
        })
    );
    assert_eq!(tank.database.ended(tank.sampler), Ok(4));
    assert_eq!(tank.database.kept(), (27, 0));
    let first: Vec<Entry> = tank.database.drain().take(5).collect();
    assert_eq!(
        first[0],
        Entry::Planned {
            tx: tank.sampler,
            tick: 0
        }
    );
    assert_eq!(tank.database.kept(), (22, 5));
    let rest: Vec<Entry> = tank.database.drain().collect();
    assert_eq!(
        rest[0],
        Entry::Planned {
            tx: tank.controller,
            tick: 28
        }
    );
    assert_eq!(rest.len(), 22);
    assert_eq!(tank.database.kept(), (0, 27));
}

#[test]
fn numbers_are_tested() {
    let mut tank = tank();
    let none = TxId(2);
    assert_eq!(tank.database.plan(none, 0), Err(PlanError::NotOfTheSet));
    assert_eq!(
        tank.database.step(
            JobId {
                tx: none,
                serial: 0
            },
            Op::Commit
        ),
        Err(NotOfTheSet::Transaction)
    );
    assert_eq!(tank.database.peek(ItemId(2)), Err(NotOfTheSet::Item));
    assert_eq!(tank.database.pending(none), Err(NotOfTheSet::Transaction));
    assert_eq!(tank.database.pending(tank.sampler), Ok(None));
    assert_eq!(tank.database.age(tank.valve), Ok(None));
    assert_eq!(tank.database.blocking(tank.sampler), Ok(4 - 1));
    assert_eq!(tank.database.response(tank.sampler), Ok(2 + 3));
    tank.database.plan(tank.sampler, 5).unwrap();
    let early = tank.database.plan(tank.sampler, 14);
    assert_eq!(
        early,
        Err(PlanError::Refused(PlanRefused::TooSoon { earliest: 15 }))
    );
    assert_eq!(early.unwrap_err().to_string(), "TooSoon 15");
}

#[test]
fn refusals_have_their_numbers() {
    let mut d = Declarations::new();
    let level = d.item(ItemKind::Sensor { validity: 20 }, 0);
    assert_eq!(
        Database::open(&d, 64).err(),
        Some(OpenError::NoWriter { item: level })
    );
    let a = d.transaction(times(1, 20, 0, 30), &[], &[level]);
    assert_eq!(
        Database::open(&d, 64).err(),
        Some(OpenError::NotSchedulable { tx: a, demand: 30 })
    );
    assert_eq!(
        Database::open(&d, (1 << 20) + 1).err(),
        Some(OpenError::RoomTooLarge)
    );
    let b = d.transaction(times(1, 20, 0, 2), &[], &[]);
    let same = Database::open(&d, 64).err().unwrap();
    assert_eq!(
        (same, same.to_string().as_str()),
        (OpenError::SamePrio { a, b }, "SamePrio txn0 txn1")
    );
    let c = d.transaction(times(2, 20, 30, 2), &[ItemId(9)], &[]);
    assert_eq!(
        Database::open(&d, 64).err(),
        Some(OpenError::UnknownItem { place: 1 })
    );
    let mut d = Declarations::new();
    d.transaction(times(1, 20, 0, 2), &[], &[]);
    d.transaction(times(2, 20, 30, 2), &[], &[]);
    assert_eq!(
        Database::open(&d, 64).err(),
        Some(OpenError::BadTimes {
            tx: TxId(1),
            which: Which::Offset
        })
    );
    assert_eq!(c, TxId(2));
}

#[test]
fn errors_have_the_words_of_the_formats() {
    let (a, b, item) = (TxId(3), TxId(40), ItemId(12));
    let which = Which::Deadline;
    let words = [
        (OpenError::RoomTooLarge, "RoomTooLarge"),
        (OpenError::OutOfMemory, "OutOfMemory"),
        (OpenError::UnknownItem { place: 7 }, "BadNumber 7"),
        (OpenError::TooManyItems { count: 257 }, "TooManyItems 257"),
        (OpenError::TooManyTxns { count: 65 }, "TooManyTxns 65"),
        (OpenError::SamePrio { a, b }, "SamePrio txn3 txn40"),
        (
            OpenError::BadTimes { tx: a, which },
            "BadTimes txn3 deadline",
        ),
        (OpenError::NoWriter { item }, "NoWriter item12"),
        (
            OpenError::TwoWriters { item, a, b },
            "TwoWriters item12 txn3 txn40",
        ),
        (
            OpenError::CyclicDerivation { item },
            "CyclicDerivation item12",
        ),
        (OpenError::TooManySets { count: 65 }, "TooManySets 65"),
        (OpenError::BadTogether { set: 0 }, "BadTogether 0"),
        (
            OpenError::NotSchedulable { tx: b, demand: 31 },
            "NotSchedulable txn40 31",
        ),
        (
            OpenError::TooOld {
                tx: a,
                item,
                age: 61,
            },
            "TooOld txn3 item12 61",
        ),
        (
            OpenError::TooApart {
                tx: a,
                set: 2,
                age: 9,
            },
            "TooApart txn3 2 9",
        ),
        (
            OpenError::Other {
                status: 9,
                rule: 77,
            },
            "NotCompiled",
        ),
        (
            OpenError::Other {
                status: 4000,
                rule: 0,
            },
            "Unknown 4000",
        ),
    ];
    for (error, text) in words {
        assert_eq!(error.to_string(), text);
    }
    assert_eq!(NotOfTheSet::Transaction.to_string(), "NoTransaction");
    assert_eq!(NotOfTheSet::Item.to_string(), "NoItem");
    assert_eq!(BoundError::NotAdmitted.to_string(), "NotAdmitted");
    assert_eq!(
        BoundError::NotOfTheSet(NotOfTheSet::Item).to_string(),
        "NoItem"
    );
    assert_eq!(PlanError::NotOfTheSet.to_string(), "NoTransaction");
}

// The sampler of c steps is blocked by the controller of d for d - 1 ticks, and has 10: at 175 percent these are 4 and 7, at 176
// the controller has 8.
#[test]
fn the_margin_is_that_of_the_longest_blocking() {
    let tank = tank();
    let margin = tank.database.margin().unwrap();
    let barrier = OpenError::NotSchedulable {
        tx: tank.sampler,
        demand: 11,
    };
    assert_eq!((margin.percent, margin.barrier), (175, Some(barrier)));
    assert_eq!(tank.database.now(), 0);
    let database = Database::open_trial(&Declarations::new(), 8).unwrap();
    let margin = database.margin().unwrap();
    assert_eq!((margin.percent, margin.barrier), (1000, None));
}

#[test]
fn goes_to_another_thread() {
    let mut tank = tank();
    let database = std::thread::spawn(move || {
        tank.database.plan(tank.sampler, 0).unwrap();
        tank.database
    })
    .join()
    .unwrap();
    assert_eq!(
        database.running(),
        Some(JobId {
            tx: TxId(0),
            serial: 0
        })
    );
}

#[test]
fn a_trial_has_no_bounds() {
    let mut d = Declarations::new();
    let level = d.item(ItemKind::Sensor { validity: 20 }, 0);
    let fast = d.transaction(times(2, 10, 0, 2), &[], &[level]);
    let slow = d.transaction(times(1, 20, 0, 30), &[], &[]);
    let refused = OpenError::NotSchedulable {
        tx: slow,
        demand: 34,
    };
    assert_eq!(Database::open(&d, 64).err(), Some(refused));
    let mut database = Database::open_trial(&d, 64).unwrap();
    assert_eq!(database.response(fast), Err(BoundError::NotAdmitted));
    assert_eq!(database.age(level), Err(BoundError::NotAdmitted));
    let job = database.plan(slow, 0).unwrap();
    let mut over = None;
    while over.is_none() {
        let StepReply::Done { over: told, .. } = database.step(job, Op::Compute).unwrap() else {
            panic!("a lone job is granted each step");
        };
        over = told;
    }
    assert_eq!((over, database.now()), (Some(End::Late), 20));
}

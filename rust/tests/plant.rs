//! The tank on a plant: two threads, each with a seat of its own.
use std::thread;

use rtdb::{
    Busy, Declarations, End, Entry, IdleReply, ItemId, ItemKind, NotOfTheSet, Op, OpenError,
    Outcome, PlanError, Plant, Seat, StepReply, Stored, Times, TxId,
};

const LEVEL: ItemId = ItemId(0);
const VALVE: ItemId = ItemId(1);
const SAMPLER: TxId = TxId(0);
const CONTROLLER: TxId = TxId(1);

fn times(priority: u32, period: u64, offset: u64, steps: u64) -> Times {
    Times {
        priority,
        period,
        offset,
        deadline: period,
        steps,
        quiet: 0,
    }
}

fn tank() -> (Plant, Seat, Seat) {
    let mut d = Declarations::new();
    d.item(ItemKind::Sensor { validity: 20 }, 0);
    d.item(ItemKind::State, 0);
    d.transaction(times(2, 10, 0, 2), &[], &[LEVEL]);
    d.transaction(times(1, 20, 8, 4), &[LEVEL], &[VALVE]);
    let (plant, mut seats) = Plant::open(&d, 64).unwrap();
    let controller = seats.pop().unwrap();
    let sampler = seats.pop().unwrap();
    assert!(seats.is_empty());
    (plant, sampler, controller)
}

// Tries until another seat does not have the turn.
fn until<T>(mut call: impl FnMut() -> Result<T, Busy>) -> T {
    loop {
        match call() {
            Ok(answer) => return answer,
            Err(Busy) => thread::yield_now(),
        }
    }
}

fn next(tx: TxId, serial: u32, granted: u32, level: i64) -> Op {
    match (tx, granted) {
        (SAMPLER, 0) => Op::Write(LEVEL, i64::from(serial) * 4 + 52),
        (CONTROLLER, 0) => Op::Read(LEVEL),
        (CONTROLLER, 1) => Op::Compute,
        (CONTROLLER, 2) => Op::Write(VALVE, (level - 50).max(0)),
        _ => Op::Commit,
    }
}

fn run_job(seat: &mut Seat, serial: u32) -> End {
    let (mut granted, mut level) = (0, 0);
    loop {
        let op = next(seat.tx(), serial, granted, level);
        match until(|| seat.step(serial, op)) {
            StepReply::Done { outcome, over } => {
                granted += 1;
                if let Outcome::Got { value, .. } = outcome {
                    level = value;
                }
                if let Some(end) = over {
                    return end;
                }
            }
            StepReply::NoJob { ended, .. } => {
                assert!(ended <= serial);
                let told = until(|| seat.idle());
                assert!(!matches!(told, IdleReply::Full { .. }));
            }
            StepReply::NotYet { .. } | StepReply::Blocked { .. } => thread::yield_now(),
            other => panic!("{other:?}"),
        }
    }
}

fn run(mut seat: Seat, jobs: u32) -> Seat {
    for serial in 0..jobs {
        assert_eq!(run_job(&mut seat, serial), End::Committed);
    }
    seat
}

#[test]
fn two_threads_share_a_plant() {
    let (mut plant, mut sampler, mut controller) = tank();
    sampler.plan(SAMPLER, 0).unwrap().unwrap();
    controller.plan(CONTROLLER, 8).unwrap().unwrap();
    for _ in 1..4 {
        sampler.plan_next(SAMPLER).unwrap().unwrap();
    }
    plant.plan_next(CONTROLLER).unwrap().unwrap();
    let one = thread::spawn(move || run(sampler, 4));
    let two = thread::spawn(move || run(controller, 2));
    let (sampler, controller) = (one.join().unwrap(), two.join().unwrap());
    let valve = plant.peek(VALVE).unwrap().unwrap();
    assert_eq!(
        valve,
        Stored {
            value: 10,
            stamp: 28
        }
    );
    let mut entries = Vec::new();
    while plant.drain(&mut entries).unwrap() > 0 {}
    assert_eq!(entries.len(), 27);
    assert_eq!(plant.front(), 27);
    assert!(sampler.front() <= 27 && controller.front() <= 27);
    let ends = entries.iter().filter_map(|e| match e {
        Entry::Step { over, .. } => *over,
        _ => None,
    });
    assert_eq!(ends.collect::<Vec<End>>(), [End::Committed; 6]);
    drop(plant);
    assert_eq!(sampler.tx(), SAMPLER);
}

#[test]
fn a_seat_outlives_the_plant() {
    let (plant, mut sampler, controller) = tank();
    drop(controller);
    drop(plant);
    let job = sampler.plan(SAMPLER, 0).unwrap().unwrap();
    let told = sampler.step(job.serial, Op::Write(LEVEL, 52)).unwrap();
    assert!(matches!(told, StepReply::Done { .. }));
    assert_eq!(sampler.front(), 2);
    sampler.step(job.serial, Op::Commit).unwrap();
    assert_eq!(
        sampler.peek(LEVEL),
        Ok(Ok(Stored {
            value: 52,
            stamp: 0
        }))
    );
}

#[test]
fn numbers_are_tested() {
    let (mut plant, mut sampler, _controller) = tank();
    assert_eq!(sampler.plan(TxId(2), 0), Ok(Err(PlanError::NotOfTheSet)));
    assert_eq!(plant.plan_next(TxId(2)), Ok(Err(PlanError::NotOfTheSet)));
    assert_eq!(plant.peek(ItemId(2)), Ok(Err(NotOfTheSet::Item)));
    assert_eq!(sampler.idle(), Ok(IdleReply::Nothing));
    let none = Plant::open(&Declarations::new(), (1 << 20) + 1);
    assert_eq!(none.err(), Some(OpenError::RoomTooLarge));
}

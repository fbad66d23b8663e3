use rtdb::{
    Database, Declarations, IdleReply, ItemId, ItemKind, Op, Outcome, StepReply, Times, TxId,
};
use std::error::Error;

struct Tank {
    level: ItemId,
    valve: ItemId,
    sampler: TxId,
    controller: TxId,
}

fn times(priority: u32, period: u64, offset: u64, steps: u64) -> Times {
    Times {
        priority,
        period,
        offset,
        deadline: period,
        steps,
        quiet: 0,
    }
}

fn declare(declarations: &mut Declarations) -> Tank {
    let level = declarations.item(ItemKind::Sensor { validity: 20 }, 0);
    let valve = declarations.item(ItemKind::State, 0);
    Tank {
        level,
        valve,
        sampler: declarations.transaction(times(2, 10, 0, 2), &[], &[level]),
        controller: declarations.transaction(times(1, 20, 8, 3), &[level], &[valve]),
    }
}

fn main() -> Result<(), Box<dyn Error>> {
    let mut declarations = Declarations::new();
    let tank = declare(&mut declarations);
    let mut database = Database::open(&declarations, 64)?;
    for k in 0..4 {
        database.plan(tank.sampler, 10 * k)?;
    }
    for k in 0..2 {
        database.plan(tank.controller, 8 + 20 * k)?;
    }
    tank.run(&mut database)?;
    let level = database.peek(tank.level)?;
    let valve = database.peek(tank.valve)?;
    print!("level {} of tick {}, ", level.value, level.stamp);
    println!("valve {} of tick {}", valve.value, valve.stamp);
    Ok(())
}

impl Tank {
    /// The next operation of a job, after so many that were granted.
    fn next(&self, tx: TxId, serial: u32, granted: u32, level: i64) -> Op {
        match (tx == self.sampler, granted) {
            (true, 0) => Op::Write(self.level, 52 + 4 * i64::from(serial)),
            (false, 0) => Op::Read(self.level),
            (false, 1) => Op::Write(self.valve, level - 50),
            _ => Op::Commit,
        }
    }

    fn run(&self, database: &mut Database) -> Result<(), Box<dyn Error>> {
        let mut granted = [0, 0];
        let mut level = 0;
        loop {
            let Some(job) = database.running() else {
                match database.idle() {
                    IdleReply::Advanced { .. } => continue,
                    IdleReply::Nothing => return Ok(()),
                    other => return Err(format!("{other:?}").into()),
                }
            };
            let at = &mut granted[job.tx.0 as usize];
            match database.step(job, self.next(job.tx, job.serial, *at, level))? {
                StepReply::Done { outcome, over } => {
                    if let Outcome::Got { value, .. } = outcome {
                        level = value;
                    }
                    *at = if over.is_some() { 0 } else { *at + 1 };
                }
                StepReply::Blocked { .. } => (),
                other => return Err(format!("{other:?}").into()),
            }
        }
    }
}

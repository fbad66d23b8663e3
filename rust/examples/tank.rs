//! A sampler that writes the level of a tank, and a controller that reads it and sets a valve.
use std::error::Error;

use rtdb::{
    Database, Declarations, End, IdleReply, ItemId, ItemKind, JobId, Op, Outcome, StepReply, Times,
    TxId,
};

/// How far the job of a transaction is.
#[derive(Default)]
struct Progress {
    serial: u32,
    granted: u32,
    level: i64,
}

#[derive(Default)]
struct Counts {
    plans: u32,
    steps: u32,
    refusals: u32,
    idles: u32,
    committed: u32,
}

struct Plant {
    database: Database,
    level: ItemId,
    valve: ItemId,
    sampler: TxId,
    controller: TxId,
    progress: [Progress; 2],
    counts: Counts,
}

impl Plant {
    fn new() -> Result<Plant, Box<dyn Error>> {
        let mut declarations = Declarations::new();
        let level = declarations.item(ItemKind::Sensor { validity: 20 }, 0);
        let valve = declarations.item(ItemKind::State, 0);
        let fast = Times {
            priority: 2,
            period: 10,
            offset: 0,
            deadline: 10,
            steps: 2,
            quiet: 0,
        };
        let slow = Times {
            priority: 1,
            period: 20,
            offset: 8,
            deadline: 20,
            steps: 4,
            quiet: 0,
        };
        let sampler = declarations.transaction(fast, &[], &[level]);
        let controller = declarations.transaction(slow, &[level], &[valve]);
        let database = Database::open(&declarations, 64)?;
        Ok(Plant {
            database,
            level,
            valve,
            sampler,
            controller,
            progress: Default::default(),
            counts: Counts::default(),
        })
    }

    /// Plans so many jobs, a period from each other.
    fn plan(&mut self, tx: TxId, first: u64, period: u64, jobs: u64) -> Result<(), Box<dyn Error>> {
        for k in 0..jobs {
            self.database.plan(tx, first + k * period)?;
            self.counts.plans += 1;
        }
        Ok(())
    }

    /// The next operation of the body.
    fn next(&self, tx: TxId) -> Op {
        let at = &self.progress[tx.0 as usize];
        match (tx == self.sampler, at.granted) {
            (true, 0) => Op::Write(self.level, i64::from(at.serial) * 4 + 52),
            (false, 0) => Op::Read(self.level),
            (false, 1) => Op::Compute,
            (false, 2) => Op::Write(self.valve, (at.level - 50).max(0)),
            _ => Op::Commit,
        }
    }

    /// The running job asks for the next operation of its body.
    fn ask(&mut self, job: JobId) -> Result<(), Box<dyn Error>> {
        let place = job.tx.0 as usize;
        if self.progress[place].serial != job.serial {
            self.progress[place] = Progress {
                serial: job.serial,
                ..Progress::default()
            };
        }
        match self.database.step(job, self.next(job.tx))? {
            StepReply::Done { outcome, over } => {
                self.counts.steps += 1;
                self.progress[place].granted += 1;
                if let Outcome::Got { value, .. } = outcome {
                    self.progress[place].level = value;
                }
                if over == Some(End::Committed) {
                    self.counts.committed += 1;
                }
                Ok(())
            }
            // It asks again when it runs again.
            StepReply::Blocked { .. } => {
                self.counts.refusals += 1;
                Ok(())
            }
            other => Err(format!("{other:?}").into()),
        }
    }

    /// Runs until nothing is pending and nothing planned.
    fn run(&mut self) -> Result<(), Box<dyn Error>> {
        loop {
            if let Some(job) = self.database.running() {
                self.ask(job)?;
                continue;
            }
            match self.database.idle() {
                IdleReply::Advanced { .. } => self.counts.idles += 1,
                IdleReply::Nothing => return Ok(()),
                other => return Err(format!("{other:?}").into()),
            }
        }
    }
}

fn main() -> Result<(), Box<dyn Error>> {
    let mut plant = Plant::new()?;
    plant.plan(plant.sampler, 0, 10, 4)?;
    plant.plan(plant.controller, 8, 20, 2)?;
    plant.run()?;
    let Counts {
        plans,
        steps,
        refusals,
        idles,
        committed,
    } = plant.counts;
    let valve = plant.database.peek(plant.valve)?;
    println!("plans {plans} steps {steps} refusals {refusals} idles {idles}");
    println!(
        "committed {committed} of {plans}, now {}, valve {} of tick {}",
        plant.database.now(),
        valve.value,
        valve.stamp
    );
    Ok(())
}

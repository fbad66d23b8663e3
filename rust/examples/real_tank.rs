//! A tank controller whose ticks are real, in three threads: one owns the database and makes the steps, the operator reads setpoints from
//! standard input, and the logger writes what it is sent and keeps the journal on the disk. They talk by channels.
//!
//!     real_tank SECONDS [JOURNAL]     a new file, which gets the journal
//!
//! A tick is a millisecond. A sampler measures the level every 10 ticks, a controller sets the valve every 20, and a display tells
//! level, valve and setpoint once a second. A line `N` on standard input makes the operator write the setpoint N. At the end it tells
//! how far reality was from the model: a tick is late if its step ended after the tick, and its lateness is how long after its time it
//! began. By the model no job is late, since the set is admitted.
use std::error::Error;
use std::io::{self, BufRead};
use std::sync::mpsc::{self, Receiver, Sender};
use std::thread;
use std::time::{Duration, Instant};

use rtdb::{
    Database, Declarations, End, Entry, FileLog, IdleReply, ItemId, ItemKind, JobId, LogError, Op,
    Outcome, StepReply, Times, TxId,
};

const TICK: Duration = Duration::from_millis(1);
const TICKS_A_SECOND: u64 = 1000;
const ROOM: usize = 1024;
const LOG_ROOM: usize = 1 << 20;

/// The set with its names, as the journal's log wants it.
const TEXT: &str = "\
rtdb report 1
item level sensor 30 300
item valve state - 0
item setpoint state - 500
txn sampler 4 10 0 10 2 reads - writes level
txn controller 3 20 2 20 5 reads level,setpoint writes valve
txn operator 2 100 0 100 2 reads - writes setpoint
txn display 1 1000 5 1000 4 reads level,valve,setpoint writes -
mode admitted
";

// The transactions, by their places.
const SAMPLER: usize = 0;
const CONTROLLER: usize = 1;
const OPERATOR: usize = 2;
const DISPLAY: usize = 3;

type Fault = Box<dyn Error + Send + Sync>;

/// What the plant tells the logger.
enum Message {
    Entries(Vec<Entry>),
    Display(String),
}

/// The job that a transaction's body is at: how many of its steps were granted, and what it read.
#[derive(Clone, Copy, Default)]
struct Progress {
    granted: usize,
    read: [i64; 3],
}

/// A transaction with its numbers and its planned release.
struct Task {
    id: TxId,
    period: u64,
    last: usize,
    planned: Option<u64>,
    earliest: u64,
    at: Progress,
}

/// How far reality was from the model.
#[derive(Default)]
struct Reality {
    ticks: u64,
    late: u64,
    lateness: Duration,
    longest: Duration,
    jobs: u64,
    committed: u64,
    late_jobs: u64,
}

/// The thread that makes the steps.
struct Plant {
    database: Database,
    level: ItemId,
    valve: ItemId,
    setpoint: ItemId,
    tasks: Vec<Task>,
    /// What a sensor would measure.
    water: i64,
    wish: i64,
    wishes: Receiver<i64>,
    out: Sender<Message>,
    reality: Reality,
}

/// The valve is open by half, and by more or less if the level lies above or below the setpoint.
fn opening(level: i64, setpoint: i64) -> i64 {
    (50 + (level - setpoint) / 2).clamp(0, 100)
}

impl Plant {
    fn new(wishes: Receiver<i64>, out: Sender<Message>) -> Result<Plant, Fault> {
        let mut d = Declarations::new();
        let level = d.item(ItemKind::Sensor { validity: 30 }, 300);
        let valve = d.item(ItemKind::State, 0);
        let setpoint = d.item(ItemKind::State, 500);
        let mut tasks = Vec::new();
        let mut task = |priority, period, offset, steps, reads: &[ItemId], writes: &[ItemId]| {
            let times = Times {
                priority,
                period,
                offset,
                deadline: period,
                steps,
                quiet: 0,
            };
            tasks.push(Task {
                id: d.transaction(times, reads, writes),
                period,
                last: steps as usize - 1,
                planned: None,
                earliest: offset,
                at: Progress::default(),
            });
        };
        // Priority, period, offset, steps, reads, writes: in the order of the places above.
        task(4, 10, 0, 2, &[], &[level]);
        task(3, 20, 2, 5, &[level, setpoint], &[valve]);
        task(2, 100, 0, 2, &[], &[setpoint]);
        task(1, TICKS_A_SECOND, 5, 4, &[level, valve, setpoint], &[]);
        let mut plant = Plant {
            database: Database::open(&d, ROOM)?,
            level,
            valve,
            setpoint,
            tasks,
            water: 300,
            wish: 500,
            wishes,
            out,
            reality: Reality::default(),
        };
        for task in [SAMPLER, CONTROLLER, DISPLAY] {
            plant.plan(task, 0)?;
        }
        Ok(plant)
    }

    /// Plans the task's next job for the tick, or for the earliest that may be.
    fn plan(&mut self, task: usize, tick: u64) -> Result<(), Fault> {
        let t = &mut self.tasks[task];
        let tick = tick.max(t.earliest);
        self.database.plan(t.id, tick)?;
        t.planned = Some(tick);
        t.earliest = tick + t.period;
        Ok(())
    }

    /// The next operation of the task's body.
    fn next(&self, task: usize) -> Op {
        let Task { at, last, .. } = &self.tasks[task];
        match (task, at.granted) {
            (_, granted) if granted == *last => Op::Commit,
            (SAMPLER, _) => Op::Write(self.level, self.water),
            (OPERATOR, _) => Op::Write(self.setpoint, self.wish),
            (CONTROLLER | DISPLAY, 0) => Op::Read(self.level),
            (DISPLAY, 1) => Op::Read(self.valve),
            (CONTROLLER, 1) | (DISPLAY, _) => Op::Read(self.setpoint),
            (CONTROLLER, 2) => Op::Compute,
            _ => Op::Write(self.valve, opening(at.read[0], at.read[1])),
        }
    }

    /// What a committed job does to the world: water runs in and out between two samples, and the display is written.
    fn act(&mut self, task: usize) -> Result<(), Fault> {
        if task == SAMPLER {
            self.water += (50 - self.database.peek(self.valve)?.value) / 10;
        }
        if task == DISPLAY {
            let [level, valve, setpoint] = self.tasks[task].at.read;
            let Reality {
                ticks,
                late,
                lateness,
                ..
            } = self.reality;
            let lateness = lateness.as_micros();
            self.out.send(Message::Display(format!(
                "level {level}, valve {valve}, setpoint {setpoint}; late {late} of {ticks} ticks, greatest lateness {lateness} us"
            )))?;
        }
        Ok(())
    }

    /// A job ended: that of a periodic task is planned again.
    fn ended(&mut self, task: usize, end: End) -> Result<(), Fault> {
        self.reality.jobs += 1;
        self.reality.late_jobs += u64::from(end == End::Late);
        self.tasks[task].planned = None;
        if end == End::Committed {
            self.reality.committed += 1;
            self.act(task)?;
        }
        self.tasks[task].at = Progress::default();
        match task == OPERATOR {
            true => Ok(()),
            false => self.plan(task, 0),
        }
    }

    /// The running job asks, and where it is refused the one that holds the lock: one granted step, which is the tick's.
    fn step(&mut self) -> Result<(), Fault> {
        loop {
            let job = self.database.running().ok_or("no job runs")?;
            match self.ask(job)? {
                StepReply::Blocked { .. } => continue,
                StepReply::Done { outcome, over } => return self.granted(job, outcome, over),
                other => return Err(format!("{other:?}").into()),
            }
        }
    }

    fn ask(&mut self, job: JobId) -> Result<StepReply, Fault> {
        let op = self.next(job.tx.0 as usize);
        let before = Instant::now();
        let reply = self.database.step(job, op)?;
        self.reality.longest = self.reality.longest.max(before.elapsed());
        Ok(reply)
    }

    fn granted(&mut self, job: JobId, outcome: Outcome, over: Option<End>) -> Result<(), Fault> {
        let task = job.tx.0 as usize;
        let at = &mut self.tasks[task].at;
        if let Outcome::Got { value, .. } = outcome {
            at.read[at.granted] = value;
        }
        at.granted += 1;
        match over {
            Some(end) => self.ended(task, end),
            None => Ok(()),
        }
    }

    /// No job is pending: there is time for the logger and for the operator. If the next release is due, the model's time goes on to it,
    /// and its job takes the tick's step.
    fn idle(&mut self, tick: u64) -> Result<(), Fault> {
        let next = self.tasks.iter().filter_map(|t| t.planned).min();
        if next == Some(tick) {
            return match self.database.idle() {
                IdleReply::Advanced { .. } => self.step(),
                other => Err(format!("{other:?}").into()),
            };
        }
        if self.tasks[OPERATOR].planned.is_none() {
            if let Ok(wish) = self.wishes.try_recv() {
                self.wish = wish;
                return self.plan(OPERATOR, tick + 1);
            }
        }
        if tick % 100 == 99 {
            self.log_entries()?;
        }
        Ok(())
    }

    /// Sends the entries of the journal to the logger, which makes room there.
    fn log_entries(&mut self) -> Result<(), Fault> {
        let entries: Vec<Entry> = self.database.drain().collect();
        Ok(self.out.send(Message::Entries(entries))?)
    }

    fn run(mut self, ticks: u64) -> Result<Reality, Fault> {
        let start = Instant::now();
        let time_of = |tick: u64| start + TICK * tick as u32;
        for tick in 0..ticks {
            thread::sleep(time_of(tick).saturating_duration_since(Instant::now()));
            let lateness = Instant::now().saturating_duration_since(time_of(tick));
            self.reality.lateness = self.reality.lateness.max(lateness);
            self.reality.ticks += 1;
            match self.database.running() {
                Some(_) => self.step()?,
                None => self.idle(tick)?,
            }
            self.reality.late += u64::from(Instant::now() > time_of(tick + 1));
        }
        self.log_entries()?;
        Ok(self.reality)
    }
}

/// The thread that reads setpoints. It ends with the process.
fn read_setpoints(wishes: &Sender<i64>) {
    for line in io::stdin().lock().lines().map_while(Result::ok) {
        match line.trim().parse() {
            Ok(wish @ 0..=1000) => {
                if wishes.send(wish).is_err() {
                    return;
                }
            }
            _ => eprintln!("a setpoint is a number from 0 to 1000"),
        }
    }
}

/// The thread that writes, until the plant is gone.
fn write_messages(messages: &Receiver<Message>, mut log: Option<FileLog>) -> Result<(), LogError> {
    for message in messages {
        match (message, &mut log) {
            (Message::Display(line), _) => println!("{line}"),
            (Message::Entries(entries), Some(log)) => log.append(&entries)?,
            (Message::Entries(_), None) => (),
        }
    }
    Ok(())
}

/// The journal of a new file.
fn new_log(path: &str) -> Result<FileLog, Fault> {
    let log = FileLog::open(path, TEXT, LOG_ROOM)?;
    match log.is_empty() {
        true => Ok(log),
        false => Err("the file has an earlier journal".into()),
    }
}

fn main() -> Result<(), Fault> {
    let words: Vec<String> = std::env::args().skip(1).collect();
    let seconds: u64 = words
        .first()
        .ok_or("real_tank SECONDS [JOURNAL]")?
        .parse()?;
    let log = words.get(1).map(|path| new_log(path)).transpose()?;
    let (to_plant, wishes) = mpsc::channel();
    let (out, messages) = mpsc::channel();
    let plant = Plant::new(wishes, out)?;
    thread::spawn(move || read_setpoints(&to_plant));
    let logger = thread::spawn(move || write_messages(&messages, log));
    let steps = thread::spawn(move || plant.run(seconds * TICKS_A_SECOND));
    let r = steps.join().expect("the plant's thread")?;
    logger.join().expect("the logger's thread")?;
    println!(
        "{} ticks, {} late, greatest lateness {} us, longest step {} us; {} jobs, {} committed, {} late by the model",
        r.ticks,
        r.late,
        r.lateness.as_micros(),
        r.longest.as_micros(),
        r.jobs,
        r.committed,
        r.late_jobs
    );
    match r.jobs > 0 && r.committed == r.jobs {
        true => Ok(()),
        false => Err("a job did not commit".into()),
    }
}

//! Random numbers by a fixed seed, and sets made of them.
use crate::model::set::{in_order, Set, Together, Txn};
use crate::raw;
use rtdb::{Declarations, ItemId, ItemKind, Times};

/// What the calls have to meet.
pub const WANTED: &[&str] = &[
    "plan Planned",
    "plan Past",
    "plan TooSoon",
    "plan TooFar",
    "plan Full",
    "idle Advanced",
    "idle NotIdle",
    "idle Nothing",
    "idle Full",
    "step Done",
    "step Blocked",
    "step NoJob",
    "step NotYet",
    "step Undeclared",
    "step TooEarly",
    "step Unwritten",
    "step Full",
    "outcome Got",
    "outcome own",
    "outcome Put",
    "outcome Computed",
    "outcome Closed",
    "end Committed",
    "end Overrun",
    "end Late",
    "end Stale",
    "end Apart",
    "end Quit",
    "closed handles",
    "drained entries",
];

/// What the openings have to meet.
pub const REFUSALS: &[&str] = &[
    "Opened",
    "TooManyItems",
    "TooManyTxns",
    "SamePrio",
    "BadTimes",
    "NoWriter",
    "TwoWriters",
    "CyclicDerivation",
    "TooManySets",
    "BadTogether",
    "NotSchedulable",
    "TooOld",
    "TooApart",
];

/// SplitMix64 (Steele, Lea and Flood 2014).
pub struct Random(pub u64);

impl Random {
    pub fn next(&mut self) -> u64 {
        self.0 = self.0.wrapping_add(0x9e37_79b9_7f4a_7c15);
        let mut z = self.0;
        z = (z ^ (z >> 30)).wrapping_mul(0xbf58_476d_1ce4_e5b9);
        z = (z ^ (z >> 27)).wrapping_mul(0x94d0_49bb_1331_11eb);
        z ^ (z >> 31)
    }

    pub fn below(&mut self, limit: u64) -> u64 {
        self.next() % limit
    }

    pub fn from(&mut self, low: u64, high: u64) -> u64 {
        low + self.below(high - low + 1)
    }

    pub fn one_in(&mut self, times: u64) -> bool {
        self.below(times) == 0
    }

    /// A place of a list, and once in twenty times the one behind it.
    pub fn place(&mut self, length: usize) -> u32 {
        match self.below(20) {
            0 => length as u32,
            _ => self.below(length as u64) as u32,
        }
    }

    pub fn of<T: Copy>(&mut self, list: &[T]) -> Option<T> {
        match list.len() as u64 {
            0 => None,
            length => Some(list[self.below(length) as usize]),
        }
    }

    fn some(&mut self, items: &[u32], one_in: u64) -> Vec<u32> {
        let chosen = items.iter().filter(|_| self.one_in(one_in));
        chosen.copied().collect()
    }
}

/// A record that a call that does not answer has to leave.
pub fn time() -> raw::Time {
    raw::Time {
        reply: 77,
        tick: 77,
        ..raw::Time::default()
    }
}

/// A record that a call that does not answer has to leave.
pub fn step() -> raw::Step {
    raw::Step {
        reply: 77,
        count: 77,
        ..raw::Step::default()
    }
}

/// The declarations of a set.
pub fn declarations(set: &Set) -> Declarations {
    let ids = |items: &[u32]| items.iter().map(|i| ItemId(*i)).collect::<Vec<_>>();
    let mut declarations = Declarations::new();
    for (kind, initial) in &set.items {
        declarations.item(*kind, *initial);
    }
    for txn in &set.txns {
        declarations.transaction(txn.times, &ids(&txn.reads), &ids(&txn.writes));
    }
    for together in &set.together {
        declarations.together(&ids(&together.items), together.within);
    }
    declarations
}

fn times(random: &mut Random, priority: u32, scale: u64) -> Times {
    let steps = random.from(3, 9);
    let period = random.from(steps, steps * scale);
    let quiet = random.below(steps) * u64::from(random.one_in(5));
    Times {
        priority,
        period,
        offset: random.below(period + 1),
        deadline: if random.one_in(4) {
            random.from(1, period)
        } else {
            period
        },
        steps,
        quiet,
    }
}

// Distinct priorities in no order.
fn priorities(random: &mut Random, count: usize) -> Vec<u32> {
    let mut left: Vec<u32> = (1..=count as u32 * 2).collect();
    let mut chosen = Vec::new();
    for _ in 0..count {
        chosen.push(left.swap_remove(random.below(left.len() as u64) as usize));
    }
    chosen
}

fn initial(random: &mut Random) -> i64 {
    random.of(&[0, 1, -1, i64::MAX, i64::MIN, 50]).unwrap()
}

// Few state items and much conflict.
fn of_states(random: &mut Random) -> Set {
    let items: Vec<u32> = (0..random.from(1, 4) as u32).collect();
    let count = random.from(2, 5) as usize;
    let scale = random.of(&[2, 6, 20]).unwrap();
    let priorities = priorities(random, count);
    let txns = priorities.iter().map(|priority| Txn {
        times: times(random, *priority, scale),
        reads: random.some(&items, 2),
        writes: random.some(&items, 2),
    });
    let txns = txns.collect();
    let items = items.iter().map(|_| (ItemKind::State, initial(random)));
    Set {
        items: items.collect(),
        txns,
        together: Vec::new(),
    }
}

// Sensor items, items that are derived from them and from each other, and state items. The first transactions write the dated
// items, each its own, and there are readers besides.
fn of_sensors(random: &mut Random, sensors: u32) -> Set {
    let dated = sensors + random.below(3) as u32;
    let count = dated + random.from(1, 2) as u32;
    let longest = random.of(&[20, 160, 900]).unwrap();
    let mut items = Vec::new();
    for item in 0..count {
        let validity = random.from(1, longest);
        let kind = match item {
            _ if item < sensors => ItemKind::Sensor { validity },
            _ if item < dated => ItemKind::Derived { validity },
            _ => ItemKind::State,
        };
        items.push((kind, initial(random)));
    }
    let all: Vec<u32> = (0..count).collect();
    let states = &all[dated as usize..];
    let readers = random.from(1, 2) as u32;
    let scale = random.of(&[4, 12, 30]).unwrap();
    let priorities = priorities(random, (dated + readers) as usize);
    let mut txns: Vec<Txn> = Vec::new();
    for (place, priority) in priorities.iter().enumerate() {
        let own = place as u32;
        if own > 0 && own < sensors && random.one_in(2) {
            // One more sensor item of the transaction before.
            let last = txns.len() - 1;
            txns[last].writes = in_order(&[txns[last].writes.clone(), vec![own]].concat());
            continue;
        }
        let mut writes = random.some(states, 3);
        let mut reads = match own {
            _ if own < sensors => Vec::new(),
            _ if own < dated => random.some(&all[..place], 2),
            _ => random.some(&all[..dated as usize], 2),
        };
        if own < dated {
            writes.push(own);
        }
        reads.extend(random.some(states, 3));
        txns.push(Txn {
            times: times(random, *priority, scale),
            reads: in_order(&reads),
            writes: in_order(&writes),
        });
    }
    Set {
        items,
        txns,
        together: Vec::new(),
    }
}

// The same with relative sets, whose items a reader reads.
fn of_together(random: &mut Random) -> Set {
    let sensors = random.from(2, 4) as u32;
    let mut set = of_sensors(random, sensors);
    let dated: Vec<u32> = (0..set.items.len() as u32)
        .filter(|i| set.validity(*i).is_some())
        .collect();
    if dated.len() < 2 {
        return set;
    }
    for _ in 0..random.from(1, 2) {
        let mut items = random.some(&dated, 2);
        items.extend(&dated[..2]);
        if random.one_in(2) {
            items = dated.clone();
        }
        set.together.push(Together {
            items: in_order(&items),
            within: random.of(&[5, 30, 900]).unwrap(),
        });
    }
    let last = set.txns.len() - 1;
    set.txns[last].reads = in_order(&[set.txns[last].reads.clone(), dated].concat());
    for item in &mut set.items {
        if let ItemKind::Sensor { validity } | ItemKind::Derived { validity } = &mut item.0 {
            *validity += random.below(300);
        }
    }
    set
}

/// A set that is compiled.
pub fn set(random: &mut Random, number: u64) -> Set {
    match number % 3 {
        0 => of_states(random),
        1 => {
            let sensors = random.from(1, 3) as u32;
            of_sensors(random, sensors)
        }
        _ => of_together(random),
    }
}

/// A set that may break one rule or several.
pub fn spoiled(random: &mut Random, number: u64) -> Set {
    let mut set = set(random, number);
    for _ in 0..random.below(3) {
        spoil(&mut set, random);
    }
    if set.not_compiled().is_none() && random.one_in(2) {
        tighten(&mut set, random);
    }
    set
}

// Validities and intervals are the age bounds, or one less.
fn tighten(set: &mut Set, random: &mut Random) {
    let ages: Vec<Option<u64>> = (0..set.items.len() as u32).map(|i| set.age(i)).collect();
    for (item, age) in set.items.iter_mut().zip(&ages) {
        if let ItemKind::Sensor { validity } | ItemKind::Derived { validity } = &mut item.0 {
            *validity = age.unwrap_or(9) - u64::from(random.one_in(9));
        }
    }
    for together in &mut set.together {
        let read = together.items.iter().filter_map(|i| ages[*i as usize]);
        together.within = read.max().unwrap_or(9) - u64::from(random.one_in(3));
    }
}

fn spoil(set: &mut Set, random: &mut Random) {
    let tx = random.below(set.txns.len() as u64) as usize;
    let item = random.below(set.items.len() as u64) as u32;
    let txn = &mut set.txns[tx];
    match random.below(12) {
        0 => set
            .items
            .resize(random.from(255, 258) as usize, (ItemKind::State, 0)),
        1 => {
            set.txns = (0..random.from(63, 66))
                .map(|p| late(p as u32 + 1))
                .collect()
        }
        2 => txn.times.priority = random.from(0, 9) as u32,
        3 => spoil_times(&mut txn.times, random),
        4 => txn.writes.clear(),
        5 | 6 => txn.writes = in_order(&[txn.writes.clone(), vec![item]].concat()),
        7 => set.items[item as usize].0 = ItemKind::Derived { validity: 500 },
        8 | 9 => txn.reads = in_order(&[txn.reads.clone(), vec![item]].concat()),
        10 => set.together.push(Together {
            items: in_order(&[item, random.below(set.items.len() as u64) as u32]),
            within: random.below(100),
        }),
        _ => {
            let one = Together {
                items: in_order(&[0, 1.min(set.items.len() as u32 - 1)]),
                within: 9,
            };
            set.together.resize(random.from(63, 66) as usize, one);
        }
    }
}

fn spoil_times(times: &mut Times, random: &mut Random) {
    match random.below(9) {
        0 => times.priority = random.of(&[0, 1000, 1001, u32::MAX]).unwrap(),
        1 => times.steps = random.of(&[0, 10_000, 10_001, u64::MAX]).unwrap(),
        2 => times.period = random.of(&[0, (1 << 30) + 1, u64::MAX]).unwrap(),
        3 => {
            times.deadline = random
                .of(&[0, times.period.wrapping_add(1), u64::MAX])
                .unwrap()
        }
        4 => {
            times.offset = random
                .of(&[times.period, times.period.wrapping_add(1), u64::MAX])
                .unwrap()
        }
        5 => {
            times.quiet = random
                .of(&[times.steps.wrapping_sub(1), times.steps, u64::MAX])
                .unwrap()
        }
        6 => times.deadline = times.deadline.min(3),
        _ => times.steps = times.steps.saturating_add(random.below(20)),
    }
}

// A transaction that nobody hinders, but by its priority.
fn late(priority: u32) -> Txn {
    Txn {
        times: Times {
            priority,
            period: 1000,
            offset: 0,
            deadline: 1000,
            steps: 2,
            quiet: 0,
        },
        reads: Vec::new(),
        writes: Vec::new(),
    }
}

/// One transaction with a period of one tick.
pub fn calendar() -> Set {
    let mut txn = late(1);
    txn.times.period = 1;
    txn.times.deadline = 1;
    txn.times.steps = 1;
    Set {
        items: Vec::new(),
        txns: vec![txn],
        together: Vec::new(),
    }
}

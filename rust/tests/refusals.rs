//! Each set of embed/refusals.txt, the table that the program in C reads too: what `open` answers, in the words of docs/FORMATS.md, and
//! what the model says.
mod model;

use model::set::{in_order, Set, Together, Txn};
use rtdb::{Database, Declarations, ItemId, ItemKind, OpenError, Times};

/// A set as the table has it, its lists in its order.
#[derive(Default)]
struct Case {
    declarations: Declarations,
    set: Set,
    room: usize,
}

fn list(text: &str) -> Vec<u32> {
    match text {
        "-" => Vec::new(),
        _ => text.split(',').map(|n| n.parse().unwrap()).collect(),
    }
}

fn ids(list: &[u32]) -> Vec<ItemId> {
    list.iter().map(|i| ItemId(*i)).collect()
}

impl Case {
    fn new() -> Case {
        Case {
            room: 8,
            ..Case::default()
        }
    }

    fn item(&mut self, kind: &str, validity: u64) {
        let kind = match kind {
            "sensor" => ItemKind::Sensor { validity },
            "derived" => ItemKind::Derived { validity },
            _ => ItemKind::State,
        };
        self.declarations.item(kind, 0);
        self.set.items.push((kind, 0));
    }

    fn transaction(&mut self, fields: &[&str]) {
        let number = |place: usize| fields[place].parse().unwrap();
        let times = Times {
            priority: fields[0].parse().unwrap(),
            period: number(1),
            offset: number(2),
            deadline: number(3),
            steps: number(4),
            quiet: number(5),
        };
        let (reads, writes) = (list(fields[6]), list(fields[7]));
        self.declarations
            .transaction(times, &ids(&reads), &ids(&writes));
        self.set.txns.push(Txn {
            times,
            reads: in_order(&reads),
            writes: in_order(&writes),
        });
    }

    fn together(&mut self, within: u64, items: &str) {
        let items = list(items);
        self.declarations.together(&ids(&items), within);
        self.set.together.push(Together {
            items: in_order(&items),
            within,
        });
    }

    fn line(&mut self, line: &str) {
        let fields: Vec<&str> = line.split(' ').collect();
        match fields[0] {
            "item" => self.item(fields[1], fields[2].parse().unwrap()),
            "txn" => self.transaction(&fields[1..]),
            "together" => self.together(fields[1].parse().unwrap(), fields[2]),
            "room" => self.room = fields[1].parse().unwrap(),
            "many" => {
                let rest = line.splitn(3, ' ').nth(2).unwrap();
                for _ in 0..fields[1].parse().unwrap() {
                    self.line(rest);
                }
            }
            _ => panic!("no line of the table: {line}"),
        }
    }

    fn answer(&self, wanted: &str) {
        let opened = Database::open(&self.declarations, self.room);
        let told = match &opened {
            Ok(_) => "admitted".to_string(),
            Err(error) => format!("refused {error}"),
        };
        assert_eq!(told, wanted);
        let compiled = match self.room {
            0..=1_048_576 => self.set.not_compiled(),
            _ => Some(OpenError::RoomTooLarge),
        };
        let refused = compiled.or_else(|| self.set.not_admitted());
        assert_eq!(opened.err(), refused);
        let tried = Database::open_trial(&self.declarations, self.room);
        assert_eq!(tried.err(), compiled);
    }
}

#[test]
fn each_refusal_has_its_words_and_numbers() {
    let table = concat!(env!("CARGO_MANIFEST_DIR"), "/../embed/refusals.txt");
    let table = std::fs::read_to_string(table).unwrap();
    let mut case = Case::new();
    let mut cases = 0;
    for line in table
        .lines()
        .filter(|l| !l.is_empty() && !l.starts_with('#'))
    {
        if line == "admitted" || line.starts_with("refused ") {
            case.answer(line);
            case = Case::new();
            cases += 1;
        } else {
            case.line(line);
        }
    }
    assert!(cases > 60);
}

//! A journal on a file: it is found again, taken up where a file was cut, and refused where a byte was changed.
use std::fs;
use std::path::PathBuf;

use rtdb::{
    Database, Declarations, Entry, FileLog, IdleReply, ItemKind, LogError, Op, StepReply, Times,
    TxId,
};

const TEXT: &str = "rtdb report 1
item level sensor 20 0
txn sampler 1 10 0 10 2 reads - writes level
mode admitted
";

// A file of its own, which is gone at the end.
struct Place(PathBuf);

impl Place {
    fn new(name: &str) -> Place {
        let name = format!("rtdb-{}-{name}.journal", std::process::id());
        Place(std::env::temp_dir().join(name))
    }
}

impl Drop for Place {
    fn drop(&mut self) {
        let _ = fs::remove_file(&self.0);
    }
}

// The entries of so many jobs of a sampler.
fn entries(jobs: u64) -> Vec<Entry> {
    let mut d = Declarations::new();
    let level = d.item(ItemKind::Sensor { validity: 20 }, 0);
    let times = Times {
        priority: 1,
        period: 10,
        offset: 0,
        deadline: 10,
        steps: 2,
        quiet: 0,
    };
    let sampler = d.transaction(times, &[], &[level]);
    let mut database = Database::open(&d, 1024).unwrap();
    for k in 0..jobs {
        database.plan(sampler, k * 10).unwrap();
    }
    let mut value = 0;
    loop {
        let Some(job) = database.running() else {
            match database.idle() {
                IdleReply::Advanced { .. } => continue,
                _ => return database.drain().collect(),
            }
        };
        value += 1;
        for op in [Op::Write(level, value), Op::Commit] {
            let reply = database.step(job, op).unwrap();
            assert!(matches!(reply, StepReply::Done { .. }));
        }
    }
}

fn found(place: &Place, room: usize) -> Vec<Entry> {
    FileLog::open(&place.0, TEXT, room)
        .unwrap()
        .found()
        .collect()
}

#[test]
fn is_found_again() {
    let place = Place::new("again");
    let entries = entries(30);
    assert_eq!(entries.len(), 119);
    let mut log = FileLog::open(&place.0, TEXT, 200).unwrap();
    assert!(log.is_empty());
    log.append(&entries[..3]).unwrap();
    log.append(&entries[3..]).unwrap();
    assert_eq!(log.len(), 119);
    assert!(matches!(
        FileLog::open(&place.0, TEXT, 200),
        Err(LogError::Io(_))
    ));
    drop(log);
    assert_eq!(found(&place, 119), entries);
    assert_eq!(fs::metadata(&place.0).unwrap().len(), 120 * 256 + 1);
    assert!(matches!(
        FileLog::open(&place.0, TEXT, 118),
        Err(LogError::Full)
    ));
}

#[test]
fn is_taken_up_where_it_was_cut() {
    let place = Place::new("cut");
    let entries = entries(3);
    let mut log = FileLog::open(&place.0, TEXT, 64).unwrap();
    log.append(&entries).unwrap();
    drop(log);
    let whole = fs::read(&place.0).unwrap();
    for kept in 0..=entries.len() {
        let mut bytes = whole.clone();
        // The gate behind the last that is to be kept is closed.
        bytes[256 * (kept + 1)] = 0;
        fs::write(&place.0, &bytes).unwrap();
        assert_eq!(found(&place, 64), entries[..kept]);
        let mut log = FileLog::open(&place.0, TEXT, 64).unwrap();
        log.append(&entries[kept..]).unwrap();
        drop(log);
        assert_eq!(fs::read(&place.0).unwrap(), whole);
    }
}

#[test]
fn a_changed_byte_is_told() {
    let place = Place::new("changed");
    let entries = entries(3);
    let mut log = FileLog::open(&place.0, TEXT, 64).unwrap();
    log.append(&entries).unwrap();
    drop(log);
    let whole = fs::read(&place.0).unwrap();
    for k in 0..=entries.len() {
        let mut bytes = whole.clone();
        bytes[256 * k + 2] = b'x';
        fs::write(&place.0, &bytes).unwrap();
        match FileLog::open(&place.0, TEXT, 64) {
            Err(LogError::BadRecord { number }) => assert_eq!(number, k as u64),
            other => panic!("record {k}: {:?}", other.map(|log| log.len())),
        }
    }
}

#[test]
fn refusals_are_told() {
    let place = Place::new("refusals");
    let entries = entries(1);
    assert!(matches!(
        FileLog::open(&place.0, TEXT, (1 << 20) + 1),
        Err(LogError::TooLong)
    ));
    assert!(matches!(
        FileLog::open(&place.0, "rtdb report 1\nitem\n", 64),
        Err(LogError::BadText { line: Some(2) })
    ));
    assert!(matches!(
        FileLog::open(&place.0, "rtdb report 1\n", 64),
        Err(LogError::BadText { line: None })
    ));
    let unwritten = "rtdb report 1\nitem level sensor 20 0\nmode trial\n";
    assert!(matches!(
        FileLog::open(&place.0, unwritten, 64),
        Err(LogError::Set(_))
    ));
    let mut log = FileLog::open(&place.0, TEXT, 2).unwrap();
    assert!(matches!(log.append(&entries), Err(LogError::NoRoom)));
    let other = Entry::Planned {
        tx: TxId(1),
        tick: 0,
    };
    assert!(matches!(log.append(&[other]), Err(LogError::Unknown)));
    log.append(&entries[..1]).unwrap();
    assert_eq!(log.len(), 1);
}

//! Three plain engines over std's collections, and the loads of `co_engine_rows`: what the proved engines are measured against. No contracts, no faults, no bounds on memory.
//!
//!     rustc -O bench/engines.rs && ./engines locking|validating|multiversion turns|ballots|dumps|staggered|held|pinned OPERATIONS TRANSACTIONS KEYS SPAN TOGETHER
//!
//! It prints what `co_engine_rows` prints of a load; the digest covers every reply, row and blocker.

use std::cmp::min;
use std::collections::{BTreeMap, BTreeSet, HashMap};
use std::ops::Bound::{Excluded, Unbounded};

type Key = Vec<u8>;
type Value = Vec<u8>;
type Txn = u32;

#[derive(Clone, Copy, PartialEq)]
enum Kind {
    Lock,
    Occ,
    Mv,
}

enum Command {
    Read(Txn, Key),
    Scan(Txn, Key, Key),
    Write(Txn, Key, Value),
    Cast(Txn),
    Install(Txn),
    Drop(Txn),
    /// Whether a read of the transaction was overwritten.
    Ballot(Txn),
    /// The records as they are kept, and what leads back.
    Dump,
    /// The records are to stay as they are for a reader.
    Pin(u32),
    /// A reader looks at a range.
    Look(u32, Key, Key),
    /// A reader goes.
    Unpin(u32),
}

enum Played {
    Got(Option<Value>),
    Rows(Vec<(Key, Value)>),
    Written,
    Blocked(Txn),
    Done,
    Stale(Option<Key>),
    Dumped(Vec<(Key, Value)>, Vec<(Key, Option<Value>)>),
    Pinned,
    NotPinned,
}

#[derive(Default)]
struct Undecided {
    voted: bool,
    snapshot: u64,
    /// The ranges that were read, and how many installs each read saw.
    reads: Vec<(Key, Key, u64)>,
    writes: BTreeMap<Key, Option<Value>>,
    /// What stood in the store before a write in place.
    undos: BTreeMap<Key, Option<Value>>,
}

struct Engine {
    kind: Kind,
    installs: u64,
    store: BTreeMap<Key, Value>,
    chains: BTreeMap<Key, Vec<(u64, Option<Value>)>>,
    undecided: HashMap<Txn, Undecided>,
    writers: BTreeMap<Key, Vec<Txn>>,
    readers: HashMap<Key, Vec<Txn>>,
    wide: BTreeSet<(Key, Key, Txn)>,
    snapshots: BTreeMap<u64, usize>,
    /// How many installs each reader that stays sees.
    pins: HashMap<u32, u64>,
    /// The last install of each key that was written.
    lasts: BTreeMap<Key, u64>,
}

impl Engine {
    fn new(kind: Kind, rows: Vec<(Key, Value)>) -> Engine {
        let (mut store, mut chains) = (BTreeMap::new(), BTreeMap::new());
        for (key, value) in rows {
            if kind == Kind::Mv {
                chains.insert(key, vec![(0, Some(value))]);
            } else {
                store.insert(key, value);
            }
        }
        Engine {
            kind,
            installs: 0,
            store,
            chains,
            undecided: HashMap::new(),
            writers: BTreeMap::new(),
            readers: HashMap::new(),
            wide: BTreeSet::new(),
            snapshots: BTreeMap::new(),
            pins: HashMap::new(),
            lasts: BTreeMap::new(),
        }
    }

    fn begin(&mut self, t: Txn) {
        let (installs, snapshots, kind) = (self.installs, &mut self.snapshots, self.kind);
        self.undecided.entry(t).or_insert_with(|| {
            if kind == Kind::Mv {
                *snapshots.entry(installs).or_default() += 1;
            }
            Undecided {
                snapshot: installs,
                ..Undecided::default()
            }
        });
    }

    /// The least other transaction that wrote a key of the range.
    fn read_blocker(&self, t: Txn, lo: &Key, hi: &Key) -> Option<Txn> {
        if self.kind != Kind::Lock {
            return None;
        }
        let written = self.writers.range(lo.clone()..=hi.clone());
        written.flat_map(|(_, by)| by).copied().filter(|u| *u != t).min()
    }

    /// The least other transaction that wrote the key, or is active and read it.
    fn write_blocker(&self, t: Txn, key: &Key) -> Option<Txn> {
        if self.kind != Kind::Lock {
            return None;
        }
        let written = self.writers.get(key).into_iter().flatten().copied();
        let read = self.all_readers(key).filter(|u| !self.undecided[u].voted);
        written.chain(read).filter(|u| *u != t).min()
    }

    fn all_readers<'a>(&'a self, key: &'a Key) -> impl Iterator<Item = Txn> + 'a {
        let one = self.readers.get(key).into_iter().flatten().copied();
        let above = (key.clone(), vec![0xff], Txn::MAX);
        let wide = self.wide.range((Unbounded, Excluded(above)));
        one.chain(wide.filter(move |(_, hi, _)| key <= hi).map(|(_, _, u)| *u))
    }

    /// Notes a read of a range; only locks ask who read what.
    fn note_read(&mut self, t: Txn, lo: &Key, hi: &Key) {
        let installs = self.installs;
        let own = self.undecided.get_mut(&t).unwrap();
        own.reads.push((lo.clone(), hi.clone(), installs));
        if self.kind != Kind::Lock {
            return;
        }
        if lo == hi {
            let by = self.readers.entry(lo.clone()).or_default();
            if !by.contains(&t) {
                by.push(t);
            }
        } else {
            self.wide.insert((lo.clone(), hi.clone(), t));
        }
    }

    /// Notes a write; only locks ask who wrote what.
    fn note_write(&mut self, t: Txn, key: &Key, value: &Value) {
        let own = self.undecided.get_mut(&t).unwrap();
        own.writes.insert(key.clone(), Some(value.clone()));
        if self.kind != Kind::Lock {
            return;
        }
        let before = self.store.insert(key.clone(), value.clone());
        own.undos.entry(key.clone()).or_insert(before);
        let by = self.writers.entry(key.clone()).or_default();
        if !by.contains(&t) {
            by.push(t);
        }
    }

    /// The version of a chain that a snapshot sees.
    fn version(chain: &[(u64, Option<Value>)], snapshot: u64) -> Option<&Value> {
        let end = chain.partition_point(|(install, _)| *install <= snapshot);
        chain[..end].last().and_then(|(_, value)| value.as_ref())
    }

    fn read(&mut self, t: Txn, key: Key) -> Played {
        self.begin(t);
        if let Some(u) = self.read_blocker(t, &key, &key) {
            return Played::Blocked(u);
        }
        let own = &self.undecided[&t];
        let got = match own.writes.get(&key) {
            Some(value) => value.clone(),
            None if self.kind == Kind::Mv => self.chains.get(&key).and_then(|it| Engine::version(it, own.snapshot)).cloned(),
            None => self.store.get(&key).cloned(),
        };
        self.note_read(t, &key, &key);
        Played::Got(got)
    }

    fn scan(&mut self, t: Txn, lo: Key, hi: Key) -> Played {
        self.begin(t);
        if let Some(u) = self.read_blocker(t, &lo, &hi) {
            return Played::Blocked(u);
        }
        let own = &self.undecided[&t];
        let mut rows: Vec<(Key, Value)> = if self.kind == Kind::Mv {
            let seen = self.chains.range(lo.clone()..=hi.clone());
            seen.filter_map(|(key, chain)| Some((key.clone(), Engine::version(chain, own.snapshot)?.clone()))).collect()
        } else {
            self.store.range(lo.clone()..=hi.clone()).map(|(key, value)| (key.clone(), value.clone())).collect()
        };
        if self.kind != Kind::Lock {
            for (key, value) in own.writes.range(lo.clone()..=hi.clone()) {
                match (rows.binary_search_by(|(it, _)| it.cmp(key)), value) {
                    (Ok(place), Some(value)) => rows[place].1 = value.clone(),
                    (Ok(place), None) => drop(rows.remove(place)),
                    (Err(place), Some(value)) => rows.insert(place, (key.clone(), value.clone())),
                    (Err(_), None) => (),
                }
            }
        }
        self.note_read(t, &lo, &hi);
        Played::Rows(rows)
    }

    fn write(&mut self, t: Txn, key: Key, value: Value) -> Played {
        self.begin(t);
        if let Some(u) = self.write_blocker(t, &key) {
            return Played::Blocked(u);
        }
        self.note_write(t, &key, &value);
        Played::Written
    }

    fn cast(&mut self, t: Txn) -> Played {
        self.begin(t);
        self.undecided.get_mut(&t).unwrap().voted = true;
        Played::Done
    }

    fn leave(&mut self, t: Txn, own: &Undecided) {
        for (lo, hi, _) in &own.reads {
            if lo != hi {
                self.wide.remove(&(lo.clone(), hi.clone(), t));
            } else if let Some(by) = self.readers.get_mut(lo) {
                by.retain(|u| *u != t);
                if by.is_empty() {
                    self.readers.remove(lo);
                }
            }
        }
        for key in own.writes.keys() {
            if let Some(by) = self.writers.get_mut(key) {
                by.retain(|u| *u != t);
                if by.is_empty() {
                    self.writers.remove(key);
                }
            }
        }
        if self.kind == Kind::Mv {
            self.release(own.snapshot);
        }
    }

    /// One reader of a snapshot less.
    fn release(&mut self, snapshot: u64) {
        let count = self.snapshots.get_mut(&snapshot).unwrap();
        *count -= 1;
        if *count == 0 {
            self.snapshots.remove(&snapshot);
        }
    }

    /// A reader comes that stays; its number is new.
    fn pin(&mut self, id: u32) -> Played {
        self.pins.insert(id, self.installs);
        *self.snapshots.entry(self.installs).or_default() += 1;
        Played::Pinned
    }

    fn look(&self, id: u32, lo: Key, hi: Key) -> Played {
        let Some(snapshot) = self.pins.get(&id) else {
            return Played::NotPinned;
        };
        let seen = self.chains.range(lo..=hi);
        Played::Rows(seen.filter_map(|(key, chain)| Some((key.clone(), Engine::version(chain, *snapshot)?.clone()))).collect())
    }

    fn unpin(&mut self, id: u32) -> Played {
        let snapshot = self.pins.remove(&id).unwrap();
        self.release(snapshot);
        Played::Done
    }

    fn install(&mut self, t: Txn) -> Played {
        let own = self.undecided.remove(&t).unwrap();
        self.leave(t, &own);
        self.installs += 1;
        let oldest = self.snapshots.keys().next().copied().unwrap_or(self.installs);
        for (key, value) in own.writes {
            if self.kind != Kind::Lock {
                self.lasts.insert(key.clone(), self.installs);
            }
            match self.kind {
                Kind::Lock => (),
                Kind::Occ => match value {
                    Some(value) => drop(self.store.insert(key, value)),
                    None => drop(self.store.remove(&key)),
                },
                Kind::Mv => {
                    let chain = self.chains.entry(key).or_default();
                    chain.push((self.installs, value));
                    let seen = chain.partition_point(|(install, _)| *install <= oldest);
                    chain.drain(..seen.saturating_sub(1));
                }
            }
        }
        Played::Done
    }

    fn drop_txn(&mut self, t: Txn) -> Played {
        if let Some(own) = self.undecided.remove(&t) {
            self.leave(t, &own);
            for (key, before) in own.undos {
                match before {
                    Some(value) => drop(self.store.insert(key, value)),
                    None => drop(self.store.remove(&key)),
                }
            }
        }
        Played::Done
    }

    /// The least key that was written after an active transaction read it.
    fn ballot(&self, t: Txn) -> Played {
        let mut least: Option<&Key> = None;
        for (lo, hi, seen) in &self.undecided[&t].reads {
            let written = self.lasts.range(lo.clone()..=hi.clone());
            if let Some((key, _)) = written.filter(|(_, last)| *last > seen).next() {
                least = Some(least.map_or(key, |it| min(it, key)));
            }
        }
        Played::Stale(least.cloned())
    }

    fn dump(&self) -> Played {
        let rows = if self.kind == Kind::Mv {
            let kept = self.chains.iter();
            kept.filter_map(|(key, chain)| Some((key.clone(), chain.last()?.1.clone()?))).collect()
        } else {
            self.store.iter().map(|(key, value)| (key.clone(), value.clone())).collect()
        };
        let undos: BTreeMap<&Key, &Option<Value>> = self.undecided.values().flat_map(|it| &it.undos).collect();
        Played::Dumped(rows, undos.into_iter().map(|(key, value)| (key.clone(), value.clone())).collect())
    }

    fn play(&mut self, command: Command) -> Played {
        match command {
            Command::Ballot(t) => self.ballot(t),
            Command::Dump => self.dump(),
            Command::Read(t, key) => self.read(t, key),
            Command::Scan(t, lo, hi) => self.scan(t, lo, hi),
            Command::Write(t, key, value) => self.write(t, key, value),
            Command::Cast(t) => self.cast(t),
            Command::Install(t) => self.install(t),
            Command::Drop(t) => self.drop_txn(t),
            Command::Pin(id) => self.pin(id),
            Command::Look(id, lo, hi) => self.look(id, lo, hi),
            Command::Unpin(id) => self.unpin(id),
        }
    }
}

/// The numbers that `co_engine_rows` picks: PCG32, as its reference code has it.
struct Picks {
    state: u64,
    increment: u64,
}

impl Picks {
    fn new(seed: u64) -> Picks {
        let increment = 54 << 1 | 1;
        let mut picks = Picks { state: seed.wrapping_add(increment), increment };
        picks.step();
        picks
    }

    fn step(&mut self) {
        self.state = self.state.wrapping_mul(6364136223846793005).wrapping_add(self.increment);
    }

    fn below(&mut self, bound: u32) -> u32 {
        let word = ((self.state >> 18 ^ self.state) >> 27) as u32;
        let word = word.rotate_right((self.state >> 59) as u32);
        self.step();
        word % bound.max(1)
    }
}

fn key(number: u32) -> Key {
    format!("k{:07}", number % 10_000_000).into_bytes()
}

fn value(number: u32) -> Value {
    format!("v{:02}", number % 100).into_bytes()
}

fn operation(picks: &mut Picks, keys: u32, span: u32, t: Txn) -> Command {
    let place = picks.below(keys);
    match picks.below(10) {
        0 => Command::Scan(t, key(place), key(min(place + span - 1, keys - 1))),
        1..=5 => Command::Read(t, key(place)),
        _ => Command::Write(t, key(place), value(picks.below(100))),
    }
}

/// Each transaction of a group scans keys from its own on, or writes its own where a scan has no key; another one is asked to write the first and the last of them.
fn held(made: &mut Vec<Command>, first: u32, end: u32, span: u32, other: Txn) {
    let last = |t: u32| t + min(span.saturating_sub(1), 2 * (end - t));
    made.extend((first..end).map(|t| match span {
        0 => Command::Write(t, key(t), value(0)),
        _ => Command::Scan(t, key(t), key(last(t))),
    }));
    for t in first..end {
        made.extend([Command::Write(other, key(t), value(1)), Command::Write(other, key(last(t)), value(1)), Command::Drop(t)]);
    }
    made.extend([Command::Write(other, key(first), value(1)), Command::Cast(other), Command::Install(other)]);
}

/// A reader comes that stays, and each transaction of a group writes a key, nine of ten times one of the first, and is installed.
fn pinned(made: &mut Vec<Command>, picks: &mut Picks, first: u32, end: u32, keys: u32, span: u32) {
    made.push(Command::Pin(first));
    for t in first..end {
        let bound = if picks.below(10) == 0 { keys } else { span };
        let place = picks.below(bound);
        made.extend([Command::Write(t, key(place), value(picks.below(100))), Command::Cast(t), Command::Install(t)]);
    }
}

/// The commands of a load: operations of a group in turn, or reads of the first key with a write and an install of another transaction behind each, or what is held, or readers that stay beside installs.
fn commands(shape: &str, [operations, transactions, keys, span, together]: [u32; 5]) -> Vec<Command> {
    let (mut picks, mut made) = (Picks::new(1), Vec::new());
    for group in 0..transactions.div_ceil(together) {
        let (first, end) = (group * together, min((group + 1) * together, transactions));
        if shape == "held" {
            held(&mut made, first, end, span, transactions + first);
            continue;
        }
        if shape == "pinned" {
            pinned(&mut made, &mut picks, first, end, keys, span);
            continue;
        }
        if shape == "staggered" {
            for t in first..end {
                made.extend([Command::Read(t, key(0)), Command::Write(transactions + t, key(0), value(t))]);
                made.extend([Command::Cast(transactions + t), Command::Install(transactions + t)]);
            }
        } else {
            for _ in 0..operations / transactions {
                made.extend((first..end).map(|t| operation(&mut picks, keys, span, t)));
            }
        }
        match shape {
            "ballots" => made.extend((first..end).map(Command::Ballot)),
            "dumps" => made.push(Command::Dump),
            _ => (),
        }
        for t in first..end {
            made.extend([Command::Cast(t), Command::Install(t)]);
        }
    }
    if shape == "pinned" {
        let look = |id| Command::Look(id, key(0), key(min(span, keys) - 1));
        for id in (0..transactions).step_by(together as usize) {
            made.extend([look(id), Command::Unpin(id), look(id)]);
        }
    }
    made
}

/// The digest of bytes behind those of another one, byte by byte (Fowler, Noll and Vo, FNV-1a of 64 bits).
fn digest(bytes: &[u8], before: u64) -> u64 {
    bytes.iter().fold(before, |hash, byte| (hash ^ u64::from(*byte)).wrapping_mul(0x100_0000_01b3))
}

/// The digest of nothing.
const NOTHING: u64 = 0xcbf2_9ce4_8422_2325;

fn text(bytes: &[u8]) -> &str {
    std::str::from_utf8(bytes).unwrap()
}

fn rows_told(rows: &[(Key, Value)]) -> String {
    rows.iter().fold("rows".to_string(), |told, (key, value)| told + " " + text(key) + " " + text(value))
}

/// What a command came to.
fn told(played: &Played) -> String {
    match played {
        Played::Got(Some(value)) => format!("got {}", text(value)),
        Played::Got(None) => "missing".into(),
        Played::Rows(rows) => rows_told(rows),
        Played::Written => "written".into(),
        Played::Blocked(t) => format!("blocked {t}"),
        Played::Done => "done".into(),
        Played::Stale(Some(key)) => format!("stale {}", text(key)),
        Played::Stale(None) => "not stale".into(),
        Played::Pinned => "pinned".into(),
        Played::NotPinned => "not pinned".into(),
        Played::Dumped(rows, undos) => undos.iter().fold(rows_told(rows) + " undos", |told, (key, value)| {
            told + " " + text(key) + " " + &value.as_ref().map_or("missing".into(), |it| format!("got {}", text(it)))
        }),
    }
}

#[inline(never)]
fn played(kind: Kind, rows: Vec<(Key, Value)>, commands: Vec<Command>) -> Vec<Played> {
    let mut engine = Engine::new(kind, rows);
    commands.into_iter().map(|it| engine.play(it)).collect()
}

fn main() {
    let words: Vec<String> = std::env::args().skip(1).collect();
    let kind = match words[0].as_str() {
        "locking" => Kind::Lock,
        "validating" => Kind::Occ,
        _ => Kind::Mv,
    };
    let numbers: Vec<u32> = words[2..].iter().map(|it| it.parse().unwrap()).collect();
    let numbers: [u32; 5] = numbers.try_into().unwrap();
    let commands = commands(&words[1], numbers);
    let rows = (0..numbers[2]).map(|it| (key(it), value(0))).collect();
    let all = played(kind, rows, commands);
    let hash = all.iter().fold(NOTHING, |hash, it| digest(told(it).as_bytes(), hash));
    println!("steps {} digest {hash}", all.len());
}

//! What a load is: its cluster and what its sessions want, read from two files or generated. It knows just what the loads of
//! `bench/make-load` and of `detock big` have: rows that are numbers, moves, and the procedures `xfer`, `sum`, `get` and `add`. A
//! file of another kind makes it panic.
use std::collections::HashMap;
use std::fmt::{self, Display, Formatter, Write};

/// The place of a key among all keys; so with units.
pub type Key = u32;

#[derive(Clone, Copy, PartialEq, Eq, PartialOrd, Ord)]
pub struct Id {
    pub seq: u32,
    pub region: u8,
}

#[derive(Clone, Copy, PartialEq, Eq)]
pub enum Mode {
    Read,
    Write,
    Whole,
}

/// What a call or a move is to do.
#[derive(Clone, Copy)]
pub enum Body {
    Xfer(Key, Key, i64),
    Sum(Key, Key),
    Get(Key),
    Add(Key, i64),
    Move(Key, u8),
}

/// A session, and what it wants, each with its rank.
pub struct Session {
    pub name: String,
    pub region: u8,
    pub wanted: Vec<(u8, Body)>,
}

/// The keys of a load. Of each its unit, which is a key too, and its rank in byte order.
#[derive(Default)]
pub struct Keys {
    pub texts: Vec<String>,
    pub units: Vec<Key>,
    pub ranks: Vec<u32>,
    numbers: HashMap<String, Key>,
}

impl Keys {
    /// The key of this text, which is added where it is new, in a cluster of this version.
    fn key(&mut self, text: &str, version: u8) -> Key {
        if let Some(key) = self.numbers.get(text) {
            return *key;
        }
        let key = self.texts.len();
        self.numbers.insert(text.to_owned(), key as Key);
        self.texts.push(text.to_owned());
        self.units.push(key as Key);
        if let (2, Some(slash)) = (version, text[1..].find('/')) {
            self.units[key] = self.key(&text[..slash + 1], version);
        }
        key as Key
    }

    pub fn text(&self, key: Key) -> &str {
        &self.texts[key as usize]
    }

    /// All keys in byte order.
    pub fn ascending(&self) -> Vec<Key> {
        let mut keys: Vec<Key> = (0..self.texts.len() as Key).collect();
        keys.sort_by_key(|key| self.text(*key));
        keys
    }

    fn rank(&mut self) {
        self.ranks = vec![0; self.texts.len()];
        for (rank, key) in self.ascending().into_iter().enumerate() {
            self.ranks[key as usize] = rank as u32;
        }
    }
}

/// A cluster, and what the sessions want.
pub struct Load {
    pub version: u8,
    pub regions: u8,
    pub tries: u32,
    pub drop: u64,
    pub repeat: u64,
    pub keys: Keys,
    pub rows: Vec<(Key, i64)>,
    pub sessions: Vec<Session>,
}

fn number<T: std::str::FromStr<Err: fmt::Debug>>(word: &str) -> T {
    word.parse().expect("a number")
}

impl Load {
    fn empty() -> Load {
        Load { version: 1, regions: 0, tries: 3, drop: 0, repeat: 0, keys: Keys::default(), rows: Vec::new(), sessions: Vec::new() }
    }

    /// The load that these two files are.
    pub fn read(cluster: &str, workload: &str) -> Load {
        let mut load = Load::empty();
        for (name, value) in cluster.lines().filter_map(|line| line.split_once(" = ")) {
            match name {
                "version" => load.version = number(value),
                "regions" => load.regions = number(value),
                "tries" => load.tries = number(value),
                "drop" => load.drop = number(value),
                "repeat" => load.repeat = number(value),
                key => load.rows.push((load.keys.key(key.trim_matches('"'), load.version), number(value))),
            }
        }
        for line in workload.lines() {
            load.read_line(&line.split(' ').collect::<Vec<_>>());
        }
        load.keys.rank();
        load
    }

    fn read_line(&mut self, words: &[&str]) {
        if let ["session", name, "at", region] = words {
            return self.sessions.push(Session { name: name.to_string(), region: number(region), wanted: Vec::new() });
        }
        let rank = words[0].split_once('/').map_or(5, |(_, rank)| number(rank));
        let mut key = |word: &str| self.keys.key(word.trim_matches('"'), self.version);
        let body = match &words[1..] {
            ["xfer", from, to, n] => Body::Xfer(key(from), key(to), number(n)),
            ["sum", one, other] => Body::Sum(key(one), key(other)),
            ["get", row] => Body::Get(key(row)),
            ["add", row, n] => Body::Add(key(row), number(n)),
            [unit, "to", region] => Body::Move(key(unit), number(region)),
            _ => panic!("no line of a load: {words:?}"),
        };
        self.sessions.last_mut().expect("a session").wanted.push((rank, body));
    }

    /// The load of n calls that `detock big` runs: 64 sessions at four regions transfer amounts between 100 accounts, and now and
    /// then one moves an account; every fifth packet is lost, and of the others every seventh comes twice.
    pub fn generate(calls: u32) -> Load {
        let mut load = Load { regions: 4, drop: 5, repeat: 7, ..Load::empty() };
        for account in 0..100 {
            let text = format!("{}/{}", char::from(b'a' + account / 25), account % 25);
            load.rows.push((load.keys.key(&text, load.version), 1000));
        }
        let session = |it: u8| Session { name: format!("s{it:02}"), region: it / 16, wanted: Vec::new() };
        load.sessions.extend((0..64).map(session));
        let mut state = 1;
        for call in 0..calls {
            let [one, other, third] = [(); 3].map(|()| draw(&mut state));
            let body = match call % 50 {
                49 => Body::Move(one % 100, (other % 4) as u8),
                _ => Body::Xfer(one % 100, other % 100, i64::from(third % 50 + 1)),
            };
            load.sessions[call as usize % 64].wanted.push((5, body));
        }
        load.keys.rank();
        load
    }

    pub fn cluster_text(&self) -> String {
        let Load { version, regions, tries, drop, repeat, .. } = self;
        let mut text = format!("version = {version}\nregions = {regions}\ntries = {tries}\n");
        write!(text, "drop = {drop}\nrepeat = {repeat}\n[rows]\n").expect("memory");
        for (key, value) in &self.rows {
            writeln!(text, "\"{}\" = {value}", self.keys.text(*key)).expect("memory");
        }
        text
    }

    pub fn workload_text(&self) -> String {
        let mut text = String::new();
        for session in &self.sessions {
            writeln!(text, "session {} at {}", session.name, session.region).expect("memory");
            for (rank, body) in &session.wanted {
                writeln!(text, "{}", Line { rank: *rank, body: *body, keys: &self.keys }).expect("memory");
            }
        }
        text
    }
}

/// The next number of 15 bits.
fn draw(state: &mut u64) -> u32 {
    *state = (*state * 1_103_515_245 + 12_345) % 2_147_483_648;
    (*state / 65_536) as u32
}

/// The line of a workload that wants something.
struct Line<'a> {
    rank: u8,
    body: Body,
    keys: &'a Keys,
}

impl Display for Line<'_> {
    fn fmt(&self, f: &mut Formatter<'_>) -> fmt::Result {
        let Line { rank, body, keys } = self;
        let kind = if matches!(body, Body::Move(..)) { "move" } else { "call" };
        match rank {
            5 => write!(f, "{kind} ")?,
            rank => write!(f, "{kind}/{rank} ")?,
        }
        let text = |key| keys.text(key);
        match *body {
            Body::Xfer(from, to, n) => write!(f, "xfer \"{}\" \"{}\" {n}", text(from), text(to)),
            Body::Sum(one, other) => write!(f, "sum \"{}\" \"{}\"", text(one), text(other)),
            Body::Get(key) => write!(f, "get \"{}\"", text(key)),
            Body::Add(key, n) => write!(f, "add \"{}\" {n}", text(key)),
            Body::Move(unit, target) => write!(f, "{} to {target}", text(unit)),
        }
    }
}

//! The lines of a report.
use crate::load::{Id, Key, Load};
use crate::table::{Outcome, Table, Txn};

/// A text that grows by lines of words.
pub struct Lines<'a> {
    load: &'a Load,
    bytes: Vec<u8>,
}

impl<'a> Lines<'a> {
    pub fn new(load: &'a Load) -> Lines<'a> {
        Lines { load, bytes: Vec::new() }
    }

    pub fn into_bytes(self) -> Vec<u8> {
        self.bytes
    }

    /// The line of an answer.
    pub fn reply(&mut self, txn: &Txn, outcome: Outcome) {
        self.word("reply").session(txn.session).number(txn.call).outcome(outcome).end();
    }

    /// The line of an executed attempt.
    pub fn ran(&mut self, txn: &Txn, outcome: Outcome) {
        self.id(txn.id).session(txn.session).number(txn.call).number(txn.attempt).outcome(outcome).end();
    }

    /// The lines of the tables of all regions: each has one for a key with a value, and for a unit that was moved.
    pub fn tables<'b>(&mut self, tables: impl Iterator<Item = &'b Table>) {
        let keys = self.load.keys.ascending();
        for (region, table) in tables.enumerate() {
            self.word("table").number(region as i64).end();
            keys.iter().for_each(|key| self.row(table, *key));
        }
    }

    fn row(&mut self, table: &Table, key: Key) {
        let number = self.load.keys.units[key as usize];
        let (value, unit) = (table.values[key as usize], &table.units[number as usize]);
        if value.is_some() || number == key && !unit.movers.is_empty() {
            self.key(key).word("=").value(value).word("home").number(unit.home);
            self.word("moves").number(unit.movers.len() as i64).end();
        }
    }

    pub fn word(&mut self, word: &str) -> &mut Self {
        if self.bytes.last().is_some_and(|last| *last != b'\n') {
            self.bytes.push(b' ');
        }
        self.bytes.extend_from_slice(word.as_bytes());
        self
    }

    pub fn number(&mut self, number: impl Into<i64>) -> &mut Self {
        let number = number.into();
        self.word(if number < 0 { "-" } else { "" });
        let (mut digits, mut first, mut left) = ([0; 20], 20, number.unsigned_abs());
        while first == 20 || left > 0 {
            first -= 1;
            digits[first] = b'0' + (left % 10) as u8;
            left /= 10;
        }
        self.bytes.extend_from_slice(&digits[first..]);
        self
    }

    pub fn id(&mut self, id: Id) -> &mut Self {
        self.number(id.seq).bytes.extend_from_slice(&[b'.', b'0' + id.region]);
        self
    }

    pub fn session(&mut self, session: u32) -> &mut Self {
        self.word(&self.load.sessions[session as usize].name)
    }

    fn key(&mut self, key: Key) -> &mut Self {
        self.word(self.load.keys.text(key))
    }

    fn value(&mut self, value: Option<i64>) -> &mut Self {
        match value {
            Some(value) => self.number(value),
            None => self.word("none"),
        }
    }

    fn outcome(&mut self, outcome: Outcome) -> &mut Self {
        match outcome {
            Outcome::Moved => self.word("done"),
            Outcome::Gave(value) => self.word("done").value(value),
            Outcome::GaveTwo(one, other) => self.word("done").number(one).number(other),
            Outcome::Aborted(cause) => self.word("abort").word(cause),
            Outcome::Stale { unit, had, by } => self.word("stale").key(unit).word("had").number(had).word("by").id(by),
        }
    }

    pub fn end(&mut self) {
        self.bytes.push(b'\n');
    }
}

//! A node: one region that runs by itself, by turns, with the sessions that stand at it.
use crate::graph::Graph;
use crate::load::{Id, Load};
use crate::table::{Done, Outcome, Table, Txn};
use std::rc::Rc;

/// The most requests, and the most entries, that a packet has.
const MOST_ITEMS: usize = 256;

#[derive(Clone)]
pub struct Packet {
    source: u8,
    stamp: u64,
    asked_at: usize,
    asked: Vec<Rc<Txn>>,
    log_at: usize,
    entries: Vec<Rc<Txn>>,
    took: usize,
    received: usize,
}

/// An event of a region. A submission and an answer are known by the number of the attempt, a resolution by that of the class.
#[derive(Clone, Copy)]
pub enum Event {
    Submit(u32),
    Append(u8, u32),
    Deliver(u8, u32, u32),
    Insert(u8),
    Resolve(u32),
    Execute(Id),
    Answer(u32),
}

/// A session: its number among those of the load, how many of its calls are answered, and the attempt that it waits for.
struct Seat {
    session: u32,
    answered: usize,
    waits: Option<Rc<Txn>>,
}

pub struct Node<'a> {
    load: &'a Load,
    region: u8,
    /// In byte order of names.
    seats: Vec<Seat>,
    pub submitted: Vec<Rc<Txn>>,
    /// What each home was asked to place.
    asked: Vec<Vec<Rc<Txn>>>,
    /// How many requests of each region are placed.
    taken: Vec<usize>,
    logs: Vec<Vec<Rc<Txn>>>,
    inserted: Vec<usize>,
    graph: Graph,
    pub classes: Vec<Vec<Id>>,
    pub done: Done,
    pub table: Table,
    /// Each with its stamp.
    pub events: Vec<(u64, Event)>,
    last: u64,
    heard: u64,
    /// How many of its requests each other region is known to have placed, and how much of its log to have received.
    took: Vec<usize>,
    received: Vec<usize>,
    turns: u64,
}

impl<'a> Node<'a> {
    pub fn new(load: &'a Load, region: u8) -> Node<'a> {
        let regions = usize::from(load.regions);
        let here = load.sessions.iter().enumerate().filter(|(_, it)| it.region == region);
        let mut seats: Vec<Seat> = here.map(|(session, _)| Seat { session: session as u32, answered: 0, waits: None }).collect();
        seats.sort_by_key(|it| &load.sessions[it.session as usize].name);
        Node {
            load,
            region,
            seats,
            submitted: Vec::new(),
            asked: vec![Vec::new(); regions],
            taken: vec![0; regions],
            logs: vec![Vec::new(); regions],
            inserted: vec![0; regions],
            graph: Graph::new(load.regions, load.keys.texts.len()),
            classes: Vec::new(),
            done: Done::new(load.regions),
            table: Table::new(load),
            events: Vec::new(),
            last: 0,
            heard: 0,
            took: vec![0; regions],
            received: vec![0; regions],
            turns: 0,
        }
    }

    pub fn is_answered(&self) -> bool {
        self.seats.iter().all(|it| it.answered == self.load.sessions[it.session as usize].wanted.len())
    }

    /// Keeps an event, with a stamp above those of all its events and of all packets that it took.
    fn keep(&mut self, event: Event) {
        self.last = self.last.max(self.heard) + 1;
        self.events.push((self.last, event));
    }

    /// Takes these packets, lets the sessions go on and makes rounds until they stand still, and sends to each other region.
    pub fn turn(&mut self, packets: Vec<Packet>, sent: &mut [Vec<Packet>]) {
        for packet in packets {
            self.receive(packet);
        }
        loop {
            let is_answered = self.answer_all();
            let is_submitted = self.submit_all();
            self.round();
            if !is_answered && !is_submitted {
                break;
            }
        }
        self.send(sent);
    }

    fn receive(&mut self, packet: Packet) {
        let source = usize::from(packet.source);
        self.heard = self.heard.max(packet.stamp);
        let placed = self.taken[source] - packet.asked_at;
        for txn in packet.asked.into_iter().skip(placed) {
            self.append(packet.source, txn);
        }
        let (had, last) = (self.logs[source].len(), packet.log_at + packet.entries.len());
        if had < last {
            self.logs[source].extend(packet.entries.into_iter().skip(had - packet.log_at));
            self.keep(Event::Deliver(packet.source, packet.log_at as u32, last as u32));
        }
        self.took[source] = self.took[source].max(packet.took);
        self.received[source] = self.received[source].max(packet.received);
    }

    /// Places the next request of a region in the own log.
    fn append(&mut self, source: u8, txn: Rc<Txn>) {
        let taken = &mut self.taken[usize::from(source)];
        let number = *taken as u32;
        *taken += 1;
        self.logs[usize::from(self.region)].push(txn);
        self.keep(Event::Append(source, number));
    }

    /// The attempt that a session waits for, if it is executed here, and whether that is its last one.
    fn ended(&self, seat: &Seat) -> Option<(u32, bool)> {
        let waits = seat.waits.as_ref()?;
        let is_stale = matches!(self.done.outcome(waits.id)?, Outcome::Stale { .. });
        Some((waits.id.seq, !is_stale || waits.attempt == self.load.tries))
    }

    fn answer_all(&mut self) -> bool {
        let mut some = false;
        for at in 0..self.seats.len() {
            if let Some((number, true)) = self.ended(&self.seats[at]) {
                self.seats[at].waits = None;
                self.seats[at].answered += 1;
                self.keep(Event::Answer(number));
                some = true;
            }
        }
        some
    }

    /// Lets each session submit its next attempt, if it may, and places at once what this asks of the region itself.
    fn submit_all(&mut self) -> bool {
        let mut some = false;
        for at in 0..self.seats.len() {
            let seat = &self.seats[at];
            let attempt = match (&seat.waits, self.ended(seat)) {
                (None, _) => 1,
                (Some(waits), Some((_, false))) => waits.attempt + 1,
                _ => continue,
            };
            if seat.answered < self.load.sessions[seat.session as usize].wanted.len() {
                self.submit(at, attempt);
                some = true;
            }
        }
        some
    }

    fn submit(&mut self, at: usize, attempt: u32) {
        let Seat { session, answered, .. } = self.seats[at];
        let (rank, body) = self.load.sessions[session as usize].wanted[answered];
        let id = Id { seq: self.submitted.len() as u32 + 1, region: self.region };
        let (uses, homes) = self.table.annotate(body, &self.load.keys, self.load.version);
        let txn = Rc::new(Txn { id, rank, body, session, call: answered as u32 + 1, attempt, uses, homes });
        for home in txn.homes() {
            self.asked[usize::from(home)].push(Rc::clone(&txn));
        }
        self.seats[at].waits = Some(Rc::clone(&txn));
        self.submitted.push(Rc::clone(&txn));
        self.keep(Event::Submit(id.seq));
        if txn.homes().any(|home| home == self.region) {
            self.append(self.region, txn);
        }
    }

    /// Inserts, resolves and executes until nothing is left.
    fn round(&mut self) {
        for home in 0..self.load.regions {
            self.insert_all(home);
        }
        while self.execute() || self.resolve() {}
    }

    fn insert_all(&mut self, home: u8) {
        for place in self.inserted[usize::from(home)]..self.logs[usize::from(home)].len() {
            self.graph.insert(home, &self.logs[usize::from(home)][place]);
            self.keep(Event::Insert(home));
        }
        self.inserted[usize::from(home)] = self.logs[usize::from(home)].len();
    }

    fn resolve(&mut self) -> bool {
        let Some(ids) = self.graph.resolve_some() else { return false };
        self.keep(Event::Resolve(self.classes.len() as u32));
        self.classes.push(ids);
        true
    }

    fn execute(&mut self) -> bool {
        let Some(place) = self.graph.first_ready() else { return false };
        let txn = self.graph.txn(place);
        let id = txn.id;
        self.done.note(id, self.table.run(txn));
        self.graph.finish(place);
        self.keep(Event::Execute(id));
        true
    }

    /// Sends to each other region what that one is not known to have: of every `drop` packets the last one is lost, and of the
    /// others the last of every `repeat` comes twice.
    fn send(&mut self, sent: &mut [Vec<Packet>]) {
        self.turns += 1;
        let is_every = |step: u64| step > 0 && self.turns % step == 0;
        if is_every(self.load.drop) {
            return;
        }
        for (target, sent) in sent.iter_mut().enumerate().filter(|(target, _)| *target != usize::from(self.region)) {
            let packet = self.packet(target);
            if is_every(self.load.repeat) {
                sent.push(packet.clone());
            }
            sent.push(packet);
        }
    }

    fn packet(&self, target: usize) -> Packet {
        let some = |list: &[Rc<Txn>], first: usize| list[first..list.len().min(first + MOST_ITEMS)].to_vec();
        Packet {
            source: self.region,
            stamp: self.last,
            asked_at: self.took[target],
            asked: some(&self.asked[target], self.took[target]),
            log_at: self.received[target],
            entries: some(&self.logs[usize::from(self.region)], self.received[target]),
            took: self.taken[target],
            received: self.logs[target].len(),
        }
    }
}

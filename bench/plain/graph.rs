//! The scheduler of a region: what it may execute and resolve. Of what it may it picks what the proved program picks, so that the
//! reports of both are the same.
use crate::load::{Id, Key, Mode};
use crate::table::{Txn, Use};
use std::mem;
use std::rc::Rc;

/// The place of a transaction among those that are here. A place is used again.
pub type Place = u32;

const NOWHERE: Place = Place::MAX;

#[derive(Clone, Copy, PartialEq, Eq)]
enum State {
    /// Some part of it is missing, or it is in a class and another one runs before it.
    Waiting,
    /// With its place among the ready ones.
    Ready(usize),
    /// With its place among the stuck ones.
    Stuck(usize),
}

/// A transaction that is here until all that reaches it is done.
struct Vertex {
    txn: Option<Rc<Txn>>,
    missing: u32,
    /// How many of its uses are here.
    uses: u32,
    /// How many edges lead to it.
    waits: u32,
    /// The edges from it, each from one of its uses to another vertex.
    behind: Vec<(u32, Place)>,
    class: Option<usize>,
    state: State,
}

/// A use that is here: the vertex, and which of its uses.
#[derive(Clone, Copy)]
struct Entry {
    place: Place,
    number: u32,
}

/// What is here of a key at a home: the last write, and the reads since.
#[derive(Default, Clone)]
struct Lane {
    write: Option<Entry>,
    reads: Vec<Entry>,
    is_listed: bool,
}

impl Lane {
    /// The last ones that clash with a write.
    fn last(&self) -> &[Entry] {
        if self.reads.is_empty() { self.write.as_slice() } else { &self.reads }
    }

    fn remove(&mut self, place: Place) {
        self.write = self.write.filter(|it| it.place != place);
        self.reads.retain(|it| it.place != place);
    }
}

/// The last use of a unit at a home as a whole, and the keys of it that were used since.
#[derive(Default, Clone)]
struct Whole {
    last: Option<Entry>,
    keys: Vec<Key>,
}

/// A resolved class, in the order in which it runs.
struct Class {
    members: Vec<Place>,
    done: usize,
}

/// What stuck vertices wait for among themselves, by their places among the stuck ones.
#[derive(Default)]
struct Search {
    waits: Vec<u32>,
    is_found: Vec<bool>,
    found: Vec<usize>,
}

impl Search {
    /// Nothing is found of this number of stuck ones.
    fn begin(&mut self, count: usize) {
        self.is_found.clear();
        self.is_found.resize(count, false);
        self.found.clear();
    }

    /// Whether this one was not found before.
    fn find(&mut self, at: usize) -> bool {
        let is_new = !mem::replace(&mut self.is_found[at], true);
        if is_new {
            self.found.push(at);
        }
        is_new
    }
}

pub struct Graph {
    vertices: Vec<Vertex>,
    free: Vec<Place>,
    /// By region and number.
    places: Vec<Vec<Place>>,
    ready: Vec<Place>,
    stuck: Vec<Place>,
    classes: Vec<Class>,
    /// By home and key.
    lanes: Vec<Vec<Lane>>,
    /// By home and unit.
    wholes: Vec<Vec<Whole>>,
    /// Whether something came or left since a search found no class.
    is_changed: bool,
    search: Search,
    nearest: Vec<Entry>,
}

impl Graph {
    pub fn new(regions: u8, keys: usize) -> Graph {
        let regions = usize::from(regions);
        Graph {
            vertices: Vec::new(),
            free: Vec::new(),
            places: vec![Vec::new(); regions],
            ready: Vec::new(),
            stuck: Vec::new(),
            classes: Vec::new(),
            lanes: vec![vec![Lane::default(); keys]; regions],
            wholes: vec![vec![Whole::default(); keys]; regions],
            is_changed: false,
            search: Search::default(),
            nearest: Vec::new(),
        }
    }

    fn vertex(&mut self, place: Place) -> &mut Vertex {
        &mut self.vertices[place as usize]
    }

    pub fn txn(&self, place: Place) -> &Rc<Txn> {
        self.vertices[place as usize].txn.as_ref().expect("a transaction that is here")
    }

    /// The place of a transaction, which is put in where it is new.
    fn place_of(&mut self, txn: &Rc<Txn>) -> Place {
        let (places, number) = (&mut self.places[usize::from(txn.id.region)], txn.id.seq as usize - 1);
        if places.len() <= number {
            places.resize(number + 1, NOWHERE);
        }
        if places[number] == NOWHERE {
            places[number] = self.free.pop().unwrap_or_else(|| {
                let (behind, state) = (Vec::new(), State::Waiting);
                self.vertices.push(Vertex { txn: None, missing: 0, uses: 0, waits: 0, behind, class: None, state });
                self.vertices.len() as Place - 1
            });
            let vertex = &mut self.vertices[places[number] as usize];
            vertex.txn = Some(Rc::clone(txn));
            vertex.missing = txn.homes.count_ones();
        }
        places[number]
    }

    /// Inserts the part of a transaction that a home orders.
    pub fn insert(&mut self, home: u8, txn: &Rc<Txn>) {
        let place = self.place_of(txn);
        for used in txn.part(home) {
            self.enter(home, used, place);
        }
        let vertex = self.vertex(place);
        vertex.missing -= 1;
        if vertex.missing == 0 {
            if vertex.waits == 0 { self.add_ready(place) } else { self.add_stuck(place) }
        }
        self.is_changed = true;
    }

    /// Adds a use of a vertex, behind those that it clashes with and that none between clashes with too.
    fn enter(&mut self, home: u8, used: &Use, place: Place) {
        let (lanes, whole) = (&mut self.lanes[usize::from(home)], &mut self.wholes[usize::from(home)][used.unit as usize]);
        let lane = &mut lanes[used.key as usize];
        self.nearest.clear();
        match used.mode {
            Mode::Read => self.nearest.extend(lane.write),
            Mode::Write => self.nearest.extend_from_slice(lane.last()),
            Mode::Whole => whole.keys.iter().for_each(|key| self.nearest.extend_from_slice(lanes[*key as usize].last())),
        }
        if self.nearest.is_empty() {
            self.nearest.extend(whole.last);
        }
        for near in self.nearest.iter().filter(|near| near.place != place) {
            self.vertices[near.place as usize].behind.push((near.number, place));
            self.vertices[place as usize].waits += 1;
        }
        let vertex = &mut self.vertices[place as usize];
        let entry = Entry { place, number: vertex.uses };
        vertex.uses += 1;
        if used.mode == Mode::Whole {
            whole.keys.drain(..).for_each(|key| lanes[key as usize] = Lane::default());
            whole.last = Some(entry);
            return;
        }
        let lane = &mut lanes[used.key as usize];
        if !mem::replace(&mut lane.is_listed, true) {
            whole.keys.push(used.key);
        }
        if used.mode == Mode::Write {
            lane.write = Some(entry);
            lane.reads.clear();
        } else {
            lane.reads.push(entry);
        }
    }

    fn add_ready(&mut self, place: Place) {
        self.vertices[place as usize].state = State::Ready(self.ready.len());
        self.ready.push(place);
    }

    fn add_stuck(&mut self, place: Place) {
        self.vertices[place as usize].state = State::Stuck(self.stuck.len());
        self.stuck.push(place);
    }

    /// Takes a vertex off the ready or the stuck ones, the last of which comes to its place.
    fn take_off(&mut self, place: Place) {
        let state = mem::replace(&mut self.vertex(place).state, State::Waiting);
        let (list, at) = match state {
            State::Waiting => return,
            State::Ready(at) => (&mut self.ready, at),
            State::Stuck(at) => (&mut self.stuck, at),
        };
        list.swap_remove(at);
        if let Some(moved) = list.get(at) {
            self.vertices[*moved as usize].state = state;
        }
    }

    /// Some transaction that may be executed.
    pub fn first_ready(&self) -> Option<Place> {
        self.ready.first().copied()
    }

    /// The transaction of this id, if it may be executed.
    pub fn ready(&self, id: Id) -> Option<Place> {
        self.find(id).filter(|place| matches!(self.vertices[*place as usize].state, State::Ready(_)))
    }

    /// The place of the transaction of this id, if it is here.
    fn find(&self, id: Id) -> Option<Place> {
        let places = self.places.get(usize::from(id.region))?;
        places.get((id.seq as usize).checked_sub(1)?).copied().filter(|place| *place != NOWHERE)
    }

    /// What is ready is done: it leaves, or with the last one of its class the class.
    pub fn finish(&mut self, place: Place) {
        self.is_changed = true;
        self.take_off(place);
        let Some(class) = self.vertex(place).class else { return self.leave(&[place]) };
        let class = &mut self.classes[class];
        class.done += 1;
        match class.members.get(class.done) {
            Some(next) => {
                let next = *next;
                self.add_ready(next);
            }
            None => {
                let members = mem::take(&mut class.members);
                self.leave(&members);
            }
        }
    }

    /// Lets vertices leave together. Those that waited for them alone are ready.
    fn leave(&mut self, leaving: &[Place]) {
        for place in leaving {
            self.wake(*place);
        }
        for place in leaving {
            self.forget(*place);
        }
    }

    /// Those that waited for uses of a vertex, in the order of these uses, are ready once they wait for nothing more.
    fn wake(&mut self, place: Place) {
        let behind = mem::take(&mut self.vertex(place).behind);
        for number in 0..self.vertex(place).uses {
            for (_, other) in behind.iter().filter(|(from, _)| *from == number) {
                let vertex = self.vertex(*other);
                vertex.waits -= 1;
                if vertex.waits == 0 && matches!(vertex.state, State::Stuck(_)) {
                    self.take_off(*other);
                    self.add_ready(*other);
                }
            }
        }
        self.vertex(place).behind = behind;
    }

    fn forget(&mut self, place: Place) {
        let vertex = self.vertex(place);
        vertex.behind.clear();
        (vertex.uses, vertex.class) = (0, None);
        let txn = vertex.txn.take().expect("a transaction that is here");
        for home in txn.homes() {
            let (lanes, wholes) = (&mut self.lanes[usize::from(home)], &mut self.wholes[usize::from(home)]);
            for used in txn.part(home) {
                lanes[used.key as usize].remove(place);
                let whole = &mut wholes[used.unit as usize];
                whole.last = whole.last.filter(|it| it.place != place);
            }
        }
        self.places[usize::from(txn.id.region)][txn.id.seq as usize - 1] = NOWHERE;
        self.free.push(place);
    }

    /// Resolves some class of several that are stuck, wait for each other and for nothing else, and gives its ids in ascending
    /// order.
    pub fn resolve_some(&mut self) -> Option<Vec<Id>> {
        if !self.is_changed || self.stuck.len() < 2 {
            return None;
        }
        let Some(class) = self.find_class() else {
            self.is_changed = false;
            return None;
        };
        let mut ids: Vec<Id> = class.iter().map(|it| self.txn(*it).id).collect();
        ids.sort_unstable();
        self.resolve_class(class);
        Some(ids)
    }

    /// Resolves the class of these ids, if they are one.
    pub fn resolve(&mut self, ids: &[Id]) -> bool {
        let class: Option<Vec<Place>> = ids.iter().map(|id| self.find(*id)).collect();
        let Some(class) = class.filter(|class| class.len() >= 2 && self.is_class(class)) else { return false };
        self.resolve_class(class);
        true
    }

    fn resolve_class(&mut self, mut members: Vec<Place>) {
        members.sort_unstable_by_key(|it| (self.txn(*it).rank, self.txn(*it).id));
        for member in &members {
            self.take_off(*member);
            self.vertex(*member).class = Some(self.classes.len());
        }
        self.add_ready(members[0]);
        self.classes.push(Class { members, done: 0 });
    }

    /// The stuck ones for which a stuck one waits directly, by their places among these.
    fn stuck_behind(&self, at: usize) -> impl Iterator<Item = usize> + '_ {
        let behind = &self.vertices[self.stuck[at] as usize].behind;
        behind.iter().filter_map(|(_, other)| match self.vertices[*other as usize].state {
            State::Stuck(other) => Some(other),
            _ => None,
        })
    }

    /// Of each stuck one, for how much it waits that is not stuck.
    fn count_others(&self, search: &mut Search) {
        search.waits.clear();
        search.waits.extend(self.stuck.iter().map(|it| self.vertices[*it as usize].waits));
        for at in 0..self.stuck.len() {
            self.stuck_behind(at).for_each(|other| search.waits[other] -= 1);
        }
    }

    /// Finds all stuck ones to which those lead that are found, of which those from this place on were not followed yet.
    fn spread(&self, search: &mut Search, mut from: usize) {
        while let Some(at) = search.found.get(from).copied() {
            for other in self.stuck_behind(at) {
                search.find(other);
            }
            from += 1;
        }
    }

    /// A class that waits for nothing else: of those that nothing leads to which waits for others, the last from which a search in
    /// their order has to begin anew, with all that leads to it.
    fn find_class(&mut self) -> Option<Vec<Place>> {
        let mut search = mem::take(&mut self.search);
        self.count_others(&mut search);
        search.begin(self.stuck.len());
        for at in 0..self.stuck.len() {
            if search.waits[at] > 0 {
                search.find(at);
            }
        }
        self.spread(&mut search, 0);
        let mut last = None;
        for at in 0..self.stuck.len() {
            let from = search.found.len();
            if search.find(at) {
                self.spread(&mut search, from);
                last = Some(at);
            }
        }
        self.search = search;
        last.map(|last| self.all_that_lead_to(last))
    }

    /// All stuck ones that lead to one of them, itself with them.
    fn all_that_lead_to(&self, last: usize) -> Vec<Place> {
        let mut ahead = vec![Vec::new(); self.stuck.len()];
        for at in 0..self.stuck.len() {
            self.stuck_behind(at).for_each(|other| ahead[other].push(at));
        }
        let mut search = Search::default();
        search.begin(self.stuck.len());
        search.find(last);
        let mut from = 0;
        while let Some(at) = search.found.get(from).copied() {
            for other in &ahead[at] {
                search.find(*other);
            }
            from += 1;
        }
        search.found.into_iter().map(|at| self.stuck[at]).collect()
    }

    /// Whether vertices, each here once, are stuck, wait for each other, and for nothing else.
    fn is_class(&self, members: &[Place]) -> bool {
        let place = |member: &Place| match self.vertices[*member as usize].state {
            State::Stuck(at) => Some(at),
            _ => None,
        };
        let Some(places) = members.iter().map(place).collect::<Option<Vec<usize>>>() else { return false };
        let mut search = Search::default();
        self.count_others(&mut search);
        search.begin(self.stuck.len());
        search.find(places[0]);
        self.spread(&mut search, 0);
        places.iter().all(|at| search.is_found[*at] && search.waits[*at] == 0) && {
            let (mut ahead, mut members) = (self.all_that_lead_to(places[0]), members.to_vec());
            ahead.sort_unstable();
            members.sort_unstable();
            ahead == members
        }
    }
}

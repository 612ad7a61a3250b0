"""A world of regions that make the events of a load, each by its rule (docs/DEFINITIONS.md has the rules).

Regions take turns at random. In a turn a region places what the others asked of it, receives their logs, inserts and executes
what it can, answers its sessions and lets them submit.
"""
import random
from dataclasses import dataclass, field

import load
from scheduler import Scheduler


@dataclass(eq=False)
class Txn:
    """An attempt: its id, its rank, the units that it uses with their counters, its parts by home, and what it moves where."""

    id: tuple
    rank: int
    counters: dict
    parts: dict
    moves: tuple | None
    attempt: int

    def __str__(self):
        return "{}.{}".format(*self.id)


@dataclass
class Seat:
    """Where a session stands: how many of its calls are answered, and the attempt that it waits for."""

    session: load.Session
    answered: int = 0
    waits: Txn | None = None


@dataclass
class Region:
    """What a region keeps: what it submitted and asked of each home, what it took of the others' requests, its log and how much
    it has of each log, its graph, where units are at home, and which of its own attempts are stale."""

    number: int
    seats: list
    submitted: int = 0
    executed: int = 0
    asked: list = field(default_factory=lambda: [[] for _ in range(load.REGIONS)])
    taken: list = field(default_factory=lambda: [0] * load.REGIONS)
    log: list = field(default_factory=list)
    received: list = field(default_factory=lambda: [0] * load.REGIONS)
    inserted: list = field(default_factory=lambda: [0] * load.REGIONS)
    graph: Scheduler = field(default_factory=Scheduler)
    moved: dict = field(default_factory=dict)
    stale: dict = field(default_factory=dict)

    def mastership(self, unit):
        """Where a unit is at home, and how often it was moved."""
        return self.moved.get(unit) or (load.home(unit), 0)


class World:
    """All regions of a load, and the events that they made."""

    def __init__(self, sessions, seed):
        self.draws = random.Random(seed)
        self.events = []
        self.regions = [Region(it, [Seat(each) for each in sessions if each.region == it]) for it in range(load.REGIONS)]
        self.calls = sum(len(it.wanted) for it in sessions)
        self.answers = 0

    def run(self):
        """Makes events until each call is answered and each region has executed every attempt."""
        while not self.is_finished():
            self.turn(self.draws.choice(self.regions))
        return self.events

    def is_finished(self):
        submitted = sum(it.submitted for it in self.regions)
        return self.answers == self.calls and all(it.executed == submitted for it in self.regions)

    def turn(self, region):
        for other in self.draws.sample(self.regions, load.REGIONS):
            if other is not region and self.draws.randrange(2):
                self.append_all(region, other)
            if other is not region and self.draws.randrange(2):
                self.deliver(region, other)
        self.insert_all(region)
        self.execute_all(region)
        for seat in region.seats:
            self.answer(region, seat)
            self.submit(region, seat)

    def append_all(self, home, source):
        """The home places what the source asked of it."""
        asked = source.asked[home.number]
        for number in range(home.taken[source.number], len(asked)):
            self.events.append(f"append {home.number} {source.number} {number}")
            home.log.append(asked[number])
        home.taken[source.number] = len(asked)
        home.received[home.number] = len(home.log)

    def deliver(self, region, home):
        """The region receives what it lacks of the home's log."""
        first, last = region.received[home.number], len(home.log)
        if first < last:
            self.events.append(f"deliver {region.number} {home.number} {first} {last}")
            region.received[home.number] = last

    def insert_all(self, region):
        """The region inserts all that it received, the logs mixed at random."""
        places = [home for home in range(load.REGIONS) for _ in range(region.inserted[home], region.received[home])]
        self.draws.shuffle(places)
        for home in places:
            self.events.append(f"insert {region.number} {home}")
            region.graph.insert(home, self.regions[home].log[region.inserted[home]])
            region.inserted[home] += 1

    def execute_all(self, region):
        """The region executes and resolves until nothing more can be, in an order drawn at random."""
        while True:
            ready = region.graph.ready
            while ready:
                place = self.draws.randrange(len(ready))
                ready[place], ready[-1] = ready[-1], ready[place]
                self.execute(region, ready.pop())
            groups = region.graph.deadlocks()
            if not groups:
                return
            for group in groups:
                self.resolve(region, group)

    def resolve(self, region, group):
        ids = sorted(group, key=lambda it: it.txn.id)
        self.events.append(f"resolve {region.number} {' '.join(str(it.txn) for it in ids)}")
        region.graph.resolve(group)

    def execute(self, region, vertex):
        """Executes it on the region's table: it is stale where one of its units was moved since it was submitted."""
        txn = vertex.txn
        self.events.append(f"execute {region.number} {txn}")
        stale = any(region.mastership(unit)[1] > counter for unit, counter in txn.counters.items())
        if txn.moves and not stale:
            unit, target = txn.moves
            region.moved[unit] = target, region.mastership(unit)[1] + 1
        if txn.id[1] == region.number:
            region.stale[txn.id] = stale
        region.executed += 1
        region.graph.finish(vertex)

    def answer(self, region, seat):
        """Answers the session, if its attempt is done and needs no other."""
        txn = seat.waits
        if txn and txn.id in region.stale and (not region.stale[txn.id] or txn.attempt == load.TRIES):
            self.events.append(f"answer {region.number} {seat.session.name}")
            seat.answered, seat.waits = seat.answered + 1, None
            self.answers += 1

    def submit(self, region, seat):
        """Lets the session submit its next attempt, if it may, and places the region's own part of it."""
        attempt = 1
        if seat.waits:
            if not region.stale.get(seat.waits.id):
                return
            attempt = seat.waits.attempt + 1
        if seat.answered == len(seat.session.wanted):
            return
        region.submitted += 1
        txn = annotate(region, (region.submitted, region.number), seat.session.wanted[seat.answered], attempt)
        self.events.append(f"submit {region.number} {seat.session.name}")
        seat.waits = txn
        for home in txn.parts:
            region.asked[home].append(txn)
        self.append_all(region, region)


def annotate(region, number, wanted, attempt):
    """The transaction of this id for what is wanted, with the homes and counters that the region's table gives."""
    counters, parts = {}, {}
    for key, mode in wanted.uses:
        unit = key.partition("/")[0]
        home, counters[unit] = region.mastership(unit)
        parts.setdefault(home, []).append((unit, key, mode))
    moves = None
    if wanted.target is not None:
        moves = wanted.uses[0][0], wanted.target
        parts[wanted.target] = [(moves[0], moves[0], load.WHOLE)]
    return Txn(number, wanted.rank, counters, dict(sorted(parts.items())), moves, attempt)

"""What one region may execute and resolve next: its dependency graph, kept up to date in the time of its edges.

A transaction waits for its parts and for its *neighbours*: those that clash with it and stand last before it in a log. Where it
waits for neither, nothing that is not done reaches it, and it may be executed. What then is left waits for a part that is
missing, or in a circle: a deadlocked group may be resolved where nothing outside of it leads into it.
"""


class Vertex:
    """A transaction of which the region has inserted a part, until all that reaches it is done."""

    __slots__ = "txn", "missing", "before", "behind", "waits", "group", "gone", "reads"

    def __init__(self, txn):
        self.txn = txn
        self.missing = len(txn.parts)
        self.before, self.behind = [], []  # its neighbours, and those that have it as a neighbour
        self.waits = 0  # how many of its neighbours are still here
        self.group = None  # its deadlocked group, once that is resolved
        self.gone = False
        self.reads = []  # the lists of readers that it stands in

    def sooner(self):
        return self.txn.rank, self.txn.id


class Group:
    """A deadlocked group that is resolved: its members in the order in which they run, and how many of them have."""

    def __init__(self, members):
        self.members = sorted(members, key=Vertex.sooner)
        self.done = 0


class Uses:
    """The last uses of one granule in one log: the last one of the whole, and since then of each key the last write and the reads
    that follow it."""

    def __init__(self):
        self.whole = None
        self.writes, self.reads = {}, {}

    def neighbours(self, key, mode):
        """Those that a use in this mode clashes with and that no use between clashes with too."""
        if mode == "whole" and (self.writes or self.reads):
            return [it for used in {**self.writes, **self.reads} for it in self.last(used)]
        if mode == "write":
            return self.last(key)
        return self.last_write(key)

    def last(self, key):
        """The reads of a key since its last write, or that write where there are none."""
        return list(self.reads.get(key, ())) or self.last_write(key)

    def last_write(self, key):
        """The last write of a key, or the last use of the whole granule where there is none since."""
        write = self.writes.get(key, self.whole)
        return [write] if write else []

    def add(self, key, mode, vertex):
        """Makes this use the last one."""
        if mode == "whole":
            self.whole, self.writes, self.reads = vertex, {}, {}
        elif mode == "write":
            self.writes[key] = vertex
            self.reads.pop(key, None)
        else:
            readers = self.reads.setdefault(key, {})
            readers[vertex] = None
            vertex.reads.append(readers)


class Scheduler:
    """The graph of a region: who is here, and who may be executed now."""

    def __init__(self):
        self.here = {}
        self.ready = []
        self.uses = {}

    def insert(self, home, txn):
        """Inserts the part of a transaction at the end of a home's log."""
        vertex = self.here.get(txn.id)
        if vertex is None:
            vertex = self.here[txn.id] = Vertex(txn)
        vertex.missing -= 1
        for unit, key, mode in txn.parts[home]:
            uses = self.uses.setdefault((home, unit), Uses())
            for other in uses.neighbours(key, mode):
                if not other.gone:
                    link(other, vertex)
            uses.add(key, mode, vertex)
        self.note(vertex)

    def note(self, vertex):
        """Notes it as ready where it waits for nothing."""
        if not vertex.missing and not vertex.waits:
            self.ready.append(vertex)

    def finish(self, vertex):
        """One that was ready is done. It leaves the graph at once, or with the last one of its group."""
        group = vertex.group
        if group is None:
            return self.leave([vertex])
        group.done += 1
        if group.done == len(group.members):
            return self.leave(group.members)
        self.ready.append(group.members[group.done])

    def leave(self, vertices):
        """All that reaches these is done: those behind them wait for them no longer."""
        for vertex in vertices:
            vertex.gone = True
            del self.here[vertex.txn.id]
            for readers in vertex.reads:
                readers.pop(vertex)
        for vertex in vertices:
            for other in vertex.behind:
                other.waits -= 1
                if not other.gone:
                    self.note(other)
            vertex.before, vertex.behind = [], []

    def resolve(self, members):
        """Resolves a deadlocked group, of which the first one to run is ready then."""
        group = Group(members)
        for vertex in members:
            vertex.group = group
        self.ready.append(group.members[0])

    def deadlocks(self):
        """The deadlocked groups that may be resolved. Asked where nothing is ready."""
        blocked = reached([it for it in self.here.values() if it.missing or it.group], set())
        return source_groups([it for it in self.here.values() if it not in blocked])


def link(before, behind):
    """The one waits for the other."""
    before.behind.append(behind)
    behind.before.append(before)
    behind.waits += 1


def reached(starts, seen):
    """Adds to `seen` the starts and all that they lead to."""
    waiting = list(starts)
    while waiting:
        vertex = waiting.pop()
        if vertex not in seen:
            seen.add(vertex)
            waiting.extend(vertex.behind)
    return seen


def source_groups(vertices):
    """The groups of vertices that lead to each other and that no other vertex leads to. What leads to one of these vertices is
    one of them, or gone."""
    seen, groups = set(), []
    for start in reversed(by_end_of_search(vertices)):
        if start not in seen:
            group = leading_to(start, seen)
            inside = set(group)
            if all(it.gone or it in inside for vertex in group for it in vertex.before):
                groups.append(group)
    return groups


def by_end_of_search(vertices):
    """The vertices in the order in which a search in depth is done with each."""
    ended, seen = [], set()
    for start in vertices:
        waiting = [(start, None)]
        while waiting:
            vertex, rest = waiting.pop()
            if rest is None:
                if vertex in seen:
                    continue
                seen.add(vertex)
                rest = iter(vertex.behind)
            following = next(rest, None)
            if following is None:
                ended.append(vertex)
            else:
                waiting += (vertex, rest), (following, None)
    return ended


def leading_to(start, seen):
    """Those that lead to the start and are not seen yet, the start with them. They are seen then."""
    found, waiting = [], [start]
    while waiting:
        vertex = waiting.pop()
        if vertex not in seen and not vertex.gone:
            seen.add(vertex)
            found.append(vertex)
            waiting.extend(vertex.before)
    return found

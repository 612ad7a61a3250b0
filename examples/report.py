"""What stands in a report of Detock, and what follows from it: who submitted, received and executed what when, and which
transaction each request is.
"""
import collections
import pathlib
import re
import sys

MOST_READ = 600  # events from which is inferred what a request is
KINDS = "submit append deliver insert resolve execute answer".split()
BUILT_IN = """
proc put(k: text, v: int) write a = k; {} proc note(k: text, v: text) write a = k; {} proc get(k: text) read a = k; {}
proc del(k: text) write a = k; {} proc add(k: text, n: int) write a = k; {} proc div(k: text, n: int) read a = k; {}
proc sum(x: text, y: text) read a = x; read b = y; {} proc xfer(from: text, to: text, n: int) write a = from; write b = to; {}
"""


class Report:
    """What stands in a report: its sections, and what follows from its events alone."""

    def __init__(self, text):
        sections, head = collections.defaultdict(list), None
        for line in text.splitlines():
            words = line.split(" ")
            if line in ("replies", "order", "events") or len(words) == 2 and words[0] == "table":
                head = line
                sections[head]  # (an empty section is one too)
            else:
                sections[head].append(line)
        if not {"replies", "order", "events", "table 0"} <= set(sections) or None in sections:
            sys.exit("draw: not a report")
        self.order = [line.split(" ", 4) for line in sections["order"]]
        self.outcomes = {words[0]: words[4] for words in self.order}
        self.replies = sections["replies"]
        self.regions = sum(head.startswith("table ") for head in sections)
        self.tables = [sections[f"table {number}"] for number in range(self.regions)]
        self.events = [line.split(" ") for line in sections["events"]]
        if not all(words[0] in KINDS for words in self.events):
            sys.exit("draw: not a report")

    def movers(self):
        """The ids that an outcome names as those of moves, each with the unit and the number of moves before."""
        for outcome in self.outcomes.values():
            words = outcome.split(" ")
            if words[0] == "stale":
                yield words[5], words[1], int(words[3])


class Walk:
    """A walk over the first events: who submitted, each log, and what each region received, inserted and executed when."""

    def __init__(self, report):
        regions = range(report.regions)
        self.submitted = [[] for _ in regions]  # of each region the time and the session of each submission
        self.logs = [[] for _ in regions]  # of each home the source, the number and the time of each request that it took
        self.asked = collections.Counter()  # how many requests of a region a home took
        self.received = collections.Counter()
        self.inserts = collections.defaultdict(list)  # of a region and a home the times at which the entries were inserted
        self.executed = collections.defaultdict(list)  # of an id the regions and times
        self.gaps = set()  # the times of deliveries that do not join what was received
        self.works = []  # which events change something
        for time, words in enumerate(report.events[:MOST_READ]):
            self.works.append(getattr(self, words[0])(time, *words[1:]))

    def submit(self, time, region, session):
        self.submitted[int(region)].append((time, session))
        return True

    def append(self, time, home, source, number):
        home, source = int(home), int(source)
        if self.asked[home, source] != int(number):
            return False
        self.asked[home, source] += 1
        self.logs[home].append((source, int(number), time))
        return True

    def deliver(self, time, region, home, start, end):
        region, home = int(region), int(home)
        had = self.received[region, home]
        if region == home or not int(start) <= had < int(end):
            self.gaps |= {time} if int(start) > had and region != home else set()
            return False
        self.received[region, home] = int(end)
        return True

    def insert(self, time, region, home):
        self.inserts[int(region), int(home)].append(time)
        return True

    def execute(self, time, region, name):
        self.executed[name].append((int(region), time))
        return True

    def resolve(self, *_):
        return True

    answer = resolve


class Requests:
    """Which transaction each request of a region is: the options that the report leaves, narrowed until nothing changes."""

    def __init__(self, report, walk):
        self.walk, self.regions = walk, range(report.regions)
        self.ids = {source: range(1, len(walk.submitted[source]) + 1) for source in self.regions}
        self.may = {(f"{seq}.{source}", home) for source in self.regions for seq in self.ids[source] for home in self.regions}
        self.has = {pair for pair in self.last_targets(report) if pair in self.may}
        self.options = {}
        size = None
        while size != (len(self.may), len(self.has)):
            size = len(self.may), len(self.has)
            for source in self.regions:
                for home in self.regions:
                    self.narrow(source, home)
                self.find_only_homes(source)

    def last_targets(self, report):
        """A move that is the last one which some region made of its unit has a part at the unit's home there."""
        for table in report.tables:
            ends = {line.split(" ")[0]: line.split(" ")[-3:] for line in table}
            for mover, unit, before in report.movers():
                if unit in ends and int(ends[unit][2]) == before + 1:
                    yield mover, int(ends[unit][0])

    def can_be(self, name, home, place, time):
        """Whether the entry at this place of the home's log, taken at this time, can be the transaction's part."""
        seq, source = map(int, name.split("."))
        inserts = self.walk.inserts
        return (
            (name, home) in self.may
            and self.walk.submitted[source][seq - 1][0] < time
            and all(place < len(inserts[at, home]) and inserts[at, home][place] < when for at, when in self.walk.executed[name])
        )

    def narrow(self, source, home):
        """Requests have the order of submissions, and none is left out that is known to be one."""
        taken = [(place, time) for place, (by, _, time) in enumerate(self.walk.logs[home]) if by == source]
        musts = {seq for seq in self.ids[source] if (f"{seq}.{source}", home) in self.has}
        found = [{seq for seq in self.ids[source] if self.can_be(f"{seq}.{source}", home, *it)} for it in taken]
        done = {seq for seq in musts if self.walk.executed[f"{seq}.{source}"]}

        def joins(low, high):
            return low < high and not any(low < seq < high for seq in musts)

        for at, here in enumerate(found):
            found[at] = {seq for seq in here if any(joins(low, seq) for low in (found[at - 1] if at else {0}))}
        for at in reversed(range(len(found))):
            if at + 1 < len(found):
                found[at] = {seq for seq in found[at] if any(joins(seq, high) for high in found[at + 1])}
            else:
                found[at] = {seq for seq in found[at] if not any(seq < other for other in done)}
        self.options[source, home] = found
        self.has |= {(f"{seq}.{source}", home) for here in found if len(here) == 1 for seq in here}
        for seq in self.ids[source]:
            passed = found and found[-1] and seq < min(found[-1])
            if not any(seq in here for here in found) and (passed or self.walk.executed[f"{seq}.{source}"]):
                self.may.discard((f"{seq}.{source}", home))

    def find_only_homes(self, source):
        for seq in self.ids[source]:
            homes = [home for home in self.regions if (f"{seq}.{source}", home) in self.may]
            if len(homes) == 1:
                self.has.add((f"{seq}.{source}", homes[0]))

    def name(self, home, source, number):
        """The id of the request, with `?` for a number that the report leaves open."""
        here = self.options[source, home][number]
        return f"{min(here)}.{source}" if len(here) == 1 else f"?.{source}"


class Files:
    """What a cluster and a workload say of homes: which keys each call uses, and where these are at home at first."""

    def __init__(self, cluster, workload):
        document = {"regions": int(cluster[1:])} if cluster.startswith(":") else self.read(cluster)
        self.regions, self.version = document["regions"], document.get("version", 1)
        self.homes = document.get("homes", {})
        self.procs = self.heads(document.get("procs", BUILT_IN))
        self.calls = collections.defaultdict(list)  # of each session the words of its calls and moves
        session = None
        for line in pathlib.Path(workload).read_text(encoding="utf-8").splitlines():
            found = re.findall(r'("(?:[^"\\]|\\.)*")|(\S+)', line)
            words = [re.sub(r"\\(.)", r"\1", text[1:-1]) if text else bare for text, bare in found]
            if words and words[0] == "session":
                session = words[1]
            elif words and not words[0].startswith("#"):
                self.calls[session].append([words[0].split("/")[0], *words[1:]])

    @staticmethod
    def read(cluster):
        import tomllib  # (of Python 3.11: nothing else here needs it)

        return tomllib.loads(pathlib.Path(cluster).read_text(encoding="utf-8"))

    @staticmethod
    def heads(text):
        """Of each procedure its parameters and, of each key that it declares, the items that make it up."""
        plain = re.sub(r'("[a-z0-9/_.-]*")|"(?:[^"\\]|\\.)*"|#[^\n]*', lambda it: it[1] or " ", text)
        found = {}
        for name, params, keys in re.findall(r"\bproc\s+(\w+)\s*\(([^)]*)\)([^{]*)\{", plain):
            items = [re.findall(r'"([^"]*)"|show\s*\(\s*(\w+)\s*\)|(\w+)', key) for key in re.findall(r"=\s*([^;]*);", keys)]
            found[name] = re.findall(r"(\w+)\s*:", params), items
        return found

    def unit(self, key):
        end = key.find("/", 1)
        return key[:end] if self.version == 2 and end > 0 else key

    def keys(self, call):
        """The keys that a call or a move uses."""
        if call[0] == "move":
            return [call[1]]
        params, keys = self.procs[call[1]]
        given = dict(zip(params, call[2:]))
        return ["".join(text or given.get(shown or name, "") for text, shown, name in items) for items in keys]

    def home(self, moved, key):
        unit = self.unit(key)
        return moved.get(unit, self.homes.get(unit, ord(unit[0]) % self.regions))


class Asked:
    """Which transaction each request is, by the files: what each region asked of each home, in order."""

    def __init__(self, report, files):
        self.asked, self.calls = collections.defaultdict(list), {}
        moved, answered, submitted = [{} for _ in range(report.regions)], collections.Counter(), collections.Counter()
        for words in report.events[:MOST_READ]:
            region = int(words[1])
            if words[0] == "submit":
                submitted[region] += 1
                name = f"{submitted[region]}.{region}"
                call = self.calls[name] = files.calls[words[2]][answered[words[2]]]
                homes = {files.home(moved[region], key) for key in files.keys(call)}
                for home in sorted(homes | ({int(call[3])} if call[0] == "move" else set())):
                    self.asked[region, home].append(name)
            elif words[0] == "execute" and self.calls[words[2]][0] == "move" and report.outcomes[words[2]] == "done":
                moved[region][files.unit(self.calls[words[2]][1])] = int(self.calls[words[2]][3])
            elif words[0] == "answer":
                answered[words[2]] += 1

    def name(self, home, source, number):
        return self.asked[source, home][number]

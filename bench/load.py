"""What the sessions of a generated load want: a cluster with its rows, and calls and moves drawn by a seed."""
import random
from dataclasses import dataclass

MOST_CALLS = 20000  # that a workload may have
REGIONS = 4
TRIES = 3
RANK = 5  # of a call that gives none
BUSY = 20  # that many accounts are used more often
LETTERS = "abcd"  # the first bytes of accounts, which are at home in the regions 1, 2, 3 and 0
READS, WRITES, WHOLE = "read", "write", "whole"


@dataclass(frozen=True)
class Variant:
    """How many accounts there are (an even number), and how many sessions at each region."""

    accounts: int
    sessions: int


VARIANTS = {"many": Variant(accounts=2000, sessions=16), "few": Variant(accounts=40, sessions=16)}


@dataclass(frozen=True)
class Wanted:
    """A call or a move: its line in the workload, its rank, its keys with their modes, and where a move leads to."""

    line: str
    rank: int
    uses: tuple
    target: int | None = None


@dataclass(frozen=True)
class Session:
    name: str
    region: int
    wanted: list


def account(number):
    """The granule of an account: `b13/cash` and `b13/save` are its rows."""
    return f"{LETTERS[number % len(LETTERS)]}{number // len(LETTERS)}"


def home(unit):
    """The home of a granule before it is moved."""
    return ord(unit[0]) % REGIONS


def cluster_text(variant):
    """The cluster file: each account has two rows."""
    rows = [f'"{account(it)}/{row}" = 1000' for it in range(variant.accounts) for row in ("cash", "save")]
    return "\n".join([f"regions = {REGIONS}", "version = 2", f"tries = {TRIES}", "[rows]", *rows, ""])


def workload_text(sessions):
    """The workload file."""
    lines = []
    for session in sessions:
        lines.append(f"session {session.name} at {session.region}")
        lines.extend(it.line for it in session.wanted)
    return "\n".join([*lines, ""])


def draw_sessions(variant, calls, seed):
    """Sessions that want this number of calls and moves together, dealt out to them in turn."""
    draws = random.Random(seed)
    count = variant.sessions * REGIONS
    sessions = [Session(f"s{it:03}", it % REGIONS, []) for it in range(count)]
    for number in range(calls):
        sessions[number % count].wanted.append(draw(draws, variant.accounts))
    return sessions


def draw(draws, accounts):
    """A call or a move: 3 in 100 are moves, 1 in 10 has a rank of its own, and most calls use the rows of two accounts."""
    rank = draws.randrange(10) if draws.randrange(10) == 0 else RANK
    first = draw_account(draws, accounts)
    one, other = account(first), account(draw_other(draws, accounts, first))
    amount, kind = draws.randrange(1, 51), draws.randrange(100)
    if kind < 3:
        target = draws.randrange(REGIONS)
        return Wanted(f"move{of_rank(rank)} {one} to {target}", rank, ((one, WHOLE),), target)
    if kind < 68:
        return call(rank, "xfer", [(f"{one}/cash", WRITES), (f"{other}/cash", WRITES)], amount)
    if kind < 76:
        return call(rank, "xfer", [(f"{one}/cash", WRITES), (f"{one}/save", WRITES)], amount)
    if kind < 90:
        return call(rank, "sum", [(f"{one}/cash", READS), (f"{other}/save", READS)])
    if kind < 95:
        return call(rank, "get", [(f"{one}/cash", READS)])
    return call(rank, "add", [(f"{one}/save", WRITES)], amount)


def draw_account(draws, accounts):
    """The number of an account: one time in four it is one of the busy ones."""
    return draws.randrange(BUSY if draws.randrange(4) == 0 else accounts)


def draw_other(draws, accounts, first):
    """The other account of a call: half the time the partner of the first, at home in the next region or the one before."""
    return first ^ 1 if draws.randrange(2) else draw_account(draws, accounts)


def call(rank, proc, uses, *numbers):
    """A call of a built-in procedure on these keys, with these numbers behind them."""
    words = [proc, *(f'"{key}"' for key, _ in uses), *map(str, numbers)]
    return Wanted(f"call{of_rank(rank)} {' '.join(words)}", rank, tuple(sorted(dict(uses).items())))


def of_rank(rank):
    """How a line gives its rank."""
    return "" if rank == RANK else f"/{rank}"

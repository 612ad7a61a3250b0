"""Random clusters with their workloads: calls and moves over few keys, so that much is deadlocked and stale. Half of the clusters have
long procedures besides the built-in ones, so that rounds start workers; some of these are crowded, so that long logs arrive at once."""
import random

DROPS = [0, 2, 3, 5]
REPEATS = [0, 1, 2, 3]
LETTERS = "abcdefghij"

# The built-in procedures, and two of some 4,200 statements beside each other.
PROCS = f"""
proc put(k: text, v: int) write a = k; {{ set a = v; }}
proc note(k: text, v: text) write a = k; {{ set a = v; }}
proc get(k: text) read a = k; {{ give row(a); }}
proc del(k: text) write a = k; {{ clear a; }}
proc add(k: text, n: int) write a = k; {{ if has(a) {{ set a = int(a) + n; }} else {{ set a = n; }} give int(a); }}
proc div(k: text, n: int) read a = k; {{ give int(a) / n; }}
proc sum(x: text, y: text) read a = x; read b = y; {{ give int(a) + int(b); }}
proc xfer(from: text, to: text, n: int) write a = from; write b = to;
{{ if int(a) < n {{ abort "funds"; }} set a = int(a) - n; set b = int(b) + n; give int(a), int(b); }}
proc climb(k: text, n: int) write a = k; {{ if not has(a) {{ set a = n; }} {"set a = int(a) + n; " * 4200} give int(a); }}
proc drag(from: text, to: text, n: int) write a = from; write b = to;
{{ if not has(a) {{ set a = 0; }} if not has(b) {{ set b = 0; }} {"set a = int(a) - n; set b = int(b) + n; " * 2100} give row(a), row(b); }}
"""


def draw_keys(draw, version, is_crowded):
    """The keys that a workload uses: in version 2 some granules have rows beside each other."""
    names = draw.sample(LETTERS, draw.randint(2, 6))
    if is_crowded:
        return [f"{name}{tens}/{row}" for name in names for tens in range(3) for row in range(3)]
    if version == 1:
        return [name if draw.random() < 0.7 else f"{name}/{draw.randint(0, 2)}" for name in names]
    return [f"{name}/{row}" for name in names for row in range(draw.randint(1, 3))] + [name for name in names if draw.random() < 0.3]


def unit_of(key, version):
    """What a move of the key's row would name."""
    return key if version == 1 or "/" not in key else key.split("/")[0]


def call_text(draw, keys, is_long):
    """A call of one of the procedures: of a long one in half of the cases, where there are any."""
    first, second = draw.choice(keys), draw.choice(keys)
    number = draw.randint(-3, 9)
    if is_long and draw.random() < 0.5:
        return draw.choice([f'climb "{first}" {number}', f'drag "{first}" "{second}" {number}'])
    return draw.choice([
        f'put "{first}" {number}', f'add "{first}" {number}', f'add "{first}" {number}', f'get "{first}"', f'del "{first}"', f'note "{first}" "n{number}"',
        f'div "{first}" {number}', *[f'sum "{first}" "{second}"'] * 2, *[f'xfer "{first}" "{second}" {abs(number)}'] * 6,
    ])


def ranked(draw, word):
    """The first word of a line, now and then with a rank."""
    return f"{word}/{draw.randint(0, 9)}" if draw.random() < 0.2 else word


def draw_cluster(draw, keys, units, regions, version, is_long):
    """The text of a cluster with these keys."""
    lines = [f"regions = {regions}", f"version = {version}", f"workers = {draw.randint(1, 8)}", f"tries = {draw.randint(1, 4)}"]
    lines += [f"drop = {draw.choice(DROPS)}", f"repeat = {draw.choice(REPEATS)}"]
    if is_long:
        lines.append(f"procs = '''{PROCS}'''")
    lines += ["[homes]", *(f'"{unit}" = {draw.randrange(regions)}' for unit in units if draw.random() < 0.6)]
    lines += ["[rows]", *(f'"{key}" = {draw.randint(0, 20)}' for key in keys if draw.random() < 0.8)]
    return "\n".join([*lines, ""])


def draw_workload(draw, keys, units, regions, sessions, calls, is_long):
    """The text of a workload of this many sessions, of which each makes at most this many calls and moves."""
    lines = []
    for number in range(sessions):
        lines.append(f"session s{number} at {number % regions if sessions > 9 else draw.randrange(regions)}")
        for _ in range(draw.randint(0, calls)):
            if draw.random() < 0.15:
                lines.append(f"{ranked(draw, 'move')} {draw.choice(units)} to {draw.randrange(regions)}")
            else:
                lines.append(f"{ranked(draw, 'call')} {call_text(draw, keys, is_long)}")
    return "\n".join([*lines, ""])


def draw_files(seed):
    """The texts of a cluster and of a workload for it."""
    draw = random.Random(seed)
    is_long = draw.random() < 0.5
    is_crowded = is_long and draw.random() < 0.2
    regions, version = draw.randint(2, 4) if is_crowded else draw.randint(1, 8), draw.randint(1, 2)
    keys = draw_keys(draw, version, is_crowded)
    units = sorted({unit_of(key, version) for key in keys})
    cluster = draw_cluster(draw, keys, units, regions, version, is_long)
    sessions, calls = (60 * regions, 2) if is_crowded else (draw.randint(0, 9), 6)
    return cluster, draw_workload(draw, keys, units, regions, sessions, calls, is_long)

"""The schedule of troubles: made of the seed alone, before the run, so that it can be played again.

A trouble is a dict: `at` and `until` in seconds since the start, `kind`, and what it is about."""
import random

ROUND, QUIET = 30.0, 4.0
# How often each kind begins, against the others.
WEIGHTS = {"cut": 9, "slow": 4, "lossy": 4, "late": 5, "replay": 5, "kill": 4, "power": 4,
           "blackout": 1.2, "flap": 1.2, "pause": 4, "full": 2, "write": 2, "sync": 2, "drag": 3,
           "second": 1, "compact": 2, "keys": 4}
# Troubles in which a node is away, or may be.
DOWN = {"kill", "power", "flap", "pause", "full", "write", "sync"}
EIO, ENOSPC = 5, 28


def ways_between(these, those):
    """All ways from one set of nodes to another, in both directions."""
    return [way for a in these for b in those if a != b for way in ((a, b), (b, a))]


def shape(chance, nodes):
    """The ways that a partition shuts, and its name."""
    mixed = chance.sample(nodes, len(nodes))
    one, rest = mixed[:1], mixed[1:]
    half = len(nodes) // 2
    kinds = {
        "one alone": lambda: ways_between(one, rest),
        "halves": lambda: ways_between(mixed[:half], mixed[half:]),
        "one hears nothing": lambda: [(other, one[0]) for other in rest],
        "one says nothing": lambda: [(one[0], other) for other in rest],
        "a pair": lambda: ways_between(one, rest[:1]),
        "a way": lambda: [(mixed[0], mixed[1])],
        "a bridge": lambda: ways_between(mixed[1:half + 1], mixed[half + 1:]),
        "a ring": lambda: [(a, b) for i, a in enumerate(mixed) for j, b in enumerate(mixed)
                           if a != b and (j - i) % len(mixed) != 1],
        "all alone": lambda: ways_between(nodes, nodes),
    }
    name = chance.choice(sorted(kinds))
    return name, sorted(set(kinds[name]()))


def cut(chance, nodes):
    name, ways = shape(chance, nodes)
    state = {"mode": chance.choice(("cut", "hold", "void"))}
    if state["mode"] != "cut" and chance.random() < 0.4:
        state["there" if chance.random() < 0.5 else "back"] = False
    return {"shape": name, "ways": ways, "state": state}


def some_ways(chance, nodes):
    ways = [(a, b) for a in nodes for b in nodes if a != b]
    return chance.sample(ways, chance.randrange(1, len(ways) + 1))


def slow(chance, nodes):
    state = {"delay": chance.choice((2, 20, 100, 300)), "jitter": chance.choice((0, 20, 200))}
    return {"ways": some_ways(chance, nodes), "state": state}


def lossy(chance, nodes):
    state = {what: chance.choice((0, most / 4, most)) for what, most in (
        ("drop", 0.4), ("twice", 0.6), ("swap", 0.6), ("snap", 0.04))}
    return {"ways": some_ways(chance, nodes), "state": {**state, "jitter": chance.choice((0, 20))}}


def late(chance, nodes):
    """Messages of some kinds (1 Prepare to 5 Accepted) come up to seconds too late."""
    kinds = chance.choice(([4], [4], [4, 5], [5], [2], [2, 5], [1, 4], [1, 2, 3, 4, 5]))
    state = {"late": chance.choice((0.3, 0.7, 1)), "kinds": kinds, "by": chance.choice((0.3, 1, 4))}
    return {"ways": some_ways(chance, nodes), "state": state}


def about_node(chance, nodes, kind):
    """What a trouble of one node says besides."""
    it = {"node": chance.choice(nodes)}
    if kind == "write":
        it.update(passing=chance.randrange(40), part=chance.randrange(2),
                  error=chance.choice((EIO, EIO, ENOSPC)), stays=chance.randrange(2))
    elif kind == "sync":
        it.update(passing=chance.randrange(40), error=EIO, stays=chance.randrange(2))
    elif kind == "drag":
        it.update(micros=chance.choice((3_000, 20_000, 100_000)))
    elif kind == "keys":
        it.update(what=chance.choice(("change", "change", "spoil", "leave out")),
                  peer=chance.choice([node for node in nodes if node != it["node"]]))
    elif kind == "flap":
        it.update(pauses=[round(chance.choice((0.01, 0.05, 0.2, 0.6)) * chance.random(), 3)
                          for _ in range(chance.randrange(2, 7))], power=chance.randrange(2))
    return it


def details(chance, nodes, kind):
    if kind == "replay":
        return {"ways": some_ways(chance, nodes), "count": chance.choice((10, 50, 150))}
    if kind == "blackout":
        return {}
    maker = {"cut": cut, "slow": slow, "lossy": lossy, "late": late}.get(kind)
    return maker(chance, nodes) if maker else about_node(chance, nodes, kind)


def lasts(chance, kind):
    """How many seconds a trouble lasts."""
    if kind in ("kill", "power", "flap", "blackout"):
        return chance.choice((0.1, 0.5, 2, 5))
    if kind in ("replay", "second"):
        return 0
    return chance.choice((0.4, 1.5, 4, 8, 12)) * (0.5 + chance.random())


def schedule(seed, minutes, count, kinds):
    """The troubles of a run, in rounds, and the moments at which all is healed."""
    chance, nodes = random.Random(f"plan {seed} {count}"), list(range(1, count + 1))
    troubles, heals, now, end = [], [], 2.0, 60.0 * minutes
    weights = [WEIGHTS[kind] for kind in kinds]
    while now < end - 5:
        until = min(now + ROUND * (0.5 + chance.random()), end)
        calm = chance.choice((0.5, 1.5, 3))
        while now < until - 1:
            kind = chance.choices(kinds, weights)[0]
            it = {"at": round(now, 2), "kind": kind, **details(chance, nodes, kind)}
            it["until"] = round(min(now + lasts(chance, kind), until), 2)
            if may_begin(chance, troubles, it, count):
                troubles.append(it)
            now += calm * (0.2 + 1.6 * chance.random())
        heals.append(round(until, 2))
        now = until + QUIET
    return troubles, heals


def may_begin(chance, troubles, it, count):
    """Mostly no more nodes are away at once than a minority, so that commands are chosen."""
    if it["kind"] not in DOWN or chance.random() < 0.1:
        return True
    away = {old["node"] for old in troubles if old["kind"] in DOWN and old["until"] > it["at"] - 1}
    return len(away | {it["node"]}) <= (count - 1) // 2


def words(it):
    """A trouble in a line."""
    rest = " ".join(f"{key}={value}" for key, value in it.items()
                    if key not in ("at", "until", "kind"))
    return f"{it['kind']} for {it['until'] - it['at']:.2f} s {rest}"

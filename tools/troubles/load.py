"""The load: clients of a group that submit commands and ask, and the history of what they saw.

A client is a thread with connections of its own. Each request and its answer is one entry of the
history, with the times at which it was sent and answered, and a line of the log."""
import json
import random
import threading
import time

import wire

POLL = 0.05
KINDS = ("noop",) * 9 + ("add",) * 4 + ("load",) * 5 + ("withdraw",) * 3 + ("drop",) * 2 + (
    "purposes", "malformed")


class Command:
    """A command: its id, what it does to what, and its octets."""

    def __init__(self, name, kind, thing, oids):
        self.id, self.kind, self.thing, self.oids = name, kind, thing, oids
        self.octets = {
            "noop": lambda: wire.noop(name), "add": lambda: wire.add_anchor(name, thing.octets),
            "withdraw": lambda: wire.withdraw(name, thing.digest),
            "load": lambda: wire.load_crl(name, thing.octets),
            "drop": lambda: wire.drop_crl(name, thing.digest),
            "purposes": lambda: wire.set_purposes(name, thing.digest, oids)}[kind]()
        # When it was first sent, and how often.
        self.first, self.sent = None, 0


class Entry:
    """A request and its answer, which is `None` where none came."""
    __slots__ = ("line", "begun", "ended", "client", "node", "what", "key", "answer")


class History:
    """All entries, in the order in which they ended; each is a line of the log."""

    def __init__(self, path, clock):
        self.entries, self.clock, self.lock = [], clock, threading.Lock()
        self.file = open(path, "w", encoding="ascii", buffering=1 << 16)
        self.path = path

    def add(self, begun, client, node, what, key, answer):
        entry = Entry()
        entry.begun, entry.client, entry.node, entry.what = begun, client, node, what
        entry.key, entry.answer = key, answer
        with self.lock:
            entry.ended = self.clock()
            self.entries.append(entry)
            entry.line = len(self.entries)
            self.file.write(json.dumps([
                round(begun, 4), round(entry.ended, 4), client, node, what, shown(key),
                said(answer)]) + "\n")
        return entry

    def answered(self):
        return sum(entry.answer is not None for entry in self.entries)


def shown(key):
    if isinstance(key, bytes):
        return key.hex()
    return key if key is None or isinstance(key, (int, str)) else [str(part) for part in key]


def said(answer):
    if answer is None:
        return None
    names = {wire.DONE: "Done", wire.STARTED: "Started", wire.SETTLED: "Settled",
             wire.ANSWER: "Answer", wire.UNKNOWN: "Unknown", wire.NODE_FAULT: "NodeFault",
             wire.FRAME_FAULT: "FrameFault", wire.PREFIX: "Prefix"}
    reply = None if answer.reply is None else answer.reply.hex()
    return [names[answer.kind], answer.position, answer.outcome, answer.k, reply]


class Load:
    """What all clients share: the commands that were sent, and what is known to be settled."""

    def __init__(self, stage, material, seed, history):
        self.stage, self.material, self.history = stage, material, history
        self.chance, self.lock = random.Random(seed), threading.Lock()
        self.commands, self.settled, self.questions = {}, {}, {}
        self.stopping = threading.Event()
        self.highest, self.threads, self.probes = 0, [], {}
        self.garbage = Garbage()

    def command(self, kind=None):
        with self.lock:
            chance, material = self.chance, self.material
            kind = kind or chance.choice(KINDS)
            thing = oids = None
            if kind in ("add", "withdraw", "purposes"):
                thing = chance.choice(material.anchors)
            elif kind in ("load", "drop"):
                thing = chance.choice(material.crls)
            elif kind == "malformed":
                kind, thing = "add", self.garbage
            if kind == "purposes":
                oids = chance.choice((None, ["1.3.6.1.5.5.7.3.1"], ["1.3.6.1.5.5.7.3.2"]))
            name = chance.randbytes(16)
            command = Command(name, kind, thing, oids and [oid_octets(o) for o in oids])
            self.commands[name] = command
            return command

    def question(self):
        """A question without a k: its octets can be made for any."""
        with self.lock:
            chance, material = self.chance, self.material
            kind = 1 if chance.random() < 0.7 else 2
            anchor, chain = chance.choice(material.chains)
            if chance.random() < 0.1:
                anchor = chance.choice(material.anchors)
            flags = chance.choice((0, 8, 8, 8 + 64, 64))
            purpose = chance.choice((None, None, "1.3.6.1.5.5.7.3.1"))
            moment = chance.choice(material.moments)
            if kind == 2:
                pool = chance.sample(material.things, 2) + chain[:-1]
                chance.shuffle(pool)
                chain, anchor = [chain[-1]] + distinct(pool, chain[-1]), None
        return kind, moment, flags, purpose, anchor, tuple(chain)

    def settle(self, command, answer):
        with self.lock:
            self.settled[command.id] = answer.position, answer.outcome
            self.highest = max(self.highest, answer.position)

    def start(self):
        nodes = [node.number for node in self.stage.nodes]
        for place, number in enumerate(nodes + nodes[:2]):
            self.threads.append(Submitter(self, f"s{place}", number))
        for place, number in enumerate(nodes):
            self.threads.append(Asker(self, f"q{place}", number))
            self.threads.append(Probe(self, f"p{place}", number))
        for thread in self.threads:
            thread.start()

    def stop(self):
        self.stopping.set()
        for thread in self.threads:
            thread.join()
        self.history.file.flush()


class Garbage:
    """Octets that are no certificate."""
    name, octets, line, digest = "garbage", b"\x30\x03\x02\x01", "", b""


def distinct(things, but):
    out = []
    for thing in things:
        if thing is not but and thing not in out:
            out.append(thing)
    return out


def oid_octets(text):
    from material import oid
    return oid(text)


class Talker(threading.Thread):
    """A client: a home node, chances of its own, and a connection to each node that it asks."""

    def __init__(self, load, name, home):
        super().__init__(daemon=True, name=name)
        self.load, self.home, self.links = load, home, {}
        self.chance = random.Random(f"{load.stage.seed} {name}")

    def run(self):
        while not self.load.stopping.is_set():
            self.turn()
        for link in self.links.values():
            link.close()

    def ask(self, node, what, key, octets, timeout=3):
        role = "reader" if what in ("question", "outcome", "status") else "admin"
        link = self.links.get((node, role))
        if link is None:
            link = self.links[node, role] = self.load.stage.node(node).client(role)
        begun = self.load.stage.clock()
        answer = link.call(octets, timeout)
        if answer is None:
            self.load.stopping.wait(0.1)
        return self.load.history.add(begun, self.name, node, what, key, answer).answer

    def some_node(self):
        if self.chance.random() < 0.8:
            return self.home
        return self.chance.choice(self.load.stage.nodes).number

    def submit(self, node, command, timeout=10):
        with self.load.lock:
            command.sent += 1
            if command.first is None:
                command.first = self.load.stage.clock()
        answer = self.ask(node, "submit", command.id,
                          wire.frame(wire.SUBMIT, wire.blob(command.octets)), timeout)
        return self.look(command, answer)

    def look(self, command, answer):
        if answer is not None and answer.kind == wire.SETTLED:
            self.load.settle(command, answer)
            return True
        return False

    def outcome(self, node, command):
        answer = self.ask(node, "outcome", command.id, wire.frame(wire.OUTCOME, command.id))
        return self.look(command, answer)


class Submitter(Talker):
    """Submits a command after another, and mostly waits until it is known to be settled."""

    def turn(self):
        command, node = self.load.command(), self.some_node()
        patience = 1.5 if self.chance.random() < 0.05 else 10
        is_done = self.submit(node, command, patience)
        if self.chance.random() < 0.06:
            self.submit(self.chance.choice(self.load.stage.nodes).number, command, 10)
        until = time.monotonic() + self.chance.choice((0, 4, 4, 8))
        while not is_done and time.monotonic() < until and not self.load.stopping.is_set():
            self.load.stopping.wait(POLL)
            if self.chance.random() < 0.02:
                node = self.some_node()
                is_done = self.submit(node, command, 10)
            else:
                is_done = self.outcome(node, command)
        self.load.stopping.wait(self.chance.random() * 0.15)


class Asker(Talker):
    """Asks about chains at positions, about ids and prefixes, and keeps records short."""

    def turn(self):
        node, load = self.some_node(), self.load
        choice = self.chance.random()
        if choice < 0.6:
            self.question(node)
        elif choice < 0.75:
            self.ask(node, "status", None, wire.frame(wire.STATUS))
        elif choice < 0.85 and load.commands:
            name = self.chance.choice(list(load.commands))
            self.outcome(node, load.commands[name])
        elif choice < 0.97:
            self.ask(node, "compact", None, wire.frame(wire.COMPACT))
        else:
            self.ask(node, "catchup", None, wire.frame(wire.CATCH_UP))
        load.stopping.wait(self.chance.random() * 0.12)

    def question(self, node):
        load = self.load
        what = load.question()
        k = None
        if load.highest and self.chance.random() < 0.75:
            k = self.chance.randrange(max(0, load.highest - 60), load.highest + 1)
            if self.chance.random() < 0.3:
                k = self.chance.randrange(load.highest + 1)
        self.ask(node, "question", (what, k), octets_of(what, k))


def octets_of(what, k):
    from material import moment_of, oid
    kind, moment, flags, purpose, anchor, chain = what
    return wire.frame(wire.QUESTION, wire.blob(wire.question(
        kind, moment_of(moment), flags, k, purpose and oid(purpose), anchor and anchor.digest,
        [thing.octets for thing in chain])))


class Probe(Talker):
    """Submits a command to its home node, the next one a second later, and looks whether it is
    settled within one. What it saw is kept by the seconds; while it waits none is good."""

    def turn(self):
        load, clock = self.load, self.load.stage.clock
        command, begun = load.command("noop"), clock()
        is_done = self.submit(self.home, command, 10)
        while not is_done and clock() < begun + 10 and not load.stopping.is_set():
            load.stopping.wait(POLL)
            is_done = self.outcome(self.home, command)
        took = clock() - begun
        for second in range(int(begun) + 1, int(begun + took)):
            load.probes[self.home, second] = False
        load.probes[self.home, int(begun)] = is_done and took <= 1
        load.stopping.wait(max(0.05, 1 - took))

"""The soak: one node under questions of every kind for a long time, and its size and its answers'
times at the beginning and at the end."""
import os
import random
import resource
import shutil
import sys
import tempfile
import threading
import time
from array import array

import wire
from load import History, Load, Talker, octets_of
from material import Lab
from stage import Stage

CLIENTS = 4
# Of how many questions at k the answer is kept.
MOST = 500_000


class Soaker(Talker):
    """Asks as fast as it is answered, but for a small pause, and notes how long each answer took.
    Each answer to a question at k must be the one that was given before."""

    def __init__(self, load, name, notes):
        super().__init__(load, name, 1)
        self.notes, self.client = notes, None

    def turn(self):
        if self.client is None:
            self.client = self.load.stage.node(1).client()
        octets, check = self.request()
        begun = time.perf_counter()
        answer = self.client.call(octets, 10)
        took = time.perf_counter() - begun
        self.notes.take(self.load.stage.clock(), took, answer, check)
        if self.chance.random() < 0.002:
            self.client.close()
        time.sleep(0.002)

    def request(self):
        choice, load = self.chance.random(), self.load
        if choice < 0.8:
            what, k = load.question(), None
            if load.highest and self.chance.random() < 0.8:
                k = self.chance.randrange(load.highest + 1)
            return octets_of(what, k), (what, k)
        if choice < 0.9 and load.commands:
            return wire.frame(wire.OUTCOME, self.chance.choice(list(load.commands))), None
        if choice < 0.95:
            return wire.frame(wire.STATUS), None
        return wire.frame(wire.COMPACT), None


class Notes:
    """How long answers took, and what is wrong with them. Of the replies a hash is kept."""

    def __init__(self):
        self.at, self.took, self.none = array("d"), array("d"), 0
        self.replies, self.wrong, self.lock = {}, [], threading.Lock()

    def take(self, now, took, answer, check):
        with self.lock:
            self.at.append(now)
            self.took.append(took)
            if answer is None:
                self.none += 1
            elif check and check[1] is not None and answer.kind == wire.ANSWER:
                key, value = hash(check), hash(answer.reply)
                if len(self.replies) < MOST:
                    self.replies.setdefault(key, value)
                if self.replies.get(key, value) != value:
                    self.wrong.append(f"WRONG at {now:.1f} s: a question at {check[1]} is answered "
                                      f"otherwise than before: {answer.reply.hex()}")


class Feeder(Talker):
    """Submits a command a second, so that there is news to ask about."""

    def turn(self):
        command = self.load.command()
        until, is_done = time.monotonic() + 1, self.submit(1, command)
        while not is_done and time.monotonic() < until:
            time.sleep(0.02)
            is_done = self.outcome(1, command)
        self.load.stopping.wait(max(0.0, until - time.monotonic()))


def size_of(node):
    with open(f"/proc/{node.process.pid}/status", encoding="ascii") as file:
        rss = next(int(line.split()[1]) for line in file if line.startswith("VmRSS"))
    return rss, len(os.listdir(f"/proc/{node.process.pid}/fd"))


def percentile(notes, begin, end, share):
    took = sorted(took for at, took in zip(notes.at, notes.took) if begin <= at < end)
    return 1000 * took[int(len(took) * share)] if took else float("nan")


def main(options):
    seed = options.seed or 1
    work, logs = tempfile.mkdtemp(prefix="trouble-"), tempfile.mkdtemp(prefix="soak-")
    stage = Stage(os.path.realpath(options.program), 1, seed, "proxy", "plain", Lab.options, work)
    history = History(logs + "/history", stage.clock)
    load = Load(stage, Lab(random.Random(seed), work), seed, history)
    notes = Notes()
    try:
        stage.open()
        while stage.node(1).answers() is None:
            time.sleep(0.05)
        print(f"seed {seed}: one node, {CLIENTS} clients, {options.minutes:g} minutes", flush=True)
        watch(options.minutes * 60, stage, load, notes)
    finally:
        load.stopping.set()
        stage.close()
        shutil.rmtree(work, ignore_errors=True)
        shutil.rmtree(logs, ignore_errors=True)
    for line in notes.wrong:
        print(line)
    print(f"{len(notes.at)} requests, {len(notes.at) - notes.none} answers judged, "
          f"{len(notes.wrong)} wrong")
    return 1 if notes.wrong or notes.none else 0


def watch(seconds, stage, load, notes):
    """Lets the clients ask, and says the node's size each tenth."""
    begun = stage.clock()
    load.threads = [Soaker(load, f"k{n}", notes) for n in range(CLIENTS)] + [Feeder(load, "f", 1)]
    for thread in load.threads:
        thread.start()
    for tenth in range(10):
        while stage.clock() < begun + seconds * (tenth + 1) / 10:
            time.sleep(0.1)
        rss, files = size_of(stage.node(1))
        own = resource.getrusage(resource.RUSAGE_SELF).ru_maxrss
        print(f"  {(stage.clock() - begun) / 60:6.1f} min: {rss} KiB, {files} open files, "
              f"{load.highest} commands, {len(notes.at)} requests (the tool: {own} KiB)",
              flush=True)
    load.stop()
    for name, begin in (("first", 0.0), ("last", 0.9)):
        first = begun + seconds * begin
        times = [percentile(notes, first, first + seconds / 10, s) for s in (0.5, 0.99)]
        print(f"latency in the {name} tenth: {times[0]:.2f} ms in the middle, {times[1]:.2f} ms at "
              "99 in a hundred")
    sys.stdout.flush()

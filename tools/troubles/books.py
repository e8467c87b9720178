"""The other readings: the log that the records hold, the fold over it, and what `trustd lab` says
of the same commands and questions.

A record is read by docs/FORMATS.md alone. A lab's script knows 255 ids, so the log is cut into
parts: each begins with few commands that make the store as it was there (`Store.steps`), and goes
on with those that changed it. Commands that changed nothing are left out: the store is a fold."""
import os
import subprocess
import tempfile
import time

import wire
from load import octets_of
from model import Store
from stage import dies_with_tool, free_ports

PART = 200
OPTIONS = {8: "hard", 64: "deltas"}
SERVER = "1.3.6.1.5.5.7.3.1"


class Cut(Exception):
    """Octets of a record end too early, or are none."""


def image_of(path):
    """The generation and the chosen commands of an image: `None` where its live gate is shut."""
    with open(path, "rb") as file:
        octets = file.read()
    if octets[:8] != b"TSREC\0\0\2" or len(octets) < 25:
        raise Cut(f"{path} has no header")
    if octets[24] == 0:
        return None
    chosen, at = {}, 25
    while at < len(octets) and octets[at] != 0:
        size = wire.number(octets[at + 1:at + 5])
        facts_in(octets[at + 5:at + 5 + size], chosen)
        at += 5 + size
    if at >= len(octets):
        raise Cut(f"{path} has no closed gate behind its last block")
    return wire.number(octets[16:24]), chosen


def facts_in(body, chosen):
    """Puts the chosen commands of a block into a table."""
    at = 0
    while at < len(body):
        kind = body[at]
        if kind == 1:
            at += 5
        elif kind == 2:
            at += 13
        elif kind in (3, 4):
            head = at + (13 if kind == 3 else 5)
            size = wire.number(body[head:head + 4])
            command = body[head + 4:head + 4 + size]
            if kind == 4:
                chosen[wire.number(body[at + 1:at + 5])] = command
            at = head + 4 + size
        else:
            raise Cut(f"a fact of kind {kind}")


def log_of(node):
    """The chosen commands of a node's record by their positions."""
    images = [image for image in map(image_of, (node.record, node.record + ".b")) if image]
    if not images:
        raise Cut(f"{node.record} has no live image")
    return max(images)[1] if len(images) == 1 else max(images, key=lambda it: it[0])[1]


def compare_records(stage, judge, prefix):
    """The log that all records hold: they agree, and clients were told the same."""
    whole = {}
    for node in stage.nodes:
        try:
            log = log_of(node)
        except (Cut, OSError, IndexError) as fault:
            judge.find(f"the record can't be read: {fault}", node=node.number)
            continue
        for position in range(1, prefix + 1):
            if position not in log:
                judge.find(f"the record lacks position {position}", node=node.number)
            elif whole.setdefault(position, log[position]) != log[position]:
                judge.find(f"the record has another command at {position}", node=node.number)
    return [whole.get(position, b"") for position in range(1, prefix + 1)]


class Fold:
    """The stores at all positions, as far as commands changed them."""

    def __init__(self, log, load, judge):
        self.changes, self.step = [], [0]
        store = Store()
        self.marks = {0: store.copy()}
        for position, octets in enumerate(log, 1):
            command = load.commands.get(octets[:16])
            if command is None or command.octets != octets:
                judge.find(f"position {position} has a command that no client sent", node=0)
                command = None
            else:
                self.compare(judge, store, position, command)
            self.step.append(len(self.changes))
            if command and len(self.changes) % PART == 0:
                self.marks.setdefault(len(self.changes), store.copy())

    def compare(self, judge, store, position, command):
        outcome = store.apply(position, command)
        if outcome == "applied" and command.kind != "noop":
            self.changes.append(command)
        if outcome.startswith("repeated"):
            return
        told = judge.ids.get(command.id)
        if told and told[:2] != (position, outcome):
            judge.find(f"id {command.id.hex()} was answered {told[0]} {told[1]}, and is "
                       f"{position} {outcome} (line {told[2]})", node=0)


def lab_words(command_id, kind, thing, oids):
    rest = {"purposes": f"purposes {thing.name}" + "".join(f" {o}" for o in oids or ())}
    return f"submit 1 {command_id:02x} " + rest.get(kind, f"{kind} {thing.name}")


def ask_words(what, k):
    kind, moment, flags, purpose, anchor, chain = what
    options = [word for bit, word in OPTIONS.items() if flags & bit]
    options += [f"purpose={purpose}"] if purpose else []
    options.append(f"k={k}")
    names = [thing.name for thing in chain]
    if kind == 1:
        return (f"ask 1 {anchor.name} at {moment} {' '.join(options)} chain {' '.join(names)}")
    pool = " ".join(["pool"] + names[1:])
    return f"search 1 at {moment} {' '.join(options)} leaf {names[0]} {pool}"


def ask_lab(program, fold, material, replies, judge):
    """Asks the lab all that was answered, once for each store. Returns how many were compared."""
    wanted = {}
    for (what, k), (reply, line, node) in replies.items():
        if k < len(fold.step):
            wanted.setdefault(fold.step[k], {}).setdefault(what, []).append((k, reply, line, node))
    names = {thing.digest: thing.name for thing in material.anchors}
    makers = sorted({thing.name: thing.line for thing in
                     material.things + material.crls}.items())
    compared = 0
    for mark, store in sorted(fold.marks.items()):
        part = {step: asked for step, asked in wanted.items() if mark <= step < mark + PART}
        if part:
            compared += ask_part(program, fold, (makers, names), (mark, store), part, judge)
    return compared


def ask_part(program, fold, things, begin, part, judge):
    """One script of the lab: the store at a mark, and the commands behind it."""
    (makers, names), (mark, store) = things, begin
    lines, expected = [line for _, line in makers] + ["nodes 1"], []
    commands = list(store.steps()) + [(c.kind, c.thing, c.oids and [SHORT[o] for o in c.oids])
                                      for c in fold.changes[mark:max(part)]]
    first = len(commands) - (max(part) - mark)
    for place, command in enumerate(commands):
        kind, thing, oids = command
        if oids and isinstance(oids[0], bytes):
            oids = [SHORT[o] for o in oids]
        lines += [lab_words(place + 1, kind, thing, oids), "settle"]
    for step, asked in sorted(part.items()):
        for what, answers in asked.items():
            lines.append(ask_words(what, first + step - mark))
            expected.append((what, answers))
    ended = subprocess.run([program, "lab"], input="\n".join(lines) + "\n", text=True,
                           stdout=subprocess.PIPE, stderr=subprocess.PIPE)
    said = [line for line in ended.stdout.splitlines() if line.startswith(("ask ", "search "))]
    if ended.returncode != 0 or len(said) != len(expected):
        judge.find(f"the lab ended with {ended.returncode}: {ended.stdout[-200:]}", node=0)
        return 0
    for text, (what, answers) in zip(said, expected):
        labels = [thing.name for thing in what[5]]
        for k, reply, line, node in answers:
            told = wire.reply_words(reply, labels, names)
            if told != text.split(" ", 2)[2]:
                judge.find(f"a question at {k} was answered '{told}' (line {line}); the lab says "
                           f"'{text}' to '{ask_words(what, k)}'", node=node)
    return sum(len(answers) for _, answers in expected)


SHORT = {bytes.fromhex("2b06010505070301"): SERVER,
         bytes.fromhex("2b06010505070302"): "1.3.6.1.5.5.7.3.2"}


def ask_alone(program, fold, _material, replies, judge):
    """Asks one node of a group of one, which has taken the commands that changed the store, all
    that was answered. It shares no record and no message with the nodes that were troubled."""
    with tempfile.TemporaryDirectory() as folder:
        port = free_ports(2)
        record = os.path.join(folder, "record")
        subprocess.run([program, "format", record, "--id", "1", "--nodes", "1"], check=True,
                       stdout=subprocess.PIPE)
        served = subprocess.Popen([program, "serve", record, "--listen", f"127.0.0.1:{port}",
                                   "--quiet"], preexec_fn=dies_with_tool)
        try:
            client = wire.Client(("127.0.0.1", port))
            if not settle_all(client, fold.changes):
                judge.find("a node alone doesn't take the commands", node=0)
                return 0
            return compare_alone(client, fold, replies, judge)
        finally:
            served.kill()
            served.wait()


def settle_all(client, commands):
    """Submits commands one after another. Whether each was settled at its place."""
    for place, command in enumerate(commands, 1):
        until = time.monotonic() + 20
        answer = None
        while answer is None or answer.kind != wire.SETTLED:
            answer = client.call(wire.frame(wire.SUBMIT, wire.blob(command.octets)), 2)
            if time.monotonic() > until:
                return False
            time.sleep(0 if answer and answer.kind == wire.SETTLED else 0.01)
        if (answer.position, answer.outcome) != (place, "applied"):
            return False
    return True


def compare_alone(client, fold, replies, judge):
    for (what, k), (reply, line, node) in replies.items():
        if k >= len(fold.step):
            continue
        answer = client.call(octets_of(what, fold.step[k]), 10)
        if answer is None or answer.reply != reply:
            said = answer and answer.reply.hex()
            judge.find(f"a question at {k} was answered {reply.hex()} (line {line}); a node alone "
                       f"says {said}", node=node)
    return len(replies)

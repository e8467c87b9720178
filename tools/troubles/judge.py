"""The judge: what is wrong with what clients saw.

`Judge.take` looks at the entries of the history one by one, in the order in which they ended, so
that a fault is found while the run goes on. It knows of the nodes what they answered, no more."""
import bisect
import os

import wire


class Floor:
    """The greatest prefix that a node was known to have, at any moment."""

    def __init__(self):
        self.times, self.values, self.lines = [], [], []

    def rise(self, time, value, line):
        if not self.values or value > self.values[-1]:
            self.times.append(time)
            self.values.append(value)
            self.lines.append(line)

    def before(self, time):
        """The prefix that an answer had shown before this moment, and the answer's line."""
        place = bisect.bisect_left(self.times, time) - 1
        return (self.values[place], self.lines[place]) if place >= 0 else (0, 0)


class Judge:
    def __init__(self, load, history, log):
        self.load, self.history, self.log, self.next = load, history, log, 0
        self.wrong, self.judged = [], 0
        self.at, self.ids, self.ballots, self.replies = {}, {}, {}, {}
        self.floors = {node.number: Floor() for node in load.stage.nodes}
        self.all, self.unknown, self.late = Floor(), [], []

    def find(self, what, entry=None, node=None):
        """Something is wrong."""
        when = entry.ended if entry else self.load.stage.clock()
        node = entry.node if entry else node
        logs = os.path.dirname(self.history.path)
        place = f"{self.history.path}:{entry.line}" if entry else f"{logs}/schedule"
        line = f"WRONG at {when:.3f} s, node {node}: {what} ({place})"
        self.wrong.append(line)
        self.log(line)

    def catch_up(self):
        entries = self.history.entries
        while self.next < len(entries):
            self.take(entries[self.next])
            self.next += 1

    def take(self, entry):
        answer = entry.answer
        if answer is None:
            return
        self.judged += 1
        kind = answer.kind
        if kind == wire.SETTLED:
            self.settled(entry)
        elif kind == wire.STARTED:
            self.started(entry)
        elif kind == wire.UNKNOWN:
            self.unknown.append(entry)
        elif kind == wire.ANSWER:
            self.answered(entry)
        elif kind == wire.PREFIX:
            self.prefix(entry, answer.k, "a prefix")
        elif kind == wire.FRAME_FAULT or answer.outcome in ("Memory", "RoundsExhausted"):
            self.find(f"{entry.what} was answered by a fault, {answer.outcome}", entry)

    def settled(self, entry):
        """An id has one position and one outcome, and a position one id."""
        name, position, outcome = entry.key, entry.answer.position, entry.answer.outcome
        old = self.ids.setdefault(name, (position, outcome, entry.line))
        if old[:2] != (position, outcome):
            self.find(f"id {name.hex()} is settled at {position} {outcome}, and was at {old[0]} "
                      f"{old[1]} in line {old[2]}", entry)
        held = self.at.setdefault(position, (name, entry.line))
        if held[0] != name:
            self.find(f"position {position} has {name.hex()}, and had {held[0].hex()} in line "
                      f"{held[1]}", entry)
        command = self.load.commands[name]
        known, line = self.all.before(command.first)
        if old[2] == entry.line and position <= known:
            self.find(f"id {name.hex()}, first sent at {command.first:.3f} s, is settled at "
                      f"{position}, when {known} were settled before in line {line}", entry)
        self.rise(entry, position)

    def rise(self, entry, prefix):
        self.floors[entry.node].rise(entry.ended, prefix, entry.line)
        self.all.rise(entry.ended, prefix, entry.line)

    def prefix(self, entry, prefix, what):
        """What a node knows never shrinks."""
        known, line = self.floors[entry.node].before(entry.begun)
        if prefix < known:
            self.find(f"{what} of {prefix}, when it knew {known} in line {line}", entry)
        self.rise(entry, prefix)

    def started(self, entry):
        """A ballot is of its node, and is used for one command."""
        ballot, position = entry.answer.k, entry.answer.position
        old = self.ballots.setdefault((ballot, position), (entry.key, entry.line))
        if ballot % 16 != entry.node:
            self.find(f"ballot {ballot} is of another node", entry)
        if old[0] != entry.key:
            self.find(f"ballot {ballot} at {position} is for {entry.key.hex()}, and was for "
                      f"{old[0].hex()} in line {old[1]}", entry)

    def answered(self, entry):
        """Equal questions at k have equal answers, at all nodes and at all times."""
        what, k = entry.key
        answer = entry.answer
        if k is not None and answer.k != k:
            self.find(f"a question at {k} is answered at {answer.k}", entry)
        if answer.reply[0] == 6:
            self.prefix(entry, wire.number(answer.reply[1:]), "NotYet, and a prefix")
            return
        if k is None:
            self.prefix(entry, answer.k, "an answer at a prefix")
        else:
            self.rise(entry, answer.k)
        old = self.replies.setdefault((what, answer.k), (answer.reply, entry.line, entry.node))
        if old[0] != answer.reply:
            self.find(f"a question at {answer.k} is answered {answer.reply.hex()}, and was "
                      f"{old[0].hex()} by node {old[2]} in line {old[1]}", entry)

    def unknown_after(self):
        """No node that knew a position did not know the id that is settled there."""
        for entry in self.unknown:
            if entry.key not in self.ids:
                continue
            known, line = self.floors[entry.node].before(entry.begun)
            if self.ids[entry.key][0] <= known:
                self.find(f"id {entry.key.hex()} is unknown, which is settled at "
                          f"{self.ids[entry.key][0]}; the node knew {known} in line {line}", entry)
        self.unknown = []

"""What is wrong with the messages between nodes, by the rules of 'Paxos Made Simple', from what
passes on the ways alone. It is sooner to find a broken promise than clients are: these see it only
where two commands came to be chosen.

On one way messages come in the order in which the node made them, so a node that has promised a
ballot to another one may not tell it behind that of a vote for a lower one."""
import hashlib

PREPARE, PROMISE, BUSY, ACCEPT, ACCEPTED, ASK, GIVE = range(1, 8)


def number(octets):
    return int.from_bytes(octets, "big")


class Watch:
    """All that was seen, and what is said of what is wrong."""

    def __init__(self, nodes, say):
        self.nodes, self.say = nodes, say
        self.promised, self.told = {}, {}
        # Of a position and ballot: whether all promises that were seen report a vote.
        self.bound = {}
        # Of a position by ballots: the commands; of both: who has taken it; of a position: what is
        # chosen.
        self.proposed, self.voters, self.chosen = {}, {}, {}
        self.count = 0

    def take(self, source, target, frame):
        """A message on the way from a node to another."""
        kind, fields = frame[5], frame[6:]
        if not PREPARE <= kind <= GIVE:
            return
        self.count += 1
        sender, to, position = fields[0], fields[1], number(fields[2:6])
        if (sender, to) != (source, target):
            self.wrong(source, f"a message from {sender} to {to} is on the way to {target}")
        if kind == GIVE:
            self.choose(source, position, digest(fields[6:]))
        elif kind != ASK:
            ballot, rest = number(fields[6:14]), fields[14:]
            if kind in (PREPARE, ACCEPT) and ballot % 16 != source:
                self.wrong(source, f"it proposes at {position} with ballot {ballot} of another")
            if kind == PROMISE:
                self.promise((source, target, position), ballot, rest)
            elif kind in (ACCEPT, ACCEPTED):
                if kind == ACCEPT:
                    self.keep_to_votes(source, position, ballot, digest(rest))
                self.propose(source, position, ballot, digest(rest))
            if kind == ACCEPTED:
                self.vote((source, target, position), ballot, digest(rest))

    def wrong(self, node, what):
        self.say(node, what)

    def promise(self, place, ballot, vote):
        """A promise reports the vote of the greatest ballot, and isn't below an earlier one."""
        node, _, position = place
        reported = number(vote[1:9]) if vote[0] else 0
        told = self.told.get(place, 0)
        if told < ballot and reported < told:
            self.wrong(node, f"its promise of {ballot} at {position} reports a vote for {reported},"
                             f" and it told of one for {told} before")
        if reported >= ballot:
            self.wrong(node, f"its promise of {ballot} at {position} reports a vote for {reported}")
        if vote[0]:
            self.propose(node, position, reported, digest(vote[9:]))
        key = position, ballot
        self.bound[key] = self.bound.get(key, True) and vote[0] == 1
        if ballot < self.promised.get(place, 0):
            self.wrong(node, f"it promises {ballot} at {position} after {self.promised[place]}")
        self.promised[place] = max(ballot, self.promised.get(place, 0))

    def keep_to_votes(self, node, position, ballot, command):
        """Where each promise reports a vote, the command of one is proposed again."""
        if self.bound.get((position, ballot)) and not any(
                lower < ballot and old == command
                for lower, old in self.proposed.get(position, {}).items()):
            self.wrong(node, f"it proposes another command at {position} with ballot {ballot} than "
                             "the promises report")

    def propose(self, node, position, ballot, command):
        """One command is proposed with a ballot at a position."""
        old = self.proposed.setdefault(position, {}).setdefault(ballot, command)
        if old != command:
            self.wrong(node, f"two commands at {position} with ballot {ballot}")

    def vote(self, place, ballot, command):
        node, _, position = place
        if ballot < self.promised.get(place, 0):
            self.wrong(node, f"it takes a command at {position} with ballot {ballot}, and has "
                             f"promised {self.promised[place]}")
        self.told[place] = max(ballot, self.told.get(place, 0))
        voters = self.voters.setdefault((position, ballot), set())
        voters.add(node)
        if 2 * len(voters) > self.nodes:
            self.choose(node, position, command)

    def choose(self, node, position, command):
        old = self.chosen.setdefault(position, command)
        if old != command:
            self.wrong(node, f"another command is chosen at {position} than before")


def digest(octets):
    return hashlib.blake2b(octets, digest_size=12).digest()

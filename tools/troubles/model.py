"""A trust store as a fold over commands, written from docs/FORMATS.md and RFC 5280 alone: what
becomes of each command, and how the store at a position can be made anew by few commands."""

LIMIT = 256


class Store:
    """The anchors with their purposes and the CRLs, each in the order of the store."""

    def __init__(self):
        self.anchors, self.lists, self.deltas, self.first = [], [], [], {}

    def copy(self):
        other = Store()
        other.anchors, other.lists = list(self.anchors), list(self.lists)
        other.deltas, other.first = list(self.deltas), self.first
        return other

    def apply(self, position, command):
        """Takes a command into the store. Its outcome, in the lab's words."""
        if command.id in self.first:
            return f"repeated {self.first[command.id]}"
        self.first[command.id] = position
        refusal = getattr(self, command.kind)(command)
        return f"refused {refusal}" if refusal else "applied"

    def noop(self, _command):
        return None

    def place(self, thing):
        return next((i for i, (held, _) in enumerate(self.anchors) if held is thing), None)

    def add(self, command):
        if command.thing.line == "":
            return "Malformed"
        if self.place(command.thing) is not None:
            return "AnchorThere"
        if len(self.anchors) >= LIMIT:
            return "StoreFull"
        self.anchors.append((command.thing, None))
        return None

    def withdraw(self, command):
        place = self.place(command.thing)
        if place is None:
            return "NoAnchor"
        del self.anchors[place]
        return None

    def purposes(self, command):
        place = self.place(command.thing)
        if place is None:
            return "NoAnchor"
        self.anchors[place] = command.thing, command.oids
        return None

    def table(self, thing):
        return self.deltas if thing.delta else self.lists

    def load(self, command):
        new, table = command.thing, self.table(command.thing)
        for place, held in enumerate(table):
            if held.slot == new.slot:
                if new.number <= held.number:
                    return "OlderCrl"
                table[place] = new
                return None
        table.append(new)
        return None

    def drop(self, command):
        for table in (self.lists, self.deltas):
            if command.thing in table:
                table.remove(command.thing)
                return None
        return "NoCrl"

    def steps(self):
        """Commands, as kind, thing and purposes, that make this store from an empty one."""
        for thing, _ in self.anchors:
            yield "add", thing, None
        for thing, oids in self.anchors:
            if oids is not None:
                yield "purposes", thing, oids
        for thing in self.lists + self.deltas:
            yield "load", thing, None

"""The keys of a group and of its clients, in the files that docs/OPERATE.md asks for.

Each node has a key of its own, which it shows to its peers, and a file of all keys that it lets in.
Clients have one key for each of their roles; these are changed while the group runs."""
import os

ROLES = "admin", "reader"


class Keys:
    def __init__(self, folder, count, chance):
        self.folder, self.chance, self.count, self.last = folder, chance, count, 0
        self.peers = {number: self.draw() for number in range(1, count + 1)}
        self.clients = {role: self.draw() for role in ROLES}
        # Keys of clients that are good too: those of before, and those to come.
        self.others, self.next = [], {}
        # Peers whose line is left out of a node's file, by the node.
        self.without = {}
        for number, key in self.peers.items():
            self.write(self.own(number), [line(key, f"peer {number}")])
            self.write_file(number)

    def draw(self):
        """A key: its number and its secret."""
        self.last += 1
        return self.last, self.chance.randbytes(32)

    def own(self, number):
        return os.path.join(self.folder, f"key{number}")

    def file(self, number):
        return os.path.join(self.folder, f"keys{number}")

    def write(self, path, lines):
        """A file is exchanged at once, so that no node reads a half of it."""
        with open(os.open(path + ".new", os.O_WRONLY | os.O_CREAT | os.O_TRUNC, 0o600), "w",
                  encoding="ascii") as file:
            file.write("".join(lines))
        os.rename(path + ".new", path)

    def write_file(self, number):
        lines = [line(key, f"peer {peer}") for peer, key in self.peers.items()
                 if peer != self.without.get(number)]
        for role in ROLES:
            lines.append(line(self.clients[role], role))
        lines += [line(key, role) for role, key in self.others]
        self.write(self.file(number), lines)

    def write_files(self):
        for number in self.peers:
            self.write_file(number)

    def words(self, number):
        return ["--keys", self.file(number), "--key", self.own(number)]

    # ---- what is done with them

    def announce(self):
        """Keys to come are written into all files, beside those in use."""
        self.next = {role: self.draw() for role in ROLES}
        self.others = list(self.next.items())
        self.write_files()

    def exchange(self):
        """Clients use the keys that were announced; those of before are good until the next."""
        if not self.next:
            return
        self.others = list(self.clients.items())
        self.clients, self.next = self.next, {}
        self.write_files()

    def leave_out(self, number, peer):
        """A node's file has no line for a peer, or has one again."""
        self.without[number] = peer
        self.write_file(number)

    def spoil(self, number):
        """A node's file holds what is no list of keys."""
        self.write(self.file(number), ["no key\n"])


def line(key, role):
    return f"{key[0]} {role} {key[1].hex()}\n"

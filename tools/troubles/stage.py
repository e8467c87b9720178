"""The stage: nodes of a group, each with a small file system of its own and on its own side of the
lines between them. All that is made here is removed by `close`."""
import ctypes
import json
import os
import random
import shutil
import signal
import socket
import struct
import subprocess
import sys
import threading
import time

import keyring
import wire

HERE = os.path.dirname(os.path.abspath(__file__))
SIZE = 64 << 20


def run(*words, check=True):
    return subprocess.run(words, check=check, stdout=subprocess.PIPE, stderr=subprocess.STDOUT)


def dies_with_tool():
    """Of a child: it is killed when the thread that started it ends."""
    ctypes.CDLL(None).prctl(1, signal.SIGKILL)


def undone(path, log, chance):
    """Leaves of a file what a loss of power may leave: of each write since the last sync nothing,
    all, or a part, or other octets in its place. Which writes these are, disk.c has noted. Returns
    how many writes there were."""
    with open(log, "rb") as file:
        noted = file.read()
    writes, at = [], 0
    while at + 20 <= len(noted):
        place, length, old = struct.unpack("<QQI", noted[at:at + 20])
        before = noted[at + 20:at + 20 + old]
        at += 20 + old
        new, = struct.unpack("<I", noted[at:at + 4])
        writes.append((place, length, before, noted[at + 4:at + 4 + new]))
        at += 4 + new
    if not writes:
        return 0
    with open(path, "r+b") as file:
        image = bytearray(file.read())
        for place, length, before, _ in reversed(writes):
            image[place:place + len(before)] = before
            del image[length:]
        for place, _, _, after in writes:
            leave(image, place, after, chance)
        file.seek(0)
        file.write(image)
        file.truncate()
    os.truncate(log, 0)
    return len(writes)


def leave(image, place, octets, chance):
    """A write that wasn't synced, in an image."""
    how = chance.randrange(5)
    if how == 0:
        return
    if how == 1:
        octets = octets[:chance.randrange(len(octets) + 1)]
    elif how == 2 and len(octets) > 1:
        begin = chance.randrange(len(octets))
        place, octets = place + begin, octets[begin:]
    elif how == 3:
        octets = bytes(chance.choice((0, 255, chance.randrange(256))) for _ in octets)
    if place > len(image):
        image.extend(bytes(place - len(image)))
    image[place:place + len(octets)] = octets


class Node:
    """One node: its folder, its address, its process if it has one."""

    def __init__(self, stage, number):
        self.stage, self.number = stage, number
        self.folder = os.path.join(stage.folder, f"n{number}")
        self.record = os.path.join(self.folder, "record")
        self.ballast = os.path.join(self.folder, "ballast")
        self.errors = os.path.join(stage.folder, f"node{number}.err")
        self.control = os.path.join(stage.folder, f"control{number}")
        self.undo = os.path.join(stage.folder, f"undo{number}")
        self.process, self.wanted, self.paused, self.life = None, False, False, 0
        # Until when a failure of the device may be why the process ends.
        self.sick, self.failed_before = 0, 0
        self.mounted = False
        with open(self.control, "wb") as file:
            file.write(bytes(32))

    # ---- the disk

    def make_disk(self):
        os.mkdir(self.folder)
        if self.stage.disks == "plain":
            return
        if self.stage.disks == "tmpfs":
            run("mount", "-t", "tmpfs", "-o", f"size={SIZE}", "none", self.folder)
        else:
            image = self.folder + ".img"
            with open(image, "wb") as file:
                file.truncate(SIZE)
            run("mkfs.ext4", "-q", "-m", "0", image)
            run("mount", "-o", "loop", image, self.folder)
        self.mounted = True

    def fill(self):
        """No room is left on the disk."""
        try:
            with open(self.ballast, "ab", buffering=0) as file:
                for size in (1 << 20, 4096, 1):
                    try:
                        while file.write(b"x" * size) == size:
                            pass
                    except OSError:
                        pass
        except OSError:
            pass

    def free(self):
        try:
            os.remove(self.ballast)
        except OSError:
            pass

    def device(self, words):
        """Tells disk.c how the device behaves: words of the control by their places."""
        with open(self.control, "r+b") as file:
            for place, value in words.items():
                file.seek(4 * place)
                file.write(struct.pack("<I", value))

    def failures(self):
        with open(self.control, "rb") as file:
            return struct.unpack("<8I", file.read())[6]

    def lose_power(self, chance):
        """What a loss of power may do to the files of a node that is dead."""
        lost, was_full = 0, os.path.exists(self.ballast)
        self.free()
        for n, path in enumerate((self.record, self.record + ".b")):
            log = f"{self.undo}.{n}"
            if os.path.exists(log):
                lost += undone(path, log, chance)
        if was_full:
            self.fill()
        return lost

    # ---- the process

    def words(self, listen=None):
        stage = self.stage
        host, port = listen or self.address
        peers = [f"--peer={other.number}={stage.way(self, other)}" for other in stage.nodes
                 if other is not self]
        speakers = stage.keys.words(self.number) if stage.keys else ["--open"]
        return stage.inside(self) + [stage.program, "serve", self.record, "--listen",
                                     f"{host}:{port}", *speakers, *peers, *stage.options]

    def client(self, role="reader"):
        """A connection of a client with this role."""
        keys = self.stage.keys
        return wire.Client(self.address, (lambda: keys.clients[role]) if keys else None)

    def environment(self):
        return {**os.environ, "LD_PRELOAD": self.stage.shim, "TROUBLE_CONTROL": self.control,
                "TROUBLE_UNDO": self.undo, "TROUBLE_RECORD": self.record}

    def start(self):
        with open(self.errors, "ab") as errors:
            errors.write(f"--- start {self.life + 1} at {self.stage.clock():.3f}\n".encode())
            self.process = subprocess.Popen(
                self.words(), stdin=subprocess.DEVNULL, stdout=errors, stderr=errors,
                env=self.environment(), preexec_fn=dies_with_tool)
        self.failed_before = self.failures()
        self.life, self.wanted, self.paused = self.life + 1, True, False

    def kill(self):
        self.wanted, self.paused = False, False
        if self.process is not None:
            self.process.kill()
            self.process.wait()

    def pause(self, on):
        if self.process is not None and self.process.poll() is None:
            self.process.send_signal(signal.SIGSTOP if on else signal.SIGCONT)
            self.paused = on

    def is_up(self):
        return self.process is not None and self.process.poll() is None

    def ended(self):
        """The status of a process that ended by itself."""
        if self.process is None or not self.wanted:
            return None
        return self.process.poll()

    def waited(self):
        """For how many seconds the process has waited for a processor that others had."""
        try:
            with open(f"/proc/{self.process.pid}/schedstat", encoding="ascii") as file:
                return int(file.read().split()[1]) / 1e9
        except (OSError, AttributeError):
            return 0.0

    def last_words(self):
        with open(self.errors, "rb") as file:
            text = file.read().decode(errors="replace")
        return [line for line in text.splitlines() if line][-1:]

    def answers(self, timeout=0.5):
        client = self.client()
        answer = client.call(wire.frame(wire.STATUS), timeout)
        client.close()
        return answer.k if answer is not None and answer.kind == wire.PREFIX else None


class Stage:
    """The group, and what is between its nodes."""

    def __init__(self, program, count, seed, net, disks, options, folder, sealed=False):
        self.program, self.net, self.disks, self.options = program, net, disks, options
        chance = random.Random(f"keys {seed}")
        self.keys = keyring.Keys(folder, count, chance) if sealed else None
        self.folder, self.seed, self.begun = folder, seed, time.monotonic()
        self.tag = f"trb{os.getpid() % 100000}"
        self.port, self.ways, self.proxy, self.spaces = None, {}, None, []
        self.shim = os.path.join(folder, "disk.so")
        self.nodes = [Node(self, number) for number in range(1, count + 1)]
        self.states, self.heard = {}, []

    def clock(self):
        return time.monotonic() - self.begun

    def node(self, number):
        return self.nodes[number - 1]

    def inside(self, node):
        return ["ip", "netns", "exec", f"{self.tag}n{node.number}"] if self.net == "spaces" else []

    def way(self, node, other):
        """Where a node finds another."""
        host, port = other.address if self.net == "spaces" else self.ways[node.number, other.number]
        return f"{host}:{port}"

    def open(self):
        compiler = shutil.which("cc") or shutil.which("gcc")
        run(compiler, "-shared", "-fPIC", "-O2", "-o", self.shim, os.path.join(HERE, "disk.c"))
        if self.net == "spaces":
            self.make_spaces()
        else:
            self.make_ways()
        for node in self.nodes:
            node.make_disk()
            run(self.program, "format", node.record, "--id", str(node.number), "--nodes",
                str(len(self.nodes)), "--group", "731402")
            node.start()

    def make_ways(self):
        """Ports on the loopback, and the process that stands on the ways between nodes."""
        count = len(self.nodes)
        self.port = free_ports(100)
        for node in self.nodes:
            node.address = "127.0.0.1", self.port + node.number
        links = {}
        for node in self.nodes:
            for other in self.nodes:
                if node is not other:
                    port = self.port + 10 * node.number + other.number
                    self.ways[node.number, other.number] = "127.0.0.1", port
                    links[f"{node.number}{other.number}"] = port, "127.0.0.1", other.address
        plan = json.dumps({"seed": self.seed * 10 + count, "nodes": count, "links": links})
        self.proxy = subprocess.Popen(
            [sys.executable, os.path.join(HERE, "links.py"), plan], stdin=subprocess.PIPE,
            stdout=subprocess.PIPE, stderr=open(os.path.join(self.folder, "links.err"), "wb"),
            text=True, preexec_fn=dies_with_tool)
        if self.proxy.stdout.readline() != "ready\n":
            raise RuntimeError("the lines between the nodes can't be made")
        threading.Thread(target=self.listen, daemon=True).start()

    def listen(self):
        """Hears what is wrong with what passes between the nodes."""
        for line in self.proxy.stdout:
            self.heard.append(json.loads(line))

    def make_spaces(self):
        """A network namespace for each node, on one bridge."""
        net = f"10.{77 + os.getpid() % 100}.{os.getpid() // 100 % 250}"
        bridge = f"{self.tag}b"
        run("ip", "link", "add", bridge, "type", "bridge")
        self.spaces.append(("ip", "link", "del", bridge))
        run("ip", "addr", "add", f"{net}.254/24", "dev", bridge)
        run("ip", "link", "set", bridge, "up")
        for node in self.nodes:
            space, outer = f"{self.tag}n{node.number}", f"{self.tag}v{node.number}"
            run("ip", "netns", "add", space)
            self.spaces.append(("ip", "netns", "del", space))
            run("ip", "link", "add", outer, "type", "veth", "peer", "name", "eth0", "netns", space)
            run("ip", "link", "set", outer, "master", bridge, "up")
            run("ip", "-n", space, "addr", "add", f"{net}.{node.number}/24", "dev", "eth0")
            run("ip", "-n", space, "link", "set", "eth0", "up")
            run("ip", "-n", space, "link", "set", "lo", "up")
            node.address = f"{net}.{node.number}", 7000
            text = run("ip", "-n", space, "-o", "link", "show", "eth0").stdout.decode()
            node.mac = text.split("link/ether ")[1].split()[0]
        for node in self.nodes:
            for other in self.nodes:
                if node is not other:
                    self.pass_packets(node, other, True)

    def pass_packets(self, node, other, good):
        """Whether packets of a node to another arrive: their hardware address is right or not."""
        run("ip", "-n", f"{self.tag}n{node.number}", "neigh", "replace", other.address[0], "lladdr",
            other.mac if good else "02:00:00:00:00:99", "dev", "eth0", "nud", "permanent")

    def set_way(self, source, target, state):
        """How the way from a node to another is, for the connections that the first one makes."""
        if self.net == "spaces" and not state.get("there", True):
            state = {}
        if self.states.get((source, target), {}) == state:
            return
        self.states[source, target] = state
        if self.net == "spaces":
            good = state.get("mode", "up") == "up"
            self.pass_packets(self.node(source), self.node(target), good)
        else:
            self.tell_way(source, target, state)

    def tell_way(self, source, target, what):
        if self.proxy is not None:
            self.proxy.stdin.write(json.dumps([f"{source}{target}", what]) + "\n")
            self.proxy.stdin.flush()

    def is_open(self, source, target):
        """Whether what a node sends to another gets there, and is answered, in good time."""
        state = self.states.get((source, target), {})
        return state.get("mode", "up") == "up" and state.get("drop", 0) < 0.3

    def reaches(self, a, b):
        return self.is_open(a, b) and self.is_open(b, a)

    def close(self):
        for node in self.nodes:
            node.pause(False)
            node.kill()
        if self.proxy is not None:
            self.proxy.kill()
            self.proxy.wait()
        for words in reversed(self.spaces):
            run(*words, check=False)
        for node in self.nodes:
            for _ in range(20 if node.mounted else 0):
                if run("umount", node.folder, check=False).returncode == 0:
                    break
                time.sleep(0.1)


def free_ports(count):
    """The first of so many ports of the loopback that nobody listens at."""
    chance = random.Random(os.getpid())
    for _ in range(100):
        first = chance.randrange(20000, 32000, 100)
        held = []
        try:
            for port in range(first, first + count):
                it = socket.socket()
                it.setsockopt(socket.SOL_SOCKET, socket.SO_REUSEADDR, 1)
                held.append(it)
                it.bind(("127.0.0.1", port))
            return first
        except OSError:
            pass
        finally:
            for it in held:
                it.close()
    raise RuntimeError("no free ports")


def abilities():
    """Which networks and disks this machine can make."""
    nets, disks = ["proxy"], ["plain"]
    if os.geteuid() != 0:
        return nets, disks
    name = f"trb{os.getpid() % 100000}t"
    if shutil.which("ip") and run("ip", "netns", "add", name, check=False).returncode == 0:
        run("ip", "netns", "del", name, check=False)
        nets.append("spaces")
    if shutil.which("mount"):
        disks.append("tmpfs")
        if shutil.which("mkfs.ext4") and os.path.exists("/dev/loop-control"):
            disks.append("ext4")
    return nets, disks

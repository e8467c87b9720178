"""The lines between the nodes: a process that stands on each way from a node to another, and does
to what passes what it is told on standard input, a line of JSON each.

A way is up, or holds what comes ("hold", in one or both directions), loses it ("void"), or ends its
connections and takes none ("cut"). It may delay, end a connection in the middle of a frame, and
drop, repeat or swap messages between nodes, or send some of them late, when others have overtaken
them. Such a message is answered in the node's place, as a node that got it and lost it would.
Requests other than messages always pass. Messages that passed may be sent again much later
("replay")."""
import asyncio
import collections
import json
import random
import socket
import struct
import sys

from watch import Watch

DONE_0 = bytes.fromhex("00000006022000000000")
UP = {"mode": "up", "there": True, "back": True, "delay": 0, "jitter": 0, "snap": 0, "drop": 0,
      "twice": 0, "swap": 0, "late": 0, "kinds": [], "by": 0}


async def frame_of(reader):
    """The next frame, with its length."""
    head = await reader.readexactly(4)
    return head + await reader.readexactly(struct.unpack(">I", head)[0])


class Link:
    """The way from one node to another, and its connections."""

    def __init__(self, chance, ends, watch, where):
        self.chance, self.ends, self.watch = chance, ends, watch
        self.port, self.host, self.target = where[0], where[1], tuple(where[2])
        self.now, self.passages, self.newest = dict(UP), set(), None
        self.seen = collections.deque(maxlen=400)
        self.changed = asyncio.Event()

    async def listen(self):
        await asyncio.start_server(self.take, self.host, self.port)

    async def take(self, reader, writer):
        if self.now["mode"] == "cut":
            return reset(writer)
        try:
            there = await asyncio.wait_for(asyncio.open_connection(*self.target), 5)
        except (OSError, asyncio.TimeoutError):
            return reset(writer)
        passage = self.newest = Passage(self, (reader, writer), there)
        self.passages.add(passage)
        await passage.run()
        self.passages.discard(passage)

    def become(self, state):
        old, self.now = self.now, {**UP, **state}
        if self.now["mode"] == "cut" or old["mode"] == "void":
            for passage in list(self.passages):
                passage.end()
        self.changed.set()
        self.changed = asyncio.Event()

    async def replay(self, count):
        """Sends messages that passed before again."""
        await self.send([self.chance.choice(self.seen) for _ in range(count)] if self.seen else [])

    async def send_late(self, frame):
        """Sends a message after others that were made behind it."""
        await asyncio.sleep(self.now["by"] * self.chance.random())
        await self.send([frame])

    async def send(self, frames):
        """Sends messages on a connection of their own."""
        try:
            reader, writer = await asyncio.wait_for(asyncio.open_connection(*self.target), 2)
            for frame in frames:
                writer.write(frame)
                await asyncio.wait_for(frame_of(reader), 2)
            writer.close()
        except (OSError, asyncio.TimeoutError, asyncio.IncompleteReadError):
            pass

    def happens(self, what):
        return self.now[what] and self.chance.random() < self.now[what]


def reset(writer):
    """Ends a connection at once, as a host that went away."""
    sock = writer.get_extra_info("socket")
    try:
        sock.setsockopt(socket.SOL_SOCKET, socket.SO_LINGER, struct.pack("ii", 1, 0))
    except OSError:
        pass
    writer.transport.abort()


class Passage:
    """One connection from a node to another, in two halves."""

    def __init__(self, link, node, peer):
        self.link, self.node, self.peer = link, node, peer
        # What becomes of the peer's next answers: given on, thrown away, or made up here.
        self.expected = collections.deque()
        self.tasks = []

    async def run(self):
        there, back = asyncio.Queue(300), asyncio.Queue(300)
        self.tasks = [asyncio.ensure_future(it) for it in (
            self.read(self.node[0], there, self.see), self.read(self.peer[0], back),
            self.carry(there, "there", self.ask), self.carry(back, "back", self.answer))]
        await asyncio.wait(self.tasks, return_when=asyncio.FIRST_COMPLETED)
        self.end()
        await asyncio.wait(self.tasks)

    def end(self):
        for task in self.tasks:
            task.cancel()
        reset(self.node[1])
        reset(self.peer[1])

    def see(self, frame):
        """What a node sent is watched in the order in which it was made: on the newest of its
        connections."""
        if self.link.newest is self:
            self.link.watch.take(*self.link.ends, frame)

    async def read(self, reader, queue, see=lambda frame: None):
        loop, due = asyncio.get_event_loop(), 0
        try:
            while True:
                frame, now = await frame_of(reader), self.link.now
                see(frame)
                wait = now["delay"] + now["jitter"] * self.link.chance.random()
                due = max(due, loop.time() + wait / 1000)
                await queue.put((due, frame))
        except (OSError, asyncio.IncompleteReadError):
            pass

    async def carry(self, queue, way, step):
        loop, link = asyncio.get_event_loop(), self.link
        try:
            while True:
                due, frame = await queue.get()
                if due > loop.time():
                    await asyncio.sleep(due - loop.time())
                while link.now["mode"] == "hold" and link.now[way]:
                    await link.changed.wait()
                if link.now["mode"] == "void" and link.now[way]:
                    continue
                if link.happens("snap"):
                    self.snap(frame, way)
                    return
                await step(frame, queue)
        except OSError:
            pass

    def snap(self, frame, way):
        """Sends a part of a frame. The connection ends with it."""
        writer = self.peer[1] if way == "there" else self.node[1]
        writer.write(frame[:self.link.chance.randrange(len(frame))])

    async def ask(self, frame, queue):
        """A request goes to the peer."""
        link, writer = self.link, self.peer[1]
        if frame[5] > 7:
            self.expected.append("real")
            writer.write(frame)
            return await writer.drain()
        link.seen.append(frame)
        is_late = frame[5] in link.now["kinds"] and link.happens("late")
        if is_late:
            asyncio.ensure_future(link.send_late(frame))
        if is_late or link.happens("drop"):
            self.expected.append("made up")
            return self.make_up()
        frames = [frame]
        if link.happens("swap") and not queue.empty() and queue._queue[0][1][5] <= 7:
            frames.insert(0, queue.get_nowait()[1])
            link.seen.append(frames[0])
        for each in frames:
            for again in range(2 if link.happens("twice") else 1):
                self.expected.append("thrown away" if again else "real")
                writer.write(each)
        await writer.drain()

    def make_up(self):
        while self.expected and self.expected[0] == "made up":
            self.expected.popleft()
            self.node[1].write(DONE_0)

    async def answer(self, frame, _queue):
        """The peer's answer goes to the node."""
        self.make_up()
        if not self.expected or self.expected.popleft() == "real":
            self.node[1].write(frame)
        self.make_up()
        await self.node[1].drain()


async def main():
    plan = json.loads(sys.argv[1])
    chance = random.Random(plan["seed"])
    watch = Watch(plan["nodes"], lambda node, what: print(json.dumps([node, what]), flush=True))
    links = {}
    for name, where in plan["links"].items():
        ends = int(name[0]), int(name[1])
        links[name] = Link(random.Random(chance.random()), ends, watch, where)
        await links[name].listen()
    loop = asyncio.get_event_loop()
    reader = asyncio.StreamReader()
    await loop.connect_read_pipe(lambda: asyncio.StreamReaderProtocol(reader), sys.stdin)
    print("ready", flush=True)
    while line := await reader.readline():
        name, state = json.loads(line)
        if "replay" in state:
            asyncio.ensure_future(links[name].replay(state["replay"]))
        else:
            links[name].become(state)


if __name__ == "__main__":
    asyncio.run(main())

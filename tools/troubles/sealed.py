"""A connection with a key, as docs/FORMATS.md has it: a greeting, and then records of contents in
both directions, each with a tag."""
import hashlib
import hmac
import os
import socket
import struct

MOST = 65_536


class Session:
    """A connection whose greeting is ready to be sent. What it reads and seals is numbered."""

    def __init__(self, address, key_id, secret, timeout=10):
        self.socket = socket.create_connection(address, timeout=timeout)
        self.socket.setsockopt(socket.IPPROTO_TCP, socket.TCP_NODELAY, 1)
        head = self.read(38)
        if head[:6] != bytes([0, 0, 0, 34, 3, 0x40]):
            raise OSError(f"no challenge: {head.hex()}")
        self.secret, self.nonce = secret, os.urandom(32)
        self.context = b"lehoratu 3" + struct.pack(">I", key_id) + head[6:] + self.nonce
        self.greeting = bytes([0, 0, 0, 38, 3, 0x41]) + struct.pack(">I", key_id) + self.nonce
        self.sent = self.read_count = 0

    def read(self, count):
        got = b""
        while len(got) < count:
            piece = self.socket.recv(count - len(got))
            if not piece:
                raise EOFError
            got += piece
        return got

    def tag(self, direction, number, content):
        text = self.context + bytes([direction]) + struct.pack(">Q", number) + content
        return hmac.new(self.secret, text, hashlib.sha256).digest()

    def seal(self, content, number=None, direction=0):
        number = self.sent if number is None else number
        self.sent += 1
        tag = self.tag(direction, number, content)
        return struct.pack(">I", 33 + len(content)) + b"\x03" + tag + content

    def open_next(self):
        """The contents of the next record. A greeting that isn't taken is answered by a frame of
        another version, unsealed, or by the end."""
        (size,) = struct.unpack(">I", self.read(4))
        body = self.read(size)
        if body == b"\x02\x26\x02":
            raise EOFError
        content = body[33:]
        if body[:1] != b"\x03" or body[1:33] != self.tag(1, self.read_count, content):
            raise ValueError("a record without the node's tag")
        self.read_count += 1
        return content


class Channel:
    """What a client of frames sees of a session: a socket."""

    def __init__(self, address, key, timeout):
        self.session, self.held = Session(address, *key, timeout=timeout), b""
        self.session.socket.sendall(self.session.greeting)

    def settimeout(self, timeout):
        self.session.socket.settimeout(timeout)

    def close(self):
        self.session.socket.close()

    def sendall(self, octets):
        pieces = [octets[at:at + MOST] for at in range(0, len(octets), MOST)]
        self.session.socket.sendall(b"".join(map(self.session.seal, pieces)))

    def recv(self, count):
        """Octets of what comes; none at the end."""
        try:
            while not self.held:
                self.held = self.session.open_next()
        except EOFError:
            return b""
        piece, self.held = self.held[:count], self.held[count:]
        return piece


def keys_in(path):
    """The keys of a file: number, role, secret."""
    for line in open(path, encoding="ascii"):
        words = line.split()
        if words and not line.startswith("#"):
            yield int(words[0]), words[1:-1], bytes.fromhex(words[-1])

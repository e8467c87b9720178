"""Frames, commands, questions and answers, as docs/FORMATS.md has them, and a client's connection.

Nothing here is taken from the program: it reads octets by that page alone."""
import socket
import struct

import sealed

SUBMIT, QUESTION, OUTCOME, CATCH_UP, STATUS, COMPACT = 0x10, 0x11, 0x13, 0x14, 0x15, 0x16
DONE, STARTED, SETTLED, ANSWER, UNKNOWN, NODE_FAULT, FRAME_FAULT, PREFIX = range(0x20, 0x28)
REFUSALS = ("", "AnchorThere", "NoAnchor", "Malformed", "OlderCrl", "CriticalCrlExtension",
            "StoreFull", "DeltaCrl", "NoCrl", "RelativeName", "Indirect")
NODE_FAULTS = ("", "Memory", "DiskFailed", "Broken", "RoundsExhausted", "PositionsExhausted",
               "GenerationsExhausted")
REASONS = ("", "AnchorPurpose", "Signature", "TooEarly", "Expired", "Revoked", "Undetermined",
           "IssuerName", "UnsupportedConstraint", "NotPermitted", "Excluded", "PolicyRequired",
           "MapsAny", "NotCa", "PathLength", "KeyUsage", "CriticalExtension", "FinalPolicy",
           "Purpose")


def frame(kind, fields=b""):
    return struct.pack(">IBB", 2 + len(fields), 2, kind) + fields


def blob(octets):
    return struct.pack(">I", len(octets)) + octets


def number(octets):
    return int.from_bytes(octets, "big")


# ---- commands

def add_anchor(name, certificate):
    return name + b"\1" + blob(certificate)


def withdraw(name, digest):
    return name + b"\2" + digest


def load_crl(name, crl):
    return name + b"\3" + blob(crl)


def drop_crl(name, digest):
    return name + b"\4" + digest


def set_purposes(name, digest, oids):
    """`oids` are contents octets, ascending; `None` is any purpose."""
    if oids is None:
        return name + b"\5" + digest + b"\0"
    listed = b"".join(bytes([len(oid)]) + oid for oid in oids)
    return name + b"\5" + digest + bytes([1, len(oids)]) + listed


def noop(name):
    return name + b"\6"


# ---- questions

def question(kind, moment, flags, k, purpose, anchor, certificates):
    """The octets of a question: `kind` is 1 for a chain and 2 for a search."""
    flags |= (16 if k is not None else 0) | (32 if purpose is not None else 0)
    out = struct.pack(">BqB", kind, moment, flags)
    out += b"" if k is None else struct.pack(">I", k)
    out += b"" if purpose is None else bytes([len(purpose)]) + purpose
    out += b"\0" + b"\0\0" + b"\0\0" + (anchor if kind == 1 else b"")
    return out + bytes([len(certificates)]) + b"".join(map(blob, certificates))


# ---- answers

class Answer:
    """What a node answered: the name of its kind, and its fields."""

    def __init__(self, octets):
        kind, rest = octets[1], octets[2:]
        self.kind, self.position, self.outcome, self.k, self.reply = kind, None, None, None, None
        if octets[0] != 2 or not DONE <= kind <= PREFIX:
            raise OSError(f"no answer: {octets[:16].hex()}")
        if kind == SETTLED:
            self.position, self.outcome = number(rest[:4]), outcome(rest[4:])
        elif kind == STARTED:
            self.position, self.k = number(rest[:4]), number(rest[4:])
        elif kind == ANSWER:
            self.k, self.reply = number(rest[:4]), rest[4:]
        elif kind in (PREFIX, DONE):
            self.k = number(rest)
        elif kind == NODE_FAULT:
            self.outcome = NODE_FAULTS[rest[0]]
        elif kind == FRAME_FAULT:
            self.outcome = rest[0]


def outcome(octets):
    """An outcome in words, as the lab prints it."""
    if octets[0] == 0:
        return "applied"
    return f"repeated {number(octets[1:])}" if octets[0] == 1 else f"refused {REFUSALS[octets[1]]}"


def dotted(content):
    """An object identifier by its contents octets (X.690 8.19)."""
    arcs, value = [], 0
    for octet in content:
        value = value * 128 + octet % 128
        if octet < 128:
            arcs, value = arcs + [value], 0
    first = min(arcs[0] // 40, 2)
    return ".".join(map(str, [first, arcs[0] - 40 * first] + arcs[1:]))


def policies(octets):
    """Accepted policies in words."""
    words, at = [], 4
    while at < len(octets):
        words.append(dotted(octets[at + 1:at + 1 + octets[at]]))
        at += 1 + octets[at]
    return " ".join(words) or "-"


def reply_words(reply, names, anchors):
    """A reply in the lab's words, `names` being those of the question's certificates, from the
    anchor's side or from the leaf on, and `anchors` the names of digests."""
    tag, rest = reply[0], reply[1:]
    if tag == 1:
        return f"valid {policies(rest[32:])}"
    if tag == 2:
        detail = {5: f" {rest[2]}" if len(rest) > 2 else "",
                  16: f" {dotted(rest[3:])}" if len(rest) > 3 else ""}.get(rest[1], "")
        return f"invalid {rest[0]} {REASONS[rest[1]]}{detail}"
    if tag == 3:
        places = rest[33:33 + rest[32]]
        chain = " ".join(names[place - 1] for place in places)
        anchor = anchors.get(rest[:32], rest[:32].hex())
        return f"found {anchor} {chain} valid {policies(rest[33 + rest[32]:])}"
    if tag == 6:
        return f"NotYet {number(rest)}"
    return {4: "NoPath", 5: "SearchLimit", 8: "NoAnchor"}.get(tag, reply.hex())


class Client:
    """A connection to a node, which is made again where it broke. A call answers `None` where no
    answer came: what was asked may have been done all the same. `key` gives the key to connect
    with, if there are keys."""

    def __init__(self, address, key=None):
        self.address, self.key, self.it = address, key, None

    def close(self):
        if self.it is not None:
            self.it.close()
        self.it = None

    def call(self, octets, timeout):
        answers = self.calls([octets], timeout)
        return answers[0] if answers else None

    def calls(self, requests, timeout):
        """The answers to requests that are sent at once: those that came. Where a connection
        that was used before has ended, another one is made, once."""
        answers, is_used = [], self.it is not None
        try:
            if self.it is None:
                self.it = self.connect(timeout)
            self.it.settimeout(timeout)
            self.it.sendall(b"".join(requests))
            for _ in requests:
                answers.append(Answer(self.all_of(number(self.all_of(4)))))
        except TimeoutError:
            self.close()
        except (OSError, EOFError, IndexError, struct.error):
            self.close()
            if is_used and not answers:
                return self.calls(requests, timeout)
        return answers

    def connect(self, timeout):
        if self.key is not None:
            return sealed.Channel(self.address, self.key(), timeout)
        it = socket.create_connection(self.address, timeout=timeout)
        it.setsockopt(socket.IPPROTO_TCP, socket.TCP_NODELAY, 1)
        return it

    def all_of(self, count):
        got = b""
        while len(got) < count:
            piece = self.it.recv(count - len(got))
            if not piece:
                raise OSError("the connection ended")
            got += piece
        return got

"""What the load is about: certificates and CRLs, the commands and questions that speak of them, and
the lab's lines that make the same.

Of the stand-in's kind (`Lab`) each is made here, octet by octet (RFC 5280 4.1, 5.1), and a line of
a script makes the same in `trustd lab`. Of the real kind (`Real`) openssl makes keys and
signatures, by `examples/real/pki`."""
import calendar
import hashlib
import os
import subprocess
import time

TOP = os.path.dirname(os.path.dirname(os.path.dirname(os.path.abspath(__file__))))
FROM, TO = "20260101000000Z", "20270101000000Z"
THIS, NEXT = "20260501000000Z", "20260701000000Z"
MOMENTS = ("20260601000000Z",) * 6 + ("20251231000000Z", "20270102000000Z", "20260801000000Z")
SERVER, CLIENT = "1.3.6.1.5.5.7.3.1", "1.3.6.1.5.5.7.3.2"
ALGORITHM = bytes.fromhex("3006060488370101")
HARD, DELTAS = 8, 64


def moment_of(text):
    return calendar.timegm(time.strptime(text, "%Y%m%d%H%M%SZ"))


def der(tag, content):
    size = len(content)
    if size < 128:
        return bytes([tag, size]) + content
    length = size.to_bytes((size.bit_length() + 7) // 8, "big")
    return bytes([tag, 128 + len(length)]) + length + content


def integer(value):
    return der(2, value.to_bytes(value.bit_length() // 8 + 1, "big"))


def oid(text):
    """The contents octets of an object identifier."""
    first, second, *rest = map(int, text.split("."))
    out = b""
    for arc in [40 * first + second] + rest:
        septets = [arc % 128]
        while arc := arc // 128:
            septets.append(128 + arc % 128)
        out += bytes(reversed(septets))
    return out


def name(text):
    return der(0x30, der(0x31, der(0x30, der(6, bytes([0x55, 4, 3])) + der(12, text.encode()))))


def utc(text):
    return der(0x17, text[2:].encode())


def extension(arc, critical, value):
    flag = bytes.fromhex("0101ff") if critical else b""
    return der(0x30, der(6, bytes([0x55, 0x1d, arc])) + flag + der(4, value))


def signed(signer, content):
    tbs = der(0x30, content)
    digest = hashlib.sha256(signer + tbs).digest()
    return der(0x30, tbs + ALGORITHM + der(3, b"\0" + digest))


class Thing:
    """A certificate or a CRL: its name, its octets and their digest, and how a script makes it. Of
    a CRL also which list of its issuer's it is, by what a store tells them apart."""

    def __init__(self, name, octets, line, slot=None, number=None, delta=False):
        self.name, self.octets, self.line = name, octets, line
        self.slot, self.number, self.delta = slot, number, delta
        self.digest = hashlib.sha256(octets).digest()

    def __repr__(self):
        return self.name


def certificate(label, serial, issuer, key, signer, words):
    """A certificate of the stand-in's kind, and its line."""
    extensions = []
    if "usage=5,6" in words:
        extensions.append(extension(15, True, bytes.fromhex("03020106")))
    for word in words:
        if word.startswith("dns="):
            extensions.append(extension(17, False, der(0x30, der(0x82, word[4:].encode()))))
    if "ca" in words:
        extensions.append(extension(19, True, bytes.fromhex("30030101ff")))
    for word in words:
        if word.startswith("eku="):
            extensions.append(extension(37, False, der(0x30, der(6, oid(word[4:])))))
    field = der(0xa3, der(0x30, b"".join(extensions))) if extensions else b""
    octets = signed(signer, bytes.fromhex("a003020102") + integer(serial) + ALGORITHM
                    + name(issuer) + der(0x30, utc(FROM) + utc(TO)) + name(label)
                    + der(0x30, ALGORITHM + der(3, b"\0" + key)) + field)
    line = (f"cert {label} serial {serial} issuer CN={issuer} subject CN={label} from {FROM} "
            f"to {TO} key {key.hex()} signer {signer.hex()} {' '.join(words)}").strip()
    return Thing(label, octets, line)


def crl(label, issuer, signer, entries, number, base=None):
    """A CRL of the stand-in's kind, and its line. `entries` are serial numbers and reasons."""
    rows = b"".join(der(0x30, integer(serial) + utc(THIS) + der(
        0x30, extension(21, False, bytes([10, 1, reason])))) for serial, reason in entries)
    extensions = extension(20, False, integer(number))
    if base is not None:
        extensions += extension(27, True, integer(base))
    octets = signed(signer, integer(1) + ALGORITHM + name(issuer) + utc(THIS) + utc(NEXT)
                    + (der(0x30, rows) if entries else b"") + der(0xa0, der(0x30, extensions)))
    words = [f"entry={serial}:{reason}" for serial, reason in entries] + [f"number={number}"]
    words += [] if base is None else [f"base={base}"]
    line = (f"crl {label} issuer CN={issuer} this {THIS} next {NEXT} signer {signer.hex()} "
            + " ".join(words))
    return Thing(label, octets, line, issuer, number, base is not None)


class Lab:
    """Roots, CAs below them, leaves, and lists of each issuer, of the stand-in's kind."""

    options = ["--stand-in"]

    def __init__(self, chance, _folder):
        self.anchors, self.crls, self.chains, self.moments = [], [], [], MOMENTS
        self.leaves = []
        for r in range(1, 5):
            root_key = bytes([0x60 + r])
            root = certificate(f"R{r}", r, f"R{r}", root_key, root_key, ["usage=5,6", "ca"])
            self.anchors.append(root)
            self.lists(chance, root.name, root_key, range(10, 14))
            for c in range(1, 3):
                ca_key = bytes([0x60 + r, c])
                ca = certificate(f"A{r}{c}", 10 + c, root.name, ca_key, root_key,
                                 ["usage=5,6", "ca"])
                self.lists(chance, ca.name, ca_key, range(20, 25))
                if c == 1:
                    self.anchors.append(ca)
                for n in range(3):
                    eku = [f"eku={CLIENT if n == 2 else SERVER}"]
                    leaf = certificate(f"L{r}{c}{n}", 20 + n, ca.name, bytes([1, r, c, n]), ca_key,
                                       [f"dns=h{n}.example"] + eku)
                    self.leaves.append(leaf)
                    self.chains += [(root, [ca, leaf])] + ([(ca, [leaf])] if c == 1 else [])
        self.things = self.anchors + self.leaves + [c for _, (c, *_) in self.chains]

    def lists(self, chance, issuer, key, serials):
        for n in range(1, 9):
            entries = [(s, chance.choice((0, 1, 4, 5))) for s in serials if chance.random() < 0.3]
            if n % 4 == 0:
                entries += [(s, 1) for s in range(1000, 1200)]
            self.crls.append(crl(f"{issuer}C{n}", issuer, key, entries, n))
        self.crls.append(crl(f"{issuer}D1", issuer, key, [(chance.choice(serials), 1)], 5, 2))


class Real:
    """Certificates and CRLs that openssl signed."""

    options = []
    moments = ("20261126120000Z",) * 5 + ("20251231000000Z", "20370101000000Z", "20280101000000Z")

    def __init__(self, chance, folder):
        subprocess.run([os.path.join(TOP, "examples/real/pki"), folder], check=True)

        def thing(label, *rest):
            with open(os.path.join(folder, f"{label}.der"), "rb") as file:
                return Thing(label, file.read(), None, *rest)
        root, ca = thing("root"), thing("ca")
        self.anchors = [root, ca, thing("other"), thing("shop")]
        self.leaves = [thing(label) for label in ("www", "shop", "old", "other")]
        self.crls = [thing("root-list", "root", 1), thing("ca-list", "ca", 1),
                     thing("ca-delta", "ca", 2, True)]
        self.chains = [(root, [ca, leaf]) for leaf in self.leaves]
        self.chains += [(ca, [leaf]) for leaf in self.leaves]
        self.things = self.anchors + self.leaves

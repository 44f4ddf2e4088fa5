#!/usr/bin/env python3
"""Compares how this program reads kits with how another implementation does.

    python3 tools/compare_kits.py NUMBER COUNT FOLDER

FOLDER has the other implementation, in Python:

    kits.py          `read_kit` of `Lines`, which reads a kit up to a line `go`; `write_kit` of what was read; and
                     `KitFault` with the `word` of its fault (`line repeated missing keymismatch`) and its `line`
    signatures.py    `make_signer` of ("lms", H, W, I, SEED) or ("hss", L, H, W, I, SEED), whose `public()` is the public key

COUNT texts are handed to both: the fixed ones (a kit of each scheme; each line of it left out, doubled and exchanged with
the next, and cuts), and others that are drawn from NUMBER, most of them damaged. Ours are the answers of the program
`interop`. Each difference is printed, and at the end how often each answer came. The status is 1 where anything differs.
"""

import functools
import inspect
import random
import sys

from interop import build, compare, word

SECRETS = {
    "lms": [("lms", 5, 1 + n % 4, bytes([n]) * 16, bytes([n, 255 - n]) * 16) for n in range(12)],
    "hss": [("hss", 1 + n % 3, 5, 2 + n % 2, bytes([n]) * 16, bytes([n, 255 - n]) * 16) for n in range(6)],
}
PLACES = (0, 1, 2, 3, 7, 62, 63)


# ---- the other implementation


class Theirs:
    def __init__(self, folder):
        sys.path.insert(0, folder)
        import kits
        import signatures

        # a tree is made once, and not for each text that has its secret
        kits.make_signer = functools.lru_cache(None)(signatures.make_signer)
        self.kits = kits
        self.stage = ["hss"] if "stage" in inspect.signature(kits.read_kit).parameters else []
        self.listed = functools.lru_cache(None)(self.public)

    def public(self, secret):
        return self.kits.make_signer(secret).public()

    def mismatch(self, text, number):
        """The public key that a host's secret makes, and the one of its key line."""
        words = [line.split(b" ") for line in text.split(b"\n")]
        _, process, scheme, *numbers, identifier, seed = words[number - 1]
        secret = (scheme.decode(), *map(int, numbers), bytes.fromhex(identifier.decode()), bytes.fromhex(seed.decode()))
        listed = [key for first, *rest in words if first == b"key" and rest[0] == process for key in rest[1:]]
        return "%s %s" % (self.public(secret).hex(), listed[0].decode())

    def answer(self, text):
        # their kits end with a line `go`; a text that ends with no line feed has a fault without it too
        whole = text + b"go\n" if text.endswith(b"\n") or not text else text
        try:
            kit = self.kits.read_kit(self.kits.Lines(whole), *self.stage)
        except self.kits.KitFault as fault:
            if fault.word == "keymismatch":
                return "mismatch %d %s" % (fault.line, self.mismatch(text, fault.line))
            return "%s %d" % (fault.word, fault.line)
        return "kit " + self.kits.write_kit(kit).hex()


# ---- kits


def spelled(lines):
    return "".join(line + "\n" for line in lines).encode("latin-1")


def kit_lines(scheme, group, keys, genesis, ports, hosts):
    """The lines of a kit; `hosts` has the words behind `host P` of each process that is hosted, and its pair keys."""
    lines = ["rampart kit %d" % (2 if scheme == "hss" else 1), "scheme " + scheme, "group " + group.hex()]
    lines += ["key %d %s" % (p, key.hex()) for p, key in keys.items()]
    lines.append("genesis " + " ".join(map(str, genesis)))
    lines += ["port %d %d" % (p, port) for p, port in ports.items()]
    for p, (secret, pairs) in hosts.items():
        lines.append("host %d %s" % (p, secret))
        lines += ["pair %d %d %s" % (p, q, key.hex()) for q, key in pairs.items()]
    return lines


def secret_words(secret):
    return " ".join([secret[0], *map(str, secret[1:-2]), secret[-2].hex(), secret[-1].hex()])


class Drawing:
    """Texts from a number. Most are kits with a little damage."""

    def __init__(self, number, theirs):
        self.draw = random.Random(number)
        self.theirs = theirs

    def kit(self):
        draw = self.draw
        scheme = draw.choice(["plain", "lms", "hss"])
        count = draw.choice([1, 1, 2, 2, 3, 3, 4, 5, 20])
        numbers = sorted(draw.sample(PLACES if count < 6 and draw.random() < 0.5 else range(64), count))
        secrets = {p: draw.choice(SECRETS[scheme]) for p in numbers} if scheme != "plain" else {}
        keys = {p: draw.randbytes(32) if scheme == "plain" else self.theirs.listed(secrets[p]) for p in numbers}
        genesis = draw.sample(numbers, draw.randint(1, min(16, count)))
        ports = {p: draw.choice([1, 80, 47000 + p, 65535]) for p in numbers}
        hosts = {}
        for p in sorted(draw.sample(numbers, draw.choice([0, 1, min(2, count), min(4, count)]))):
            secret = "plain %d" % draw.choice([0, 7, 100000, 2**32 - 1]) if scheme == "plain" else secret_words(secrets[p])
            hosts[p] = secret, {q: draw.randbytes(32) for q in numbers if q != p}
        return kit_lines(scheme, draw.randbytes(16), keys, genesis, ports, hosts)

    # ---- damage to the lines

    def place(self, lines):
        return self.draw.randrange(len(lines))

    def left_out(self, lines):
        del lines[self.place(lines)]

    def doubled(self, lines):
        line = self.draw.choice(lines)
        lines.insert(self.place(lines), line)

    def exchanged(self, lines):
        a, b = self.place(lines), self.place(lines)
        if self.draw.random() < 0.5:
            b = min(a + 1, len(lines) - 1)
        lines[a], lines[b] = lines[b], lines[a]

    def moved(self, lines):
        lines.insert(self.place(lines), lines.pop(self.place(lines)))

    def digit(self, lines):
        """One character is another, is gone or is one more."""
        at = self.place(lines)
        line = lines[at]
        where = self.draw.randrange(len(line) + 1)
        new = self.draw.choice("0123456789abcdef AF-+\r\x00\xff")
        lines[at] = line[:where] + self.draw.choice([new, ""]) + line[where + self.draw.choice([0, 1]):]

    def word(self, lines):
        """A word is one that is at the end of some range, or one of another line."""
        at = self.place(lines)
        words = lines[at].split(" ")
        other = self.draw.choice(self.draw.choice(lines).split(" "))
        edge = self.draw.choice(["0", "1", "63", "64", "65535", "65536", "4294967295", "4294967296", "007", "", "2", "3", "4", "7", "plain", "lms", "hss", "kit"])
        words[self.draw.randrange(len(words))] = self.draw.choice([other, edge])
        lines[at] = " ".join(words)

    def without_host(self, lines):
        """Without the lines of one host, or with them at another place."""
        hosts = sorted({line.split(" ")[1] for line in lines if line.startswith("host ")})
        if not hosts:
            return
        process = self.draw.choice(hosts)
        block = [line for line in lines if line.split(" ")[0] in ("host", "pair") and line.split(" ")[1] == process]
        rest = [line for line in lines if line not in block]
        at = self.draw.randrange(len(rest) + 1)
        lines[:] = self.draw.choice([rest, rest[:at] + block + rest[at:], rest + block])

    def another_key(self, lines):
        """A public key of another process, or another secret."""
        at = [n for n, line in enumerate(lines) if line.startswith(("key ", "host "))]
        chosen = self.draw.choice(at)
        words = lines[chosen].split(" ")
        secret = self.draw.choice(SECRETS[self.draw.choice(["lms", "hss"])])
        words[2:] = [self.theirs.listed(secret).hex()] if words[0] == "key" else [secret_words(secret)]
        lines[chosen] = " ".join(words)

    def long_line(self, lines):
        """A line of 70,000 bytes, or of one more; before that it may be one that stands, or a line of its own."""
        line = self.draw.choice([self.draw.choice(lines), "rampart", "key 0", "genesis", "", "x"])
        lines.insert(self.draw.randrange(len(lines) + 1), line.ljust(self.draw.choice([70000, 70001]), self.draw.choice(" 0")))

    def damaged(self, lines):
        ways = [self.left_out, self.doubled, self.exchanged, self.moved, self.digit, self.digit, self.word, self.word,
                self.without_host, self.another_key]
        for _ in range(self.draw.choice([1, 1, 1, 2, 3])):
            way = self.long_line if self.draw.random() < 0.02 else self.draw.choice(ways)
            if lines and (way != self.another_key or any(line.startswith(("key ", "host ")) for line in lines)):
                way(lines)

    # ---- and to the text

    def text(self):
        lines = self.kit()
        if self.draw.random() < 0.75:
            self.damaged(lines)
        text = spelled(lines)
        what = self.draw.random()
        if what < 0.08:
            return text[:self.draw.randrange(len(text) + 1)]
        if what < 0.1:
            return text + self.draw.choice([b"\n", b" ", b"x", b"\0", text])
        if what < 0.12:
            return text[:-1]
        return text


# ---- what is fixed


def each_way(lines):
    yield spelled(lines)
    for at in range(len(lines)):
        yield spelled(lines[:at] + lines[at + 1:])
        yield spelled(lines[:at + 1] + lines[at:])
        yield spelled(lines + lines[at:at + 1])
        yield spelled(lines[:at] + lines[at + 1:at + 2] + lines[at:at + 1] + lines[at + 2:])
        yield spelled(lines[:at])
    text = spelled(lines)
    yield from (text[:size] for size in range(0, len(text), 23))


def fixed(theirs):
    """A kit of three processes of each scheme, two of them hosted."""
    numbers = (0, 5, 63)
    pairs = {p: {q: bytes([p, q]) * 16 for q in numbers if q != p} for p in numbers}
    ports = {0: 1, 5: 65535, 63: 47000}
    plain = {p: bytes([p]) * 32 for p in numbers}
    yield from each_way(kit_lines("plain", bytes(16), plain, [5, 0], ports, {p: ("plain 12", pairs[p]) for p in (0, 63)}))
    for scheme, group in (("lms", bytes(range(16))), ("hss", bytes(range(16, 32)))):
        secrets = dict(zip(numbers, SECRETS[scheme]))
        trees = {p: theirs.listed(secret) for p, secret in secrets.items()}
        hosts = {p: (secret_words(secret), pairs[p]) for p, secret in secrets.items() if p != 5}
        yield from each_way(kit_lines(scheme, group, trees, [63], ports, hosts))
    yield from each_version(theirs)


def each_version(theirs):
    """Each version with each scheme, keys and hosts of each, whole and without the scheme line; keys of another secret; and levels,
    heights and one-time parameter sets about those that are built."""
    numbers = (2, 9)
    kits = []
    for scheme in ("plain", "lms", "hss"):
        keys = {p: bytes([p]) * 32 if scheme == "plain" else theirs.listed(SECRETS[scheme][p % 3]) for p in numbers}
        words = {p: "plain 4" if scheme == "plain" else secret_words(SECRETS[scheme][p % 3]) for p in numbers}
        hosts = {p: (words[p], {q: bytes(32) for q in numbers if q != p}) for p in numbers}
        kits.append(kit_lines(scheme, bytes(16), keys, list(numbers), {p: 9000 + p for p in numbers}, hosts))
    for number in ("0", "1", "2", "3", "02", "1 "):
        for head in kits:
            for lines in kits:
                whole = ["rampart kit " + number, head[1]] + lines[2:]
                yield spelled(whole)
                yield spelled(whole[:1] + whole[2:])
                yield spelled(whole[1:])
                yield spelled(whole[:2] + head[2:5] + lines[5:])
                yield from (spelled(whole[:1] + [line]) for line in lines)
    for lines, other in zip(kits[1:], (SECRETS["lms"][7], SECRETS["hss"][5])):
        yield spelled([line if not line.startswith("key 9 ") else "key 9 " + theirs.listed(other).hex() for line in lines])
        yield spelled([line if not line.startswith("host 9 ") else "host 9 " + secret_words(other) for line in lines])
    for levels in range(5):
        for height in range(4, 9):
            for ots in range(6):
                yield spelled([line if not line.startswith("host 2 ") else "host 2 hss %d %d %d %s %s" % (levels, height, ots, "00" * 16, "11" * 32)
                               for line in kits[2]][:8])


# ---- beside each other


def kind(_line, told):
    return told.split(" ")[0]


def main(number, count, folder):
    theirs = Theirs(folder)
    drawing = Drawing(number, theirs)
    texts = list(fixed(theirs))
    texts += [drawing.text() for _ in range(count - len(texts))]
    build()
    return 1 if compare([("kit " + word(text), theirs.answer(text)) for text in texts], kind) else 0


if __name__ == "__main__":
    if len(sys.argv) != 4:
        sys.exit(__doc__)
    sys.exit(main(int(sys.argv[1]), int(sys.argv[2]), sys.argv[3]))

"""Lines of snapshots for `resume`: those that nodes wrote, and others."""

import hashlib

import audits
from schedules import RENEW, add, remove

FRONT = 100  # the bytes before the first process: magic, header, place and digest


class Snapshot:
    """The line after `go`. It is true where `snap` wrote it on a journal whose nodes began as their journals say."""

    def __init__(self, line, is_true):
        self.line, self.is_true = line, is_true

    def is_of(self, journal):
        """Whether it was written on this journal, in which only more entries may have come since."""
        if not self.is_true:
            return False
        data = bytes.fromhex(self.line[5:])
        place = int.from_bytes(data[60:68], "big")
        return data[4:60] == journal[4:60] and place < len(journal) and digest(journal, place) == data[68:FRONT]


def digest(journal, place):
    return hashlib.sha256(journal[:place]).digest()


def gates(journal):
    """The places of a journal's gates, up to the first that is closed, or after which there is no entry."""
    found = [audits.HEADER]
    while journal[found[-1]:found[-1] + 1] == b"\1":
        found.append(found[-1] + 5 + int.from_bytes(journal[found[-1] + 1:found[-1] + 5], "big"))
    return [at for at in found if at < len(journal)]


def parts(data):
    """Of each process its number of entries and its image."""
    at, found = FRONT, []
    while at < len(data):
        size = int.from_bytes(data[at + 8:at + 12], "big")
        found.append((int.from_bytes(data[at:at + 8], "big"), data[at + 12:at + 12 + size]))
        at += 12 + size
    return found


def joined(front, processes):
    return front + b"".join(count.to_bytes(8, "big") + len(image).to_bytes(4, "big") + image for count, image in processes)


def line_of(data):
    return "snap " + data.hex()


class Snapshots:
    """What a node is begun by, drawn by the one who draws its openings."""

    def __init__(self, drawing):
        self.of, self.draw, self.theirs = drawing, drawing.draw, drawing.theirs.snapshots

    def one(self, node, nodes):
        """Mostly the last one of this node."""
        what = self.draw.randrange(24)
        if what == 0:
            return Snapshot(self.odd_line(), False)
        written = node.snapshots if what > 1 else self.draw.choice(nodes).snapshots
        if not written:
            return Snapshot(self.made(node), False)
        own = written[-1] if self.of.often(0.8) else self.draw.choice(written)
        if what < 14:
            return own
        data = bytes.fromhex(own.line[5:])
        if what < 18:
            return Snapshot(line_of(self.damaged(data, node)), False)
        return Snapshot(line_of(self.edited(data)), False)

    def odd_line(self):
        return self.draw.choice(["", "snap", "snap 00", "snap -", "snap large 8388609", "snap 0", "snap  00", "snap 0A", "Snap 00", "0 tick",
                                 "snap %s" % (b"RPN2" + bytes(96)).hex(), "snap %s" % (b"RPN1" + bytes(120)).hex()])

    def made(self, node):
        """Of a node that has written none: the images of the start, which fit no entry, or none at all."""
        kept = node.journal if len(node.journal) > audits.HEADER else b"RPJ2" + bytes(57)
        place = self.draw.choice(gates(kept) or [60])
        front = b"RPN2" + kept[4:60] + place.to_bytes(8, "big") + digest(kept, place)
        image = lambda p: bytes([p]) + bytes(2 + 5 * 4 + 1 + 4 + 2)
        return line_of(joined(front, [(self.draw.choice([0, 0, 0, place]), image(p)) for p in node.hosted]))

    def damaged(self, data, node):
        """Another byte, place, digest, number of entries or length."""
        what, at = self.draw.randrange(7), self.draw.randrange(len(data))
        if what == 0:
            return data[:at] + bytes([data[at] ^ self.draw.choice([1, 2, 128, 255])]) + data[at + 1:]
        if what == 1:
            return data[:at]
        if what == 2:
            return data + self.draw.randbytes(self.draw.choice([1, 12, 13]))
        if what == 3:
            at = self.draw.randrange(FRONT)
            return data[:at] + self.draw.randbytes(1) + data[at + 1:]
        if what == 4 and len(node.journal) > audits.HEADER:
            # the images of another moment than the place
            place = self.draw.choice(gates(node.journal) + [0, 59, len(node.journal)])
            return data[:60] + place.to_bytes(8, "big") + digest(node.journal, place) + data[FRONT:]
        if what == 5:
            return (b"RPN1" if data[:4] == b"RPN2" else b"RPN2") + data[4:]
        place, images = int.from_bytes(data[60:68], "big"), [image for _, image in parts(data)]
        return joined(data[:FRONT], [(self.draw.choice([0, 1, 7, place, place, place + 1]), image) for image in images])

    # -- images

    def edited(self, data):
        """One image with one thing changed, in version 2 or, on a snapshot of version 1, in that one."""
        processes = parts(data)
        at = self.draw.randrange(len(processes))
        image = self.theirs.read_image(processes[at][1], 2, True)
        if self.of.often(0.1):
            magic, version = b"RPN1", 1
            processes = [(count, self.theirs.write_image(self.theirs.read_image(it, 2, True), 1)) for count, it in processes]
        else:
            magic, version = b"RPN2", 2
            self.change(image)
        processes[at] = processes[at][0], self.theirs.write_image(image, version)
        return joined(magic + data[4:FRONT], processes)

    def change(self, image):
        what = self.draw.randrange(9)
        if what < 4:
            self.change_claims(image, self.draw.choice([image.signed, image.heard, image.heard, image.previous]))
        elif what == 4:
            self.change_delivered(image)
        elif what == 5:
            self.change_conflicts(image)
        elif what == 6:
            self.change_decision(image)
        elif what == 7:
            self.change_requests(image)
        else:
            self.change_views(image)

    def some_claim(self, image):
        """One that the image has somewhere, or that a liar makes, rarely with another signature."""
        there = image.signed + image.heard + image.previous
        if self.of.liars and (self.of.often(0.5) or not there):
            p, statement, signature = self.of.claim(self.draw.choice(self.of.liars), self.of.said())
            try:
                return self.theirs.Claim(p, self.theirs.read_statement(statement, batches=True), signature)
            except self.theirs.FrameFault:
                return None
        claim = self.draw.choice(there) if there else None
        if claim and self.of.often(0.1):
            return self.theirs.Claim(claim.signer, claim.statement, claim.signature[:-1] + bytes([claim.signature[-1] ^ 1]))
        return claim

    def change_claims(self, image, claims):
        what, claim = self.draw.randrange(5), self.some_claim(image)
        if what == 0 and claims:
            claims.pop()
        elif what == 1 and claims:
            claims.pop(self.draw.randrange(len(claims)))
        elif what == 2 and len(claims) > 1:
            at = self.draw.randrange(len(claims) - 1)
            claims[at], claims[at + 1] = claims[at + 1], claims[at]
        elif claim:
            claims.insert(self.draw.randrange(len(claims) + 1), claim)

    def change_delivered(self, image):
        messages = self.draw.choice(image.delivered)
        if messages and self.of.often(0.6):
            at = self.draw.randrange(len(messages))
            d = messages[at]
            messages[at] = self.draw.choice([
                d._replace(place=self.draw.choice([0, d.place + 1, 1023])), d._replace(number=d.number + 1), d._replace(payload=b"other"),
                d._replace(sender=self.draw.choice(self.of.roster))])
        elif messages and self.of.often(0.5):
            messages.pop()
        else:
            messages.append(self.theirs.Delivered(len(messages), self.draw.choice(self.of.roster), 0, b"a"))

    def change_conflicts(self, image):
        first, second = self.some_claim(image), self.some_claim(image)
        if image.conflicts and self.of.often(0.5):
            image.conflicts.pop()
        elif first and second:
            image.conflicts.append((first, second))

    def change_decision(self, image):
        if self.of.often(0.3):
            image.halted = not image.halted
        elif image.decision and self.of.often(0.5):
            image.decision = None
        else:
            image.decision = (0, (tuple(self.draw.choice([RENEW, remove(self.draw.choice(self.of.roster))])), self.draw.choice([0, 1, 1024])))

    def change_requests(self, image):
        pair = self.draw.choice([0, 0, 1, 5]), self.draw.choice([RENEW, remove(self.draw.choice(self.of.roster)), add(self.draw.choice(self.of.roster))])
        what = self.draw.randrange(5)
        if what == 0 and image.accepted:
            image.accepted.pop()
        elif what == 1:
            image.accepted += [b"more"] * self.draw.choice([1, 256, 257])
        elif what == 2 and image.perceived:
            image.perceived.pop()
        elif what == 3 and len(image.perceived) > 1:
            image.perceived.reverse()
        else:
            image.perceived = sorted({*image.perceived, (pair[0], tuple(pair[1]))})

    def change_views(self, image):
        if not image.left:
            image.me = self.draw.choice(self.of.roster)
            return
        at = self.draw.randrange(len(image.left))
        rank, value, commit = image.left[at]
        what = self.draw.randrange(4)
        if what == 0:
            image.left[at] = (rank + 1, value, commit)
        elif what == 1:
            image.left[at] = (rank, (value[0], value[1] + 1), commit)
        elif what == 2:
            image.left[at] = (rank, value, commit[:-1])
        else:
            image.left[at] = (rank, value, commit[::-1])

"""Schedules, frames and claims as bytes, by docs/FORMATS.md.

Standard library alone. A schedule is the header's fields and a list of events; each event is the bytes that stand for it.
"""

import hashlib
import struct

INIT, ECHO, ORDER, PLACE, KEEP, NOTIFY, END, LAST, SUGGEST, ACK, READY = range(1, 12)
BUNDLE, PROOF, WANT = 1, 2, 3
EVERYONE = 2**64 - 1


def u8(n):
    return struct.pack(">B", n)


def u16(n):
    return struct.pack(">H", n)


def u32(n):
    return struct.pack(">I", n)


def u64(n):
    return struct.pack(">Q", n)


# ---- statements and claims


def init(number, payload, view=0):
    return u8(INIT) + u16(view) + u16(number) + u16(len(payload)) + payload


def echo(sender, number, payload, view=0):
    return u8(ECHO) + u16(view) + u8(sender) + u16(number) + u16(len(payload)) + payload


def remove(p):
    """An update."""
    return b"\x01" + u8(p)


def add(p):
    return b"\x02" + u8(p)


RENEW = b"\x03\x00"


def value(update, cut):
    return update + u16(cut)


def at_place(kind, place, messages, view=0):
    """An Order, a Place or a Keep of the messages (sender, number)."""
    batch = b"".join(u8(sender) + u16(number) for sender, number in messages)
    if len(messages) == 1:
        return u8(kind) + u16(view) + u16(place) + batch
    return u8(kind + 9) + u16(view) + u16(place) + u8(len(messages)) + batch


def notify(update, view=0):
    return u8(NOTIFY) + u16(view) + update


def end(length, view=0):
    return u8(END) + u16(view) + u16(length)


def last(rank, reported=None, view=0):
    """A Last; what it reports is a rank and a value."""
    return u8(LAST) + u16(view) + u8(rank) + (b"\x00" if reported is None else b"\x01" + u8(reported[0]) + reported[1])


def at_rank(kind, rank, what, view=0):
    """A Suggest, an Ack or a Ready of a value."""
    return u8(kind) + u16(view) + u8(rank) + what


def body(group, signer, statement):
    """What is signed."""
    return b"RPB1" + group + u8(signer) + statement


def signature(key, group, signer, statement):
    """The signature of the plain scheme: whoever has the key can make it."""
    return hashlib.sha256(key + body(group, signer, statement)).digest()


# ---- frames


def frame_of_groups(groups, kind=BUNDLE, version=1, count=None):
    """A frame of groups (statement, [(signer, signature)]), in any order and number, so also of wrong ones."""
    out = u8(version) + u8(kind) + u8(len(groups) if count is None else count)
    for statement, signatures in groups:
        out += u16(len(statement)) + statement + u8(len(signatures))
        for signer, sign in signatures:
            out += u8(signer) + u16(len(sign)) + sign
    return out


def bundle(claims, kind=BUNDLE):
    """One frame of claims (signer, statement, signature), packed as processes pack them."""
    groups = []
    for signer, statement, sign in claims:
        if groups and groups[-1][0] == statement and groups[-1][1][-1][0] < signer and len(groups[-1][1]) < 16:
            groups[-1][1].append((signer, sign))
        else:
            groups.append((statement, [(signer, sign)]))
    return frame_of_groups(groups, kind)


# ---- schedules


def submit(at, payload):
    return u8(1) + u8(at) + u16(len(payload)) + payload


def raw(to, sender, data):
    return u8(2) + u8(to) + u8(sender) + u16(len(data)) + data


def hand_on(frame, to):
    """Pass."""
    return u8(3) + u32(frame) + u8(to)


def drain(count, mask=EVERYONE):
    return u8(4) + u32(count) + u64(mask)


def lie(signer, statement, mask=EVERYONE):
    return u8(5) + u8(signer) + u64(mask) + u16(len(statement)) + statement


def suspect(at, other):
    return u8(6) + u8(at) + u8(other)


def join(at, other):
    return u8(7) + u8(at) + u8(other)


def renew(at):
    return u8(8) + u8(at)


def tick(at):
    return u8(9) + u8(at)


class Process:
    """One line of the header."""

    def __init__(self, number, key, total=100000, corrupt=False):
        self.number = number
        self.key = key
        self.total = total
        self.corrupt = corrupt

    def spelled(self):
        return u8(self.number) + u8(1 if self.corrupt else 0) + self.key + u32(self.total)


class Schedule:
    """The header's fields and the events."""

    def __init__(self, group, processes, genesis, limit=1):
        self.group = group
        self.limit = limit
        self.processes = processes
        self.genesis = genesis
        self.events = []

    def claim(self, signer, statement):
        """A claim with the signer's true signature."""
        key = next(p.key for p in self.processes if p.number == signer)
        return signer, statement, signature(key, self.group, signer, statement)

    def header(self):
        out = (b"RPS1" + u8(0) if self.limit == 1 else b"RPS3" + u8(0) + u8(self.limit)) + self.group + u8(len(self.processes))
        out += b"".join(p.spelled() for p in self.processes)
        return out + u8(len(self.genesis)) + bytes(self.genesis)

    def spelled(self):
        return self.header() + b"".join(self.events)

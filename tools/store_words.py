#!/usr/bin/env python3
"""Compares what `store assemble`, `store tell` and `store ask` write with what docs/STORE.md and docs/FORMATS.md say of the same lines.

    python3 tools/store_words.py [FIRST [END [PROGRAM]]]

Each number from FIRST (0) up to END (200) draws a text of requests in words, a text of lines about a store, and a kit with lines that nodes
wrote, some of them damaged, and what is to be written of each is computed here, by the pages alone. PROGRAM runs in place of ./store, which must be proved (./store --prove). A
difference is printed, and at the end how many there were. The status is 1 where there is one.
"""
import pathlib
import random
import subprocess
import sys

STORE = pathlib.Path(__file__).resolve().parent.parent / "store"
VERBS = {"put": 1, "get": 2, "remove": 3, "swap": 4}
NO_REPLY = {"none": "the process does not hold the store", "spent": "the key of its replies is spent"}
NO_STATE = {
    "none": "the process did not hold the store when the view began",
    "spent": "the key of its states is spent",
    "ready": "enough members gave this state: the process holds the store",
}
REFUSED = {
    "grammar": "the bytes are no record of a state",
    "held": "the process holds the store",
    "view": "it is of another view, or the process is no member of its own",
    "stranger": "its signer is no member",
    "unsigned": "its signature is not valid under the key that was handed in, or none was",
    "known": "its signer is counted",
}


def number(n, width):
    return n.to_bytes(width, "big")


def text(data):
    return number(len(data), 2) + data


# ---- what is drawn


def some_bytes(rng, least, most):
    length = rng.choice([least, most, rng.randint(least, min(most, 12))])
    return bytes(rng.choice(b'ab "\\~') if rng.random() < 0.97 else rng.randrange(256) for _ in range(length))


def command(rng):
    """A command: its verb, its key and its values."""
    verb = rng.choice(list(VERBS))
    values = [some_bytes(rng, 0, 512) for _ in range({"put": 1, "swap": 2}.get(verb, 0))]
    return verb, some_bytes(rng, 1, 64), values


def payload(tag, asked):
    verb, key, values = asked
    return number(tag, 8) + number(VERBS[verb], 1) + number(len(key), 1) + key + b"".join(map(text, values))


def answer(rng):
    return rng.choice([b"\0", b"\1" + some_bytes(rng, 0, 512), b"\2", b"\3", b"\4", b"\5" + some_bytes(rng, 0, 512), b"\6", b"\0\0"])


def pairs(rng):
    return sorted({some_bytes(rng, 1, 64): some_bytes(rng, 0, 512) for _ in range(rng.randrange(4))}.items())


def damaged(rng, data):
    """The bytes, or some that are near them."""
    at = rng.randrange(len(data) + 1)
    return rng.choice([data, data, data, data[:at], data[:at] + b"\7" + data[at:], data + b"\0"])


# ---- how it is spelled in words


def shown(data):
    """Bytes as they are told."""
    if all(32 <= c < 127 for c in data):
        return '"' + "".join("\\" * (chr(c) in '"\\') + chr(c) for c in data) + '"'
    return data.hex()


def spelled(rng, data):
    """Bytes in any way in which they may be written."""
    ways = [data.hex() or "-"]
    if all(c >= 32 for c in data) and not any(c > 126 for c in data):
        ways.append(shown(data))
    return rng.choice(ways)


def said(tag, asked):
    verb, key, values = asked
    return " ".join([verb, str(tag), shown(key), *map(shown, values)])


# ---- what is read


class Reader:
    """Fields from the front of bytes; ValueError where they are not there or out of range."""

    def __init__(self, data):
        self.data = data

    def take(self, n):
        if len(self.data) < n:
            raise ValueError
        taken, self.data = self.data[:n], self.data[n:]
        return taken

    def number(self, width, most):
        n = int.from_bytes(self.take(width), "big")
        if n > most:
            raise ValueError
        return n

    def text(self, most):
        return self.take(self.number(2, most))

    def key(self):
        key = self.take(self.number(1, 64))
        if not key:
            raise ValueError
        return key

    def end(self):
        if self.data:
            raise ValueError


def request_in(data):
    """The tag and the command of a payload."""
    r = Reader(data)
    tag, kind = r.number(8, 2**64), r.number(1, 4)
    if not kind:
        raise ValueError
    verb = list(VERBS)[kind - 1]
    asked = verb, r.key(), [r.text(512) for _ in range({"put": 1, "swap": 2}.get(verb, 0))]
    r.end()
    return tag, asked


def reply_in(data):
    r = Reader(data)
    found = r.number(1, 63), r.number(2, 1023), r.number(2, 1023), r.number(1, 15), r.text(1024), r.text(513)
    r.text(16384)
    r.end()
    return found


def state_in(data):
    r = Reader(data)
    signer, view = r.number(1, 63), r.number(2, 1023)
    state = Reader(r.take(r.number(4, 2**32)))
    r.text(16384)
    r.end()
    return signer, view, state


def pairs_in(r):
    found = [(r.key(), r.text(512)) for _ in range(r.number(2, 4096))]
    r.end()
    if any(a >= b for (a, _), (b, _) in zip(found, found[1:])):
        raise ValueError
    return found


def told_request(data):
    try:
        return said(*request_in(data))
    except ValueError:
        return "no request"


def told_answer(data):
    if data in (b"\0", b"\2", b"\3", b"\4"):
        return {0: "done", 2: "absent", 3: "no request", 4: "full"}[data[0]]
    if data[:1] in (b"\1", b"\5"):
        return {1: "value ", 5: "differs "}[data[0]] + shown(data[1:])
    return "unknown " + shown(data)


def told_reply(p, data):
    try:
        signer, view, place, position, asked, answered = reply_in(data)
    except ValueError:
        return []
    where = f"view {view} place {place} position {position}"
    return [f"{where} : {told_request(asked)} : {told_answer(answered)}"] if signer == p else []


def told_state(p, data):
    try:
        signer, view, state = state_in(data)
        lines = [f"the store of view {view}"] + [f"{shown(key)} is {shown(value)}" for key, value in pairs_in(state)]
    except ValueError:
        return []
    return lines if signer == p else []


# ---- texts


def asking_line(rng):
    """A line of a script, and what it becomes: None where it is faulty."""
    if rng.random() < 0.2:
        line = rng.choice(["0 submit 6869", "go", "", "0 tick", "put 0 61 62", "0  put 1 61 62", "state 0 none"])
        return line, line
    p, tag, asked = rng.choice([0, 7, 63]), rng.choice([0, rng.randrange(2**64), 2**64 - 1]), command(rng)
    if asked[0] == "swap" and rng.random() < 0.8:
        asked = "swap", asked[1], [value[:200] for value in asked[2]]
    words = [str(p), asked[0], str(tag), *(spelled(rng, data) for data in [asked[1], *asked[2]])]
    whole = payload(tag, asked)
    becomes = f"{p} submit {whole.hex()}" if len(whole) <= 1024 else None
    if rng.random() < 0.05:
        becomes = None
        at, wrong = rng.choice([(0, "64"), (2, str(2**64)), (2, "01"), (3, '""'), (3, "616"), (3, "61" * 65), (3, '"a'), (len(words), "61")])
        words[at : at + 1] = [wrong]
    gap = rng.choice([" ", "  ", "\t "])
    return " ".join(words[:3]) + gap + gap.join(words[3:]) + rng.choice(["", " ", "  # that is it"]), becomes


def telling_line(rng):
    """A line about a store, and what is told of it."""
    p, view, place, position = rng.randrange(64), rng.randrange(1024), rng.randrange(1024), rng.randrange(16)
    asked = damaged(rng, payload(rng.randrange(2**64), command(rng)))[:1024]
    other = p if rng.random() < 0.9 else rng.randrange(64)
    kind = rng.randrange(9)
    if kind == 0:
        return f"deliver {p} {view} {place} 0 0 {asked.hex() or '-'}", [told_request(asked)]
    if kind == 1:
        record = damaged(rng, number(p, 1) + number(view, 2) + number(place, 2) + number(position, 1) + text(asked) + text(answer(rng)) + text(b"\1" * 32))
        return f"reply {other} {record.hex()}", told_reply(other, record)
    if kind == 2:
        state = damaged(rng, number(len(found := pairs(rng)), 2) + b"".join(number(len(key), 1) + key + text(value) for key, value in found))
        record = damaged(rng, number(p, 1) + number(view, 2) + number(len(state), 4) + state + text(b"\1" * 32))
        return f"state {other} {record.hex()}", told_state(other, record)
    if kind == 3:
        answered = answer(rng)
        return f"answer {view} {place} {position} {answered.hex()}", [told_answer(answered)]
    if kind == 4:
        word = rng.choice(list(NO_REPLY) + ["ready"])
        return f"reply {p} {word}", [NO_REPLY[word]] if word in NO_REPLY else []
    if kind == 5:
        word = rng.choice(list(NO_STATE) + ["held"])
        return f"state {p} {word}", [NO_STATE[word]] if word in NO_STATE else []
    if kind == 6:
        word = rng.choice(list(REFUSED) + ["none"])
        return f"state {p} refused {word}", ["refused: " + REFUSED[word]] if word in REFUSED else []
    if kind == 7:
        return rng.choice([(f"state {p} taken {place}", [f"members that gave this state: {place}"]), ("answer none", ["not enough members gave one answer"])])
    return rng.choice(["host 0 view 0 delivered 0 entries 0", "", "reply 64 none", "deliver 0 0 0 0 0 6", "answer", "state 0 00", " reply 0 none"]), []


# ---- what `ask` is to read

MOST_ASKED_LINE = 70000
MOST_REPLIES = 1024


def kit_lines(rng, roster, members):
    keys = [f"key {p} {rng.randbytes(32).hex()}" for p in roster]
    ports = [f"port {p} {47000 + p}" for p in roster]
    return ["rampart kit 1", "scheme plain", f"group {rng.randbytes(16).hex()}", *keys, "genesis " + " ".join(map(str, members)), *ports, "go"]


def reply_record(rng, p, asked):
    record = number(p, 1) + number(rng.choice([0, 3, 1023]), 2) + number(rng.choice([0, 1, 1023]), 2) + number(rng.randrange(16), 1)
    return record + text(asked) + text(answer(rng)) + text(rng.randbytes(32))


def written_line(rng, roster, payloads):
    """A line that a node may have written."""
    p = rng.choice([*roster, *roster, 63])
    kind = rng.randrange(8)
    if kind == 0:
        key = rng.randbytes(rng.choice([32, 32, 32, 31, 56])).hex()
        return f"replykey {p} {rng.choice([key, key, key.upper()])}" + rng.choice(["", "", "", " "])
    if kind == 1:
        members = rng.sample(range(64), rng.choice([1, 3, 4, 16, 17]))
        view = f"view {rng.choice([0, 1, 1023, 1024])} : " + " ".join(map(str, members))
        return rng.choice([view, view, view, view + " 64", view + f" {members[0]}", view.replace(" :", ":"), f"view {p} {view[5:]}"])
    if kind < 5:
        asked = rng.choice(payloads)
        record = reply_record(rng, p, asked)
        signer = p if rng.random() < 0.9 else (p + 1) % 64
        return f"reply {signer} {damaged(rng, record).hex()}"
    return rng.choice([f"reply {p} none", f"reply {p} spent", f"statekey {p} {rng.randbytes(32).hex()}", "", "  done", f"  reply {p} 00", "go",
                       f"deliver {p} 0 0 0 0 {rng.choice(payloads).hex()}", "view", "reply", "replykey", "state 0 " + "00" * 40000,
                       "reply 0 " + "00" * 40000])


def number_in(word, most):
    return word.isascii() and word.isdigit() and str(int(word)) == word and int(word) <= most


def hex_in(word):
    return word if len(word) % 2 == 0 and word and set(word) <= set("0123456789abcdef") else None


def key_in(words, roster):
    """The process of the roster whose key the words say."""
    right = len(words) == 3 and words[0] == "replykey" and number_in(words[1], 63) and int(words[1]) in roster
    return int(words[1]) if right and hex_in(words[2]) and len(words[2]) == 64 else None


def is_view(words):
    if len(words) < 4 or words[0] != "view" or words[2] != ":" or not number_in(words[1], 1023):
        return False
    members = words[3:]
    return len(members) <= 16 and all(number_in(m, 63) for m in members) and len(set(members)) == len(members)


def is_reply(words, payload):
    if len(words) != 3 or words[0] != "reply" or not number_in(words[1], 63) or not hex_in(words[2]):
        return False
    try:
        found = reply_in(bytes.fromhex(words[2]))
    except ValueError:
        return False
    return found[0] == int(words[1]) and found[4] == payload


def picked(kit, lines, roster, members, payload):
    """The lines that `ask` is to read; or the number of the first that is faulty, counted from 0 after the kit."""
    keys, view, replies = {}, "view 0 : " + " ".join(map(str, members)), []
    for n, line in enumerate(lines):
        words = line.split(" ") if len(line) <= MOST_ASKED_LINE else []
        p = key_in(words, roster)
        if p is not None:
            keys.setdefault(p, line)
        if is_view(words):
            view = line
        if is_reply(words, payload):
            if len(replies) == MOST_REPLIES:
                return n
            replies.append(line)
    return [*kit, *(keys[p] for p in roster if p in keys), view, *replies]


def asking(rng):
    """A payload, an input, and what is written of it to the output and to standard error, and the status."""
    roster = sorted(rng.sample(range(20), rng.choice([1, 3, 4, 7])))
    members = rng.sample(roster, rng.randint(1, len(roster)))
    payloads = [payload(rng.randrange(2**64), command(rng))[:1024] for _ in range(2)]
    kit, lines = kit_lines(rng, roster, members), [written_line(rng, roster, payloads) for _ in range(rng.randrange(60))]
    if rng.random() < 0.02:
        p = rng.choice(roster)
        lines += [f"reply {p} {reply_record(rng, p, payloads[0]).hex()}"] * rng.choice([1020, 1030])
    asks = picked(kit, lines, roster, members, payloads[0])
    whole = "".join(line + "\n" for line in kit + lines)
    damage = rng.random()
    if damage < 0.05:
        return payloads[0], "".join(line + "\n" for line in kit[:-1]), ("", f"stop 7 line {len(kit)}\n", 7)
    if damage < 0.1:
        return payloads[0], whole.replace("scheme plain\n", "", 1), ("", "stop 7 missing 2\n", 7)
    if isinstance(asks, int):
        return payloads[0], whole, ("", f"stop 7 line {len(kit) + asks + 1}\n", 7)
    if damage < 0.15:
        return payloads[0], whole + "reply 0 00", ("", f"stop 7 line {len(kit + lines) + 1}\n", 7)
    return payloads[0], whole, ("".join(line + "\n" for line in asks), "", 0)


def run(program, words, whole):
    done = subprocess.run([str(program), *words], input=whole, capture_output=True, text=True)
    return done.stdout, done.stderr, done.returncode


def assembled(drawn):
    """What is written to the output and to standard error, and the status."""
    wanted = ""
    for n, (_, becomes) in enumerate(drawn, 1):
        if becomes is None:
            return wanted, f"stop 7 line {n}\n", 7
        wanted += becomes + "\n"
    return wanted, "", 0


def main(first=0, end=200, program=STORE):
    differ = 0
    for n in range(int(first), int(end)):
        rng = random.Random(n)
        requests = [asking_line(rng) for _ in range(rng.randrange(12))]
        telling = [telling_line(rng) for _ in range(rng.randrange(40))]
        told = "".join(line + "\n" + "".join(f"  {it}\n" for it in its) for line, its in telling)
        asked, input_of_ask, question = asking(rng)
        whole = lambda lines: "".join(line + "\n" for line, _ in lines)
        for words, given, wanted in (
            (["assemble"], whole(requests), assembled(requests)),
            (["tell"], whole(telling), (told, "", 0)),
            (["ask", asked.hex()], input_of_ask, question),
        ):
            got = run(program, words, given)
            if got != wanted:
                differ += 1
                print(f"{n}: {words[0]} differs\n  got    {got}\n  wanted {wanted}")
    print(f"{differ} differ")
    return 1 if differ else 0


if __name__ == "__main__":
    sys.exit(main(*sys.argv[1:]))

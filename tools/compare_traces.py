#!/usr/bin/env python3
"""Compares what happens in the runs of schedules, event by event, with what another implementation does.

    python3 tools/compare_traces.py NUMBER COUNT FOLDER [PROGRAM]

FOLDER has the other implementation, as `compare_schedules.py` has it, and in world.py a `World` that keeps the outcome of each event of
each process. COUNT schedules are drawn from NUMBER on (tools/draw.py), so each of their correct processes takes a drawn list of events,
lies, batches and frames that are none among them. The trace of each (docs/FORMATS.md, «Traces»), which `story run` writes, is compared
line by line with the one made here of the other's outcomes: verdicts, how many claims are new, what is signed, delivered, installed,
told and sent, in order. Of a refusal the reason behind its word is not compared. A difference is printed, and at the end how many lists
of events and how many lines there were. PROGRAM runs in place of ./story. The status is 1 where anything differs.
"""

import pathlib
import subprocess
import sys

from compare_schedules import their_modules
from draw import drawn

STORY = pathlib.Path(__file__).resolve().parent.parent / "story"
KINDS = {1: "Init", 2: "Echo", 3: "Order", 4: "Place", 5: "Keep", 6: "Notify", 7: "End", 8: "Last", 9: "Suggest", 10: "Ack", 11: "Ready"}
SPARED = set(b'"&<>\\')
EVERYONE = 2**64 - 1


# ---- the words of a trace


def payload(data):
    begin, rest = data[:24], " .. %d bytes" % len(data) if len(data) > 24 else ""
    plain = all(32 <= byte <= 126 and byte not in SPARED for byte in data)
    return ('"%s"' % begin.decode("ascii") if plain else begin.hex()) + rest


def mask(bits):
    if bits == EVERYONE:
        return "all"
    return " ".join(str(p) for p in range(64) if bits >> p & 1) or "nobody"


def processes(numbers):
    return mask(sum(1 << p for p in numbers))


def update(what):
    kind, p = what
    return "renew" if kind == 3 else "%s %d" % (("remove", "add")[kind - 1], p)


def cut(what):
    return "cut %d and %s" % (what[1], update(what[0]))


def statement(said):
    kind, view, rest = said[0], said[1], said[2:]
    name = KINDS[kind]
    if kind == 1:
        return "%s %d in view %d: %s" % (name, rest[0], view, payload(rest[1]))
    if kind == 2:
        return "%s of %d/%d in view %d: %s" % (name, rest[0], rest[1], view, payload(rest[2]))
    if kind in (3, 4, 5):
        return "%s of place %d in view %d: %s" % (name, rest[0], view, " ".join("%d/%d" % pair for pair in rest[1]))
    if kind == 6:
        return "%s in view %d: %s" % (name, view, update(rest[0]))
    if kind == 7:
        return "%s of view %d behind %d places" % (name, view, rest[0])
    head = "%s at rank %d in view %d: " % (name, rest[0], view)
    if kind == 8:
        return head + ("no Ready" if rest[1] is None else "Ready at rank %d %s" % (rest[1][0], cut(rest[1][1])))
    return head + cut(rest[1])


def asked(event):
    what = event[0]
    if what == "submit":
        return "%d is asked to send %s" % (event[1], payload(event[2]))
    if what == "raw":
        return "%d bytes are handed to %d as a frame of %d" % (len(event[3]), event[1], event[2])
    if what == "pass":
        return "frame %d is handed to %d" % event[1:]
    if what == "drain":
        return "up to %d deliveries are made to %s" % (event[1], mask(event[2]))
    if what == "lie":
        return "%d lies to %s" % (event[1], mask(event[2]))
    if what == "suspect":
        return "%d is told to have %d removed" % event[1:]
    if what == "join":
        return "%d is told to have %d added" % event[1:]
    return {"renew": "%d is told to have a next view", "tick": "time passes for %d"}[what] % event[1]


def told(p, note):
    what, rest = note[0], note[1:]
    if what == "delivered":
        return "%d delivers %d/%d at place %d of view %d: %s" % (p, rest[2], rest[3], rest[1], rest[0], payload(rest[4]))
    if what == "installed":
        return "%d installs view %d: %s" % (p, rest[0], " ".join(map(str, rest[1])))
    if what == "liar":
        return "%d names %d a liar" % (p, rest[0])
    if what == "spent":
        return "%d has no signature left for what is due" % p
    return "%d halts for good: places delivered %d of a view that is cut to %d" % ((p,) + rest)


# ---- the other implementation's run


def their_world(world_module):
    class Told(world_module.World):
        """Their world, which tells each event in the words of a trace."""

        def __init__(self, schedule):
            world_module.World.__init__(self, schedule, "batch" if schedule.magic == b"RPS3" else "hss")
            self.lines, self.frame, self.lists = [], None, set()

        def say(self, line):
            self.lines.append("  " + line)

        def _hand_over(self, j, to):
            if to not in self.correct:
                return
            self.frame = j
            world_module.World._hand_over(self, j, to)
            self.frame = None

        def _step(self, p, event):
            if p not in self.correct:
                return
            self.lists.add(p)
            where = "it"
            if event[0] == "frame":
                where = "bytes of %d" % event[1] if self.frame is None else "frame %d of %d" % (self.frame, event[1])
            self.outcomes = []
            first = len(self.frames)
            world_module.World._step(self, p, event)
            outcome = self.outcomes[0][3]
            if outcome.refused is not None:
                self.say("%d refuses %s as %s" % (p, where, outcome.refused))
                return
            if event[0] == "frame":
                new = outcome.verdicts.count("heard")
                self.say("%d hears %d new claim%s in %s" % (p, new, "" if new == 1 else "s", where))
            for claim in outcome.signed:
                self.say("%d signs %s" % (p, statement(claim.statement)))
            for note in outcome.notes:
                self.say(told(p, note))
            for j, (to, _) in enumerate(outcome.sends):
                self.say("%d sends frame %d to %s" % (p, first + j, processes(to)))

        def _lie(self, signer, to, spelled):
            first = len(self.frames)
            world_module.World._lie(self, signer, to, spelled)
            if len(self.frames) == first:
                self.say("%d has no signature left, and sends nothing" % signer)
                return
            said = world_module.read_statement(spelled, batches=self.rules.batches)
            self.say("%d signs %s" % (signer, statement(said)))
            self.say("%d sends frame %d to %s" % (signer, first, mask(to)))

        def event(self, event):
            if event[0] != "drain":
                return world_module.World.event(self, event)
            self.event_number += 1
            for _ in range(event[1]):
                if not self.pending:
                    break
                j, to = self.pending.popleft()
                if event[2] >> to & 1:
                    self._hand_over(j, to)
                else:
                    self.say("frame %d of %d to %d is lost" % (j, self.frames[j][0], to))

    return Told


def theirs(schedule, told_world, world_module):
    """The lines of their trace, and how many processes took a list of events."""
    world = told_world(schedule)
    for p, corrupt, _ in schedule.processes:
        world.lines.append("process %d: %s" % (p, "corrupt" if corrupt else "correct"))
    world.lines.append("view 0: " + " ".join(map(str, schedule.genesis)))
    for number, event in enumerate(schedule.events):
        world.lines.append("event %d: %s" % (number, asked(event)))
        try:
            world.event(event)
        except world_module.RunFault:
            world.lines.append("the run stops here")
            break
    return world.lines, len(world.lists)


def ours(program, data):
    ran = subprocess.run([program, "run"], input=data, capture_output=True)
    lines = ran.stdout.decode("ascii", "replace").splitlines()
    return [line.split(" since ")[0] if " refuses " in line else line.split(": ")[0] if "run stops here" in line else line
            for line in lines]


def main(first, count, folder, program=STORY):
    if program == STORY:
        subprocess.run([str(STORY), "--prove"], check=True)
    reader = their_modules(folder).other
    ours_of_schedules = sys.modules.pop("schedules")
    sys.modules["schedules"] = reader
    import world as world_module

    sys.modules["schedules"] = ours_of_schedules
    told_world = their_world(world_module)
    seen = lists = lines = different = 0
    for number in range(int(first), int(first) + int(count)):
        data = drawn(number)
        try:
            schedule = reader.read_schedule(data, known="batch")
        except reader.ScheduleFault:
            continue
        expected, took = theirs(schedule, told_world, world_module)
        got = [line.lstrip() if "run stops here" in line else line for line in ours(program, data)]
        seen, lists, lines = seen + 1, lists + took, lines + len(expected)
        if got != expected:
            different += 1
            at = next((i for i, pair in enumerate(zip(got, expected)) if pair[0] != pair[1]), min(len(got), len(expected)))
            print("schedule %d, line %d:\n  ours   %s\n  theirs %s" % (number, at, got[at:at + 1], expected[at:at + 1]))
    print("%d schedules, %d lists of events, %d lines: %d different" % (seen, lists, lines, different))
    return 1 if different else 0


if __name__ == "__main__":
    if len(sys.argv) not in (4, 5):
        raise SystemExit(__doc__)
    sys.exit(main(*sys.argv[1:]))

#!/usr/bin/env python3
"""Writes a schedule in which a group of correct processes sends payloads and every frame reaches every other process.

    python3 tools/flood.py SUBMITS GROUP > FILE

The submits go round the group, and after each round all that waits is delivered.
"""

import sys

from schedules import Process, Schedule, drain, submit, u32

WAITING = 4000


def flood(submits, group):
    schedule = Schedule(bytes(16), [Process(p, bytes([p]) * 32) for p in range(group)], list(range(group)))
    for i in range(submits):
        schedule.events.append(submit(i % group, u32(i) * 8))
        if i % group == group - 1 or i == submits - 1:
            schedule.events.append(drain(WAITING))
    return schedule.spelled()


if __name__ == "__main__":
    sys.stdout.buffer.write(flood(int(sys.argv[1]), int(sys.argv[2])))

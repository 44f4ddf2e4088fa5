"""What a guard asks of hostile frames, beside hearing them.

One member of a group of 16 is a node of its own, and gets one frame again and again, a datagram at a time. No signature in the frame is valid,
so whom the node is to suspect after it, a guard asks of each other member, and nobody is convicted. The seconds are those of the processor that
the whole program took, of each kind of run the least of several. What `guard` takes beyond `node` is the asking; what `node` takes beyond the
same with a frame of as many bytes and few claims is the hearing. bench/chain.sh runs it: [--program PROGRAM] [--folder FOLDER] [--runs NUMBER].
"""
import argparse
import os
import pathlib
import re
import shutil
import socket
import subprocess
import sys
import tempfile

TOP = pathlib.Path(__file__).resolve().parent.parent
sys.path.insert(0, str(TOP / "tools"))
import group

MEMBERS, ME, LIAR = 16, 0, 1
SIGNATURE_BYTES = 16384
# a signature of a tree of height 5 with W8, with the typecodes of both: it is verified to its end
FORGED_TREE = bytes(4) + bytes([0, 0, 0, 4]) + bytes(1120) + bytes([0, 0, 0, 5]) + bytes(160)


def end(view, length):
    return bytes([7]) + view.to_bytes(2, "big") + length.to_bytes(2, "big")


def text(it):
    return len(it).to_bytes(2, "big") + it


def bundle(groups):
    """The Bundle of these groups: a statement each, and the signature of each of its signers."""
    frame = bytes([1, 1, len(groups)])
    for statement, signed in groups:
        frame += text(statement) + bytes([len(signed)]) + b"".join(bytes([p]) + text(signature) for p, signature in signed)
    return frame


def filler(size):
    """A Bundle of so many bytes, of one statement with few signatures: most of each is empty room."""
    left, signed = size - 11, []
    while left >= 3:
        length = min(left - 3, SIGNATURE_BYTES)
        signed.append((LIAR + len(signed), bytes(length)))
        left -= 3 + length
    return bundle([(end(0, 0), signed)])


# the name, the keys, the frame, how often it is heard in a run, and the goal
FRAMES = [
    ("46 Ends of one signer, H5 W8", "lms:5:4", bundle([(end(0, at), [(LIAR, FORGED_TREE)]) for at in range(46)]), 50, "1 time"),
    (
        "255 groups of 16 empty signatures", "plain:1000",
        bundle([(end(at // 3, at % 3), [(p, b"") for p in range(MEMBERS)]) for at in range(255)]), 200, "50 ms",
    ),
    ("255 Ends of one signer, plain", "plain:1000", bundle([(end(0, at), [(LIAR, bytes(32))]) for at in range(255)]), 1000, "1 time"),
]


def free_port():
    with socket.socket(socket.AF_INET, socket.SOCK_DGRAM) as any_port:
        any_port.bind(("127.0.0.1", 0))
        return any_port.getsockname()[1]


def kit_of(program, keys):
    order = [program, "keygen", str(MEMBERS), str(MEMBERS), keys, "07" * 32]
    made = subprocess.run(order, check=True, stdout=subprocess.PIPE, text=True).stdout
    return group.Kit(re.sub(rf"port {ME} \d+", f"port {ME} {free_port()}", made))


def expect(child, wanted):
    line = child.stdout.readline().rstrip("\n")
    if not line.startswith(wanted):
        raise SystemExit(f"{wanted!r} was to come, and {line!r} came")
    return line


def hear(child, kit, link, datagram):
    link.sendto(datagram, ("127.0.0.1", kit.ports[ME]))
    for _ in range(1000):
        child.stdin.write(f"{ME} recv 1\n")
        child.stdin.flush()
        if expect(child, f"recv {ME} ").endswith("1"):
            return
    raise SystemExit("a datagram did not come")


def spent(program, word, kit, folder, frame, times):
    """The seconds of the processor that a node takes which hears the frame so many times."""
    journal = folder / "journal"
    journal.unlink(missing_ok=True)
    datagram = kit.datagram(LIAR, ME, frame)
    child = subprocess.Popen([program, word, str(journal)], stdin=subprocess.PIPE, stdout=subprocess.PIPE, text=True)
    child.stdin.write(kit.of(ME))
    child.stdin.flush()
    expect(child, f"host {ME} ")
    with socket.socket(socket.AF_INET, socket.SOCK_DGRAM) as link:
        for _ in range(times):
            hear(child, kit, link, datagram)
    child.stdin.close()
    if rest := child.stdout.read():
        raise SystemExit(f"at the end {rest!r} came")
    _, status, usage = os.wait4(child.pid, 0)
    child.returncode = os.waitstatus_to_exitcode(status)
    if child.returncode:
        raise SystemExit(f"{word} ended with {child.returncode}")
    return usage.ru_utime + usage.ru_stime


def measured(words, folder, name, keys, frame, times, goal):
    kit = kit_of(words.program, keys)
    kinds = {"empty": ("node", filler(len(frame))), "node": ("node", frame), "guard": ("guard", frame)}
    least = dict.fromkeys(kinds, float("inf"))
    for _ in range(words.runs):
        for kind, (word, heard) in kinds.items():
            least[kind] = min(least[kind], spent(words.program, word, kit, folder, heard, times))
    ask, heard = (least["guard"] - least["node"]) / times, (least["node"] - least["empty"]) / times
    print(
        f"{name}, {len(frame):,} bytes: asked about in {1000 * ask:.3f} ms, heard in {1000 * heard:.3f} ms,"
        f" {ask / heard:.2f} times (goal: at most {goal})", flush=True,
    )


def main():
    words = argparse.ArgumentParser(description=__doc__)
    words.add_argument("--program", default=str(TOP / "crates" / "rampart" / "out" / "rampart"))
    words.add_argument("--folder")
    words.add_argument("--runs", type=int, default=5)
    words = words.parse_args()
    folder = pathlib.Path(tempfile.mkdtemp(prefix="bench-chain-", dir=words.folder))
    try:
        for row in FRAMES:
            measured(words, folder, *row)
    finally:
        shutil.rmtree(folder, ignore_errors=True)


if __name__ == "__main__":
    main()

#!/usr/bin/env python3
"""Runs pages of docs as their reader does, and holds what is written against what they show.

    python3 tools/tutorial.py            runs TUTORIAL, EVIDENCE and STORE; the status is 1 where anything differs
    python3 tools/tutorial.py PAGE       runs this one of them
    python3 tools/tutorial.py write      writes the tutorial's stories and what is shown of them for the gate's tests (crates/program_tests)

A block of a page that begins with `$ ` is a command, and what is written then; another one is a file, named in the line before it.
"""
import contextlib
import os
import pathlib
import re
import signal
import subprocess
import sys
import tempfile
import time

TOP = pathlib.Path(__file__).resolve().parent.parent
PAGES = ("TUTORIAL", "EVIDENCE", "STORE")
PROGRAMS = ("story", "rampart", "witness", "store")
# that a command may take
MOST_SECONDS = 300
# that what is left of one may take to put away what it made
LAST_SECONDS = 10
DATA = TOP / "crates" / "program_tests" / "src" / "tutorial" / "data.rt"


def blocks(page):
    """Each block of the page, and the line of text before it."""
    before = ""
    lines = iter((TOP / "docs" / f"{page}.md").read_text().splitlines())
    for line in lines:
        if line.startswith("```"):
            block = []
            for inside in lines:
                if inside.startswith("```"):
                    break
                block.append(inside)
            yield before, block
        elif line:
            before = line


def steps(page):
    """The files and the commands of the page, in order: a name and its text, or a command and what it writes."""
    for before, block in blocks(page):
        text = "".join(line + "\n" for line in block[1:])
        if block[0].startswith("$ "):
            yield "command", block[0][2:], text
        else:
            yield "file", re.search(r"`(\w+\.(?:story|lines))`", before).group(1), block[0] + "\n" + text


def is_left(child):
    """Whether anything of the command's process group runs."""
    child.poll()
    try:
        os.killpg(child.pid, 0)
        return True
    except ProcessLookupError:
        return False


def end(children):
    """Ends what runs of these commands. Each may put away what it made."""
    for how in (signal.SIGTERM, signal.SIGKILL):
        until = time.monotonic() + LAST_SECONDS
        for it in filter(is_left, children):
            with contextlib.suppress(ProcessLookupError):
                os.killpg(it.pid, how)
        while any(map(is_left, children)) and time.monotonic() < until:
            time.sleep(0.05)


def said(command, folder, children):
    """Runs a command in a process group of its own, and returns what it wrote to standard output and to standard error."""
    child = subprocess.Popen(
        ["bash", "-c", command], cwd=folder, stdout=subprocess.PIPE, stderr=subprocess.PIPE, text=True, start_new_session=True)
    children.append(child)
    try:
        told = child.communicate(timeout=MOST_SECONDS)
    except subprocess.TimeoutExpired:
        return "", f"not ended in {MOST_SECONDS} seconds\n"
    if not is_left(child):
        children.remove(child)
    return told


def run(page, folder, children):
    """Runs the commands of the page in this folder, and returns how many of them wrote something else than it shows."""
    differ = 0
    for name in (*PROGRAMS, "tools", "examples"):
        (pathlib.Path(folder) / name).symlink_to(TOP / name)
    for what, name, text in steps(page):
        if what == "file":
            (pathlib.Path(folder) / name).write_text(text)
            continue
        output, errors = said(name, folder, children)
        told = "".join(line + "\n" for line in errors.splitlines() if not re.match(rf"({'|'.join(PROGRAMS)}): ", line))
        if output + told != text:
            differ += 1
            print(f"{page} differs: {name}\n{output}{told}")
    return differ


def run_alone(page):
    """The same, in a folder of its own. Whatever ends it, no process and no file is left."""
    children = []
    with tempfile.TemporaryDirectory() as folder:
        try:
            return run(page, folder, children)
        finally:
            end(children)


def run_all(pages):
    for program in PROGRAMS:
        subprocess.run([str(TOP / program), "--prove"], check=True)
    differ = sum(run_alone(page) for page in pages)
    print(f"{differ} differ")
    return 1 if differ else 0


def spelled(text):
    """A byte string of the language, with line feeds as they are."""
    return 'b"' + text.replace("\\", "\\\\").replace('"', '\\"') + '"'


def write():
    stories, replays, runs, faults = {}, [], [], []
    for what, name, text in steps("TUTORIAL"):
        words = re.match(r"\./(\w+) (\w+)(?: \w+)* < (\w+)\.rps", name)
        if what == "file":
            stories |= {name.removesuffix(".story"): text} if name.endswith(".story") else {}
        elif words and words.group(2) == "replay":
            replays.append((words.group(3), text))
        elif words and words.group(2) == "run":
            runs.append((words.group(3), text))
        elif name.endswith("| ./story assemble"):
            faults.append((re.match(r"echo '(.*)' \| \./story assemble$", name).group(1) + "\n", text))
    out = ["//! The stories of docs/TUTORIAL.md, and what it shows of them; written by tools/tutorial.py.", ""]
    for name, text in stories.items():
        out += [f"const {name.upper()}: &[u8] = {spelled(text)};", ""]
    for about, name, pairs in (("Stories, and the reports of their schedules.", "REPORTS", replays), ("Stories, and parts of their traces.", "TRACES", runs)):
        out += [f"/// {about}", f"pub const {name}: [(&[u8], &[u8]); {len(pairs)}] = ["]
        out += [f"({story.upper()}, {spelled(text)})," for story, text in pairs] + ["];", ""]
    out += ["/// Texts that are no stories, and what is reported of them.", f"pub const FAULTS: [(&[u8], &[u8]); {len(faults)}] = ["]
    out += [f"({spelled(text)}, {spelled(told)})," for text, told in faults] + ["];", ""]
    DATA.write_text("\n".join(out))
    return 0


if __name__ == "__main__":
    signal.signal(signal.SIGTERM, lambda *_: sys.exit(143))
    try:
        sys.exit(write() if sys.argv[1:] == ["write"] else run_all(sys.argv[1:] or PAGES))
    except KeyboardInterrupt:
        sys.exit(130)

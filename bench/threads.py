#!/usr/bin/env python3
"""Runs random scripts by many threads, and judges each report against a plain array.

Usage: bench/threads.py [COUNT [SEED]], after ./demo, which builds the programs. COUNT scripts (300 where none is given) of up
to 64 callers are run by `zreplay` over an image in a file, by 1, 2, 4 and 64 actors in turn. Which steps come first is up to
the threads, so no report is known beforehand: a reader that shares no code with the product looks that each line is a piece
of its request, that each caller's pieces come once and in their order, that all are there, that each read tells what the
lines before it made of the device, and that the numbers behind `@` never fall and grow with each write. Then the image is
opened and read back. At the end stands in how many runs callers were answered in another order than that of the script.
"""
import random
import subprocess
import sys
import tempfile
from collections import Counter
from pathlib import Path

from compare_scripts import EMPTY, FULL, LOOSE, MAKE, TOP, all_pieces, fill, items, pattern, ran, read_back
from compare_scripts import right

PROGRAM = TOP / "crates/zreplay/out/zreplay"
ACTORS = (1, 2, 4, 64)
CALLERS = range(64)


def request(callers):
    """A request of one of so many callers."""
    letters, _, *rest = right(1).split(" ")
    return " ".join([letters, str(random.choice(CALLERS[:callers])), *rest])


def parsed(script):
    """The requests of a script, as letters and numbers."""
    for line in script.splitlines():
        letters, *numbers = line.split(" ")
        yield letters.encode(), [int(number) for number in numbers]


def replies(piece, content):
    """The reply that the array wants to a piece. A write and a discard change it."""
    _, _, form, seed, sectors = piece
    if form == "f":
        return "done"
    if sectors is None:
        return "range"
    first, end = sectors
    if form in ("r", "rs"):
        return "data " + ",".join(items(content, first, end))
    content[first:end] = EMPTY[first:end] if form == "d" else [pattern(seed[0], at) for at in range(first, end)]
    return "done"


def judge(report, script, content):
    """Why the report isn't one of this script over this content; None where it is. It changes the content."""
    waiting = {}
    for piece in all_pieces(parsed(script)):
        waiting.setdefault(piece[0], []).append(piece)
    *lines, ending = report.splitlines()
    if ending != "end 0 ok":
        return f"it ended {ending}"
    before = 0
    for line in lines:
        caller = int(line.split(" ")[0])
        if not waiting.get(caller):
            return f"{line}: the caller has no such piece left"
        piece = waiting[caller].pop(0)
        at = int(line.rsplit("@", 1)[1])
        if line != f"{piece[1]} {replies(piece, content)} @{at}":
            return f"{line}: not the reply of an array"
        is_write = piece[2] in ("w", "ws") and piece[4] is not None
        if at < before or (is_write and at == before):
            return f"{line}: the number of calls stands wrong"
        before = at
    left = sum(map(len, waiting.values()))
    return f"{left} pieces aren't answered" if left else None


def is_in_order(report):
    """Whether all requests were answered in the order of the script."""
    numbers = [int(line.split(" ")[1]) for line in report.splitlines()[:-1]]
    return numbers == sorted(numbers)


def try_run(disk, image, start, actors):
    """One run; the report. It ends the program where the report or the image is wrong."""
    disk.write_bytes(image)
    content = list(start)
    callers = random.choice((1, 2, 5, 64))
    script = "".join(request(callers) + "\n" for _ in range(random.randint(1, 60)))
    run = subprocess.run([PROGRAM, "--actors", str(actors), disk, "-"], input=script, capture_output=True, text=True, timeout=120)
    why = judge(run.stdout, script, content)
    if why is None:
        again, want = read_back(content)
        why = None if ran(disk, again) == (want, 0) else "the image reads otherwise afterwards"
    if why is not None:
        sys.exit(f"{actors} actors, script {script!r}\n{run.stdout}\n{why}")
    return run.stdout


def main():
    count = int(sys.argv[1]) if len(sys.argv) > 1 else 300
    random.seed(int(sys.argv[2]) if len(sys.argv) > 2 else 1)
    runs, moved = Counter(), Counter()
    with tempfile.TemporaryDirectory() as folder:
        disk = Path(folder) / "disk.img"
        subprocess.run([MAKE, disk], check=True)
        fresh = disk.read_bytes()
        volumes = [(fresh, EMPTY), fill(fresh, FULL)[:2], fill(fresh, LOOSE)[:2]]
        for number in range(count):
            actors = ACTORS[number % len(ACTORS)]
            report = try_run(disk, *random.choice(volumes), actors)
            runs[actors] += 1
            moved[actors] += not is_in_order(report)
    for actors in ACTORS:
        print(f"{actors:2} actors: {runs[actors]} runs, {moved[actors]} of them answered in another order than the script's")
    print(f"{count} runs, each report was one of a plain array")


if __name__ == "__main__":
    main()

#!/usr/bin/env python3
"""Compares zreplay_one with a plain, slow reading of the rules, on random scripts over three volumes.

Usage: bench/compare_scripts.py [COUNT [SEED]], after ./demo, which builds the programs.
It stops at the first difference. Half of the scripts lie near the rules: numbers at their bounds, and small slips. The
others are of right requests of up to three callers, with many writes. One volume is fresh; the others have blocks in zones
and in buffer zones, and sectors of every kind of item, and one of them has conventional zones to spare. Each script runs
over a copy of its own, and after a run that ended well the image is read back by a second run. The end tells how often
each place of a write was taken, and each job done.
"""
import random
import re
import struct
import subprocess
import sys
import tempfile
from collections import Counter
from itertools import groupby
from pathlib import Path

from volume_model import Volume

TOP = Path(__file__).resolve().parent.parent
PROGRAM = TOP / "crates/zreplay_one/out/zreplay_one"
MAKE = TOP / "examples/fresh/make"
BLOCKS, CHUNK, BLOCK_SECTORS, SECTOR = 128, 16, 8, 512
BLOCK, CONVENTIONAL, POINTERS, ZONES = BLOCK_SECTORS * SECTOR, 6, 4096, 8192
EMPTY = [bytes(SECTOR)] * (BLOCKS * BLOCK_SECTORS)
METADATA, ALL_ZONES = 2, 12
# Chunk: its zone and its buffer zone, which is conventional, or None. The other chunks have no zone.
FULL = {0: (6, 2), 1: (3, None), 2: (9, None), 4: (7, 5), 7: (4, None)}
LOOSE = {0: (6, 2), 1: (3, None), 2: (9, None), 4: (7, None)}

NUMBER = rb"(0|[1-9][0-9]*)"
FIELDS = {"r": 3, "w": 4, "d": 3, "f": 1, "rs": 3, "ws": 4}
FORMS = {
    letters.encode(): re.compile(letters.encode() + (b" " + NUMBER) * count)
    for letters, count in FIELDS.items()
}
EDGES = [0, 1, 2, 7, 8, 15, 16, 63, 64, 127, 128, 1023, 1024, 32768, 32769, 262137, 262138, 262144, 262145,
         4194304, 4194305, 2**32 - 1, 2**32, 2**64 - 1, 2**64]


def refusal(line, is_ended):
    """The rule that a line breaks by itself, or its letters and numbers."""
    letters = line.split(b" ")[0]
    match = FORMS[letters].fullmatch(line) if letters in FORMS else None
    if not match or not is_ended:
        return "form", None
    numbers = [int(number) for number in match.groups()]
    if letters != b"f" and not (numbers[1] < 2**64 and 1 <= numbers[2] < 2**32):
        return "number", None
    if letters in (b"w", b"ws") and numbers[3] >= 2**32:
        return "number", None
    if numbers[0] > 63:
        return "caller", None
    return None, (letters, numbers)


def touched(letters, numbers):
    """How many blocks a request reads or writes, those in part too, and how many it discards."""
    if letters in (b"r", b"w"):
        return numbers[2], 0
    if letters in (b"rs", b"ws"):
        first, last = numbers[1] // BLOCK_SECTORS, (numbers[1] + numbers[2] - 1) // BLOCK_SECTORS
        return last - first + 1, 0
    return 0, numbers[2] if letters == b"d" else 0


def pattern(seed, sector):
    """The 512 bytes that a write of a seed puts into a sector."""
    return struct.pack("<64Q", *((seed << 32) + (64 * sector + word) % 2**32 for word in range(64)))


def kind(sector, data):
    """Which kind of item a sector is: zeros, the pattern of a seed, or any other."""
    seed = struct.unpack_from("<I", data, 4)[0]
    if not any(data):
        return "z"
    return f"p{seed}x" if data == pattern(seed, sector) else "h" + data.hex()


def items(content, first, end):
    """The items of the sectors from first to before end, each row as long as it can be."""
    for name, row in groupby(kind(sector, content[sector]) for sector in range(first, end)):
        count = len(list(row))
        yield from [name] * count if name[0] == "h" else [f"{name}{count}"]


def pieces(place, count, chunk):
    """A request cut at the bounds of chunks: where each piece begins, and where it ends."""
    at = place
    while at < place + count:
        end = min((at // chunk + 1) * chunk, place + count)
        yield at, end
        at = end


def all_pieces(requests):
    """The pieces of a script, each in its request's own unit, blocks or sectors: its caller, the front of its line, its
    form, its seed, and the sectors from where to before where; None for those of a flush and of a request out of range."""
    for request, (letters, numbers) in enumerate(requests, 1):
        form, caller = letters.decode(), numbers[0]
        if form == "f":
            yield caller, f"{caller} {request} 0 f", form, None, None
            continue
        place, count, *seed = numbers[1:]
        sectors = 1 if form in ("rs", "ws") else BLOCK_SECTORS
        units = BLOCK_SECTORS // sectors
        rest = "".join(f" {number}" for number in seed)
        if place + count > BLOCKS * units:
            yield caller, f"{caller} {request} 0 {form} {place} {count}{rest}", form, seed, None
            continue
        for piece, (at, end) in enumerate(pieces(place, count, CHUNK * units)):
            line = f"{caller} {request} {piece} {form} {at} {end - at}{rest}"
            yield caller, line, form, seed, (at * sectors, end * sectors)


def answers(requests, content, volume):
    """The report's lines. Of each caller the first piece that isn't answered is looked at, in the script's order. What
    can be answered is; else the flushes are, by a commit; else a write waits, for a commit or for a job."""
    waiting = list(all_pieces(requests))
    while waiting:
        firsts = {}
        for piece in waiting:
            firsts.setdefault(piece[0], piece)
        flushes = [piece for piece in firsts.values() if piece[2] == "f"]
        replies = ((piece, reply(piece, content, volume)) for piece in firsts.values() if piece[2] != "f")
        served = next(((piece, text) for piece, text in replies if text is not None), None)
        if served:
            waiting.remove(served[0])
            yield f"{served[0][1]} {served[1]} @{volume.calls}"
        elif flushes:
            volume.flush()
            for piece in flushes:
                waiting.remove(piece)
                yield f"{piece[1]} done @{volume.calls}"
        elif volume.limbo:
            volume.flush()
        else:
            volume.reclaim()
    yield "end 0 ok"


def reply(piece, content, volume):
    """The reply to a piece; None where it is a write that finds no zone."""
    _, _, form, seed, sectors = piece
    return answer(form, content, volume, *sectors, seed) if sectors else "range"


def answer(form, content, volume, first, end, seed):
    """The reply to a piece of sectors `first` to before `end`; None where a write finds no zone."""
    if form in ("r", "rs"):
        return "data " + ",".join(items(content, first, end))
    blocks = first // BLOCK_SECTORS, -(-end // BLOCK_SECTORS)
    chunk = blocks[0] // CHUNK
    inside = blocks[0] % CHUNK, blocks[1] - chunk * CHUNK
    if form == "d":
        volume.discard(chunk, *inside)
        content[first:end] = EMPTY[first:end]
        return "done"
    if not volume.write(chunk, *inside):
        return None
    content[first:end] = [pattern(seed[0], sector) for sector in range(first, end)]
    return "done"


def wanted(script, content, volume):
    """What the program has to print, and its status."""
    lines = script.split(b"\n")
    rest = lines.pop()
    moved = discarded = 0
    requests = []
    for number, line in enumerate(lines + [rest] if rest else lines, 1):
        why, request = refusal(line, number <= len(lines))
        if not why:
            more = touched(*request)
            moved, discarded = moved + more[0], discarded + more[1]
            why = "long" if moved > 32768 or discarded > 4194304 else None
        if why:
            return f"end 2 script {number} {why}\n", 2
        requests.append(request)
    report = [*answers(requests, content, volume)]
    return "\n".join(report) + "\n", int(report[-1].split()[1])


def zone_block(zone, block):
    """Where in the image file a block of a zone begins, in bytes."""
    return ZONES + (zone * CHUNK + block) * BLOCK


def random_sectors(block):
    """Eight sectors of one block: patterns of one seed for the most part, and some of the other kinds."""
    seed = random.choice([0, 1, 7, 2**32 - 1])
    for sector in range(block * BLOCK_SECTORS, (block + 1) * BLOCK_SECTORS):
        other = [bytes(SECTOR), pattern(seed, sector + 1), pattern(seed, sector)[:-1] + b"!", random.randbytes(SECTOR)]
        yield random.choice(other) if random.random() < 0.3 else pattern(seed, sector)


def fill(image, mapped):
    """Maps chunks of a fresh image in both sets, fills some of their blocks, and gives the content's sectors, and
    what a model of the volume is made of."""
    content, valid, pointers = list(EMPTY), {}, {}
    filled = bytearray(image).ljust(zone_block(ALL_ZONES, 0), b"\0")
    for chunk, zones in mapped.items():
        entry = struct.pack("<II", *(0xFFFFFFFF if zone is None else zone for zone in zones))
        for set_zone in (0, 1):
            place = zone_block(set_zone, 1) + chunk * len(entry)
            filled[place:place + len(entry)] = entry
        for block in range(CHUNK):
            zone = random.choice([*zones, None])
            if zone is not None:
                fill_block(filled, content, chunk, zone, block)
                valid.setdefault(zone, set()).add(block)
                pointers[zone] = block + 1
    return bytes(filled), content, (mapped, valid, {zone: at for zone, at in pointers.items() if zone >= CONVENTIONAL})


def fill_block(filled, content, chunk, zone, block):
    """Puts one valid block into a zone: its bit in both sets, its sectors, the zone's pointer behind it."""
    sectors = list(random_sectors(chunk * CHUNK + block))
    first = (chunk * CHUNK + block) * BLOCK_SECTORS
    content[first:first + BLOCK_SECTORS] = sectors
    place = zone_block(zone, block)
    filled[place:place + BLOCK] = b"".join(sectors)
    for set_zone in (0, 1):
        filled[zone_block(set_zone, 2 + zone) + block // 8] |= 1 << block % 8
    if zone >= CONVENTIONAL:
        struct.pack_into("<I", filled, POINTERS + 4 * zone, (block + 1) * BLOCK_SECTORS)


def number():
    text = str(random.choice(EDGES) if random.random() < 0.5 else random.randint(0, 130))
    return "0" + text if random.random() < 0.02 else text


def slip():
    letters = random.choice(["r", "rs", "d", "f"] if random.random() < 0.9 else ["w", "ws"])
    fields = [number() for _ in range(FIELDS[letters])]
    if letters == "rs" and random.random() < 0.4:
        fields[1] = str(random.randint(0, BLOCKS * BLOCK_SECTORS))
    if random.random() < 0.8:
        fields[0] = "0"
    if len(fields) > 2 and random.random() < 0.8:
        fields[2] = str(random.randint(1, 300 if letters == "rs" else 40))
    if random.random() < 0.03:
        fields.append(number())
    return " ".join([letters, *fields])


def right(callers):
    """A request of one of so many callers that is right, inside one chunk for the most part."""
    letters = random.choice(["w", "w", "w", "ws", "ws", "d", "r", "rs", "f"])
    caller = random.choice([0, 63, 7][:callers])
    if letters == "f":
        return f"f {caller}"
    units = BLOCK_SECTORS if letters in ("rs", "ws") else 1
    chunk = random.randrange(8)
    first = random.randrange(CHUNK * units)
    count = random.randint(1, 6 * units if random.random() < 0.2 else min(CHUNK * units - first, 6 * units))
    if letters == "d" and random.random() < 0.3:
        first, count = 0, CHUNK
    seed = f" {random.choice([1, 2, 7, 2**32 - 1])}" if letters in ("w", "ws") else ""
    return f"{letters} {caller} {chunk * CHUNK * units + first} {count}{seed}"


def main():
    count = int(sys.argv[1]) if len(sys.argv) > 1 else 3000
    random.seed(int(sys.argv[2]) if len(sys.argv) > 2 else 1)
    with tempfile.TemporaryDirectory() as folder:
        disk = Path(folder) / "disk.img"
        subprocess.run([MAKE, disk], check=True)
        fresh = disk.read_bytes()
        volumes = {"fresh": (fresh, EMPTY, ({}, {}, {})), "full": fill(fresh, FULL), "loose": fill(fresh, LOOSE)}
        compare(count, disk, volumes)


def ran(disk, script):
    run = subprocess.run([PROGRAM, disk, "-"], input=script, capture_output=True)
    return run.stdout.decode(), run.returncode


def read_back(content):
    """The script that reads the whole device, and what it has to print over this content."""
    lines = [f"r 0 {chunk * CHUNK} {CHUNK}" for chunk in range(BLOCKS // CHUNK)]
    size = CHUNK * BLOCK_SECTORS
    report = [f"0 {chunk + 1} 0 r {chunk * CHUNK} {CHUNK} data "
              + ",".join(items(content, chunk * size, (chunk + 1) * size)) + " @0" for chunk in range(BLOCKS // CHUNK)]
    return ("\n".join(lines) + "\n").encode(), "\n".join([*report, "end 0 ok"]) + "\n"


def compare(count, disk, volumes):
    seen, routes, jobs = Counter(), Counter(), Counter()
    for turn in range(count):
        name, (image, start, tables) = random.choice(list(volumes.items()))
        disk.write_bytes(image)
        content, volume = list(start), Volume(CHUNK, METADATA, CONVENTIONAL, ALL_ZONES, *tables)
        callers = random.randint(1, 3)
        lines = [slip() for _ in range(random.randint(0, 5))] if turn % 2 else [
            right(callers) for _ in range(random.randint(1, 30))]
        end = "\n" if lines and (turn % 2 == 0 or random.random() < 0.95) else ""
        script = ("\n".join(lines) + end).encode()
        got, want = ran(disk, script), wanted(script, content, volume)
        if got == want and want[1] == 0:
            again, want_again = read_back(content)
            got, want = ran(disk, again), (want_again, 0)
        if got != want:
            sys.exit(f"image {name}, script {script!r}\nwanted {want}\ngot {got}")
        seen[name, want[1]] += 1
        routes += volume.routes
        jobs += volume.jobs
    print("no difference; by volume and status:", dict(sorted(seen.items())))
    print("places of writes:", dict(sorted(routes.items())))
    print("jobs:", dict(sorted(jobs.items())))


if __name__ == "__main__":
    main()

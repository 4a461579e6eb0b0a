"""A plain, slow model of a volume: its tables, its zones, its jobs, and how many writing calls each step makes.

It is written from the rules and shares no code with the product. Zones are numbered from 0, conventional ones first;
blocks of a chunk, and of a zone, from 0; a zone's bits are one block of metadata, the map is another.
"""
from collections import Counter

BLOCK_SECTORS = 8
COPY_BLOCKS = 32
MAP = "map"
RESERVED = 2


class Volume:
    """A volume over `zones` zones of `chunk` blocks, of which `conventional` come first and `metadata` hold the sets."""

    def __init__(self, chunk, metadata, conventional, zones, entries, valid, pointers):
        self.chunk, self.conventional = chunk, conventional
        self.entries = {number: list(entry) for number, entry in entries.items()}
        self.valid = {zone: set(blocks) for zone, blocks in valid.items()}
        self.pointers = dict(pointers)
        self.committed = self.named()
        self.free = set(range(metadata, zones)) - self.committed
        self.limbo, self.dirty, self.calls = set(), set(), 0
        # All chunks, the one that was written least recently first.
        self.order = list(range(zones - metadata - RESERVED))
        self.routes, self.jobs = Counter(), Counter()

    def named(self):
        return {zone for entry in self.entries.values() for zone in entry if zone is not None}

    def place(self, chunk, first):
        """Where a write of blocks from `first` on goes: the name of the place, and the zone; None where it has none."""
        zone, buffer = self.entries.get(chunk, (None, None))
        if zone is None:
            return "new main", self.least_free()
        if zone < self.conventional:
            return "in place", zone
        if self.pointers.get(zone, 0) == first:
            return "at the pointer", zone
        return ("buffer", buffer) if buffer is not None else ("new buffer", self.least_free())

    def least_free(self):
        return min((zone for zone in self.free if zone < self.conventional), default=None)

    def least_sequential(self):
        return min((zone for zone in self.free if zone >= self.conventional), default=None)

    def write(self, chunk, first, end):
        """Writes blocks `first` to before `end` of a chunk. False where no zone is free, and nothing is done then."""
        name, zone = self.place(chunk, first)
        if zone is None:
            return False
        self.calls += 1
        self.routes[name] += 1
        entry = self.entries.setdefault(chunk, [None, None])
        if name.startswith("new"):
            self.free.remove(zone)
            entry[0 if name == "new main" else 1] = zone
            self.dirty.add(MAP)
        other = entry[1] if zone == entry[0] else entry[0]
        self.give(zone, set(range(first, end)), True)
        if other is not None:
            self.give(other, set(range(first, end)), False)
        if zone >= self.conventional:
            self.pointers[zone] = end
        self.settle(chunk)
        self.order.remove(chunk)
        self.order.append(chunk)
        return True

    def discard(self, chunk, first, end):
        for zone in self.entries.get(chunk, ()):
            if zone is not None:
                self.give(zone, set(range(first, end)), False)
        self.settle(chunk)

    def give(self, zone, blocks, valid):
        """Makes blocks of a zone valid or not. Its bits are dirty where one of them changes."""
        before = set(self.valid.setdefault(zone, set()))
        self.valid[zone] = before | blocks if valid else before - blocks
        if self.valid[zone] != before:
            self.dirty.add(zone)

    def settle(self, chunk):
        """Makes the buffer of a chunk its zone, where its zone has no valid block."""
        zone, buffer = self.entries.get(chunk, (None, None))
        if buffer is not None and not self.valid.get(zone):
            self.routes["promoted"] += 1
            self.enter(chunk, [buffer, None])
            self.release(zone)

    def enter(self, chunk, entry):
        self.entries[chunk] = entry
        self.dirty.add(MAP)

    def release(self, zone):
        """Clears the bits of a zone. It waits for a commit where the committed map names it."""
        self.give(zone, set(range(self.chunk)), False)
        (self.limbo if zone in self.committed else self.free).add(zone)

    def possible(self, chunk):
        """The job that can be done on a chunk, and its class: the first class is done before the second, and so on."""
        zone, buffer = self.entries.get(chunk, (None, None))
        if zone is None:
            return None, None
        valid = self.valid.get(zone, set())
        if buffer is not None:
            first = min(self.valid.get(buffer, set()), default=self.chunk)
            return ("append", 0) if first >= self.pointers.get(zone, 0) else ("merge", 1)
        if not valid:
            return "empty", 0 if zone < self.conventional else 2
        return ("move", 0) if zone < self.conventional and self.least_sequential() is not None else (None, None)

    def reclaim(self):
        """Does the job that is picked to its end."""
        which = [(self.possible(chunk), chunk) for chunk in self.order]
        job, chunk = min(((kind[1], place, kind[0], chunk) for place, (kind, chunk) in enumerate(which) if kind[0]))[2:]
        self.jobs[job] += 1
        zone, buffer = self.entries[chunk]
        if job == "empty":
            self.enter(chunk, [None, None])
            self.release(zone)
        elif job == "append":
            self.copy(buffer, zone, self.pointers.get(zone, 0))
            self.enter(chunk, [zone, None])
            self.release(buffer)
        elif job == "merge":
            self.copy(zone, buffer, 0)
            self.enter(chunk, [buffer, None])
            self.release(zone)
        else:
            target = self.least_sequential()
            self.free.remove(target)
            if self.pointers.get(target, 0):
                self.calls += 1
            self.pointers[target] = 0
            self.copy(zone, target, 0)
            self.enter(chunk, [target, None])
            self.release(zone)

    def copy(self, source, target, at):
        """Copies the valid blocks of a zone from `at` on, a call for each run. Gaps of a sequential zone are filled."""
        for block in range(at, self.chunk):
            is_valid = block in self.valid.get(source, set())
            if not is_valid or block < at:
                continue
            end = block
            while end < min(self.chunk, block + COPY_BLOCKS) and end in self.valid[source]:
                end += 1
            if target >= self.conventional:
                self.calls += -(-(block - at) // COPY_BLOCKS)
            self.calls += 1
            at = end
        if target >= self.conventional:
            self.pointers[target] = at
        self.give(target, set(self.valid.get(source, set())), True)

    def flush(self):
        """A whole commit, or one flush where nothing is dirty."""
        self.calls += 2 * len(self.dirty) + 6 if self.dirty else 1
        self.committed = self.named()
        self.free |= self.limbo
        self.limbo, self.dirty = set(), set()

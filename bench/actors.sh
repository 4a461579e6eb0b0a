#!/usr/bin/env bash
# Requests a second by 1, 4 and 64 actors, beside one thread that works alone: `zreplay` and `zreplay_one` on one script
# of 64 callers over a volume in a file, in one run. What a run of no requests takes is left out. A step is made by
# whoever has the turn, one at a time, so more actors don't make a disk faster that is a file; what is seen is what the
# turn costs.
#
# Usage: bench/actors.sh. It builds the programs where they aren't built.
set -euo pipefail
cd "$(dirname "$0")/.."
for name in dmzadm zreplay_one zreplay; do
    test -x "crates/$name/out/$name" || (cd "crates/$name" && rt run) > /dev/null 2>&1 || true
done
python3 - <<'END'
import os, random, struct, subprocess, tempfile, time

UUID = "00000000-0000-4000-8000-000000000001"
REQUESTS = 10000
program = "crates/{0}/out/{0}".format


def make(path):
    """A formatted image: zones of 64 blocks, 36 of them conventional and 256 sequential."""
    with open(path, "wb") as image:
        image.write(b"ZDIMAGE1" + struct.pack("<III", 64, 36, 256))
    words = ["--format", "--seq", "4", "--uuid", UUID, path]
    told = subprocess.run([program("dmzadm"), *words], check=True, capture_output=True, text=True).stdout
    return int(told.split()[1]) * int(told.split()[4])


def write_script(path, blocks):
    """Single blocks, half of them read and half written, in a quarter of the device, and a flush after each 1,000."""
    random.seed(7)
    with open(path, "w") as script:
        for i in range(REQUESTS):
            caller, block = random.randrange(64), random.randrange(blocks // 4)
            if i % 1000 == 999:
                script.write(f"f {caller}\n")
            elif random.randrange(2):
                script.write(f"w {caller} {block} 1 {i}\n")
            else:
                script.write(f"r {caller} {block} 1\n")


def took(words, folder, script):
    """The seconds of a run over a new image, the least of three."""
    least = None
    for _ in range(3):
        image = f"{folder}/image"
        make(image)
        begin = time.monotonic()
        subprocess.run([*words, image, script], check=True, stdout=subprocess.DEVNULL)
        spent = time.monotonic() - begin
        least = spent if least is None else min(least, spent)
        os.remove(image)
    return least


# In memory where there is such a folder, so that no run waits for a disk's flushes.
shared = "/dev/shm"
with tempfile.TemporaryDirectory(dir=shared if os.path.isdir(shared) else None) as folder:
    write_script(f"{folder}/script", make(f"{folder}/image"))
    open(f"{folder}/none", "w").close()
    alone = None
    for actors in (None, 1, 4, 64):
        words = [program("zreplay_one")] if actors is None else [program("zreplay"), "--actors", str(actors)]
        spent = max(took(words, folder, f"{folder}/script") - took(words, folder, f"{folder}/none"), 0.001)
        rate = REQUESTS / spent
        alone = rate if alone is None else alone
        name = "one thread alone" if actors is None else f"{actors} actors"
        print(f"{name}: {rate:.0f} requests a second, {rate / alone:.2f} times one thread alone")
END

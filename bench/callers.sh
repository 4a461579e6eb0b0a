#!/usr/bin/env bash
# Many callers on one session, over a volume in a file: 64 callers and as many actors take turns, on three geometries.
# The requests read, write, discard and flush single blocks, far from one another. With 1,000 and with 1,000,000 pieces
# waiting at all times it prints what a step costs, side by side, and requests a second; and the time as a multiple of
# that of as many bare writing calls of the same disk, one behind the other.
#
# Usage: bench/callers.sh. It builds the programs where they aren't built.
set -euo pipefail
cd "$(dirname "$0")/.."
test -x crates/dmzadm/out/dmzadm || (cd crates/dmzadm && rt run) > /dev/null 2>&1 || true
test -x crates/bench_callers/out/bench_callers || (cd crates/bench_callers && rt run -- none 0 0 bare) > /dev/null 2>&1
program=crates/bench_callers/out/bench_callers
folder=$(mktemp -d)
trap 'rm -rf "$folder"' EXIT

# make DISK ZONE_BLOCKS CONVENTIONAL SEQUENTIAL: a formatted disk with so many zones for data and metadata.
make() {
    python3 - "$@" <<'END'
import struct, subprocess, sys
path = sys.argv[1]
with open(path, "wb") as image:
    image.write(b"ZDIMAGE1" + struct.pack("<III", *map(int, sys.argv[2:])))
subprocess.run(["crates/dmzadm/out/dmzadm", "--format", "--seq", "4", "--uuid",
                "00000000-0000-4000-8000-000000000001", path], check=True, stdout=subprocess.DEVNULL)
END
}

# The milliseconds of a run by a clock of this kind, R for all of it and U for its user time.
took() {
    TIMEFORMAT=%$1
    { time "$program" "${@:2}" > "$folder/told"; } 2>&1 | tr -d .
}

steps=200000
for zones in "16 64 1024" "64 32 256" "256 16 64"; do
    for waiting in 1000 1000000; do
        # shellcheck disable=SC2086
        make "$folder/disk.img" $zones
        none=$(took U "$folder/disk.img" $((waiting + steps)) 0 session)
        all=$(took U "$folder/disk.img" "$waiting" $steps session)
        read -r made _ entries _ calls _ < "$folder/told"
        bare=$(took U "$folder/disk.img" 0 "$calls" bare)
        awk -v zones="$zones" -v waiting=$waiting -v made="$made" -v entries="$entries" -v calls="$calls" \
            -v t="$((10#$all - 10#$none))" -v b="$((10#$bare))" 'BEGIN {
            if (t < 1) t = 1
            if (b < 1) b = 1
            printf "zones %s, %d pieces wait: %d steps, %.0f ns a step, %d pieces entered, %d a second, %.2f calls a piece, ",
                zones, waiting, made, t * 1000000 / made, entries, entries * 1000 / t, calls / entries
            printf "%.1f times the bare calls\n", t / b
        }'
        rm "$folder/disk.img"
    done
done

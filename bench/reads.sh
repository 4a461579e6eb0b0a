#!/usr/bin/env bash
# Reads of one block over a volume in a file, one after another and far from each other: requests a second, and the
# time as a multiple of that of the bare calls of the same disk. The volume has 38 chunks in conventional zones of 256
# blocks, all of them valid.
#
# Usage: bench/reads.sh. It builds the programs where they aren't built.
set -eu
cd "$(dirname "$0")/.."
test -x crates/dmzadm/out/dmzadm || (cd crates/dmzadm && rt run) > /dev/null 2>&1 || true
test -x crates/bench_reads/out/bench_reads || (cd crates/bench_reads && rt run -- none 0 1 bare) > /dev/null 2>&1
folder=$(mktemp -d)
trap 'rm -rf "$folder"' EXIT
disk=$folder/disk.img
printf 'ZDIMAGE1\000\001\0\0\050\0\0\0\003\0\0\0' > "$disk"
crates/dmzadm/out/dmzadm --format --seq 3 --uuid 00000000-0000-4000-8000-000000000001 "$disk" > /dev/null

# Chunk i gets zone 2 + i, whole, in both sets: the map has one block, and the bitmap of zone z is block 2 + z.
python3 - "$disk" <<'END'
import struct, sys
zone_blocks, zones, mapped = 256, 43, 38
first = 4096 + -(-4 * zones // 4096) * 4096
with open(sys.argv[1], "r+b") as image:
    def put(zone, block, offset, data):
        image.seek(first + 4096 * (zone * zone_blocks + block) + offset)
        image.write(data)
    for set_zone in (0, 1):
        for chunk in range(mapped):
            put(set_zone, 1, 8 * chunk, struct.pack("<II", 2 + chunk, 0xFFFFFFFF))
            put(set_zone, 2 + 2 + chunk, 0, b"\xff" * (zone_blocks // 8))
    for chunk in range(mapped):
        for block in range(zone_blocks):
            put(2 + chunk, block, 0, bytes([chunk]) * 4096)
END

reads=8000
# The milliseconds of a run.
took() {
    TIMEFORMAT=%R
    { time crates/bench_reads/out/bench_reads "$@" > /dev/null; } 2>&1 | tr -d .
}
test "$(crates/bench_reads/out/bench_reads "$disk" 100 1 volume)" = "100 blocks"
start=$(took "$disk" 0 1 volume)
none=$(took "$disk" 0 1 bare)
for way in '1 sequential' '2741 random'; do
    volume=$(took "$disk" $reads "${way%% *}" volume)
    bare=$(took "$disk" $reads "${way%% *}" bare)
    awk -v way="${way##* }" -v n=$reads -v v="$((10#$volume - 10#$start))" -v b="$((10#$bare - 10#$none))" 'BEGIN {
        if (v < 1) v = 1
        if (b < 1) b = 1
        printf "%s: %d reads a second, %.1f times the bare calls\n", way, n * 1000 / v, v / b
    }'
done

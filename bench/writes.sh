#!/usr/bin/env bash
# Writes of one block to a volume in a file: in place, at the pointers of sequential zones, and into buffer zones. For
# zones of 16, 256 and 4,096 blocks it prints writes a second, and the time as a multiple of that of the bare calls of the
# same disk, which write as many blocks to its conventional zones. Each write is one writing call of the disk. Nothing is
# flushed.
#
# Usage: bench/writes.sh. It builds the programs where they aren't built.
set -euo pipefail
cd "$(dirname "$0")/.."
test -x crates/dmzadm/out/dmzadm || (cd crates/dmzadm && rt run) > /dev/null 2>&1 || true
test -x crates/bench_writes/out/bench_writes || (cd crates/bench_writes && rt run -- none 0 1 bare) > /dev/null 2>&1
folder=$(mktemp -d)
trap 'rm -rf "$folder"' EXIT

# make DISK ZONE_BLOCKS in_place|pointer|buffer: as many chunks as take 16,384 blocks are mapped: to conventional zones,
# to empty sequential ones, or to full ones beside conventional zones that can become their buffers.
make() {
    python3 - "$@" <<'END'
import struct, subprocess, sys
path, zone_blocks, way = sys.argv[1], int(sys.argv[2]), sys.argv[3]
mapped = 16384 // zone_blocks
conventional, sequential = (mapped if way != "pointer" else 1), (mapped if way != "in_place" else 1)
per = -(-zone_blocks // 32768)
set_zones = 1
while True:
    zones = 2 * set_zones + conventional + sequential
    if set_zones * zone_blocks >= 1 + -(-zones // 512) + zones * per:
        break
    set_zones += 1
conventional += 2 * set_zones
pointers = 4096
first = pointers + -(-4 * zones // 4096) * 4096
with open(path, "wb") as image:
    image.write(b"ZDIMAGE1" + struct.pack("<III", zone_blocks, conventional, sequential))
subprocess.run(["crates/dmzadm/out/dmzadm", "--format", "--seq", "1", "--uuid",
                "00000000-0000-4000-8000-000000000001", path], check=True, stdout=subprocess.DEVNULL)
with open(path, "r+b") as image:
    for zone in (0, set_zones):
        for chunk in range(mapped):
            image.seek(first + 4096 * (zone * zone_blocks + 1) + 8 * chunk)
            target = 2 * set_zones + chunk if way == "in_place" else conventional + chunk
            image.write(struct.pack("<II", target, 0xFFFFFFFF))
    if way == "buffer":
        for chunk in range(mapped):
            image.seek(pointers + 4 * (conventional + chunk))
            image.write(struct.pack("<I", 8 * zone_blocks))
        image.seek(first + 4096 * zones * zone_blocks - 1)
        image.write(b"\0")
END
}

# The milliseconds of a run, which writes all that it is told to.
took() {
    TIMEFORMAT=%R
    { time test "$(crates/bench_writes/out/bench_writes "$@")" = "$2 blocks"; } 2>&1 | tr -d .
}

writes=16384
for zone_blocks in 16 256 4096; do
    for way in in_place pointer buffer; do
        disk=$folder/$way.img
        make "$disk" $zone_blocks $way
        cp "$disk" "$folder/bare.img"
        start=$(took "$disk" 0 1 volume)
        none=$(took "$folder/bare.img" 0 1 bare)
        volume=$(took "$disk" $writes 1 volume)
        bare=$(took "$folder/bare.img" $writes 1 bare)
        awk -v zone=$zone_blocks -v way=$way -v n=$writes -v v=$((10#$volume - 10#$start)) -v b=$((10#$bare - 10#$none)) 'BEGIN {
            if (v < 1) v = 1
            if (b < 1) b = 1
            printf "zones of %d blocks, %s: %d writes, %d a second, %.1f times the bare calls\n", zone, way, n, n * 1000 / v, v / b
        }'
        rm "$disk" "$folder/bare.img"
    done
done

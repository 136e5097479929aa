#!/bin/bash
# bench/mux.sh YARDSTICK.rs [PROGRAM] [RUNS]: `mux` of a plan of about 300 MB with a plain Rust program (its main file is given), in turn.
# Prints the medians of the processor's seconds and of the memory, and their ratios; the two outputs are compared.
set -eu
here=$(cd "$(dirname "$0")" && pwd)
yardstick=$(realpath "$1")
program=$(realpath "${2:-$here/../crates/mmt_cli/out/mmt_cli}")
runs=${3:-5}
folder=$(mktemp -d)
trap 'rm -rf "$folder"' EXIT
rustc --edition 2021 -C opt-level=3 -C target-cpu=x86-64-v2 "$yardstick" -o "$folder/plain"
cd "$folder"
python3 - <<'PY'
import json
TICKS, NTP = 65536, 2 ** 32
halves = 480
def mpu(b):
    units = [{"at": (30 * b + i) * TICKS // 60, "from": 20000 * (30 * b + i), "length": 20000, "movie_fragment": 1, "sample": i + 1,
              "offset": 0, "priority": 0, "dependency": 0} for i in range(30)]
    return {"number": b, "time": 1001 * NTP + b * NTP // 2, "decoding_offset": 0, "aus": [[0, 1000]] * 30, "units": units}
signalling = []
for b in range(halves):
    signalling.append({"at": b * TICKS // 2, "kind": "parameters"})
    signalling.append({"at": b * TICKS // 2, "kind": "table", "names": [[0, k] for k in (b, b + 1) if k < halves]})
plan = {"flow": "ff0e0000000000000000000000000101:51300", "source": "20010db8000000000000000000000001:51300", "context": 1, "full_every": 16,
        "limit": 1400, "spacing": 60, "package": "bench", "bound": 4000000, "window": 131072, "delay": 6554, "start": 65536000,
        "signalling": signalling, "assets": [{"packet_id": 256, "id": "video", "type": "hev1", "timed": True, "timescale": 60000, "file": "video.bin",
                                              "mpus": [mpu(b) for b in range(halves)]}]}
json.dump(plan, open("plan.json", "w"))
pattern = bytes((31 * p + p // 256) % 256 for p in range(65536))
with open("video.bin", "wb") as out:
    for _ in range(20000 * 30 * halves // 65536 + 1):
        out.write(pattern)
PY
"$folder/plain" mux plan.json >plain.tlv
"$program" mux plan.json >program.tlv
cmp plain.tlv program.tlv && echo "the same $(stat -c %s plain.tlv) bytes"
python3 - "$folder/plain" "$program" "$runs" <<'PY'
import os, sys
from statistics import median
programs, runs = sys.argv[1:3], int(sys.argv[3])
times, sizes = {p: [] for p in programs}, {p: [] for p in programs}
for _ in range(runs):
    for p in programs:
        child = os.fork()
        if child == 0:
            os.dup2(os.open(os.devnull, os.O_WRONLY), 1)
            os.execv(p, [p, "mux", "plan.json"])
        _, _, used = os.wait4(child, 0)
        times[p].append(used.ru_utime + used.ru_stime)
        sizes[p].append(used.ru_maxrss)
a, b = programs
print(f"seconds {median(times[a]):.2f} {median(times[b]):.2f} ratio {median(times[b]) / median(times[a]):.2f}")
print(f"memory in KB {median(sizes[a]):.0f} {median(sizes[b]):.0f} ratio {median(sizes[b]) / median(sizes[a]):.2f}")
PY

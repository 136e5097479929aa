#!/bin/bash
# bench/streams.sh YARDSTICK [RUNS]
# Compares `mmt list`, `take` and `peak` with a yardstick in plain Rust that does the same: a program of one file, whose
# other files lie beside it. Streams of about 75, 150 and 300 MB come from stream.py. The two run in turn, output to
# /dev/null, and each number is the median of RUNS runs (5). For each command and each size it prints
# the processor time of both in seconds (user and system), their ratio, and the greatest resident memory of both in MB; and
# whether the two wrote the same bytes.
set -eu
here=$(cd "$(dirname "$0")/.." && pwd)
[ $# -ge 1 ] || { echo "usage: bench/streams.sh YARDSTICK.rs [RUNS]" >&2; exit 1; }
folder=$(mktemp -d "${TMPDIR:-/tmp}/mmt-streams-XXXXXX")
trap 'rm -rf "$folder"' EXIT
rustc --edition 2021 -C opt-level=3 -C target-cpu=x86-64-v2 "$1" -o "$folder/yardstick"
"$here/mmt" --version >/dev/null
for seconds in 31 62 125; do
    python3 "$here/bench/stream.py" $seconds "$folder/stream$seconds"
done
python3 - "$folder" "$here/crates/mmt_cli/out/mmt_cli" "${2:-5}" <<'PYTHON'
import filecmp, os, subprocess, sys
folder, program, runs = sys.argv[1], sys.argv[2], int(sys.argv[3])
yardstick = os.path.join(folder, 'yardstick')
def run(words, stream, out):
    """(seconds of the processor, MB) of one run."""
    with open(stream) as source, open(out, 'w') as to:
        child = subprocess.Popen(words, stdin=source, stdout=to, stderr=subprocess.DEVNULL)
        _, status, usage = os.wait4(child.pid, 0)
    assert status == 0, (words, status)
    return usage.ru_utime + usage.ru_stime, usage.ru_maxrss / 1024
def median(values):
    return sorted(values)[len(values) // 2]
for words in (['list'], ['take'], 'peak --delay 6554 --window 131072 --bound 16000000'.split()):
    for seconds in (31, 62, 125):
        stream = os.path.join(folder, 'stream%d' % seconds)
        ours, theirs = [], []
        for _ in range(runs):
            theirs.append(run([yardstick] + words, stream, '/dev/null'))
            ours.append(run([program] + words, stream, '/dev/null'))
        (t, m), (u, n) = ([median(list(x)) for x in zip(*results)] for results in (theirs, ours))
        outs = [os.path.join(folder, name) for name in ('theirs', 'ours')]
        for out, which in zip(outs, (yardstick, program)):
            run([which] + words, stream, out)
        same = 'same bytes' if filecmp.cmp(*outs, shallow=False) else 'the bytes differ'
        megabytes = os.path.getsize(stream) / 1e6
        print('%-4s %3.0f MB: yardstick %.3f s, mmt %.3f s, ratio %.2f; memory %.1f MB, %.1f MB; %s'
              % (words[0], megabytes, t, u, u / max(t, 0.001), m, n, same), flush=True)
PYTHON

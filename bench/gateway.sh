#!/bin/bash
# bench/gateway.sh YARDSTICK.rs [RUNS]
# Compares `mmt expand` and `squeeze` with a yardstick in plain Rust that does the same: a program of one file, whose other files lie
# beside it. A stream of about 300 MB in header-compressed packets comes from stream.py; `squeeze` reads what `expand` makes of it. The two
# programs run in turn, output to /dev/null, and each number is the median of RUNS runs (5). For each command it prints the
# processor time of both in seconds (user and system), their ratio, and whether the two wrote the same bytes, and at the end
# whether `squeeze` gave the first stream back.
set -eu
here=$(cd "$(dirname "$0")/.." && pwd)
[ $# -ge 1 ] || { echo "usage: bench/gateway.sh YARDSTICK.rs [RUNS]" >&2; exit 1; }
folder=$(mktemp -d "${TMPDIR:-/tmp}/mmt-gateway-XXXXXX")
trap 'rm -rf "$folder"' EXIT
rustc --edition 2021 -C opt-level=3 -C target-cpu=x86-64-v2 "$1" -o "$folder/yardstick"
"$here/mmt" --version >/dev/null
python3 "$here/bench/stream.py" 125 "$folder/compressed"
"$folder/yardstick" expand <"$folder/compressed" >"$folder/plain"
python3 - "$folder" "$here/crates/mmt_cli/out/mmt_cli" "${2:-5}" <<'PYTHON'
import filecmp, os, subprocess, sys
folder, program, runs = sys.argv[1], sys.argv[2], int(sys.argv[3])
at = lambda name: os.path.join(folder, name)
def run(words, stream, out):
    """The seconds of the processor of one run."""
    with open(stream) as source, open(out, 'w') as to:
        child = subprocess.Popen(words, stdin=source, stdout=to, stderr=subprocess.DEVNULL)
        _, status, usage = os.wait4(child.pid, 0)
    assert status == 0, (words, status)
    return usage.ru_utime + usage.ru_stime
def median(values):
    return sorted(values)[len(values) // 2]
for words, stream in ((['expand'], 'compressed'), ('squeeze --context 1 --full-every 16'.split(), 'plain')):
    ours, theirs = [], []
    for _ in range(runs):
        theirs.append(run([at('yardstick')] + words, at(stream), '/dev/null'))
        ours.append(run([program] + words, at(stream), '/dev/null'))
    for out, which in (('theirs', at('yardstick')), ('ours', program)):
        run([which] + words, at(stream), at(out))
    same = 'same bytes' if filecmp.cmp(at('theirs'), at('ours'), shallow=False) else 'the bytes differ'
    t, u = median(theirs), median(ours)
    print('%-7s %3.0f MB: yardstick %.3f s, mmt %.3f s, ratio %.2f; %s'
          % (words[0], os.path.getsize(at(stream)) / 1e6, t, u, u / max(t, 0.001), same), flush=True)
print('the first stream came back' if filecmp.cmp(at('ours'), at('compressed'), shallow=False) else 'another stream came back')
PYTHON

#!/bin/bash
# bench/list.sh YARDSTICK.rs
# Compares `mmt list` with a yardstick in plain Rust, which reads a stream of TLV packets from standard
# input and writes the same lines: both run three times in turn over one stream of 500 MB in null packets of
# 1,400 bytes, with output to /dev/null. Prints the median of each one's user times, and their ratio.
set -eu
here=$(cd "$(dirname "$0")/.." && pwd)
[ $# -eq 1 ] || { echo "usage: bench/list.sh YARDSTICK.rs" >&2; exit 1; }
folder=$(mktemp -d "${TMPDIR:-/tmp}/mmt-list-XXXXXX")
trap 'rm -rf "$folder"' EXIT
rustc --edition 2021 -O "$1" -o "$folder/yardstick"
"$here/mmt" --version >/dev/null
python3 - "$folder/stream" <<'PYTHON'
import sys
packet = bytes([0x7F, 0xFF, 1396 // 256, 1396 % 256]) + bytes(range(256)) * 5 + bytes(116)
with open(sys.argv[1], 'wb') as out:
    for _ in range(500_000_000 // (1400 * 1000)):
        out.write(packet * 1000)
PYTHON
# The user time of a command over the stream, in seconds.
timed() { ( TIMEFORMAT=%U; time "$@" <"$folder/stream" >/dev/null ) 2>&1; }
for _ in 1 2 3; do
    timed "$folder/yardstick" list >>"$folder/theirs"
    timed "$here/mmt" list >>"$folder/ours"
done
cmp -s <("$folder/yardstick" list <"$folder/stream") <("$here/mmt" list <"$folder/stream") || echo "the lines differ"
median() { sort -n "$1" | sed -n 2p; }
python3 - "$(median "$folder/ours")" "$(median "$folder/theirs")" <<'PYTHON'
import sys
ours, theirs = map(float, sys.argv[1:])
print('user seconds: mmt %.3f, yardstick %.3f, ratio %.2f' % (ours, theirs, ours / max(theirs, 0.001)))
PYTHON

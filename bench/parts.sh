#!/bin/bash
# bench/parts.sh [PROGRAM]
# Measures `take` over 100,000 signalling parts, which are one message: in order, reversed, and odd before
# even. Each is compared with 100,000 whole messages of as many bytes, all on packet id 0. Each stream is
# taken three times in turn. Prints the median of each one's user and system times together, and its ratio to
# that of the whole messages; a ratio of at most 5 is wanted. The program is ./mmt, or the one that is given.
set -eu
here=$(cd "$(dirname "$0")/.." && pwd)
program=${1:-$here/mmt}
folder=$(mktemp -d "${TMPDIR:-/tmp}/mmt-parts-XXXXXX")
trap 'rm -rf "$folder"' EXIT
"$program" --help >/dev/null
python3 - "$folder" <<'PYTHON'
import random, struct, sys
PARTS, BYTES = 100_000, 8
WHOLE, FIRST, MIDDLE, LAST = 0x00, 0x40, 0x80, 0xC0
ADDRESSES = bytes.fromhex('20010db8000000000000000000000001ff0e0000000000000000000000000101')
# A TLV packet of plain IPv6 without a checksum, with an MMTP packet of kind signalling on packet id 0.
def packet(number, part):
    mmtp = struct.pack('>BBHII', 0, 2, 0, 1_000_000, number) + bytes([part, 0]) + bytes([0xAB]) * BYTES
    udp = struct.pack('>HHHH', 51300, 51300, 8 + len(mmtp), 0) + mmtp
    ip = struct.pack('>IHBB', 6 << 28, len(udp), 17, 64) + ADDRESSES + udp
    return struct.pack('>BBH', 0x7F, 2, len(ip)) + ip
def stream(name, order, part):
    with open(sys.argv[1] + '/' + name, 'wb') as out:
        out.write(b''.join(packet(number, part(number)) for number in order))
def one_message(number):
    return FIRST if number == 0 else LAST if number == PARTS - 1 else MIDDLE
rising = range(PARTS)
shuffled = list(rising)
random.Random(1).shuffle(shuffled)
stream('whole', rising, lambda number: WHOLE)
stream('in_order', rising, one_message)
stream('reversed', rising[::-1], one_message)
stream('odd_before_even', [*rising[1::2], *rising[::2]], one_message)
stream('shuffled', shuffled, one_message)
PYTHON
# The user and system times of a command over a stream together, in seconds.
timed() { ( TIMEFORMAT='%U %S'; time "$program" take --assume 65536:1000 <"$1" >/dev/null 2>&1 ) 2>&1 | awk '{ print $1 + $2 }'; }
names='whole in_order reversed odd_before_even shuffled'
for _ in 1 2 3; do
    for name in $names; do timed "$folder/$name" >>"$folder/$name.times"; done
done
whole=$(sort -n "$folder/whole.times" | sed -n 2p)
for name in $names; do
    sort -n "$folder/$name.times" | sed -n 2p | awk -v name="$name" -v whole="$whole" '
        { printf "%-16s %6.2f seconds, %5.2f of the time of whole messages\n", name, $1, $1 / (whole > 0.001 ? whole : 0.001) }'
done

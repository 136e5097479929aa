#!/bin/bash
# bench/udp_sum.sh
# Measures `udp_sum` of mmt_ip over a payload of 1,400 bytes against a copy of the same bytes (memcpy): one
# million calls of each in turn, five times, in one run of one program, which is proved and built in a
# temporary folder. Prints the least nanoseconds of a call of each, and the copy's share of the sum's time.
set -eu
here=$(cd "$(dirname "$0")/.." && pwd)
folder=$(mktemp -d "${TMPDIR:-/tmp}/mmt-sum-XXXXXX")
trap 'rm -rf "$folder"' EXIT
mkdir -p "$folder/crates/sum_speed/src"
for crate in mmt_base mmt_fields mmt_ip; do
    mkdir "$folder/crates/$crate"
    cp -r "$here/crates/$crate/src" "$here/crates/$crate/specs" "$here/crates/$crate/proofs" "$folder/crates/$crate/"
done
grep -E '^mmt_(base|fields|ip):' "$here/crates.txt" >"$folder/crates.txt"
echo 'sum_speed: mmt_ip' >>"$folder/crates.txt"
cp "$here/HANDLES" "$folder/HANDLES"
cat >"$folder/crates/sum_speed/src/main.rt" <<'RATTLE'
//! How long a checksum of 1,400 bytes takes, and how long a copy of them.
#![tactic(auto)]

ghost use Rattle.std.specs.Prelude.{◌≡◌, ◌<◌, ◌≤◌, ◌^◌, length};

use mmt_ip::{Ip6Header, udp_sum};
use std::io;
use std::time::Instant;

const CALLS: u32 = 1_000_000;

/// Copies the bytes so many times, each time with another first byte.
fn copied(to: &mut [u8], from: &mut [u8], calls: u32) -> u8
    requires { length to.old ≡ length from.old }
{
    let mut last = 0;
    for _ in 0..calls {
        if !from.is_empty() {
            from[0] = last;
        }
        to.copy_from_slice(from);
        if !to.is_empty() {
            last = to[0].wrapping_add(1);
        }
    }
    last
}

/// Sums the bytes so many times, each time with another first byte.
fn summed(header: &Ip6Header, bytes: &mut [u8], calls: u32) -> u16
    requires label { header.now.flow_label < 2 ^ 20 }
    requires len { length bytes.old ≤ 65487 }
{
    let mut last = 0;
    for _ in 0..calls {
        if !bytes.is_empty() {
            bytes[0] = (last % 256) as u8;
        }
        last = udp_sum(header, bytes);
    }
    last
}

fn main(rt: HostRuntime) -> io::Result<()> {
    let header = Ip6Header {
        traffic_class: 0,
        flow_label: 0,
        hop_limit: 64,
        source: 0x2001_0DB8_0000_0000_0000_0000_0000_0001,
        destination: 0xFF0E_0000_0000_0000_0000_0000_0000_0101,
        source_port: 51300,
        destination_port: 51300,
    };
    let mut bytes = [7u8; 1400];
    let mut to = [0u8; 1400];
    for _ in 0..5 {
        let start = Instant::now(&rt)?;
        let last = copied(&mut to, &mut bytes, CALLS);
        let copies = start.elapsed(&rt)?.as_nanos();
        let start = Instant::now(&rt)?;
        let sum = summed(&header, &mut bytes, CALLS);
        let sums = start.elapsed(&rt)?.as_nanos();
        println!(rt; "{copies} {sums} {last} {sum}")?;
    }
    Ok(())
}
RATTLE
cd "$folder/crates/sum_speed"
rt run >"$folder/log" 2>&1 || { tail -n 40 "$folder/log" >&2; exit 1; }
out/sum_speed | awk '
    NR == 1 || $1 < copies { copies = $1 }
    NR == 1 || $2 < sums { sums = $2 }
    END { printf "nanoseconds of a call: copy %.1f, udp_sum %.1f; udp_sum goes at %.2f of the speed of the copy\n", copies / 1e6, sums / 1e6, copies / sums }'

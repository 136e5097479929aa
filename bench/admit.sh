#!/bin/bash
# bench/admit.sh
# Measures `admit` of mmt_admit over a cast of 1,000,000 packets against one of 100,000: one packet a tick, each
# with a unit of its own, 1,000 units an MPU, and a table before each MPU. At most 10 times the cost is wanted.
# - Instructions, where valgrind is there: those of one call, as half of what three calls take more than one. They
#   are the same in each run, whatever else the machine does.
# - Time: both casts are admitted in turn, ten times, in one run of one program. Before each call the large cast is
#   read once, so that neither is in the processor's cache for having been admitted last. The least of each counts.
# The program is proved and built in a temporary folder.
set -eu
here=$(cd "$(dirname "$0")/.." && pwd)
folder=$(mktemp -d "${TMPDIR:-/tmp}/mmt-admit-XXXXXX")
trap 'rm -rf "$folder"' EXIT
mkdir -p "$folder/crates/admit_speed/src"
for crate in mmt_base mmt_model mmt_admit; do
    mkdir "$folder/crates/$crate"
    cp -r "$here/crates/$crate/src" "$here/crates/$crate/specs" "$folder/crates/$crate/"
    if [ -d "$here/crates/$crate/proofs" ]; then
        cp -r "$here/crates/$crate/proofs" "$folder/crates/$crate/"
    fi
done
grep -E '^mmt_(base|model|admit):' "$here/crates.txt" >"$folder/crates.txt"
echo 'admit_speed: mmt_base mmt_model mmt_admit' >>"$folder/crates.txt"
cp "$here/HANDLES" "$folder/HANDLES"
cat >"$folder/crates/admit_speed/src/main.rt" <<'RATTLE'
//! How long a cast of 100,000 packets takes to admit, and one of 1,000,000.
#![tactic(auto)]

ghost use Rattle.std.specs.Prelude.{◌≤◌};
ghost use Rattle.mmt_admit.specs.Faults.{IsReadable};

use mmt_admit::{admit, is_readable};
use mmt_base::{LongTick, Ntp, OutOfMemory};
use mmt_model::{Carries, Cast, List, Params, Sent, SentMpu, SentUnit, TableCopy, UnitKey};
use std::alloc::Global;
use std::time::Instant;
use std::{env, io};

const SMALL: u32 = 100_000;

const LARGE: u32 = 1_000_000;

// The units of an MPU.
const UNITS: u32 = 1000;

/// A packet that carries this.
fn packet(n: u32, packet_id: u16, number: u32, carries: Carries) -> Sent {
    Sent {
        at: LongTick(n as u64),
        packet_id,
        number,
        rap: false,
        length: 100,
        carries,
    }
}

/// The unit of packet n, which is number `unit` of its MPU.
fn unit(n: u32, mpu: u32, unit: u32) -> SentUnit {
    SentUnit {
        asset: 0,
        mpu,
        unit,
        key: UnitKey::Item { item: unit },
        time: Ntp(0),
        due: LongTick(n as u64 + 5000),
        first: LongTick(n as u64),
        last: LongTick(n as u64),
        first_number: n,
        count: 1,
    }
}

/// Adds a table and the packets of the MPU that it names, the table's packet at place n.
fn add_mpu(alloc: Global, cast: &mut Cast, n: u32, mpu: u32) -> Result<(), OutOfMemory>
    requires { n ≤ 1000000 }
{
    let at = LongTick(n as u64);
    cast.packets.push(packet(n, 0, mpu.wrapping_add(1), Carries::Table { signal: 0 }))?;
    let mut names = List::new(alloc);
    names.push(mpu)?;
    cast.copies.push(TableCopy {
        signal: 0,
        names,
        first: at,
        last: at,
        first_number: mpu,
        count: 1,
    })?;
    cast.mpus.push(SentMpu {
        asset: 0,
        mpu,
        least: LongTick(n as u64 + 5001),
        last: LongTick(n as u64 + 6000),
        named_from: Some(at),
    })?;
    for u in 1..UNITS {
        let place = n + u;
        let number = mpu.wrapping_mul(UNITS - 1).wrapping_add(u - 1);
        cast.packets.push(packet(place, 1, number, Carries::Whole { unit: u }))?;
        cast.units.push(unit(place, mpu, u))?;
    }
    Ok(())
}

/// A cast of about so many packets.
fn sent(alloc: Global, count: u32) -> Result<Cast, OutOfMemory>
    requires { count ≤ 1000000 }
{
    let mut cast = Cast {
        params: Params {
            bound: 1_073_741_824,
            window: 8192,
            delay: 1000,
        },
        packets: List::new(alloc),
        units: List::new(alloc),
        mpus: List::new(alloc),
        copies: List::new(alloc),
    };
    cast.packets.push(packet(0, 0, 0, Carries::Parameters { signal: 0 }))?;
    for mpu in 0..count / UNITS {
        add_mpu(alloc, &mut cast, mpu * UNITS, mpu)?;
    }
    Ok(cast)
}

// The nanoseconds that admission of two casts takes, ten times in turn.
fn time(rt: &HostRuntime, small: &Cast, large: &Cast) -> io::Result<()>
    requires small { IsReadable small.now }
    requires large { IsReadable large.now }
{
    for _ in 0..10 {
        if !is_readable(large) {
            return Ok(());
        }
        let start = Instant::now(rt)?;
        let short = admit(small).is_ok();
        let less = start.elapsed(rt)?.as_nanos();
        if !is_readable(large) {
            return Ok(());
        }
        let start = Instant::now(rt)?;
        let long = admit(large).is_ok();
        let more = start.elapsed(rt)?.as_nanos();
        println!(rt; "{less} {more} {short} {long} {} {}", small.packets.len(), large.packets.len())?;
    }
    Ok(())
}

fn main(rt: HostRuntime) -> io::Result<()> {
    let mut words = env::args(&rt)?.skip(1);
    let (Some(size), Some(calls)) = (words.next(), words.next()) else {
        let (Ok(small), Ok(large)) = (sent(rt.alloc(), SMALL), sent(rt.alloc(), LARGE)) else {
            return Ok(());
        };
        if is_readable(&small) && is_readable(&large) {
            time(&rt, &small, &large)?;
        }
        return Ok(());
    };
    let size = if size.as_str() == "large" { LARGE } else { SMALL };
    let calls: u32 = if calls.as_str() == "3" { 3 } else { 1 };
    let Ok(cast) = sent(rt.alloc(), size) else {
        return Ok(());
    };
    if is_readable(&cast) {
        for _ in 0..calls {
            if admit(&cast).is_err() {
                println!(rt; "not admitted")?;
            }
        }
    }
    Ok(())
}
RATTLE
cd "$folder/crates/admit_speed"
rt run >"$folder/log" 2>&1 || { tail -n 40 "$folder/log" >&2; exit 1; }
out/admit_speed | awk '
    $3 != "true" || $4 != "true" { print "not admitted: " $0; exit 1 }
    NR == 1 || $1 < less { less = $1 }
    NR == 1 || $2 < more { more = $2 }
    END {
        if (NR != 10) { print "no run"; exit 1 }
        printf "milliseconds of a call: %d packets %.2f, %d packets %.2f; the large cast takes %.2f times as long\n", $5, less / 1e6, $6, more / 1e6, more / less
    }'
if command -v valgrind >/dev/null; then
    instructions() {
        valgrind --tool=callgrind --callgrind-out-file=/dev/null out/admit_speed "$1" "$2" 2>&1 | awk '/Collected/ { print $4 }'
    }
    small=$((($(instructions small 3) - $(instructions small 1)) / 2))
    large=$((($(instructions large 3) - $(instructions large 1)) / 2))
    awk -v a="$small" -v b="$large" 'BEGIN {
        printf "instructions of a call: %d and %d; the large cast takes %.4f times as many\n", a, b, b / a
    }'
fi

#!/usr/bin/env bash
# Shows that a pool cannot be changed while a unit is in use whose parts it lends: code that calls
# `Pool::store` or `Pool::expire_one` before the last use of a `UnitParts` of that pool is refused
# by the borrow checker at that call, and the same code without such a call is accepted, with both
# calls after the last use of the unit.
#
# Run it by hand, from any folder. It works on a copy in a temporary folder, which it removes.
set -eu

top=$(cd "$(dirname "$0")/.." && pwd)
room=$(mktemp -d)
trap 'rm -rf "$room"' EXIT

mkdir "$room/crates"
cp "$top/crates.txt" "$top/HANDLES" "$room/"
(cd "$top" && tar -cf - --exclude='crates/*/out' crates) | tar -xf - -C "$room"
crate=$room/crates/mmt_runs

# The calls that are put before the last use of the unit.
store='let _ = pool.store(to, 0, tlv, 0, packet);'
expire_one='let _ = pool.expire_one(to, 0);'

# Writes the module with the given line before the last use of the unit.
write_module() {
    cat > "$crate/src/first_length.rt" <<END
//! A unit in use, and the calls that change its pool.

ghost use Rattle.std.specs.Prelude.{◌≡◌, ◌<◌, ◌^◌, true, length};
ghost use Rattle.mmt_pool.specs.Holding.{is_kept_kind, LiesAt};

use crate::runs::Runs;
use mmt_base::Tick;
use mmt_packet::Packet;
use mmt_pool::Pool;
use mmt_times::Names;

pub fn first_length_of(runs: &Runs, pool: &mut Pool, names: &Names, from: Tick, to: Tick, tlv: &[u8], packet: &Packet<'_>) -> u32
    requires short { length tlv.now < 2 ^ 31 }
    requires payload { LiesAt tlv.now 0 packet.now.payload.now }
    requires kind { is_kept_kind packet.now.kind ≡ true }
{
    let mut length = 0;
    if let Some(unit) = runs.least_due(pool, names, None, from, to) {
        $1
        length = unit.length();
    }
    $store
    $expire_one
    length
}
END
}

sed -i 's/^mod links;$/mod first_length;\nmod links;/' "$crate/src/lib.rt"
grep -q '^mod first_length;$' "$crate/src/lib.rt"

# Checks the crate with the given call before the last use of the unit: the borrow checker must
# refuse it at that call, and nothing else may be refused.
refused() {
    write_module "$2"
    line=$(grep -n -F -- "$2" "$crate/src/first_length.rt" | head -n 1 | cut -d : -f 1)
    if (cd "$crate" && rt check) > "$room/said" 2>&1; then
        echo "not refused: $1" >&2
        exit 1
    fi
    if ! grep -q -E "^(\./)?src/first_length\.rt:$line:[0-9]+: error\[borrow-e0502\]" "$room/said" \
        || [ "$(grep -c -E ': error' "$room/said")" -ne 1 ]; then
        echo "refused otherwise: $1" >&2
        tail -n 20 "$room/said" >&2
        exit 1
    fi
    echo "refused: $1"
}

refused store "$store"
refused expire_one "$expire_one"

write_module ''
if ! (cd "$crate" && rt check) > "$room/said" 2>&1; then
    echo "not accepted: neither" >&2
    tail -n 20 "$room/said" >&2
    exit 1
fi
echo "accepted: neither"

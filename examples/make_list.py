#!/usr/bin/env python3
"""examples/make_list.py [OPTIONS] < LINES: writes a list of deliveries for `mmt trial`, from the lines of `mmt list` over the stream.

  mmt mux plan.json | mmt list | examples/make_list.py --loss 1 --burst 4 --seed 7 > list.txt

  --loss P         P per cent of the packets are lost (0)
  --burst N        lost packets come in runs of N on average (1)
  --interleave N   losses are drawn on packets that were interleaved in blocks of N times N, and fall on the packets as they are put back (1)
  --repeat P       P per cent of the packets that come through come twice, the second time directly after the first (0)
  --jitter T       each packet is delayed by 0 to T ticks of 1/65536 second, so that packets overtake one another by at most T (0)
  --keep-first     the first packet is not lost
  --seed N         the number from which all chance comes (0)

A packet that is overtaken by more than the plan's delay is late, so with T up to the delay none is."""
import argparse
import random
import re
import sys


def lost_turns(chance, count, rate, burst):
    """Which turns of the channel are lost: runs of `burst` on average, and `rate` of all turns."""
    lost, is_lost = [], False
    begin = rate / (burst * (1 - rate)) if rate < 1 else 1
    for _ in range(count):
        is_lost = chance.random() >= 1 / burst if is_lost else chance.random() < begin
        lost.append(is_lost)
    return lost


def interleaved(count, side):
    """The packets in the order in which an interleaver sends them: blocks of side * side, written by rows and read by columns."""
    order = []
    for start in range(0, count, side * side):
        for column in range(side):
            order += [p for p in range(start + column, min(start + side * side, count), side)]
    return order


def main():
    words = argparse.ArgumentParser(description=__doc__, formatter_class=argparse.RawDescriptionHelpFormatter)
    words.add_argument("--loss", type=float, default=0)
    words.add_argument("--burst", type=float, default=1)
    words.add_argument("--interleave", type=int, default=1)
    words.add_argument("--repeat", type=float, default=0)
    words.add_argument("--jitter", type=int, default=0)
    words.add_argument("--keep-first", action="store_true")
    words.add_argument("--seed", type=int, default=0)
    asked = words.parse_args()
    if not 0 <= asked.loss <= 100 or asked.burst < 1 or asked.interleave < 1 or not 0 <= asked.repeat <= 100 or asked.jitter < 0:
        sys.exit("a value is out of its range")
    # An MMTP timestamp has 32 bits: each is taken as the one nearest to the timestamp before it.
    times = []
    for line in sys.stdin:
        low = int(re.search(r"\| mmtp .*? time (\d+)", line)[1])
        before = times[-1] if times else low
        times.append(before + (low - before + 2 ** 31) % 2 ** 32 - 2 ** 31)
    chance = random.Random(asked.seed)
    lost = set()
    turns = lost_turns(chance, len(times), asked.loss / 100, asked.burst)
    for place, is_lost in zip(interleaved(len(times), asked.interleave), turns):
        if is_lost and not (asked.keep_first and place == 0):
            lost.add(place)
    arrivals = []
    for place, time in enumerate(times):
        at = time + chance.randint(0, asked.jitter)
        copies = 2 if chance.random() < asked.repeat / 100 else 1
        if place not in lost:
            arrivals += [(at, place)] * copies
    sys.stdout.writelines(f"{place}\n" for _, place in sorted(arrivals))


main()

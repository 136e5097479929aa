"""checks/mutations.py PROGRAM [--minutes M] [--seed S]: damaged streams and plans through every command.

It flips, cuts, repeats and joins bytes of the example's stream and of streams that `mux` makes, and bytes and numbers of the example's plan, and
runs the commands on them. Each run must end with a status of the program within one second of the processor for each megabyte and two
more, without a signal; `take` and `peak` must keep within their bound; `mux` must write nothing of what it refuses. It prints its seed and how many it ran."""
import argparse
import json
import os
import random
import re
import resource
import subprocess
import sys
import tempfile
import time

top = os.path.dirname(os.path.dirname(os.path.abspath(__file__)))
EXAMPLES = os.path.join(top, 'examples')
STATUSES = range(0, 11)


def flipped(rng, data):
    data = bytearray(data)
    for _ in range(rng.choice([1, 1, 2, 5, 40])):
        if data:
            at = rng.randrange(len(data))
            data[at] = rng.choice([data[at] ^ (1 << rng.randrange(8)), rng.randrange(256), 0, 255])
    return bytes(data)


def cut(rng, data):
    at, to = sorted([rng.randrange(len(data) + 1), rng.randrange(len(data) + 1)])
    return rng.choice([data[:at], data[at:], data[:at] + data[to:]])


def repeated(rng, data):
    at, to = sorted([rng.randrange(len(data) + 1), rng.randrange(len(data) + 1)])
    return data[:to] + data[at:to] * rng.choice([1, 2, 9]) + data[to:]


def joined(rng, data, others):
    other = rng.choice(others)
    at, to = rng.randrange(len(data) + 1), rng.randrange(len(other) + 1)
    return data[:at] + other[to:]


def packets_of(data):
    """The whole TLV packets at the start of some bytes, and what is left."""
    packets, at = [], 0
    while at + 4 <= len(data) and data[at] == 0x7f:
        end = at + 4 + int.from_bytes(data[at + 2:at + 4], 'big')
        if end > len(data):
            break
        packets.append(data[at:end])
        at = end
    return packets, data[at:]


def shuffled(rng, data):
    packets, rest = packets_of(data)
    if len(packets) > 1:
        for _ in range(rng.choice([1, 3, len(packets)])):
            a, b = rng.randrange(len(packets)), rng.randrange(len(packets))
            packets[a], packets[b] = packets[b], packets[a]
        if rng.random() < 0.5:
            del packets[rng.randrange(len(packets))]
    return b''.join(packets) + rest


def inside(rng, data):
    """Bytes changed within packets, so that the packets can still be told apart."""
    packets, rest = packets_of(data)
    for _ in range(rng.choice([1, 1, 2, 8])):
        if packets:
            at = rng.randrange(len(packets))
            reach = rng.choice([24, 24, 90, len(packets[at])])
            packets[at] = packets[at][:4] + flipped(rng, packets[at][4:reach]) + packets[at][max(4, reach):]
    return b''.join(packets) + rest


def damaged(rng, data, others):
    if rng.random() < 0.6:
        return rng.choice([inside, shuffled, inside])(rng, inside(rng, data))
    for _ in range(rng.choice([1, 1, 2, 3])):
        how = rng.choice([flipped, flipped, cut, repeated, joined, shuffled])
        data = how(rng, data, others) if how is joined else how(rng, data)
    return data[:4_000_000]


def other_number(rng, plan):
    """The plan with one of its numbers changed."""
    places = []

    def walk(node):
        items = node.items() if isinstance(node, dict) else enumerate(node)
        for key, value in items:
            if isinstance(value, (dict, list)):
                walk(value)
            elif isinstance(value, int):
                places.append((node, key))

    walk(plan)
    node, key = rng.choice(places)
    node[key] = rng.choice([0, 1, node[key] + 1, node[key] - 1, 2 ** 32 - 1, 2 ** 32, 2 ** 64 - 1, rng.randrange(70000)])
    return json.dumps(plan).encode()


def used():
    """The processor's seconds of all runs that have ended."""
    usage = resource.getrusage(resource.RUSAGE_CHILDREN)
    return usage.ru_utime + usage.ru_stime


def main():
    options = argparse.ArgumentParser()
    options.add_argument('program')
    options.add_argument('--minutes', type=float, default=1)
    options.add_argument('--seed', type=int, default=1)
    options = options.parse_args()
    program = os.path.abspath(options.program)
    rng = random.Random(options.seed)
    example = json.load(open(os.path.join(EXAMPLES, 'two_units.json'), encoding='utf-8'))
    folder = tempfile.mkdtemp()
    os.symlink(EXAMPLES, os.path.join(folder, 'examples'))
    counts, failed, longest = {}, 0, 0.0

    def run(words, data):
        nonlocal failed, longest
        before = used()
        limit = 2 + len(data) / 1e6
        try:
            done = subprocess.run([program] + words, input=data, capture_output=True, cwd=folder, timeout=60 + limit)
        except subprocess.TimeoutExpired:
            done = None
        seconds = used() - before
        longest = max(longest, seconds)
        if seconds > limit:
            done = None
        key = words[0] if done is None or done.returncode not in STATUSES else f'{words[0]} status {done.returncode}'
        counts[key] = counts.get(key, 0) + 1
        if done is None or done.returncode not in STATUSES:
            failed += 1
            name = os.path.join(tempfile.gettempdir(), f'mutation-{options.seed}-{failed}')
            open(name, 'wb').write(data)
            print(f'{" ".join(words)}: {"no end" if done is None else done.returncode}, its input is in {name}')
        return done

    small = subprocess.run([program, 'mux', 'examples/two_units.json'], capture_output=True, cwd=folder, check=True).stdout
    plain = subprocess.run([program, 'expand'], input=small, capture_output=True, cwd=folder)
    streams = [small, open(os.path.join(EXAMPLES, 'two_units.tlv'), 'rb').read()]
    if plain.returncode == 0:
        streams.append(plain.stdout)
    known = {words[0] for words in (['expand'], ['squeeze'], ['trial'], ['pace'])
             if f'\n  {words[0]}' in subprocess.run([program, '--help'], capture_output=True).stdout.decode()}
    end = time.monotonic() + options.minutes * 60
    while time.monotonic() < end:
        data = damaged(rng, rng.choice(streams), streams)
        if rng.random() < 0.05:
            streams.append(data)
        bound = rng.choice([1, 100, 2000, 1 << 20])
        delay = rng.choice([1, 300, 5000])
        run(['list'], data)
        done = run(['peak', '--delay', str(delay), '--window', str(delay + rng.choice([1, 700, 90000])), '--bound', str(bound)], data)
        line = done and re.search(rb' peak (\d+)\n', done.stdout)
        if line and int(line[1]) > bound:
            failed += 1
            print(f'peak kept {int(line[1])} bytes above {bound}')
        words = ['take', '--bound', str(bound)] + rng.choice([[], ['--assume', f'{delay + 700}:{delay}'], ['--sample-base', '0']])
        done = run(words, data)
        line = done and re.search(rb' peak (\d+)\n', done.stderr)
        if line and int(line[1]) > bound:
            failed += 1
            print(f'take kept {int(line[1])} bytes above {bound}')
        if 'expand' in known:
            run(['expand'], data)
        if 'squeeze' in known:
            run(['squeeze', '--context', str(rng.choice([0, 4095])), '--full-every', str(rng.choice([1, 3]))], data)
        text = json.dumps(example).encode()
        text = rng.choice([lambda: flipped(rng, text), lambda: cut(rng, text), lambda: repeated(rng, text),
                           lambda: other_number(rng, json.loads(text)), lambda: other_number(rng, json.loads(text))])()
        open(os.path.join(folder, 'plan'), 'wb').write(text)
        done = run(['mux', 'plan'], b'')
        if done and done.returncode != 0 and done.stdout:
            failed += 1
            print(f'mux wrote {len(done.stdout)} bytes and ended with {done.returncode}')
        if 'pace' in known:
            run(['pace', 'plan', '--step', str(rng.choice([1, 10, 16000]))], b'')
        if 'trial' in known:
            open(os.path.join(folder, 'places'), 'wb').write(damaged(rng, b'0\n1\n2\n3\n', [b'2\n2\n7\n']))
            run(['trial', rng.choice(['plan', 'examples/two_units.json']), 'places'], b'')
    total = sum(counts.values())
    for key in sorted(counts):
        print(f'{key}: {counts[key]}')
    print(f'seed {options.seed}: {total} runs, {failed} failed; the longest took {longest:.2f} s')
    return failed != 0


if __name__ == '__main__':
    sys.exit(main())

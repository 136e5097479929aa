"""checks/deliveries.py PROGRAM: makes the streams of four small plans with `mux`, and gives deliveries of them to `take`.

Of each plan the deliveries are the packets in order, then with each single packet lost, with each repeated, and with two packets swapped: each two of a
short stream, and those that stand side by side of a long one. A delivery that is not near is left out. What `take` writes is compared with
the records of the units that are expected, which follow here from the plan and the delivery alone. It prints how many it compared."""
import copy
import json
import os
import subprocess
import sys
import tempfile

top = os.path.dirname(os.path.dirname(os.path.abspath(__file__)))
program = os.path.abspath(sys.argv[1])
EXAMPLE = json.load(open(os.path.join(top, 'examples', 'two_units.json'), encoding='utf-8'))
EXAMPLE['assets'][0]['file'] = 'v.bin'
REACH = 2113929216


def with_a_later_table(plan):
    plan['signalling'].append({'at': 32800, 'kind': 'table', 'names': [[0, 0]]})


def with_a_long_unit(plan):
    plan.update(limit=60000, bound=20000000)
    mpu = plan['assets'][0]['mpus'][0]
    mpu['aus'] = [[1001, 1001]]
    mpu['units'] = [dict(mpu['units'][0], length=16777216)]


def over_hours(plan):
    plan['signalling'] += [{'at': k * 536870912, 'kind': 'parameters'} for k in range(1, 9)]
    plan['signalling'].append({'at': 4294967396, 'kind': 'table', 'names': [[0, 1]]})
    mpus = plan['assets'][0]['mpus']
    unit = dict(mpus[0]['units'][0], at=4294967496, length=500, movie_fragment=2)
    mpus.append(dict(mpus[0], number=8, time=285772091490304, aus=[[1001, 1001]], units=[unit]))


def time_of(mpu, unit, timescale):
    """The time of a unit of an MPU, in units of 2^-32 second; sample 1 is the first access unit."""
    k = unit['sample'] - 1
    if k >= len(mpu['aus']):
        return mpu['time']
    before = sum(pts for _, pts in mpu['aus'][:k])
    ahead = before + mpu['aus'][k][0] - mpu['decoding_offset']
    return mpu['time'] + ahead * 2 ** 32 // timescale


def cast_of(plan, content):
    """The packets of a plan as (tick, packet id, number, what it is), and its units as (order, record, MPU, due tick)."""
    packets, units, numbers = [], [], {}

    def send(tick, packet_id, what):
        numbers[packet_id] = numbers.get(packet_id, -1) + 1
        packets.append((plan['start'] + tick, packet_id, numbers[packet_id], what))

    for s, signal in enumerate(plan['signalling']):
        send(signal['at'], 0, (signal['kind'], s))
    for a, asset in enumerate(plan['assets']):
        for m, mpu in enumerate(asset['mpus']):
            for unit in mpu['units']:
                for k in range(-(-unit['length'] // plan['limit'])):
                    send(unit['at'] + k * plan['spacing'], asset['packet_id'], ('unit', len(units)))
                time = time_of(mpu, unit, asset['timescale'])
                keys = (mpu['number'], unit['movie_fragment'], unit['sample'], unit['offset'])
                record = b'\x55\x01' + asset['packet_id'].to_bytes(2, 'big') + time.to_bytes(8, 'big')
                record += b''.join(n.to_bytes(4, 'big') for n in keys) + bytes([unit['priority'], unit['dependency']])
                record += unit['length'].to_bytes(4, 'big') + content[unit['from']:unit['from'] + unit['length']]
                units.append(((time, asset['packet_id']) + keys, record, [a, m], -(-time // 65536)))
    packets.sort(key=lambda p: p[:3])
    return packets, units


def is_near(ticks):
    return all(abs(tick - max(ticks[:i])) < REACH for i, tick in enumerate(ticks) if i)


def tuned(plan, packets, delivery):
    """The delivery from its first buffer message on that comes after a full header."""
    heard = False
    for i, n in enumerate(delivery):
        heard = heard or n % plan['full_every'] == 0
        if heard and packets[n][3][0] == 'parameters':
            return delivery[i:]
    return []


def expected(plan, packets, units, delivery):
    """The records of the units of which every packet and one naming table survived, in the order of presentation."""
    clock, whole, survived = 0, set(), set()
    tables = {s: signal['names'] for s, signal in enumerate(plan['signalling']) if signal['kind'] == 'table'}
    for n in tuned(plan, packets, delivery):
        tick, _, _, (kind, which) = packets[n]
        in_time = tick + plan['delay'] >= clock
        clock = max(clock, tick)
        if in_time:
            survived.add(n)
            if kind == 'table':
                whole |= {u for u, unit in enumerate(units) if unit[2] in tables[which] and clock < unit[3]}
    out = []
    for u in whole:
        if all(n in survived for n, p in enumerate(packets) if p[3] == ('unit', u)):
            out.append(units[u][:2])
    return b''.join(record for _, record in sorted(out))


def deliveries(count):
    order = list(range(count))
    yield order
    for n in range(count):
        yield order[:n] + order[n + 1:]
        yield order[:n + 1] + order[n:]
    for a in range(count):
        for b in range(a + 1, count if count <= 16 else min(a + 2, count)):
            yield order[:a] + [b] + order[a + 1:b] + [a] + order[b + 1:]


def packets_of(stream):
    at, out = 0, []
    while at < len(stream):
        end = at + 4 + int.from_bytes(stream[at + 2:at + 4], 'big')
        out.append(stream[at:end])
        at = end
    return out


PLANS = [
    ('the example', lambda plan: None),
    ('with a later table', with_a_later_table),
    ('with a long unit', with_a_long_unit),
    ('over hours', over_hours),
]
compared, failed = 0, 0
for name, change in PLANS:
    plan = copy.deepcopy(EXAMPLE)
    change(plan)
    content = (bytes(range(251)) * 66842)[:16777216]
    packets, units = cast_of(plan, content)
    with tempfile.TemporaryDirectory() as folder:
        with open(os.path.join(folder, 'v.bin'), 'wb') as file:
            file.write(content)
        with open(os.path.join(folder, 'plan.json'), 'w', encoding='utf-8') as file:
            json.dump(plan, file)
        sent = packets_of(subprocess.run([program, 'mux', 'plan.json'], cwd=folder, capture_output=True, check=True).stdout)
    if len(sent) != len(packets):
        sys.exit(f'{name}: {len(sent)} packets are sent, and {len(packets)} are expected')
    for delivery in deliveries(len(packets)):
        if not is_near([packets[n][0] for n in tuned(plan, packets, delivery)]):
            continue
        got = subprocess.run([program, 'take'], input=b''.join(sent[n] for n in delivery), capture_output=True).stdout
        compared += 1
        if got != expected(plan, packets, units, delivery):
            failed += 1
            print(f'{name}: the records differ of the delivery {delivery}')
print(f'{compared} deliveries compared, {failed} differ')
sys.exit(failed > 0)

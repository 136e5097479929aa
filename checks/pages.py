"""checks/pages.py PROGRAM: runs what README.md, docs/CAPTURES.md, docs/SENDING.md and docs/PLANS.md show, and compares byte for byte.

It runs each command of the example blocks of README.md, docs/CAPTURES.md and docs/SENDING.md, for each rule of admission in
docs/SENDING.md the plan that breaks it, and for each refusal of a plan in docs/PLANS.md the plan that is refused so, and looks for what is
printed in the page. Without a difference it prints how many it compared."""
import copy
import json
import os
import re
import subprocess
import sys
import tempfile

top = os.path.dirname(os.path.dirname(os.path.abspath(__file__)))
program = os.path.abspath(sys.argv[1])
failed = 0
compared = 0


def differs(what, wanted, got):
    global failed, compared
    compared += 1
    if wanted != got:
        failed += 1
        print(f'{what}\n  the page has {wanted!r}\n  printed is   {got!r}')


def examples(page):
    """The blocks of a page with lines '    $ COMMAND' and what the command prints."""
    folder = tempfile.mkdtemp()
    os.symlink(program, os.path.join(folder, 'mmt'))
    os.symlink(os.path.join(top, 'examples'), os.path.join(folder, 'examples'))
    text = open(os.path.join(top, page), encoding='utf-8').read()
    for block in re.findall(r'(?:^    .*\n)+', text, re.M):
        lines = [line[4:] for line in block.splitlines()]
        if not lines[0].startswith('$ '):
            continue
        command, wanted = None, []
        for line in lines + ['$ ']:
            if not line.startswith('$ '):
                wanted.append(line)
                continue
            if command:
                done = subprocess.run(['bash', '-c', '{ ' + command + '; } 2>&1'], cwd=folder, capture_output=True, text=True)
                differs(command, '\n'.join(wanted), done.stdout.rstrip('\n'))
            command, wanted = line[2:], []


def unit(plan, number):
    return plan['assets'][0]['mpus'][0]['units'][number]


def many(plan):
    mpu = plan['assets'][0]['mpus'][0]
    plan['assets'][0]['mpus'] = [
        {'number': i, 'time': mpu['time'], 'decoding_offset': 0, 'aus': [], 'units': [dict(mpu['units'][0], at=20000 + i, length=1)]} for i in range(1025)]
    plan['window'], plan['bound'] = 16777216, 1000000000
    tables = [{'at': 100 + k, 'kind': 'table', 'names': [[0, i] for i in range(k, min(k + 400, 1025))]} for k in range(0, 1025, 400)]
    plan['signalling'] = plan['signalling'][:1] + tables


CHANGES = {
    'A1': lambda plan: plan.update(delay=65536),
    'A2': lambda plan: unit(plan, 1).update(at=1073742124),
    'A3': lambda plan: unit(plan, 1).update(at=205),
    'A4': lambda plan: plan.update(window=32567),
    'A5': lambda plan: plan['signalling'].append({'at': 33955, 'kind': 'table', 'names': [[0, 0]]}),
    'A6': lambda plan: plan.update(bound=3688),
    'A7': many,
    'A8': lambda plan: unit(plan, 1).update(sample=1),
    'A9': lambda plan: plan['signalling'].pop(0),
    'A10': lambda plan: plan['signalling'][1].update(at=32800),
}


def rules():
    page = open(os.path.join(top, 'docs', 'SENDING.md'), encoding='utf-8').read()
    base = json.load(open(os.path.join(top, 'examples', 'two_units.json'), encoding='utf-8'))
    for rule, change in CHANGES.items():
        plan = copy.deepcopy(base)
        change(plan)
        with tempfile.NamedTemporaryFile('w', suffix='.json') as file:
            json.dump(plan, file)
            file.flush()
            done = subprocess.run([program, 'mux', file.name], cwd=top, capture_output=True, text=True)
        wanted = re.search(rf'^\| {rule} \|.*\| `({rule} [^`]*)` \|', page, re.M)[1]
        differs(f'rule {rule}', f'mmt: not admitted: {wanted}\n', done.stderr)
        differs(f'bytes written where rule {rule} is broken', '', done.stdout)


def one_more(items):
    items.append(copy.deepcopy(items[0]))


def named(plan):
    mpu = plan['assets'][0]['mpus'][0]
    plan['assets'][0]['mpus'] = [dict(mpu, number=i, aus=[]) for i in range(6000)]
    plan['signalling'][1]['names'] = [[0, i] for i in range(6000)]


def long_units(plan):
    plan['limit'] = 64
    mpu = plan['assets'][0]['mpus'][0]
    mpu['units'] = [dict(mpu['units'][0], sample=i + 1, length=16777216) for i in range(64)]


def mpu_of(plan):
    return plan['assets'][0]['mpus'][0]


# each refusal of the page in its order, and what is changed in the example: the plan, its text or the files
REFUSALS = [
    ('plan-absent', lambda files: files.pop('plan.json')),
    ('plan-long', lambda files: files.update({'plan.json': files['plan.json'] + b' ' * 16777216})),
    ('not-json', lambda files: files.update({'plan.json': files['plan.json'].rstrip()[:-1]})),
    ('not-object', lambda plan: plan['assets'][0]['mpus'].insert(0, 7)),
    ('missing', lambda plan: unit(plan, 1).pop('from')),
    ('value', lambda plan: plan.update(limit=63)),
    ('value', lambda plan: one_more(plan['signalling'][1]['names'])),
    ('value', lambda plan: mpu_of(plan)['aus'][1].pop()),
    ('unknown-key', lambda plan: mpu_of(plan).update(x=0)),
    ('packet-id-twice', lambda plan: one_more(plan['assets'])),
    ('mpu-twice', lambda plan: one_more(plan['assets'][0]['mpus'])),
    ('no-such-mpu', lambda plan: plan['signalling'][1].update(names=[[0, 1]])),
    ('time-range', lambda plan: mpu_of(plan).update(time=2 ** 64 - 1)),
    ('table-long', named),
    ('cast-long', long_units),
    ('file-absent', lambda files: files.pop('v.bin')),
    ('unit-short', lambda files: files.update({'v.bin': bytes(3499)})),
]


def refusals():
    page = open(os.path.join(top, 'docs', 'PLANS.md'), encoding='utf-8').read()
    example = re.search(r'(?:^    .*\n)+', page[page.index('## An example'):], re.M)[0]
    text = ''.join(line[4:] for line in example.splitlines(True))
    rows = re.findall(r'^\| `([a-z-]+)` \|.*\| `(mmt: plan: [^`]* at (?!line)[^`]*)` \|$', page, re.M)
    differs('the refusals of docs/PLANS.md', [reason for reason, _ in REFUSALS], [reason for reason, _ in rows])
    for (reason, change), (_, wanted) in zip(REFUSALS, rows):
        files = {'plan.json': text.encode(), 'v.bin': bytes(3500)}
        if change.__code__.co_varnames[0] == 'files':
            change(files)
        else:
            plan = json.loads(text)
            change(plan)
            files['plan.json'] = json.dumps(plan).encode()
        with tempfile.TemporaryDirectory() as folder:
            for name, content in files.items():
                with open(os.path.join(folder, name), 'wb') as file:
                    file.write(content)
            done = subprocess.run([program, 'mux', 'plan.json'], cwd=folder, capture_output=True, text=True)
        differs(f'refusal {wanted}', wanted + '\n', done.stderr)
        differs(f'bytes written at {wanted}', '', done.stdout)


examples('README.md')
examples(os.path.join('docs', 'CAPTURES.md'))
examples(os.path.join('docs', 'SENDING.md'))
rules()
refusals()
print(f'{compared} compared, {failed} differ')
sys.exit(failed > 0)

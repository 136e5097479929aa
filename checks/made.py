"""checks/made.py PROGRAM [COUNT]: runs `make N` for each N below COUNT (1,000).

Of each line `units` must equal `expected`, and `peak` must be at most `bound`. It prints how many it ran, and in how many seconds."""
import os
import re
import subprocess
import sys
import time

LINE = re.compile(r'sent (\d+) delivered (\d+) units (\d+) expected (\d+) bytes (\d+) peak (\d+) bound (\d+) late (\d+) repeat (\d+) full (\d+)\n')


def main():
    program = os.path.abspath(sys.argv[1])
    count = int(sys.argv[2]) if len(sys.argv) > 2 else 1000
    failed, units, peaks = 0, [], []
    began = time.monotonic()
    for n in range(count):
        done = subprocess.run([program, 'make', str(n)], capture_output=True, text=True)
        line = LINE.fullmatch(done.stdout)
        numbers = [int(x) for x in line.groups()] if line else None
        if done.returncode != 0 or done.stderr or not numbers or numbers[2] != numbers[3] or numbers[5] > numbers[6]:
            failed += 1
            print(f'make {n}: status {done.returncode}, {done.stdout!r} {done.stderr!r}')
            continue
        units.append(numbers[2])
        peaks.append(numbers[5])
    seconds = time.monotonic() - began
    if units:
        print(f'units {min(units)} to {max(units)}, peak {min(peaks)} to {max(peaks)}')
    print(f'{count} numbers in {seconds:.0f} s, {failed} failed')
    return failed != 0


if __name__ == '__main__':
    sys.exit(main())

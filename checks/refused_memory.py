"""checks/refused_memory.py PROGRAM: refuses each allocation of each command in turn, or many of them where there are more than 1,000.

The program runs on the small example with a library before libc (LD_PRELOAD, built here with gcc) that refuses one allocation. Each run must end
with status 7 and a prefix of what the run without a refusal wrote and noted, or exactly as that run. It prints how many it tried."""
import json
import os
import subprocess
import sys
import tempfile

top = os.path.dirname(os.path.dirname(os.path.abspath(__file__)))
program = os.path.abspath(sys.argv[1])
EXAMPLES = os.path.join(top, 'examples')
OUT_OF_MEMORY = 7

REFUSER = r'''
#define _GNU_SOURCE
#include <dlfcn.h>
#include <errno.h>
#include <stdio.h>
#include <stdlib.h>

static long count, refused;
static void *(*real_malloc)(size_t), *(*real_calloc)(size_t, size_t), *(*real_realloc)(void *, size_t);
static int (*real_memalign)(void **, size_t, size_t);
static void *(*real_aligned)(size_t, size_t);

__attribute__((constructor)) static void start(void) {
    const char *n = getenv("REFUSED");
    real_malloc = dlsym(RTLD_NEXT, "malloc");
    real_calloc = dlsym(RTLD_NEXT, "calloc");
    real_realloc = dlsym(RTLD_NEXT, "realloc");
    real_memalign = dlsym(RTLD_NEXT, "posix_memalign");
    real_aligned = dlsym(RTLD_NEXT, "aligned_alloc");
    refused = n ? atol(n) : 0;
    count = 0;
}
__attribute__((destructor)) static void end(void) {
    const char *name = getenv("COUNTED");
    FILE *file = name ? fopen(name, "w") : 0;
    if (file) { fprintf(file, "%ld", count); fclose(file); }
}
static int refuse(void) { return real_malloc && ++count == refused; }
void *malloc(size_t n) {
    if (!real_malloc) real_malloc = dlsym(RTLD_NEXT, "malloc");
    if (refuse()) { errno = ENOMEM; return 0; }
    return real_malloc(n);
}
void *calloc(size_t n, size_t m) {
    if (!real_calloc) return 0;
    if (refuse()) { errno = ENOMEM; return 0; }
    return real_calloc(n, m);
}
void *realloc(void *p, size_t n) {
    if (!real_realloc) real_realloc = dlsym(RTLD_NEXT, "realloc");
    if (refuse()) { errno = ENOMEM; return 0; }
    return real_realloc(p, n);
}
int posix_memalign(void **p, size_t a, size_t n) { return refuse() ? ENOMEM : real_memalign(p, a, n); }
void *aligned_alloc(size_t a, size_t n) {
    if (refuse()) { errno = ENOMEM; return 0; }
    return real_aligned(a, n);
}
'''


def chosen(total):
    """All allocations, or of more than 1,000 the first and the last 200 and 400 that are spread evenly over the others."""
    if total <= 1000:
        return range(1, total + 1)
    spread = range(201, total - 199, max(1, total // 400))
    return sorted(set(range(1, 201)) | set(spread) | set(range(total - 199, total + 1)))


def main():
    with tempfile.TemporaryDirectory() as folder:
        source, library = os.path.join(folder, 'refuser.c'), os.path.join(folder, 'refuser.so')
        open(source, 'w', encoding='utf-8').write(REFUSER)
        subprocess.run(['gcc', '-shared', '-fPIC', '-O1', '-o', library, source, '-ldl'], check=True)
        stream = open(os.path.join(EXAMPLES, 'two_units.tlv'), 'rb').read()
        counted = os.path.join(folder, 'count')

        def run(words, data, refused):
            env = dict(os.environ, LD_PRELOAD=library, REFUSED=str(refused), COUNTED=counted)
            done = subprocess.run([program] + words, input=data, capture_output=True, cwd=top, env=env, timeout=120)
            return done.returncode, done.stdout, done.stderr

        lists = os.path.join(folder, 'list')
        open(lists, 'w', encoding='ascii').write('0\n1\n2\n3\n')
        commands = [
            (['list'], stream),
            (['peak', '--delay', '300', '--window', '1000', '--bound', '100000'], stream),
            (['take'], stream),
            (['mux', 'examples/two_units.json'], b''),
            (['pace', 'examples/two_units.json', '--step', '1000'], b''),
            (['trial', 'examples/two_units.json', lists], b''),
            (['make', '7'], b''),
            (['expand'], stream),
            (['squeeze', '--context', '1', '--full-every', '3'], None),
        ]
        tried = failed = 0
        for words, data in commands:
            if data is None:
                data = run(['expand'], stream, 0)[1]
            whole = run(words, data, 0)
            if whole[0] == 1:
                print(f'{words[0]}: no command of this program')
                continue
            total = int(open(counted, encoding='ascii').read())
            ended = {}
            for refused in chosen(total):
                got = run(words, data, refused)
                tried += 1
                ended[got[0]] = ended.get(got[0], 0) + 1
                notes = got[2].replace(b'mmt: out of memory\n', b'')
                out_of_memory = got[0] == OUT_OF_MEMORY and whole[1].startswith(got[1]) and whole[2].startswith(notes)
                if not out_of_memory and got != whole:
                    failed += 1
                    print(f'{" ".join(words)}: allocation {refused} of {total} refused: status {got[0]}, {got[2][:200]!r}')
            count = 'each' if sum(ended.values()) == total else sum(ended.values())
            print(f'{words[0]}: {total} allocations, {count} refused once; runs by status: {json.dumps(ended)}')
        print(f'{tried} tried, {failed} failed')
        return failed != 0


if __name__ == '__main__':
    sys.exit(main())

#!/usr/bin/env python3
"""Runs `jterm` with one request for memory refused, for each request in turn, and tells where it doesn't end as it must.

usage: memory.py [PROGRAM [STEP]]

PROGRAM is the built `jterm`; without it, or as `-`, it is `.built/jterm`, which `./jterm` makes. A run with a refused request must end with status 7 and nothing on
its output, or with the status and the output that it has with ample memory. STEP refuses each STEPth request alone (1). The requests are refused by a small
library in C that stands before the C library (`cc` and LD_PRELOAD), so the very program is run. The commands are a `prove` without a loop, a `prove` of a walk over a
list, a `check` of a certificate with an instance, and a `run`.
"""
import os
import pathlib
import subprocess
import sys
import tempfile

TOP = pathlib.Path(__file__).resolve().parent.parent
EXAMPLES = TOP / 'examples'
REFUSING = r'''
#define _GNU_SOURCE
#include <dlfcn.h>
#include <errno.h>
#include <stdlib.h>
#include <stdio.h>
#include <unistd.h>
static long count, refused = -2;
static int refuses(void) {
    if (refused == -2) { const char *word = getenv("REFUSED_REQUEST"); refused = word ? atol(word) : -1; }
    return ++count == refused;
}
#define REAL(name) static __typeof__(name) *real; if (!real) real = (__typeof__(name) *)dlsym(RTLD_NEXT, #name)
void *malloc(size_t size) { REAL(malloc); if (refuses()) { errno = ENOMEM; return 0; } return real(size); }
void *realloc(void *at, size_t size) { REAL(realloc); if (refuses()) { errno = ENOMEM; return 0; } return real(at, size); }
void *aligned_alloc(size_t to, size_t size) { REAL(aligned_alloc); if (refuses()) { errno = ENOMEM; return 0; } return real(to, size); }
int posix_memalign(void **at, size_t to, size_t size) { REAL(posix_memalign); if (refuses()) return ENOMEM; return real(at, to, size); }
__attribute__((destructor)) static void told(void) {
    const char *to = getenv("REQUESTS_TO");
    if (to) { FILE *f = fopen(to, "w"); if (f) { fprintf(f, "%ld", count); fclose(f); } }
}
'''


def run(words, room, refused=None):
    """Status, output and the number of requests."""
    told = room / 'requests'
    told.unlink(missing_ok=True)
    env = {**os.environ, 'LD_PRELOAD': str(room / 'refusing.so'), 'REQUESTS_TO': str(told)}
    if refused is not None:
        env['REFUSED_REQUEST'] = str(refused)
    done = subprocess.run(words, capture_output=True, timeout=60, env=env)
    return done.returncode, done.stdout, int(told.read_text()) if told.exists() else 0


def cases(program, room):
    """The commands, with their files."""
    walk = room / 'Walk.class'
    walk.write_bytes(subprocess.run([program, 'asm', EXAMPLES / 'Walk.listing'], capture_output=True, check=True).stdout)
    count = room / 'Countdown.class'
    count.write_bytes(subprocess.run([program, 'asm', EXAMPLES / 'countdown.listing'], capture_output=True, check=True).stdout)
    array = room / 'Array.class'
    array.write_bytes(subprocess.run([program, 'asm', EXAMPLES / 'array.listing'], capture_output=True, check=True).stdout)
    return [
        ('prove, no loop', [program, 'prove', EXAMPLES / 'f.json', EXAMPLES / 'A.class']),
        ('prove, a walk', [program, 'prove', EXAMPLES / 'walk.json', walk]),
        ('check, an instance', [program, 'check', EXAMPLES / 'countdown.cert.json', EXAMPLES / 'countdown.json', count]),
        ('run', [program, 'run', '1000', EXAMPLES / 'array.state.json', array]),
    ]


def main():
    named = sys.argv[1] if len(sys.argv) > 1 else '-'
    program = TOP / '.built' / 'jterm' if named == '-' else pathlib.Path(named).resolve()
    step = int(sys.argv[2]) if len(sys.argv) > 2 else 1
    if not program.is_file():
        sys.exit(__doc__)
    wrong = 0
    with tempfile.TemporaryDirectory() as name:
        room = pathlib.Path(name)
        (room / 'refusing.c').write_text(REFUSING)
        subprocess.run(['cc', '-O1', '-shared', '-fPIC', '-o', room / 'refusing.so', room / 'refusing.c', '-ldl'], check=True)
        for shown, words in cases(program, room):
            status, out, requests = run(words, room)
            for refused in range(1, requests + 1, step):
                found = run(words, room, refused)
                if found[:2] != (status, out) and found[:2] != (7, b''):
                    wrong += 1
                    print(f'{shown}: request {refused} refused: status {found[0]}, output {found[1][:80]!r}', flush=True)
            print(f'{shown}: status {status}, {requests} requests, each {step}th refused', flush=True)
    return 1 if wrong else 0


if __name__ == '__main__':
    sys.exit(main())

#!/usr/bin/env python3
"""Keeps the certificates of a repository's methods up to date, or looks whether they are.

usage: keep.py [--check] METHODS PLACES [PROGRAM]

METHODS is a file with a line for each method: the file of its description, beside METHODS, as `chunks.json`, and behind it the class files of
its program, its own first. Empty lines and those that begin with `#` say nothing. PLACES are the folders in which the class files are, with
`:` between them. PROGRAM is the built `jterm`; without it, `./jterm`. The certificate of `chunks.json` stands in `chunks.cert.json`.

Each method has one line. With `--check` it is asked alone whether the certificate is accepted: that takes little time, needs no search, and
says all that a proof says. Without it, what isn't accepted is proved anew, and the certificate is written. The status is 0 where each
method has a certificate that is accepted, else 1.
"""
import pathlib
import subprocess
import sys

TOP = pathlib.Path(__file__).resolve().parent.parent


def methods(listed):
    """Of each line the description's file and the names of the class files."""
    for line in listed.read_text().split('\n'):
        words = line.split()
        if words and not words[0].startswith('#'):
            yield listed.parent / words[0], words[1:]


def found(name, places):
    """The class file of this name, from the first folder that has it."""
    file = next((place / name for place in places if (place / name).is_file()), None)
    return file or sys.exit('keep.py: no folder has %s' % name)


def asked(program, words):
    """What the program says on its output, and what on its error output."""
    done = subprocess.run([str(word) for word in [program, *words]], capture_output=True, text=True)
    return done.stdout, done.stderr.strip()


def kept(program, desc, classes, only_checks):
    """Whether the method has a certificate that is accepted, and its line."""
    cert = desc.with_suffix('.cert.json')
    said, refused = asked(program, ['check', cert, desc, *classes]) if cert.is_file() else ('there is no certificate', '')
    if said == 'ACCEPTED\n':
        return True, 'ACCEPTED'
    if only_checks:
        return False, said.strip() or refused
    said, refused = asked(program, ['prove', desc, *classes])
    first, _, rest = said.partition('\n')
    if first != 'YES':
        return False, said.strip().replace('\n', '\n  ') or refused
    cert.write_text(rest)
    return True, 'YES, and its certificate is written'


def main(words):
    only_checks = words[:1] == ['--check']
    words = words[only_checks:]
    if not 2 <= len(words) <= 3 or words[0].startswith('--'):
        sys.exit(__doc__.strip())
    places = [pathlib.Path(place) for place in words[1].split(':')]
    program = words[2] if len(words) == 3 else TOP / 'jterm'
    good = True
    for desc, names in methods(pathlib.Path(words[0])):
        is_kept, line = kept(program, desc, [found(name, places) for name in names], only_checks)
        print('%s: %s' % (desc.stem, line), flush=True)
        good = good and is_kept
    sys.exit(0 if good else 1)


if __name__ == '__main__':
    main(sys.argv[1:])

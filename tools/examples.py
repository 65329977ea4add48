#!/usr/bin/env python3
"""Runs the examples of documents, and tells where one prints something else than its document says.

usage: examples.py [DOCUMENT..]

Without a document: README.md and docs/*.md. An example is a line that begins with `$ ` in a block of code; what it prints stands below, up
to the next one. One with `..` alone on a line is run, and its output isn't looked at. All of a document run one after another in one new
folder that has `examples/`, `tools/` and the programs of the top. `./jterm` proves and builds what isn't built yet.
"""
import os
import pathlib
import subprocess
import sys
import tempfile

TOP = pathlib.Path(__file__).resolve().parent.parent
LINKED = ['examples', 'tools', 'jterm', 'describe', 'certs', 'survey']


def blocks(text):
    """The blocks of code, each a list of lines: between fences, or indented by four spaces."""
    lines, fenced = [], False
    for line in text.split('\n'):
        if line.startswith('```'):
            fenced = not fenced
        elif fenced or line.startswith('    '):
            lines.append(line if fenced else line[4:])
            continue
        if lines:
            yield lines
        lines = []


def examples(text):
    """The commands, each with the lines that it prints."""
    for lines in blocks(text):
        found = None
        for line in lines:
            if line.startswith('$ '):
                if found:
                    yield found
                found = (line[2:], [])
            elif found:
                found[1].append(line)
        if found:
            yield found


def differences(document):
    """The examples of a document that print something else, and how many there are."""
    count, wrong = 0, []
    with tempfile.TemporaryDirectory() as folder:
        for name in LINKED:
            os.symlink(TOP / name, pathlib.Path(folder) / name)
        status = 0
        for command, wanted in examples(document.read_text()):
            count += 1
            done = subprocess.run(['bash', '-c', '(exit %d); %s' % (status, command)], cwd=folder, stdin=subprocess.DEVNULL, stdout=subprocess.PIPE, stderr=subprocess.STDOUT)
            status = done.returncode
            printed = done.stdout.decode(errors='replace').rstrip('\n').split('\n') if done.stdout else []
            if '..' not in wanted and printed != wanted:
                wrong.append((command, wanted, printed))
    return count, wrong


def main(words):
    documents = [pathlib.Path(word) for word in words] or [TOP / 'README.md'] + sorted((TOP / 'docs').glob('*.md'))
    good = True
    for document in documents:
        count, wrong = differences(document)
        good = good and not wrong
        if count:
            print('%s: %d of %d as the document says' % (document.name, count - len(wrong), count), flush=True)
        for command, wanted, printed in wrong:
            print('$ %s\nwanted:\n%s\nprinted:\n%s' % (command, '\n'.join(wanted), '\n'.join(printed)))
    sys.exit(0 if good else 1)


if __name__ == '__main__':
    main(sys.argv[1:])

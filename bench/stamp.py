"""Runs a command, the merge gate say, and writes what it says to a log, each line with the seconds since the command began.

usage: python3 bench/stamp.py LOG COMMAND [WORD..]

The log begins with lines `# WORD: TEXT` about the run (date, commit, kit, cores, command), and ends with such lines of its time by the
clock, its processor time and that of all other processes of the machine meanwhile, in seconds, and of its status, which is this program's
too. `bench/gate.py --page` reads it. It needs Linux.
"""
import os, resource, subprocess, sys, time


def said_by(*words):
    """What a command says, or nothing where there is none."""
    try:
        return subprocess.run(words, stdout=subprocess.PIPE, stderr=subprocess.DEVNULL, errors='replace').stdout.strip()
    except OSError:
        return ''


def busy_seconds():
    """The processor seconds of all processes since the machine began."""
    with open('/proc/stat') as stat:
        user, nice, system, _, _, irq, soft, *_ = map(int, stat.readline().split()[1:])
    return (user + nice + system + irq + soft) / os.sysconf('SC_CLK_TCK')


def main():
    if len(sys.argv) < 3:
        sys.exit(__doc__.split('\n\n')[1])
    with open(sys.argv[1], 'w', buffering=1, errors='replace') as log:
        note = lambda word, text: log.write('# %s: %s\n' % (word, text))
        note('date', time.strftime('%Y-%m-%d %H:%M %Z'))
        is_changed = bool(said_by('git', 'status', '--porcelain', '-uno'))
        note('commit', said_by('git', 'rev-parse', '--short', 'HEAD') + ' and changes' * is_changed)
        note('kit', said_by('rt', 'version'))
        note('cores', len(os.sched_getaffinity(0)))
        note('command', ' '.join(sys.argv[2:]))
        began, others = time.monotonic(), busy_seconds()
        before = resource.getrusage(resource.RUSAGE_CHILDREN)
        how = {'stdin': subprocess.DEVNULL, 'stdout': subprocess.PIPE, 'stderr': subprocess.STDOUT, 'errors': 'replace'}
        with subprocess.Popen(sys.argv[2:], **how) as ran:
            for line in ran.stdout:
                log.write('%.1f %s' % (time.monotonic() - began, line))
        after = resource.getrusage(resource.RUSAGE_CHILDREN)
        spent = after.ru_utime + after.ru_stime - before.ru_utime - before.ru_stime
        note('wall', '%.1f' % (time.monotonic() - began))
        note('processor', '%.1f' % spent)
        note('others', '%.1f' % max(0, busy_seconds() - others - spent))
        note('status', ran.returncode)
    sys.exit(ran.returncode if ran.returncode >= 0 else 128 - ran.returncode)


if __name__ == '__main__':
    main()

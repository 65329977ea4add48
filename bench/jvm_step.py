#!/usr/bin/env python3
"""Times steps of the machine: python3 bench/jvm_step.py [PROGRAM], where PROGRAM is class_tables as it is built for use.

Each case runs a loop that does not end for some steps, and for none; the difference is the time of the steps.
"""
import common

COUNTING = 'class A;method f ()V static stack 2 locals 1;iconst_0;istore_0;again: iinc 0 1;iload_0;ldc int 2147483647;if_icmplt again;return;end'
CALLS = ('class A;method f ()V static stack 2 locals 1;iconst_0;istore_0;'
         'again: iload_0;iconst_1;invokestatic A add (II)I;istore_0;goto again;end;'
         'method add (II)I static stack 2 locals 2;iload_0;iload_1;iadd;ireturn;end')
ARRAY = ('class A;method f ()V static stack 4 locals 2;sipush 1000;newarray int;astore_0;'
         'start: iconst_0;istore_1;'
         'again: aload_0;iload_1;aload_0;iload_1;iaload;iconst_1;iadd;iastore;iinc 1 1;'
         'iload_1;aload_0;arraylength;if_icmplt again;goto start;end')
# the counting loop in a method beside others that it does not run but reaches, and with many objects
MANY = ('class A;method f ()V static stack 2 locals 2;iconst_0;ifne others;sipush %d;anewarray java/lang/Object;pop;'
        'iconst_0;istore_0;again: iinc 0 1;iload_0;ldc int 2147483647;if_icmplt again;return;'
        'others: invokestatic A all ()V;return;end;'
        'method all ()V static stack 0 locals 0;%s return;end;%s')


def many(methods, objects):
    calls = ' '.join('invokestatic A m%d ()V;' % n for n in range(methods))
    bodies = ';'.join('method m%d ()V static stack 0 locals 0;return;end' % n for n in range(methods))
    return MANY % (objects, calls, bodies)


CASES = [
    ('a counting loop', COUNTING, 100_000_000),
    ('a loop of calls', CALLS, 20_000_000),
    ('a loop over an array', ARRAY, 20_000_000),
    ('counting beside 1,000 methods', many(1000, 10), 20_000_000),
]


def line(listing, steps):
    return ('step\t%d\tA\tf\t()V\t%s\n' % (steps, listing.replace(';', '|'))).encode()


def main():
    path = common.program(__doc__, 'class_tables')
    for name, listing, steps in CASES:
        none = common.answer_and_seconds(path, line(listing, 20))[1]
        took = common.answer_and_seconds(path, line(listing, steps))[1]
        memory = common.peak_memory(path, line(listing, steps)) - common.peak_memory(path, line(listing, 20))
        common.print_row(['%-32s' % name, '%d steps' % steps, '%6.1f ns a step' % ((took - none) / steps * 1e9), '%5.1f MiB more' % max(memory, 0)])


if __name__ == '__main__':
    main()

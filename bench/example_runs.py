#!/usr/bin/env python3
"""Makes what crates/trc_runs must print of the examples, by another compiler.

    bench/example_runs.py [FOLDER]

Writes `stdout` into FOLDER (that crate's, if none is given), with another section `examples`: for each call that the crate's
examples.rt lists, its words, what it writes, its error line and its status. Each call of `run` is made with every policy and both
builders too, with 4, 5 and 16 registers, and the script ends where one of them writes something else. bench/other_compiler.py
says where the other compiler is.
"""
import ast
import itertools
import os
import re

from other_compiler import CALLED, TOP, put_section
from compared import table
import trc  # noqa: E402

CRATE = os.path.join(TOP, 'crates', 'trc_runs')


def calls():
    """The calls that examples.rt lists: words and input."""
    listed = open(os.path.join(CRATE, 'src', 'examples.rt')).read().partition('] = [\n')[2].partition('\n];')[0]
    return ast.literal_eval('[' + re.sub(r'^\s*//.*$', '', listed, flags=re.M) + ']')


def files():
    folder = os.path.join(CRATE, 'data')
    return {name: open(os.path.join(folder, name), 'rb').read() for name in os.listdir(folder)}


# Commands that the other compiler hasn't, and those that are refused as they are.
REFUSED_AS = {'elf': 'build', 'show': 'build', 'compare': 'run'}


def compared(words, given):
    """What `compare` comes to, whose words aren't refused: its options stand behind the names."""
    names = [word for word in words[1:] if word.endswith('.Mod')]
    steps = int(words[words.index('--steps') + 1]) if '--steps' in words else 10 ** 9
    held = files()
    return 0, table([held[name] for name in names], given.encode(), steps), ''


def made(words, given):
    """What a call comes to: its status, its output, its line. Of `elf` and `show` no other calls are made than those that are refused."""
    asked = [REFUSED_AS.get(words[0], words[0])] + words[1:]
    run = trc.Run(CALLED + asked, files(), given.encode())
    if words[0] == 'compare' and run.status not in (2, 4):
        return compared(words, given)
    out = bytes(run.out).decode().replace('run|build|traces', 'run|build|elf|traces')
    return run.status, out, run.err and run.err + '\n'


def is_same_with_all(words, given):
    """Whether a run writes the same with every policy, builder and number of registers that is tried."""
    names = [word for word in words[1:] if word.endswith('.Mod')]
    choices = itertools.product(trc.POLICIES, ['uni', 'bi'], ['4', '5', '16'])
    ends = {made(['run', '--policy', p, '--traces', t, '--regs', r, '--'] + names, given) for p, t, r in choices}
    return len(ends) == 1


def main():
    text = ''
    for line, given in calls():
        words = line.split(' ')
        if words[0] == 'run' and not is_same_with_all(words, given):
            raise SystemExit('policies differ: ' + line)
        status, out, err = made(words, given)
        text += '%s:\n%s%sstatus %d\n' % (line, out, err, status)
    put_section('examples', text)


main()

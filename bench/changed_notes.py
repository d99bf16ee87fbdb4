#!/usr/bin/env python3
"""Audits changed notes by trc and by another compiler, and compares how both end.

    bench/changed_notes.py TRC [COUNT [SEED]]

The notes are those of the small modules of bench/rows by each choice of policy, traces and registers, with one to three of their
numbers changed, or cut off, or with bytes too many; and what audits, with the right registers and traces or others. Prints how many
calls ended with each status, and each call that ended otherwise, or left another image. bench/other_compiler.py says where the other compiler is.
"""
import collections
import itertools
import os
import random
import subprocess
import sys
import tempfile

from other_compiler import CALLED
from module_texts import pieces_of, row_files
import trc  # noqa: E402

CHOICES = list(itertools.product(['plain', 'linear', 'bottomup', 'mixed'], ['bi', 'uni'], ['16', '4', '8', '6']))


def bases():
    """Modules with their notes: files, names, options of the audit."""
    pieces = [texts for name in row_files() if not os.path.dirname(name) for _, texts in pieces_of(name)]
    for sources, (policy, traces, regs) in zip(pieces, itertools.cycle(CHOICES)):
        names = ['M%d.Mod' % i for i in range(len(sources))]
        options = ['--traces', traces, '--regs', regs]
        call = trc.Run(CALLED + ['build', 'O', *names, '--policy', policy, *options, '--notes', 'N'], dict(zip(names, sources)), b'')
        if call.status == 0 and len(call.files['N']) < 8000:
            yield {name: bytes(call.files[name]) for name in names + ['N']}, names, options


def changed(notes, pick):
    """Notes with some numbers changed, cut off, or with more behind."""
    data = bytearray(notes)
    kind = pick.random()
    if kind < 0.05:
        return bytes(data[:pick.randrange(len(data))])
    if kind < 0.08:
        return bytes(data) + bytes(pick.randrange(1, 5))
    for _ in range(pick.choice([1, 1, 1, 2, 3])):
        at = 8 + 4 * pick.randrange((len(data) - 8) // 4)
        old = int.from_bytes(data[at:at + 4], 'little')
        other = 8 + 4 * pick.randrange((len(data) - 8) // 4)
        new = pick.choice([old + 1, old - 1, old + 2, 0, 1, int.from_bytes(data[other:other + 4], 'little'), pick.randrange(16), 2 ** 32 - 1]) % 2 ** 32
        data[at:at + 4] = new.to_bytes(4, 'little')
    return bytes(data)


def by_program(program, files, words, folder):
    for name, data in files.items():
        open(os.path.join(folder, name), 'wb').write(data)
    if os.path.exists(os.path.join(folder, 'O')):
        os.remove(os.path.join(folder, 'O'))
    ran = subprocess.run([program, *words], cwd=folder, capture_output=True)
    out = os.path.join(folder, 'O')
    return ran.returncode, ran.stdout, ran.stderr, open(out, 'rb').read() if os.path.exists(out) else b''


def by_other(files, words):
    call = trc.Run(CALLED + words, dict(files), b'')
    return call.status, bytes(call.out), (call.err + '\n').encode() if call.err else b'', bytes(call.files.get('O', b''))


def main():
    program, count, seed = sys.argv[1], int((sys.argv[2:] or ['1000'])[0]), int((sys.argv[3:] or ['1'])[0])
    pick, found, ends = random.Random(seed), list(bases()), collections.Counter()
    differ = 0
    with tempfile.TemporaryDirectory() as folder:
        for _ in range(count):
            files, names, options = pick.choice(found)
            files = dict(files, N=changed(files['N'], pick))
            if pick.random() < 0.05:
                options = ['--traces', pick.choice(['bi', 'uni']), '--regs', str(pick.randrange(4, 17))]
            words = ['audit', 'O', 'N', *names, *options]
            mine, other = by_program(os.path.abspath(program), files, words, folder), by_other(files, words)
            ends[other[0]] += 1
            if mine != other:
                differ += 1
                print('differ:', words, mine[:3], other[:3])
    print('%d calls over %d lists of modules, by status: %s; %d differ' % (count, len(found), dict(sorted(ends.items())), differ))


main()

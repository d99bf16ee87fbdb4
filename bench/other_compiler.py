"""The plain compiler, outside of this repository, that scripts here take expected values from, and flows and procedures in words.

It is in ../shared/oracle, seen from the top of the repository, or in the folder that ORACLE names. Importing this makes its
modules importable; where it isn't there, the script ends and has written nothing.
"""
import os
import re
import sys

TOP = os.path.dirname(os.path.dirname(os.path.abspath(__file__)))
ORACLE = os.environ.get('ORACLE') or os.path.join(TOP, '..', 'shared', 'oracle')
if not os.path.isdir(ORACLE):
    sys.exit('no other compiler here; nothing is written')
sys.path.insert(0, ORACLE)
sys.setrecursionlimit(100000)
from stage import Stage  # noqa: E402

# What the other compiler has of what it could have, by its own numbers: all, with cells of one byte (13), images that name their procedures (15),
# 8,000 values and far homes (16), notes (17), objects (18), meanings (19) and batches (20). Every script takes it from here.
STAGE = Stage(20)
CALLED = ['--stage', str(STAGE)]  # the same before the words of a call


def folder_of(crate):
    """The folder that a script writes a crate's stored run into: its argument, or the crate's own."""
    return sys.argv[1] if len(sys.argv) > 1 else os.path.join(TOP, 'crates', crate)


def put_section(name, text):
    """Puts a text in the place of one section of the output of `trc_runs`, in the folder that a script writes to.

    A section begins with the line `== NAME`. The others are those that the folder has, or, where it has no output, the crate's own.
    """
    path = os.path.join(folder_of('trc_runs'), 'stdout')
    stored = path if os.path.exists(path) else os.path.join(TOP, 'crates', 'trc_runs', 'stdout')
    with open(stored) as old:
        parts = re.split(r'(?m)^(== \w+\n)', old.read())
    parts[parts.index('== %s\n' % name) + 1] = text
    with open(path, 'w') as new:
        new.write(''.join(parts))


def end_of(e):
    """The words of an end."""
    return {'Jump': ['jump', e.to] + e.args, 'Branch': ['branch', e.cond, e.a, e.b, e.yes, e.no],
            'Nonzero': ['nonzero', e.a, e.yes, e.no], 'Return': ['return'] + ([] if e.a is None else [e.a]),
            'Trap': ['trap', e.k]}[e.kind]


def node_of(b, operation):
    """The words of a flow's node; those of an operation are given."""
    head = ['node', b.freq, '-' if b.enter is None else b.enter, 'params'] + b.params + ['preds'] + b.preds
    return head + [word for o in b.ops for word in operation(o)] + end_of(b.end)


def line_of(head, flow, operation):
    """A flow in words, behind these."""
    return ' '.join(map(str, head + [word for b in flow.blocks for word in node_of(b, operation)]))


def proc_line(proc, *head):
    """A procedure in words, with these in its head."""
    out = ['proc', proc.values, proc.args, *head]
    for b in proc.blocks:
        out += ['block', b.freq, '-' if b.enter is None else b.enter, 'params'] + b.params
        for o in b.ops:
            out += ['op', o.code, 0 if o.n is None else o.n % (1 << 64), '-' if o.d is None else o.d] + o.uses
        out += end_of(b.end)
    return ' '.join(map(str, out))


def sum_of_numbers(numbers):
    total = 0xcbf29ce484222325
    for x in numbers:
        total = ((total ^ x) * 0x100000001b3) % (1 << 64)
    return total


def sum_of(image):
    """A sum over an image's words and constants."""
    return sum_of_numbers(list(image.code) + list(image.constants))


def sum_of_places(image):
    """A sum over the words, modules and lines of an image's places."""
    return sum_of_numbers(x for place in image.places for x in place)

#!/usr/bin/env python3
"""The procedures of modules that are wanted of crates/module_vectors, by another compiler.

bench/module_vectors.py takes `vectors` from here: legal modules of bench/rows, examples, and programs at limits and beyond; it prints
how often there is each operation and end, and which operations there aren't. bench/other_compiler.py says where the other compiler is.
"""
import collections
import sys

from other_compiler import STAGE, proc_line
from module_texts import EXAMPLE_NAMES, WHOLE, example, pieces_of, short_line, texts_line
from size_texts import spread
import check  # noqa: E402
import lower  # noqa: E402
import ssa  # noqa: E402

ROWS = [WHOLE, 'programs.txt', 'more_programs.txt', 'lowered.txt', 'lowered_telling.txt', 'telling.txt', 'packed.txt', 'frames.txt', 'linked.txt']


def sums(n):
    """A procedure with so many values, in short: a sum of its parameter."""
    return 'MODULE S; PROCEDURE P(a: INTEGER): INTEGER; RETURN a[%d*+a] END P; END S.\n' % (n - 1)


def tests(n):
    """A procedure with so many blocks: IFs of three, some of which have one more."""
    ifs, more = (n - 1) // 3, (n - 1) % 3
    return b'MODULE B; PROCEDURE P(a: BOOLEAN); BEGIN %s END P; END B.\n' % b'; '.join([b'IF a & a THEN END'] * more + [b'IF a THEN END'] * (ifs - more))


def limits():
    """Programs at a limit, and one beyond; of bench/rows those of moderate length that show another limit, or which comes first."""
    for n in (4000, 4001):
        yield 'blocks_%d' % n, [tests(n)]
    for name, texts in pieces_of('limits.txt'):
        if name not in ('values', 'values_just', 'blocks', 'blocks_just', 'procedures', 'procedures_just', 'constants_just', 'constants_over'):
            yield name, [spread(text.decode()).encode() for text in texts]


def cases():
    """Names and texts of legal modules."""
    for name in ROWS:
        yield from pieces_of(name)
    for names in EXAMPLE_NAMES:
        yield names[-1], example(*names)
    yield from limits()


def answer(texts, counts):
    """The lines that are wanted; counts what procedures are made of."""
    try:
        procs = lower.lower(check.check_sources(texts), STAGE).procs
    except lower.Limit as limit:
        return ['limit %d at %d' % (limit.number, limit.index)]
    for block in [b for p in procs for b in p.blocks]:
        counts.update([block.end.kind] + [o.code for o in block.ops])
    heads = [('counted' if p.counted else 'body', p.local_cells, p.local_bytes) for p in procs]
    return ['procedures %d' % len(procs)] + [proc_line(p, *head) for p, head in zip(procs, heads)]


def vectors():
    """The lines of the stored run, and the lines that are wanted."""
    lines, answers, counts = [], [], collections.Counter()
    for name, texts in cases():
        lines.append(texts_line('lower ' + name, texts))
        answers += answer(texts, counts)
    for n in (8000, 8001):
        lines.append(short_line('lower values_%d' % n, sums(n)))
        answers += answer([spread(sums(n)).encode()], counts)
    print(len(lines), 'programs,', sum(line.startswith('limit') for line in answers), 'beyond a limit')
    print(', '.join('%s %d' % found for found in counts.most_common()), file=sys.stderr)
    print('none of', ', '.join(sorted(set(ssa.CODES) - set(counts))), file=sys.stderr)
    return lines, answers

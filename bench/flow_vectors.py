#!/usr/bin/env python3
"""Makes the input of crates/flow_vectors and the answers that are wanted, by another compiler.

    bench/flow_vectors.py [FOLDER]

Writes `stdin` and `stdout` into FOLDER (that crate's, if none is given); bench/other_compiler.py says where the other
compiler is. A flow is written as a line of words:

    flow VALUES ARGS {node FREQ ENTER [params {V}] [preds {N}] {op DEF {V}} END}

where ENTER and DEF are a number or `-`, and END is one of `jump TO {V}`, `branch CONDITION A B YES NO`,
`nonzero A YES NO`, `return {V}` and `trap KIND`. The answer is its traces and their parents, for both builders, and what is live into each node.
A procedure is one in the same way, with its operations' names and numbers (0 where there is none):

    proc VALUES ARGS {block FREQ ENTER [params {V}] {op NAME NUMBER DEF {V}} END}

The answer is `invalid`, or `valid` with the nodes of its flow: FREQ ENTER PARAMS PREDS {op DEF USES} END, with `op!` for a
call, and commas in the lists before an END. Procedures that break one rule each are made here, from one that keeps them all.
"""
import copy
import os

from other_compiler import STAGE, end_of, folder_of, line_of, proc_line
import backend  # noqa: E402
import check  # noqa: E402
import lower  # noqa: E402
import ssa  # noqa: E402
import trc  # noqa: E402

LOOP = ('MODULE T; VAR i: INTEGER; BEGIN i := 0; WHILE i < 9 DO IF i = 3 THEN i := i + 2 END; i := i + 1 END END T.')
NEST = '''MODULE N; IMPORT Out; PROCEDURE P(n: INTEGER): INTEGER; VAR i, j, k, s: INTEGER; BEGIN s := 0; i := 0;
WHILE i < n DO j := 0; WHILE j < i DO k := j; REPEAT s := s + k; k := k + 1 UNTIL k > i; j := j + 1 END;
FOR k := 0 TO 3 DO IF k = i THEN s := s - 1 ELSIF k > i THEN s := s + 2 ELSE s := s * 2 END END; i := i + 1 END
RETURN s END P; BEGIN Out.Int(P(5), 0) END N.'''
CASES = '''MODULE C; IMPORT Out; VAR b: BOOLEAN; PROCEDURE Q(x, y: INTEGER): INTEGER; VAR r: INTEGER; BEGIN r := y;
CASE x OF 1: r := 2 | 2, 4 .. 6: WHILE r < 9 DO r := r * 2 ELSIF r < 20 DO r := r + x END | 7: r := x END
RETURN r + y END Q; BEGIN b := (Q(1, 2) < 3) & (Q(2, 3) > 1) OR (Q(5, 6) = 7); IF b THEN Out.Int(1, 0) END END C.'''


def operation_of(o):
    return ['op', '-' if o.d is None else o.d] + o.uses


def answer_of(flow):
    """The lines that are wanted of a flow."""
    lines = []
    for name in ('uni', 'bi'):
        traces = backend.build(name, flow)
        above = backend.parents(flow, traces)
        lines.append(' '.join([name] + [','.join(map(str, t)) for t in traces]))
        lines.append(' '.join(['parents'] + ['-' if a is None else str(a[0]) for a in above]))
    live = ssa.live(flow)
    lines.append(' '.join(['live'] + [','.join(map(str, sorted(s))) or '-' for s in live]))
    return lines


def commas(xs):
    return ','.join(map(str, xs)) or '-'


def answer_of_proc(proc):
    """The line that is wanted of a procedure."""
    if not ssa.is_valid(proc):
        return 'invalid'
    out = ['valid']
    for b in backend.select(proc).blocks:
        out += ['node', b.freq, '-' if b.enter is None else b.enter, commas(b.params), commas(b.preds)]
        for o in b.ops:
            out += ['op!' if o.call else 'op', '-' if o.d is None else o.d, commas(o.uses)]
        out += end_of(b.end)
    return ' '.join(map(str, out))


def whole():
    """A procedure of five argument words with a loop, calls and a trap, which keeps all rules."""
    op, end, block = ssa.Op, ssa.End, ssa.Block
    blocks = [
        block([0, 1, 2, 3], [op('Arg', 4, [], 4), op('Const', 7, [], 5)], end('Jump', to=1, args=[4, 5]), 16),
        block([6, 7], [op('Add', None, [6, 1], 8), op('Set', 0, [8, 7], 9)], end('Branch', cond=10, a=8, b=2, yes=2, no=4), 128, 0),
        block([], [op('Plus', 8, [0], 10), op('IsPtr', 1, [10, 3], 11), op('Global', 16, [], 15)], end('Nonzero', a=11, yes=3, no=5), 64),
        block([], [op('Call', 1, [8, 9], 12), op('Svc', 2, [12, 9], None), op('GuardTag', 2, [0, 3], None)], end('Jump', to=1, args=[12, 7]), 32),
        block([], [op('Mul', None, [8, 8], 13), op('CallAt', None, [13, 8], 14), op('Local', 8, [], 16)], end('Return', a=14), 16),
        block([], [], end('Trap', k=6), 8)]
    return ssa.Proc(blocks, 17, 5, True, 0, 0)


def put(place, value):
    """Sets a place of a procedure, as blocks[1].ops[0].n, to a value."""
    def change(proc):
        exec('proc.%s = value' % place, {'proc': proc, 'value': value})
    return change


def broken():
    """Changes of `whole`, each of which breaks a rule, with the rule."""
    op, end = ssa.Op, ssa.End
    return [
        ('25 argument words', put('args', 25)),
        ('fewer parameters of block 0 than argument words', put('args', 3)),
        ('no block', put('blocks', [])),
        ('a jump to no block', put('blocks[3].end.to', 6)),
        ('a branch to no block', put('blocks[1].end.no', 6)),
        ('a test to no block', put('blocks[2].end.yes', 6)),
        ('an operation reads no value', put('blocks[1].ops[0].uses', [6, 17])),
        ('a jump gives no value', put('blocks[0].end.args', [4, 17])),
        ('a branch reads no value', put('blocks[1].end.b', 17)),
        ('a test reads no value', put('blocks[2].end.a', 17)),
        ('the result is no value', put('blocks[4].end.a', 17)),
        ('an operation makes no value', put('values', 16)),
        ('a value that nothing makes', put('values', 18)),
        ('a value made by two operations', put('blocks[4].ops[0].d', 8)),
        ('a value made by a parameter and an operation', put('blocks[4].ops[0].d', 1)),
        ('a value that is two parameters', put('blocks[1].params', [6, 6])),
        ('too few uses', put('blocks[1].ops[0].uses', [6])),
        ('too many uses', put('blocks[2].ops[0].uses', [0, 1])),
        ('a definition too few', put('blocks[2].ops[2].d', None)),
        ('a definition too many', lambda p: p.blocks[3].ops.append(op('Store', None, [0, 1], 17)) or put('values', 18)(p)),
        ('Global 2^24', put('blocks[2].ops[2].n', 1 << 24)),
        ('Local 2^24', put('blocks[4].ops[2].n', 1 << 24)),
        ('Plus 2^24', put('blocks[2].ops[0].n', 1 << 24)),
        ('Arg 3', put('blocks[0].ops[0].n', 3)),
        ('an argument word that there is not', put('blocks[0].ops[0].n', 5)),
        ('Set of condition 14', put('blocks[1].ops[1].n', 14)),
        ('level 16 of a pointer', put('blocks[2].ops[1].n', 16)),
        ('level 16 of a guard', put('blocks[3].ops[2].n', 16)),
        ('a branch of condition 14', put('blocks[1].end.cond', 14)),
        ('service 0', put('blocks[3].ops[1].n', 0)),
        ('service 5', put('blocks[3].ops[1].n', 5)),
        ('service 3 with two uses', put('blocks[3].ops[1].n', 3)),
        ('a service that makes a value too many', lambda p: put('blocks[3].ops[1].d', 17)(p) or put('values', 18)(p)),
        ('a call with 25 argument words', put('blocks[3].ops[0].uses', [8] * 25)),
        ('a call at an address with 25 argument words', put('blocks[4].ops[1].uses', [13] + [8] * 25)),
        ('a call at no address', put('blocks[4].ops[1].uses', [])),
        ('an argument too few', put('blocks[3].end.args', [12])),
        ('an argument too many', put('blocks[3].end.args', [12, 7, 8])),
        ('a branch to a block with parameters', put('blocks[1].end.no', 1)),
        ('a test to a block with parameters', put('blocks[2].end.no', 1)),
        ('a value read on a way that does not make it', put('blocks[4].ops[0].uses', [12, 8])),
        ('a jump gives a value that no way makes', put('blocks[0].end.args', [8, 5])),
        ('a result that no way makes', put('blocks[4].end.a', 12)),
        ('an operation reads what it makes', put('blocks[1].ops[0].uses', [8, 1])),
        ('an operation reads what the next makes', put('blocks[1].ops[0].uses', [9, 1])),
    ]


def kept():
    """Changes of `whole` that stay just inside a rule."""
    return [
        put('blocks[2].ops[2].n', (1 << 24) - 1), put('blocks[1].ops[1].n', 13), put('blocks[2].ops[1].n', 15), put('blocks[1].end.cond', 13),
        put('blocks[3].ops[0].uses', [8] * 24), put('blocks[4].ops[1].uses', [13] + [8] * 24), put('blocks[4].ops[1].uses', [13]),
        put('blocks[3].ops[2].n', 15), put('blocks[1].end.no', 5), put('blocks[1].end.no', 2), put('blocks[3].end.args', [12, 9])]


def graph(ends, freqs):
    """A procedure of one value, with these ends."""
    blocks = [ssa.Block([], [], e, f) for e, f in zip(ends, freqs)]
    blocks[0].ops = [ssa.Op('Const', 1, [], 0)]
    return ssa.Proc(blocks, 1, 0, False, 0, 0)


def graphs():
    """Graphs with critical edges, and without."""
    def branch(yes, no):
        return ssa.End('Branch', cond=0, a=0, b=0, yes=yes, no=no)

    def nonzero(yes, no):
        return ssa.End('Nonzero', a=0, yes=yes, no=no)

    def jump(to):
        return ssa.End('Jump', to=to)
    back = ssa.End('Return')
    return [
        graph([branch(1, 1), back], [8, 4]),  # equal targets, to which nothing else leads
        graph([nonzero(1, 2), branch(2, 2), back], [16, 4, 8]),  # equal targets, to which another leads too
        graph([jump(1), branch(2, 4), nonzero(1, 3), jump(1), back], [1, 8, 4, 2, 1]),  # a header with two back edges
        graph([jump(1), nonzero(1, 2), back], [1, 8, 1]),  # a block that leads to itself
        graph([nonzero(0, 1), back], [8, 1]),  # to the first block
        graph([branch(1, 2), nonzero(3, 2), nonzero(3, 4), back, back], [8, 4, 4, 2, 2]),
        graph([back, jump(0)], [8, 1])]  # a block to which nothing leads


def main():
    folder = folder_of('flow_vectors')
    texts = [LOOP.encode(), NEST.encode(), CASES.encode(), trc.bulk_text(7, 6), trc.bulk_text(11, 6)]
    lines, answers = [], []
    procs = [whole()]
    for change in kept():
        procs.append(copy.deepcopy(procs[0]))
        change(procs[-1])
        assert ssa.is_valid(procs[-1]), ssa.invalid(procs[-1])
    for rule, change in broken():
        procs.append(copy.deepcopy(procs[0]))
        change(procs[-1])
        assert not ssa.is_valid(procs[-1]), rule
    procs += graphs()
    for text in texts:
        for flow in trc.make_plan(['M'], [text], 'bi', STAGE).flows:
            lines.append(line_of(['flow', flow.values, flow.args], flow, operation_of))
            answers += answer_of(flow)
        procs += lower.lower(check.check_sources([text]), STAGE).procs
    for proc in procs:
        lines.append(proc_line(proc))
        answers.append(answer_of_proc(proc))
    # a header's entering block must be there too, of which the other compiler makes no test
    far = whole()
    far.blocks[1].enter = 6
    lines.append(proc_line(far))
    answers.append('invalid')
    for name, rows in (('stdin', lines), ('stdout', answers)):
        with open(os.path.join(folder, name), 'w') as file:
            file.write('\n'.join(rows) + '\n')
    print(len(lines) - len(procs) - 1, 'flows', len(procs) + 1, 'procedures,', answers.count('invalid'), 'invalid')


main()

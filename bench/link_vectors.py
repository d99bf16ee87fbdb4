#!/usr/bin/env python3
"""Makes the input of crates/link_vectors and the images that are wanted, by another compiler.

    bench/link_vectors.py [FOLDER]
    bench/link_vectors.py bench MODULES

Writes `stdin` and `stdout` into FOLDER (that crate's, if none is given): a hundred modules, of bench/rows and made ones,
each linked without a choice and by linear scan, with 4 and 16 registers; and a module with so many values more that its homes
are far. bench/other_compiler.py says where the other compiler is. `bench` prints one module with so many procedures of a made one, for bench/link.sh. How lines are written
is said in crates/link_vectors and crates/vector_texts.
"""
import os
import sys

from other_compiler import STAGE, folder_of, line_of, sum_of
from module_texts import pieces_of
import backend  # noqa: E402
import check  # noqa: E402
import lower  # noqa: E402
import ssa  # noqa: E402
import trc  # noqa: E402

ROWS = ['linked.txt', 'lowered.txt', 'lowered_telling.txt', 'telling.txt', 'programs.txt', 'more_programs.txt', 'packed.txt', 'frames.txt']
WHOLE = {'loop', 'types', 'modules', 'telling'}  # printed with all their words


def sources():
    """Names and texts of modules, as far as they are programs."""
    found = [piece for name in ROWS for piece in pieces_of(name)]
    return found + [('made%d' % i, [trc.bulk_text(i, 2 + i % 4)]) for i in range(1, 25)]


# 24 arguments, a cycle between values over an edge, calls by number and by value, and traps
FAR = b"""MODULE F; VAR x, y: INTEGER; f: PROCEDURE (a: INTEGER): INTEGER;
PROCEDURE Q(a: INTEGER): INTEGER; RETURN a DIV 3 END Q;
PROCEDURE P(%s: INTEGER): INTEGER; VAR i, j, k, t: INTEGER;
BEGIN i := a0 + a23; j := a7; k := a4;
  WHILE i > 0 DO t := i; i := j; j := k; k := t - 1; IF i = a22 THEN x := x + f(i) END END;
  IF i > 9 THEN x := P(%s) END; ASSERT(j < k)
RETURN i * j + Q(k) END P;
BEGIN f := Q; y := P(%s) END F."""
NAMES = [b'a%d' % i for i in range(24)]


def far_plan(count):
    """The module's flows, where the entry of P makes so many values before all others."""
    passed = [b'k - j', b'i'] + NAMES[2:20] + [b'j', b'x', b'a4', b'a0']
    program = check.check_sources([FAR % (b', '.join(NAMES), b', '.join(passed), b', '.join(b'%d' % (i * 7) for i in range(24)))])
    low = lower.lower(program, STAGE)
    proc = max(low.procs, key=lambda p: p.args)
    behind = lambda v: None if v is None else v + count
    for b in proc.blocks:
        b.params = [behind(v) for v in b.params]
        for o in b.ops:
            o.uses, o.d = [behind(v) for v in o.uses], behind(o.d)
        b.end.a, b.end.b, b.end.args = behind(b.end.a), behind(b.end.b), [behind(v) for v in b.end.args]
    proc.values += count
    proc.blocks[0].ops[:0] = [ssa.Op('Const', v, [], v) for v in range(count)]
    flows = [backend.select(p) for p in low.procs]
    return backend.Plan(program, low, flows, [ssa.live(f) for f in flows], [backend.build('bi', f) for f in flows])


def operation_of(o):
    return ['do', o.code, 0 if o.n is None else o.n % (1 << 64), '-' if o.d is None else o.d] + o.uses


def flow_of(flow):
    """A flow in words."""
    kind = 'counted' if flow.counted else 'body'
    return line_of(['flow', flow.values, flow.args, kind, flow.local_cells, flow.local_bytes], flow, operation_of)


def answer_of(image, whole):
    lines = ['image %d frame %d globals %d constants %d flags %d sum %d' % (
        len(image.code), image.frame, image.globals, len(image.constants), image.flags, sum_of(image))]
    return lines + (['words ' + ' '.join(map(str, image.code))] if whole else [])


def plans():
    """Names and flows of modules; far ones have arguments, homes, or neither on both sides of slot 4,096."""
    for name, texts in sources():
        try:
            yield name, backend.plan(check.check_sources(texts), 'bi', STAGE)
        except Exception:
            continue
    for count in (4010, 4040, 4090):
        yield 'far', far_plan(count)


def bench(count):
    plan = backend.plan(check.check_sources([trc.bulk_text(3, 24)]), 'bi', STAGE)
    print('module 0 0')
    for i in range(count):
        for flow in plan.flows[:-1]:
            print(flow_of(flow))
    print(flow_of(plan.flows[-1]))
    print('link linear 16')


def main():
    folder = folder_of('link_vectors')
    lines, answers, count = [], [], 0
    for name, plan in plans():
        first = True
        for policy in ('plain', 'linear'):
            for regs in (4, 16):
                image = backend.place(plan, backend.results(plan, policy, regs), STAGE)
                if first:
                    lines.append(' '.join(map(str, ['module', image.flags, image.globals] + list(image.constants))))
                    lines += [flow_of(f) for f in plan.flows]
                    count += 1
                whole = name in WHOLE and policy == 'linear' and regs == 4
                lines.append('link %s %d%s' % (policy, regs, ' words' if whole else ''))
                answers += answer_of(image, whole)
                first = False
    for name, rows in (('stdin', lines), ('stdout', answers)):
        with open(os.path.join(folder, name), 'w') as file:
            file.write('\n'.join(rows) + '\n')
    print(count, 'modules,', len(answers), 'lines')


if sys.argv[1:2] == ['bench']:
    bench(int(sys.argv[2]))
else:
    main()

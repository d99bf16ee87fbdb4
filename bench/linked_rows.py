#!/usr/bin/env python3
"""Writes small programs as flows in traces with results, and the frames and code words that another compiler makes of them.

    linked_rows.py bench/rows/linked.txt crates/linked_flows/proofs/Expected.antt

Rows: pieces between lines ---, each a line `name policy registers`, then modules between lines ===.
bench/other_compiler.py says where that is; without it nothing is written."""
import sys

from other_compiler import STAGE
from row_texts import listed, some, truth
import backend
import check


def chain(xs):
    xs = list(xs)
    return ' ∷ '.join(xs + ['[]'])


def numbers(xs):
    return listed(str(x) for x in xs)


def place(p):
    return '(place.%s %d)' % p


def line(l):
    if l[0] == 'Moves':
        return '(line.Moves %s)' % listed('(record { to = %s; from = %s })' % (place(a), place(b)) for a, b in l[1])
    if l[0] == 'Target':
        return '(line.Target %s)' % place(l[1])
    return '(line.%s)' % ' '.join(str(x) for x in l)


def lir(o):
    template = 'code.' + o.code + ('' if o.n is None else ' %d' % o.n)
    return '(record { template = %s; uses = %s; def = %s; call = %s })' % (
        template, numbers(o.uses), some(o.d), truth(o.call))


def end(e):
    if e.kind == 'Jump':
        return 'end.Jump %d %s' % (e.to, numbers(e.args))
    if e.kind == 'Branch':
        return 'end.Branch %d %d %d %d %d' % (e.cond, e.a, e.b, e.yes, e.no)
    if e.kind == 'Nonzero':
        return 'end.Nonzero %d %d %d' % (e.a, e.yes, e.no)
    if e.kind == 'Return':
        return 'end.Return %s' % some(e.a)
    return 'end.Trap %d' % e.k


def node(b):
    return '(record { params = %s; lirs = %s; end = %s; freq = %d; preds = %s; enter = %s })' % (
        numbers(b.params), listed(map(lir, b.ops)), end(b.end), b.freq, numbers(b.preds), some(b.enter))


def flow(f):
    return ('record { nodes = %s; values = %d; args = %d; counted = %s; local_cells = %d; local_bytes = %d }' % (
        listed(map(node, f.blocks)), f.values, f.args, truth(f.counted), f.local_cells, f.local_bytes))


def places(p):
    return '(record { regs = %s; homed = %s })' % (listed(map(some, p.regs)), numbers(sorted(p.homed)))


def out(i, o):
    return '(record { trace = %d; starts = %s; ends = %s; lines = %s; regs = %s })' % (
        i, listed(map(places, o.starts)), listed(map(places, o.ends)),
        listed(listed(map(line, ls)) for ls in o.lines), listed(map(numbers, o.regs)))


HEAD = '''-- Small programs as flows in traces, with results, and their frames and code words. Written by bench/linked_rows.py.
use Rattle.std.proofs.Common.{◌≡◌, List, [], ◌∷◌, map, true, false, Some, None, refl}
use Rattle.block_runs.specs.declared.code.Code.TheVariants as code
use Rattle.block_runs.specs.declared.end.End.TheVariants as end
use Rattle.lir_core.specs.declared.places.Place.TheVariants as place
use Rattle.lir_core.specs.declared.places.Line.TheVariants as line
use Rattle.placed_code.specs.Words.{frame_of}
use Rattle.placed_code.specs.Results.{all_placed}
use Rattle.placed_code.specs.Layout.{code_of}
use Rattle.linked_flows.specs.Allocations.{Cut, steps_of, all_allocated}
'''


def row(piece):
    first, _, text = piece.strip('\n').partition('\n')
    name, policy, registers = first.split()
    sources = [m.strip('\n').encode() + b'\n' for m in text.split('===\n')]
    plan = backend.plan(check.check_sources(sources), 'bi', STAGE)
    outs = backend.results(plan, policy, int(registers))
    image = backend.place(plan, outs, STAGE)
    said = ['-- ' + ' '.join(s.decode().split()) for s in sources] + ['-- %s, %s registers' % (policy, registers)]
    for i, (f, traces, results) in enumerate(zip(plan.flows, plan.cuts, outs)):
        said += ['abbrev %s_%d : Cut' % (name, i), '%s_%d = record {' % (name, i), '  flow = %s;' % flow(f),
                 '  traces = %s;' % listed('(record { nodes = %s })' % numbers(t) for t in traces),
                 '  outs = %s;' % listed(out(j, o) for j, o in enumerate(results)), '}', '']
    said += ['abbrev %s : List Cut' % name, '%s = %s' % (name, chain('%s_%d' % (name, i) for i in range(len(outs)))), '']
    made = 'all_placed steps_of (all_allocated %s)' % name
    said += ['%s_frames : map frame_of (%s) ≡ %s' % (name, made, chain(str(c.frame) for c in plan.coders)),
             '%s_frames = refl' % name, '',
             '%s_words : code_of (%s) ≡ %s' % (name, made, chain(str(w) for w in image.code)), '%s_words = refl' % name, '']
    return said


def main(rows, to):
    said = [HEAD]
    for piece in open(rows).read().split('---\n'):
        said += row(piece)
    with open(to, 'w') as f:
        f.write('\n'.join(said).rstrip('\n') + '\n')


main(*sys.argv[1:])

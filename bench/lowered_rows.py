#!/usr/bin/env python3
"""Writes worked programs as values that definitions compute, with the procedures that another compiler for the language makes of them.

    lowered_rows.py packed ROWS OUT.antt    in the layout in use, where a CHAR, BYTE or BOOLEAN takes one byte
    lowered_rows.py cells ROWS OUT.antt     where each cell takes eight bytes
    lowered_rows.py limits ROWS OUT.antt    which limit is passed first

ROWS as for checked_rows.py; in those of limits [9*text] stands for so many copies of a text, with their numbers in place of #. Where a program has
constants of at most 640 bytes, these are compared too.
What stands in the repository is made so, from its top (then `rt tidy` in the crate):

    lowered_rows.py packed bench/rows/programs.txt crates/ssa_lowered_rows/proofs/Samples.antt
    lowered_rows.py packed bench/rows/more_programs.txt crates/ssa_lowered_rows/proofs/More.antt
    lowered_rows.py packed bench/rows/lowered.txt crates/ssa_lowered_rows/proofs/Low.antt
    lowered_rows.py cells bench/rows/lowered.txt crates/ssa_lowered_rows/proofs/Cells.antt
    lowered_rows.py limits bench/rows/limits.txt crates/ssa_lowered_rows/proofs/Limited.antt
    lowered_rows.py packed bench/rows/lowered_telling.txt crates/ssa_lowered/proofs/Told.antt

bench/other_compiler.py says where the other compiler is; without it nothing is written."""
import itertools
import sys

from other_compiler import STAGE
import checked_rows
from checked_rows import HEAD, ARGUMENTS, deep, declared, listed, program_of, rows_of, truth, vectors
from size_texts import spread
import lower
from stage import Stage

IN_CELLS = Stage('=12,16')  # as STAGE, where each cell takes eight bytes
CODES = ('Const Global Local Plus Code Arg Load Store LoadByte StoreByte Add Sub And Or Eor Bic Lsl Asr Ror Mul MulAdd Neg Not Abs Max0 Odd Set Flip Bit Span '
         'Has Div Mod Below Fits Byte Elem NotNil True IsPtr IsTag GuardPtr GuardTag New Call CallAt Copy Zero Compare Svc').split()
GLOBALS = 0x10000000

USES = '''use Rattle.std.specs.Prelude.{◌++◌, replicate}
use Rattle.block_runs.specs.declared.code.Code.{Code}
use Rattle.block_runs.specs.declared.code.Code.TheVariants.{%s}
use Rattle.block_runs.specs.declared.end.End.{End}
use Rattle.block_runs.specs.declared.end.End.TheVariants.{Jump, Branch, Nonzero, Return, Trap}
use Rattle.ssa_core.specs.declared.procedure.Op.{Op}
use Rattle.ssa_core.specs.declared.procedure.Block.{Block}
use Rattle.ssa_core.specs.declared.procedure.Proc.{Proc}
use Rattle.ssa_lowered.specs.Data.{in_cells, packed}
use Rattle.ssa_lowered.specs.Constants.{constants}
use Rattle.ssa_lowered.specs.Limits.{limit_of}
use Rattle.ssa_lowered.specs.Lowered.{lowered, lowered_in_cells}
''' % ', '.join('%s as %sOp' % (c, c) for c in CODES)

WORDS = '''-- procedures, blocks and operations, in few words
abbrev op : Code → List ℕ → Option ℕ → Op
op code uses def = record { code = code; uses = uses; def = def }

abbrev block : List ℕ → List Op → End → ℕ → Option ℕ → Block
block params ops end freq enter = record { params = params; ops = ops; end = end; freq = freq; enter = enter }

abbrev proc : List Block → (values args : ℕ) → Bool → (cells bytes : ℕ) → Proc
proc blocks values args counted cells bytes = record { blocks = blocks; values = values; args = args; counted = counted; local_cells = cells; local_bytes = bytes }

'''


def numbers(ns):
    return listed(str(n) for n in ns)


def some(n):
    return 'None' if n is None else '(Some %d)' % n


def op(o):
    code = '%sOp' % o.code if o.n is None or o.code == 'CallAt' else '(%sOp %d)' % (o.code, o.n)
    return '(op %s %s %s)' % (code, numbers(o.uses), some(o.d))


def end(e):
    return {'Jump': lambda: '(Jump %d %s)' % (e.to, numbers(e.args)),
            'Branch': lambda: '(Branch %d %d %d %d %d)' % (e.cond, e.a, e.b, e.yes, e.no),
            'Nonzero': lambda: '(Nonzero %d %d %d)' % (e.a, e.yes, e.no),
            'Return': lambda: '(Return %s)' % some(e.a),
            'Trap': lambda: '(Trap %d)' % e.k}[e.kind]()


def block(b):
    return '(block %s %s %s %d %s)' % (numbers(b.params), listed(op(o) for o in b.ops), end(b.end), b.freq, some(b.enter))


def proc(p):
    return '(proc %s %d %d %s %d %d)' % (listed(block(b) for b in p.blocks), p.values, p.args, truth(p.counted), p.local_cells, p.local_bytes)


# what a row has to see into
SEEN = {'lowered_in_cells': '', 'lowered': 'unfolding data_tree record_row fields_before\n'}


def lowered(rows, stage, word, layout):
    for (name, *_), source in rows_of(rows):
        p, text = program_of(source)
        low = deep(lambda: lower.lower(p, stage))
        yield declared(name, source, text)
        yield 'abbrev %s_procs : List Proc\n%s_procs = %s\n' % (name, name, listed(proc(q) for q in low.procs))
        yield 'pub %s_low : %s → %s (%s b v) ≡ %s_procs\n%s%s_low b v = refl\n' % (name, ARGUMENTS, word, name, name, SEEN[word], name)
        constants = low.layout.constants()
        if 0 < len(constants) <= 640:
            yield 'pub %s_constants : %s → constants (%s b v) (%s (%s b v).types) %d ≡ %s\n%s%s_constants b v = refl\n' % (
                name, ARGUMENTS, name, layout, name, GLOBALS, numbers(constants), SEEN[word], name)


def in_runs(xs):
    """A list in which many equal items stand as one."""
    out = '[]'
    for x, run in reversed([(x, len(list(run))) for x, run in itertools.groupby(xs)]):
        out = '(replicate %d %s ++ %s)' % (run, x, out) if run > 20 else '(' + ' ∷ '.join([x] * run + [out]) + ')'
    return out


def limits(rows):
    checked_rows.listed = in_runs
    for (name, *_), short in rows_of(rows):
        source = spread(short)
        p, text = program_of(source)
        want = 'None'
        try:
            deep(lambda: lower.lower(p, STAGE))
        except lower.Limit as limit:
            want = 'Some (record { number = %d; index = %d })' % (limit.number, limit.index)
        yield declared(name, short, text)
        yield 'pub %s_limit : %s → limit_of (%s b v) ≡ %s\n%s_limit b v = refl\n' % (name, ARGUMENTS, name, want, name)


def main():
    what, rows, out = sys.argv[1:]
    body = '\n'.join({'cells': lambda: lowered(rows, IN_CELLS, 'lowered_in_cells', 'in_cells'),
                      'packed': lambda: lowered(rows, STAGE, 'lowered', 'packed'),
                      'limits': lambda: limits(rows)}[what]())
    program = 'use Rattle.ob_types.specs.declared.program.Program.{Program}\n'
    head = (HEAD % USES).replace(program, program + 'use Rattle.ob_types.specs.Trees.{data_tree, record_row, fields_before}\n')
    head = head.replace('and what holds of them. Written by bench/checked_rows.py', 'and the procedures that they become. Written by bench/lowered_rows.py')
    open(out, 'w').write(head + WORDS + vectors(body) + body)


if __name__ == '__main__':
    main()

#!/usr/bin/env python3
"""Writes worked programs as values that definitions compute, with what another compiler says of them.

    checked_rows.py means ROWS OUT.antt     a program's meaning with so many turns
    checked_rows.py formed ROWS OUT.antt    that it is well-formed
    checked_rows.py spoiled ROWS SPOILS OUT.antt   with something changed in its tree, that it isn't

ROWS: pieces between lines ---, each a line `name turns,turns,.. input`, then modules between lines ===.
SPOILS: pieces between lines ---: `name row [turns [output,..]]`, then pairs of lines OLD, NEW; with turns, the run makes no sense.
What stands in the repository is made so, from its top (then `rt tidy` in the crate):

    checked_rows.py means bench/rows/programs.txt crates/ob_rows/proofs/Samples.antt
    checked_rows.py means bench/rows/more_programs.txt crates/ob_rows/proofs/More.antt
    checked_rows.py formed BOTH crates/ob_rows/proofs/Formed.antt       BOTH: the two with a line --- between them
    checked_rows.py spoiled BOTH bench/rows/spoils.txt crates/ob_rows/proofs/Spoiled.antt
    checked_rows.py means bench/rows/telling.txt crates/ob_types/proofs/Told.antt

bench/other_compiler.py says where the other compiler is; without it nothing is written."""
import re
import sys

from row_texts import extent_of, integer, letters, listed, some, truth
from tree import *
from check import check_sources
from meaning import meaning, Ended, Trapped, deep

RELATIONS = {'=': 'Equal', '#': 'Unequal', '<': 'Less', '<=': 'LessEqual', '>': 'Greater', '>=': 'GreaterEqual'}
BINARY = {'+': 'Add', '-': 'Subtract', '*': 'Multiply', 'DIV': 'Div', 'MOD': 'Mod', 'set+': 'Union', 'set-': 'Difference',
          'set*': 'Intersection', 'set/': 'SymmetricDifference', 'LSL': 'Lsl', 'ASR': 'Asr', 'ROR': 'Ror'}
UNARY = {'neg': 'Negate', 'compl': 'Complement', 'not': 'Not', 'ABS': 'Abs', 'ODD': 'Odd'}
BASIC = {INT: 'Int', BOOL: 'BoolKind', CHAR: 'Char', BYTE: 'ByteKind', SET: 'SetKind', NIL: 'Nil', NOTHING: 'Nothing'}


class Writer:
    def __init__(self, program):
        self.p = program
        self.kinds, self.numbers, self.texts, self.signatures, self.kept = [], {}, [], [], []
        self.q = None
        for r in program.records:
            self.number(r)

    # types: each once, but for pointers
    def kind(self, t):
        if isinstance(t, Text):
            return '(TextKind %d)' % t.n
        if isinstance(t, Array):
            return '(Array %s %d)' % (some(t.length), self.number(t.elem))
        if isinstance(t, Record):
            return '(RecordKind %d)' % t.number
        if isinstance(t, Pointer):
            return '(PointerKind %d)' % t.target.number
        if isinstance(t, Proc):
            return '(ProcedureKind %d)' % self.signature(t)
        return BASIC[t]

    def number(self, t):
        text = self.kind(t)
        key = text
        if isinstance(t, Pointer):
            self.kept.append(t)
            key = id(t)
        if key not in self.numbers:
            self.numbers[key] = len(self.kinds)
            self.kinds.append(text)
        return self.numbers[key]

    def mode(self, formal):
        t = formal.type
        if isinstance(t, Array) and t.length is None:
            return 'OfOpen'
        if formal.var and isinstance(t, Record):
            return 'OfRecord'
        return 'Place' if formal.var or isinstance(t, (Array, Record)) else 'OfValue'

    def formals(self, t):
        return listed('record { mode = %s; variable = %s; type_number = %d }' % (self.mode(f), truth(f.var), self.number(f.type)) for f in t.params)

    def signature(self, t):
        s = 'record { formals = %s; result = %d }' % (self.formals(t), self.number(t.result))
        if s not in self.signatures:
            self.signatures.append(s)
        return self.signatures.index(s)

    # designators
    def base(self, x):
        if isinstance(x, Str):
            self.texts.append(x.data)
            return '(Text %d)' % (len(self.texts) - 1)
        v = x.var
        if v.home == 'done':
            return 'Done'
        if v.home == 'global':
            return '(Global %d %d)' % (v.module, self.p.modules[v.module].vars.index(v))
        if v.home in ('local', 'value'):
            return '(Local %d)' % self.q.vars.index(v)
        return '(Parameter %d)' % self.q.params.index(v)

    def guards(self, x):
        """The variable under the guards of a pointer, and the guards from the first on."""
        rs = []
        while type(x) is Guard and x.kind == 'ptr':
            rs.insert(0, x.record.number)
            x = x.base
        return x, rs

    def selectors(self, x):
        """Where x begins, and its selectors."""
        t = type(x)
        if t in (VarRef, Str):
            return self.base(x), []
        if t is Index:
            b, ss = self.selectors(x.base)
            return b, ss + ['(Index %s %d %s)' % (some(x.base.type.length), self.number(x.type), self.e(x.index))]
        if t is Select:
            b, ss = self.selectors(x.base)
            return b, ss + ['(Field %d %d)' % (x.field.owner.number, x.field.owner.own.index(x.field))]
        if t is Deref:
            y, rs = self.guards(x.base)
            b, ss = self.selectors(y)
            return b, ss + ['(Dereference %s)' % listed(str(r) for r in rs)]
        assert t is Guard and x.kind == 'tag', x
        b, ss = self.selectors(x.base)
        return b, ss + ['(Narrow %d)' % x.record.number]

    def d(self, x):
        b, ss = self.selectors(x)
        if not ss:
            return '(Whole %s %s)' % (b, self.kind(x.type))
        return "(Part' b %s %s %s)" % (b, self.kind(x.type), self.row('Selector', ss))

    def row(self, name, xs):
        r = 'end_of-' + name
        for x in reversed(xs):
            r = '(more_of-%s %s %s)' % (name, x, r)
        return '(vec%d v) %s' % (len(xs), r)

    # expressions
    def links(self, x):
        """The first operand, and what is done to it."""
        t = type(x)
        if t is Binary and x.op in ('and', 'or'):
            first, ls = self.links(x.x)
            return first, ls + ['(%s %s)' % (x.op.capitalize(), self.e(x.y))]
        if t is Binary:
            first, ls = self.links(x.x)
            return first, ls + ['(Operate %s %s)' % (BINARY[x.op], self.e(x.y))]
        if t is Incl:
            first, ls = self.links(x.x)
            return first, ls + ['(Operate %s %s)' % ('Subset' if x.op == '<=' else 'Superset', self.e(x.y))]
        if t is Builtin and x.name in ('LSL', 'ASR', 'ROR'):
            first, ls = self.links(x.args[0])
            return first, ls + ['(Operate %s %s)' % (BINARY[x.name], self.e(x.args[1]))]
        if t is SetCons and x.elements:
            return '(Literal 0)', ['(Element %s)' % self.e(a) if c is None else "(Elements' b %s b %s)" % (self.e(a), self.e(c)) for a, c in x.elements]
        return self.e(x), []

    def e(self, x):
        t = type(x)
        if t is Const:
            return '(Literal %d)' % (int(x.value) & MASK)
        if t is ProcRef:
            return '(Routine %d)' % x.proc
        if t is Guard and x.kind == 'ptr':
            y, rs = self.guards(x)
            return "(Guard' b %s %s)" % (self.d(y), listed(str(r) for r in rs))
        if t in (VarRef, Index, Select, Guard):
            return '(Load %s)' % self.d(x)
        if t is Unary:
            return "(Unary' %s b %s)" % (UNARY[x.op], self.e(x.x))
        if t is Rel:
            return "(Compare' %s b %s b %s)" % (RELATIONS[x.op], self.e(x.x), self.e(x.y))
        if t is TextRel:
            return "(CompareTexts' %s b %s b %s)" % (RELATIONS[x.op], self.d(x.x), self.d(x.y))
        if t is InSet:
            return "(In' b %s b %s)" % (self.e(x.x), self.e(x.s))
        if t is IsTest:
            if x.kind == 'ptr':
                return "(IsPointer' b %s %d)" % (self.e(x.x), x.record.number)
            return '(IsParameter %s %d)' % (self.d(x.x), x.record.number)
        if t is SetCons and not x.elements:
            return '(Literal 0)'
        if t is ToByte:
            return "(Byte' b %s)" % self.e(x.x)
        if t is Builtin and x.name in ('ABS', 'ODD'):
            return "(Unary' %s b %s)" % (UNARY[x.name], self.e(x.args[0]))
        if t is Builtin and x.name in ('ORD', 'CHR'):
            return self.e(x.args[0])
        if t is Len:
            return '(Length %s)' % self.d(x.x)
        if t is Call:
            return "(Call' b %s)" % self.call(x)
        first, ls = self.links(x)
        return "(Chain' b %s %s)" % (first, self.row('Link', ls))

    def call(self, x):
        args = None
        if x.proc is not None:
            return "(Direct' %d %s)" % (x.proc, self.row('Argument', [self.argument(a) for a in x.args]))
        target = self.d(x.target)
        return "(Indirect' %s %s)" % (target, self.row('Argument', [self.argument(a) for a in x.args]))

    def argument(self, a):
        if a.kind == 'value':
            return '(ByValue %s)' % self.e(a.x)
        return '(%s %s)' % ({'ref': 'ByPlace', 'open': 'ByOpen', 'vrecord': 'ByRecord'}[a.kind], self.d(a.x))

    def c(self, x):
        return '(record { form = %s; kind = %s })' % (self.e(x), self.kind(x.type))

    # statements
    def body(self, l):
        return self.row('Stmt', [self.st(x) for x in l])

    def labels(self, ls):
        return listed(('One %s' % integer(a)) if c is None else ('Range %s %s' % (integer(a), integer(c))) for a, c in ls)

    def st(self, x):
        t = type(x)
        if t is Assign:
            return '(Assign %s %s)' % (self.d(x.dest), self.c(x.x))
        if t in (CopyArray, CopyString):
            return '(CopyArray %s %s)' % (self.d(x.dest), self.d(x.x))
        if t is CopyRecord:
            return '(CopyRecord %s %s)' % (self.d(x.dest), self.d(x.x))
        if t is IncDec:
            return '(%s %s %s)' % ('Increase' if x.op == '+' else 'Decrease', self.d(x.dest), self.c(x.n))
        if t is InclExcl:
            return '(%s %s %s)' % ('Include' if x.op == '+' else 'Exclude', self.d(x.dest), self.c(x.x))
        if t is New:
            return '(New %s)' % self.d(x.dest)
        if t is Assert:
            return '(Assert %s)' % self.c(x.x)
        if t is OutChar:
            return '(OutChar %s)' % self.c(x.x)
        if t is OutInt:
            return '(OutInt %s %s)' % (self.c(x.x), self.c(x.n))
        if t is OutString:
            return '(OutString %s)' % self.d(x.x)
        if t is OutLn:
            return 'OutLn'
        if t is InChar:
            return '(InChar %s)' % self.d(x.dest)
        if t is CallStat:
            return '(Invoke %s)' % self.call(x.call)
        if t is If:
            parts = self.row('Branch', ['%s %s' % (self.c(c), self.body(b)) for c, b in x.arms])
            return "(If' %s %s)" % (parts, self.body(x.other or []))
        if t is While:
            return "(While' %s)" % self.row('Branch', ['%s %s' % (self.c(c), self.body(b)) for c, b in x.arms])
        if t is Repeat:
            body = self.body(x.stats)
            return "(Repeat' %s %s)" % (body, self.c(x.cond))
        if t is For:
            head = '%s %s %s' % (self.d(x.var), self.c(x.first), self.c(x.limit))
            return "(For' b %s %s %s)" % (head, integer(x.step), self.body(x.stats))
        if t is Case:
            head = self.c(x.x)
            return "(Case' %s %s)" % (head, self.row('CasePart', ['%s %s' % (self.labels(ls), self.body(b)) for ls, b in x.arms]))
        assert t is TypeCase, x
        head = self.c(x.x) if x.kind == 'ptr' else self.d(x.x)
        parts = self.row('TypePart', ['%d %s' % (r.number, self.body(b)) for r, _, b in x.arms])
        return "(%s %s %s)" % ("CasePointer'" if x.kind == 'ptr' else "CaseParameter'", head, parts)

    # the program
    def procedure(self, q):
        self.q, self.texts = q, []
        body = listed(self.st(x) for x in q.stats)
        answer = 'None' if q.result is None else '(Some %s)' % self.c(q.result)
        t = q.type or Proc([], NOTHING)
        return 'record { «module» = %d; line = %d; is_body = %s; formals = %s; result = %d; locals = %s; texts = %s; body = %s; answer = %s }' % (
            q.module, q.line, truth(q.body), self.formals(t), self.number(t.result), listed(str(self.number(v.type)) for v in q.locals),
            listed(listed(str(c) for c in text) for text in self.texts), body, answer)

    def record(self, r):
        fields = listed('record { name = []; exported = %s; type_number = %d }' % (truth(f.exported), self.number(f.type)) for f in r.own)
        return 'record { «module» = %d; base = %s; level = %d; fields = %s; cells = %d; extent = %s }' % (
            r.module, some(None if r.base is None else r.base.number), r.level, fields, r.ncells, extent_of(self.p, r))

    def program(self):
        modules = listed('record { name = []; objects = []; variables = %s; body = %d }' % (listed(str(self.number(v.type)) for v in m.vars), m.body) for m in self.p.modules)
        procedures = listed([self.procedure(q) for q in self.p.procs])
        records = listed([self.record(r) for r in self.p.records])
        return 'record { types = record { kinds = %s; records = %s; signatures = %s }; modules = %s; procedures = %s; imports_in = %s }' % (
            listed(self.kinds), records, listed(self.signatures), modules, procedures, truth(self.p.imports_in))


HEAD = '''-- Worked programs: their checked trees, and what holds of them. Written by bench/checked_rows.py from their texts.
use Rattle.std.specs.Prelude.{◌≡◌, ℕ, zero, suc, List, [], ◌∷◌, Bool, true, false, Option, Some, None, pos, negsuc, Vec, Box}
use Rattle.std.proofs.Common.{refl, arith}
use Rattle.std.specs.Fmt.{digits}
use Rattle.std.specs.declared.alloc.Global.{Global as Heap}
use Rattle.run_laws.specs.Runs.{Outcome, Ended, Trapped, Going}
use Rattle.ob_types.specs.Store.{Kind, Senseless}
use Rattle.ob_types.specs.Meaning.{meaning}
%suse Rattle.ob_types.specs.Table.{Table}
use Rattle.ob_types.specs.declared.types.TypeKind.TheVariants.{Int, Char, Nil, Array, Nothing}
use Rattle.ob_types.specs.declared.types.TypeKind.TheVariants.{Bool as BoolKind, Byte as ByteKind, Set as SetKind, Text as TextKind, Record as RecordKind, Pointer as PointerKind, Procedure as ProcedureKind}
use Rattle.ob_types.specs.declared.types.Mode.TheVariants.{Place}
use Rattle.ob_types.specs.declared.types.Mode.TheVariants.{Value as OfValue, Record as OfRecord, Open as OfOpen}
use Rattle.ob_types.specs.declared.tree.Unary.TheVariants.{Negate, Complement, Not, Abs, Odd}
use Rattle.ob_types.specs.declared.tree.Binary.TheVariants.{Add, Subtract, Multiply, Div, Mod, Union, Difference, Intersection, SymmetricDifference, Subset, Superset, Lsl, Asr, Ror}
use Rattle.ob_types.specs.declared.tree.Relation.TheVariants.{Equal, Unequal, Less, LessEqual, Greater, GreaterEqual}
use Rattle.ob_types.specs.declared.tree.Base.TheVariants.{Done, Global, Local, Parameter, Text}
use Rattle.ob_types.specs.declared.tree.Expr.{Expr, Literal, Routine, Load, Guard', Unary', Chain', Compare', CompareTexts', In', IsPointer', IsParameter, Byte', Length, Call', Row_of-Link, end_of-Link, more_of-Link}
use Rattle.ob_types.specs.declared.tree.Link.{Operate, And, Or, Element, Elements'}
use Rattle.ob_types.specs.declared.tree.Designator.{Whole, Part', end_of-Selector, more_of-Selector}
use Rattle.ob_types.specs.declared.tree.Selector.{Index, Field, Dereference, Narrow}
use Rattle.ob_types.specs.declared.tree.Call.{Direct', Indirect', end_of-Argument, more_of-Argument}
use Rattle.ob_types.specs.declared.tree.Argument.{ByValue, ByPlace, ByRecord, ByOpen}
use Rattle.ob_types.specs.declared.statements.Label.TheVariants.{One, Range}
use Rattle.ob_types.specs.declared.statements.Stmt.{Stmt, Assign, CopyArray, CopyRecord, Increase, Decrease, Include, Exclude, New, Assert, OutChar, OutInt, OutString, OutLn, InChar, If', While', Repeat', For', Case', CasePointer', CaseParameter', end_of-Stmt, more_of-Stmt, end_of-Branch, more_of-Branch, end_of-CasePart, more_of-CasePart, end_of-TypePart, more_of-TypePart}
use Rattle.ob_types.specs.declared.statements.Stmt.{Call as Invoke}
use Rattle.ob_types.specs.declared.program.Program.{Program}

-- the outside of a box and of a vector
abbrev Outside : Type 0 → Type 0
Outside A = Box (Unit {0}) Heap → Vec (Unit {0}) Heap → A

'''


def vectors(text):
    out = ''
    for n in sorted(set(int(n) for n in re.findall(r'\(vec(\d+) v\)', text))):
        items = ' ∷ '.join(['tt'] * n + ['[]'])
        out += ('abbrev vec%d : Vec (Unit {0}) Heap → Vec (Unit {0}) Heap\nvec%d v = record { ptr = v.ptr; len = %d; cap = %d; alloc = v.alloc; '
                'items = %s; ok = (refl, omega arith); small = omega arith }\n\n') % (n, n, n, n, items)
    return out


def rows_of(name):
    for row in open(name).read().split('\n---\n'):
        if row.strip():
            head, source = row.strip().split('\n', 1)
            yield head.split(' ', 2), source


def program_of(source):
    p = deep(lambda: check_sources([s.encode() for s in source.split('\n===\n')]))
    return p, Writer(p).program()


def declared(name, source, text):
    said = ' '.join(source.split()).replace('"', "''")
    return '-- %s\nabbrev %s : Outside Program\n%s b v = %s\n' % (said, name, name, text)


def outcome(r):
    out = listed(str(c) for c in r.out)
    if isinstance(r, Ended):
        return 'Ended ' + out
    if isinstance(r, Trapped):
        return 'Trapped (Kind %d %d) %s' % (r.kind, r.proc, out)
    return 'Going ' + out


ARGUMENTS = '(b : Box (Unit {0}) Heap) (v : Vec (Unit {0}) Heap)'


def means(rows):
    for (name, turns, *given), source in rows_of(rows):
        p, text = program_of(source)
        given = given[0].encode() if given else b''
        yield declared(name, source, text)
        for t in turns.split(','):
            want = outcome(meaning(p, given, int(t)))
            yield 'pub %s_%s : %s → meaning (%s b v) %s %s ≡ %s\nunfolding digits\n%s_%s b v = refl\n' % (
                name, t, ARGUMENTS, name, listed(str(c) for c in given), t, want, name, t)


def formed(rows):
    for (name, *_), source in rows_of(rows):
        yield declared(name, source, program_of(source)[1])
        yield 'pub %s_formed : %s → well_formed (%s b v) ≡ true\nunfolding data_tree record_row\n%s_formed b v = refl\n' % (name, ARGUMENTS, name, name)


def spoiled(rows, spoils):
    sources = {head[0]: source for head, source in rows_of(rows)}
    for piece in open(spoils).read().strip().split('\n---\n'):
        lines = piece.strip().split('\n')
        name, row, *run = lines[0].split(' ')
        text = program_of(sources[row])[1]
        for old, new in zip(lines[1::2], lines[2::2]):
            assert old in text, (name, old, text)
            text = text.replace(old, new, 1)
        yield declared(name, sources[row], text)
        yield 'pub %s_not : %s → well_formed (%s b v) ≡ false\nunfolding data_tree record_row\n%s_not b v = refl\n' % (name, ARGUMENTS, name, name)
        if run:
            out = listed(run[1].split(',')) if len(run) > 1 else '[]'
            yield 'pub %s_run : %s → meaning (%s b v) [] %s ≡ Trapped Senseless %s\nunfolding digits\n%s_run b v = refl\n' % (
                name, ARGUMENTS, name, run[0], out, name)


def main():
    what, *files, out = sys.argv[1:]
    body = '\n'.join({'means': means, 'formed': formed, 'spoiled': spoiled}[what](*files))
    head = HEAD % ('' if what == 'means' else 'use Rattle.ob_types.specs.WellFormed.{well_formed}\n')
    open(out, 'w').write(head + vectors(body) + body)


if __name__ == '__main__':
    main()

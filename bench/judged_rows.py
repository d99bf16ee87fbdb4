#!/usr/bin/env python3
"""Writes small modules as syntax, with what another compiler says of them: the first fault by module, number and place, or the checked program.

    judged_rows.py ROWS OUT.antt

ROWS: pieces between lines ---, each a line `name`, then modules between lines ===.
bench/other_compiler.py says where the other compiler is; without it nothing is written.
Symbols that the judgement never reads are numbered 0 in the trees."""
import re
import sys

from row_texts import extent_of, integer, letters, listed, some, truth
import check as C
import parse as P
import tree as T
from meaning import deep
from scan import Fault, scan


class CountedPointer(T.Pointer):
    """Pointer types, numbered by the places of their words."""
    count = 0

    def __init__(self, target=None):
        T.Pointer.__init__(self, target)
        self.number = CountedPointer.count
        CountedPointer.count += 1
        CountedPointer.all.append(self)


CountedPointer.all = []
C.Pointer = CountedPointer


ADD = {'+': 'Plus', '-': 'Minus', 'OR': 'Or'}
MULTIPLY = {'*': 'Times', '/': 'Slash', 'DIV': 'Div', 'MOD': 'Mod', '&': 'And'}
RELATIONS = {'=': 'Equal', '#': 'NotEqual', '<': 'Less', '<=': 'LessEqual', '>': 'Greater', '>=': 'GreaterEqual', 'IN': 'In', 'IS': 'Is'}


class Parsed:
    """A module's bytes, symbols and syntax."""

    def __init__(self, source):
        self.source = source
        self.symbols = scan(source)
        self.tree = P.parse(self.symbols, len(source))
        self.index = {s.at: i for i, s in enumerate(self.symbols)}

    def i(self, x):
        return str(self.index[x if isinstance(x, int) else x.at])

    def chain(self, empty, one, xs):
        """`one % x rest` for each, up to `empty`."""
        r = 'S.' + empty
        for x in reversed(xs):
            r = '(S.%s %s %s)' % (one, x, r)
        return r

    # expressions
    def expression(self, e):
        if isinstance(e, P.EBinary) and e.op.value in P.RELATIONS:
            return '(S.compared %s (TheRelation.%s %s) %s)' % (self.simple(e.x), RELATIONS[e.op.value], self.i(e.op), self.simple(e.y))
        return '(S.only %s)' % self.simple(e)

    def simple(self, e):
        more = []
        while isinstance(e, P.EBinary) and e.op.value in ADD:
            more.insert(0, '(TheAddOperator.%s %s) %s' % (ADD[e.op.value], self.i(e.op), self.term(e.y)))
            e = e.x
        sign = 'None'
        if isinstance(e, P.EUnary) and e.op.value in '+-':
            sign = '(Some (TheSign.%s %s))' % (ADD[e.op.value], self.i(e.op))
            e = e.x
        return '(S.simple %s %s %s)' % (sign, self.term(e), self.chain('no_term', 'added', more))

    def term(self, e):
        more = []
        while isinstance(e, P.EBinary) and e.op.value in MULTIPLY:
            more.insert(0, '(TheMulOperator.%s %s) %s' % (MULTIPLY[e.op.value], self.i(e.op), self.factor(e.y)))
            e = e.x
        return '(S.term %s %s)' % (self.factor(e), self.chain('no_factor', 'multiplied', more))

    def factor(self, e):
        if isinstance(e, P.ELit):
            kind = {'int': 'Int', 'text': 'Text', 'char': 'Char'}.get(e.sym.kind) or e.sym.value.capitalize()
            return '(S.%s %s)' % (kind, self.i(e.sym))
        if isinstance(e, P.ESet):
            xs = [self.element(x) for x in e.elements]
            if not xs:
                return '(S.EmptySet %s 0)' % self.i(e.at)
            return '(S.Set %s %s %s 0)' % (self.i(e.at), xs[0], self.chain('no_element', 'next_element 0', xs[1:]))
        if isinstance(e, P.EDes):
            return '(S.Designated %s %s)' % (self.i(e.first), self.selectors(e))
        if isinstance(e, P.EParen):
            return '(S.Paren %s %s 0)' % (self.i(e.at), self.expression(e.x))
        assert isinstance(e, P.EUnary) and e.op.value == '~', e
        return '(S.Not %s %s)' % (self.i(e.op), self.factor(e.x))

    def element(self, x):
        low, high = x
        return '(S.one %s)' % self.expression(low) if high is None else '(S.range %s 0 %s)' % (self.expression(low), self.expression(high))

    def next_expressions(self, es):
        return self.chain('no_expression', 'next_expression 0', [self.expression(e) for e in es])

    def expressions(self, es):
        return '(S.expressions %s %s)' % (self.expression(es[0]), self.next_expressions(es[1:]))

    def selector(self, s):
        mark, x, _ = s
        if mark == '.':
            return '(S.Field 0 %s)' % self.i(x)
        if mark == '[':
            return '(S.Index 0 %s 0)' % self.expressions(x)
        if mark == '^':
            return '(S.Arrow 0)'
        return '(S.Parens 0 %s 0)' % self.expressions(x) if x else '(S.EmptyParens 0 0)'

    def selectors(self, d):
        return self.chain('no_selector', 'selected', [self.selector(s) for s in d.selectors])

    def designator(self, d):
        return '(record { name = %s; selectors = %s })' % (self.i(d.first), self.selectors(d))

    # names
    def qualident(self, q):
        return '(record { name = %s; member = %s })' % (self.i(q.first), 'None' if q.second is None else 'Some (record { period = 0; name = %s })' % self.i(q.second))

    def identdef(self, n):
        return '(record { name = %s; star = %s })' % (self.i(n.name), 'Some 0' if n.star else 'None')

    def idents(self, ns):
        return '(record { first = %s; more = %s })' % (self.identdef(ns[0]), listed('record { comma = 0; name = %s }' % self.identdef(n) for n in ns[1:]))

    # types
    def type(self, t):
        if isinstance(t, P.TName):
            return '(S.Named %s)' % self.qualident(t.qual)
        if isinstance(t, P.TArray):
            return '(S.Array %s %s %s 0 %s)' % (self.i(t.at), self.expression(t.lengths[0]), self.next_expressions(t.lengths[1:]), self.type(t.elem))
        if isinstance(t, P.TRecord):
            base = 'None' if t.base is None else '(Some (record { left_paren = 0; name = %s; right_paren = 0 }))' % self.qualident(t.base)
            fs = ['(S.fields %s 0 %s)' % (self.idents(f[0]), self.type(f[1])) for f in t.fields] or ['S.no_fields']
            return '(S.Record %s %s %s %s 0)' % (self.i(t.at), base, fs[0], self.chain('no_more_fields', 'next_fields 0', fs[1:]))
        if isinstance(t, P.TPointer):
            return '(S.Pointer %s 0 %s)' % (self.i(t.at), self.type(t.base))
        assert isinstance(t, P.TProc), t
        return '(S.Procedure %s %s)' % (self.i(t.at), self.formals(t.formals))

    def formals(self, f):
        if f is None:
            return 'None'
        xs = [self.section(s) for s in f.sections]
        sections = 'None' if not xs else 'Some (record { first = %s; more = %s })' % (xs[0], listed('record { semicolon = 0; section = %s }' % x for x in xs[1:]))
        result = 'None' if f.result is None else 'Some (record { colon = 0; name = %s })' % self.qualident(f.result)
        return '(Some (record { left_paren = 0; sections = %s; right_paren = 0; result = %s }))' % (sections, result)

    def section(self, s):
        return '(record { var_word = %s; first = %s; more = %s; colon = 0; open_array = %s; of = %s })' % (
            'Some 0' if s.var else 'None', self.i(s.names[0]), listed('record { comma = 0; name = %s }' % self.i(n) for n in s.names[1:]),
            'Some (record { array_word = 0; of_word = 0 })' if s.open else 'None', self.qualident(s.qual))

    # statements
    def stats(self, ss):
        ss = [self.stat(s) for s in ss] or ['S.Empty']
        return '(S.stats %s %s)' % (ss[0], self.chain('no_stat', 'next_stat 0', ss[1:]))

    def elsifs(self, arms):
        return self.chain('no_elsif', 'next_elsif', ['0 %s 0 %s' % (self.expression(c), self.stats(b)) for c, b in arms])

    def stat(self, s):
        if isinstance(s, (P.SAssign, P.SDes)):
            assigned = 'None' if isinstance(s, P.SDes) else '(Some (record { becomes = 0; value = %s }))' % self.expression(s.x)
            return '(S.AssignOrCall %s %s)' % (self.designator(s.des), assigned)
        if isinstance(s, P.SIf):
            (g, body), rest = s.arms[0], s.arms[1:]
            other = 'S.no_else' if s.other is None else '(S.otherwise 0 %s)' % self.stats(s.other)
            return '(S.If 0 %s 0 %s %s %s 0)' % (self.expression(g), self.stats(body), self.elsifs(rest), other)
        if isinstance(s, P.SWhile):
            (g, body), rest = s.arms[0], s.arms[1:]
            return '(S.While 0 %s 0 %s %s 0)' % (self.expression(g), self.stats(body), self.elsifs(rest))
        if isinstance(s, P.SRepeat):
            return '(S.Repeat 0 %s 0 %s)' % (self.stats(s.stats), self.expression(s.cond))
        if isinstance(s, P.SFor):
            by = 'None' if s.step is None else '(Some (record { by_word = 0; step = %s }))' % self.expression(s.step)
            return '(S.For 0 %s 0 %s 0 %s %s 0 %s 0)' % (self.i(s.var), self.expression(s.first), self.expression(s.limit), by, self.stats(s.stats))
        assert isinstance(s, P.SCase), s
        cs = [self.case(c) for c in s.cases] or ['S.no_case']
        return '(S.Case 0 %s 0 %s %s 0)' % (self.expression(s.x), cs[0], self.chain('no_next_case', 'next_case 0', cs[1:]))

    def case(self, c):
        rs = [self.range(r) for r in c[0]]
        return '(S.one_case %s %s 0 %s)' % (rs[0], listed('record { comma = 0; range = %s }' % r for r in rs[1:]), self.stats(c[1]))

    def range(self, r):
        return '(record { low = %s; high = %s })' % (self.label(r.lo), 'None' if r.hi is None else 'Some (record { dots = 0; label = %s })' % self.label(r.hi))

    def label(self, l):
        if isinstance(l, P.Qual):
            return 'TheLabel.Named %s' % self.qualident(l)
        return 'TheLabel.%s %s' % ({'int': 'Int', 'text': 'Text', 'char': 'Char'}[l.kind], self.i(l))

    # declarations
    def decls(self, d):
        def part(word, xs):
            return 'None' if not xs else '(Some (record { %s = 0; each = %s }))' % (word, listed(xs))
        constants = part('const_word', ['record { name = %s; equal = 0; value = %s; semicolon = 0 }' % (self.identdef(n), self.expression(e)) for n, e in d.consts])
        types = part('type_word', ['record { name = %s; equal = 0; is = %s; semicolon = 0 }' % (self.identdef(n), self.type(t)) for n, t in d.types])
        variables = part('var_word', ['record { names = %s; colon = 0; of = %s; semicolon = 0 }' % (self.idents(n), self.type(t)) for n, t in d.vars])
        return '(S.decls %s %s %s %s)' % (constants, types, variables, self.chain('no_procedure', 'procedure', [self.procedure(q) for q in d.procs]))

    def body(self, ss):
        return '(Some (record { begin_word = 0; stats = %s }))' % self.stats(ss) if ss else 'None'

    def procedure(self, q):
        returned = 'None' if q.ret is None else '(Some (record { return_word = %s; value = %s }))' % (self.i(q.ret), self.expression(q.result))
        return '0 %s %s 0 %s %s %s %s %s 0' % (self.identdef(q.name), self.formals(q.formals), self.decls(q.decls), self.body(q.stats), returned, self.i(q.end), self.i(q.endname))

    def module(self):
        m = self.tree
        xs = ['(record { name = %s; of = %s })' % (self.i(a), 'None' if n is None else 'Some (record { becomes = 0; name = %s })' % self.i(n)) for a, n in m.imports]
        imports = 'None' if not xs else 'Some (record { import_word = 0; first = %s; more = %s; semicolon = 0 })' % (xs[0], listed('record { comma = 0; import = %s }' % x for x in xs[1:]))
        return 'record { module_word = 0; name = %s; semicolon = 0; imports = %s; decls = %s; body = %s; end_word = 0; end_name = %s; period = 0 }' % (
            self.i(m.name), imports, self.decls(m.decls), self.body(m.stats), self.i(m.endname))

    def kind(self, s):
        if s.kind == 'int':
            return 'Int %s' % integer(s.value)
        return 'TheKind.Char %d' % s.value if s.kind == 'char' else 'TheKind.Text' if s.kind == 'text' else 'Ident'

    def value(self):
        symbols = listed('symbol (%s) %d %d' % (self.kind(s), s.at, s.to) for s in self.symbols)
        return 'record { source = record { bytes = %s; symbols = %s }; tree = %s }' % (letters(self.source), symbols, self.module())


# what the other compiler says

COMPARISONS = {'=': 'Equal', '#': 'Unequal', '<': 'Less', '<=': 'LessEqual', '>': 'Greater', '>=': 'GreaterEqual'}
BINARY = {'+': 'Add', '-': 'Subtract', '*': 'Multiply', 'DIV': 'Div', 'MOD': 'Mod', 'set+': 'Union', 'set-': 'Difference',
          'set*': 'Intersection', 'set/': 'SymmetricDifference', 'LSL': 'Lsl', 'ASR': 'Asr', 'ROR': 'Ror'}
UNARY = {'neg': 'Negate', 'compl': 'Complement', 'not': 'Not', 'ABS': 'Abs', 'ODD': 'Odd'}
BASIC = {T.INT: 'Integer', T.BOOL: 'Boolean', T.CHAR: 'Char', T.BYTE: 'Byte', T.SET: 'Set', T.NIL: 'Nil', T.NOTHING: 'Nothing'}


class Checked:
    """The checked program."""

    def __init__(self, program):
        self.p = program

    def shape(self, t):
        if isinstance(t, T.Text):
            return '(H.Text %d)' % t.n
        if isinstance(t, T.Array):
            return '(H.Open %s)' % self.shape(t.elem) if t.length is None else '(H.Array %d %s)' % (t.length, self.shape(t.elem))
        if isinstance(t, T.Record):
            return '(H.Record %d)' % t.number
        if isinstance(t, T.Pointer):
            return '(H.Pointer %d)' % t.number
        if isinstance(t, T.Proc):
            f = 'H.none'
            for x in reversed(t.params):
                f = '(H.one %s %s %s)' % (truth(x.var), self.shape(x.type), f)
            return '(H.Procedure %s %s)' % (f, self.shape(t.result))
        return 'H.' + BASIC[t]

    def chain(self, empty, one, xs):
        r = 'I.' + empty
        for x in reversed(xs):
            r = '(I.%s %s %s)' % (one, x, r)
        return r

    # expressions
    def linked(self, x, link):
        return '(I.Linked %s (I.%s))' % (x, link)

    def e(self, x):
        t = type(x)
        if t is T.Const:
            return '(I.Literal %d)' % (int(x.value) & T.MASK)
        if t is T.ProcRef:
            return '(I.Routine %d)' % x.proc
        if t is T.Guard and x.kind == 'ptr':
            return '(I.Guard %s %d)' % (self.e(x.base), x.record.number)
        if t in (T.VarRef, T.Index, T.Select, T.Guard):
            return '(I.Load %s)' % self.d(x)
        if t is T.Unary:
            return '(I.Apply TheUnary.%s %s)' % (UNARY[x.op], self.e(x.x))
        if t is T.Binary and x.op in ('and', 'or'):
            return self.linked(self.e(x.x), '%s %s' % (x.op.capitalize(), self.e(x.y)))
        if t is T.Binary:
            return self.linked(self.e(x.x), 'Operate TheBinary.%s %s' % (BINARY[x.op], self.e(x.y)))
        if t is T.Incl:
            return self.linked(self.e(x.x), 'Operate TheBinary.%s %s' % ('Subset' if x.op == '<=' else 'Superset', self.e(x.y)))
        if t is T.Rel:
            return '(I.Compare TheComparison.%s %s %s)' % (COMPARISONS[x.op], self.e(x.x), self.e(x.y))
        if t is T.TextRel:
            return '(I.CompareTexts TheComparison.%s %s %s)' % (COMPARISONS[x.op], self.d(x.x), self.d(x.y))
        if t is T.InSet:
            return '(I.In %s %s)' % (self.e(x.x), self.e(x.s))
        if t is T.IsTest:
            return '(I.IsPointer %s %d)' % (self.e(x.x), x.record.number) if x.kind == 'ptr' else '(I.IsParameter %s %d)' % (self.d(x.x), x.record.number)
        if t is T.SetCons:
            s = '(I.Literal 0)'
            for a, c in x.elements:
                s = self.linked(s, 'Element %s' % self.e(a) if c is None else 'Elements %s %s' % (self.e(a), self.e(c)))
            return s
        if t is T.ToByte:
            return '(I.AsByte %s)' % self.e(x.x)
        if t is T.Builtin:
            xs = [self.e(y) for y in x.args]
            if x.name in ('ABS', 'ODD'):
                return '(I.Apply TheUnary.%s %s)' % (UNARY[x.name], xs[0])
            return xs[0] if x.name in ('ORD', 'CHR') else self.linked(xs[0], 'Operate TheBinary.%s %s' % (BINARY[x.name], xs[1]))
        if t is T.Len:
            return '(I.Length %s)' % self.d(x.x)
        assert t is T.Call, x
        return '(I.Result %s)' % self.call(x)

    def call(self, x):
        xs = self.chain('no_argument', 'next_argument', [self.argument(a) for a in x.args])
        return '(I.Direct %d %s)' % (x.proc, xs) if x.proc is not None else '(I.Indirect %s %s)' % (self.d(x.target), xs)

    def argument(self, a):
        if a.kind == 'value':
            return '(I.ByValue %s)' % self.e(a.x)
        return '(I.%s %s)' % ({'ref': 'ByPlace', 'open': 'ByOpen', 'vrecord': 'ByRecord'}[a.kind], self.d(a.x))

    def d(self, x):
        return '(I.of_type %s %s)' % (self.place(x), self.shape(x.type))

    def place(self, x):
        t = type(x)
        if t is T.Str:
            return '(I.Text %s)' % letters(bytes(x.data))
        if t is T.VarRef:
            v = x.var
            if v.home == 'done':
                return 'I.Done'
            if v.home == 'global':
                return '(I.Global %d %d)' % (v.module, self.p.modules[v.module].vars.index(v))
            if v.home in ('local', 'value'):
                return '(I.Local %d)' % self.q.vars.index(v)
            return '(I.Parameter %d)' % self.q.params.index(v)
        if t is T.Index:
            return '(I.Index %s %s %s %s)' % (self.place(x.base), some(x.base.type.length), self.shape(x.type), self.e(x.index))
        if t is T.Select:
            return '(I.Field %s %d %d)' % (self.place(x.base), x.field.owner.number, x.field.owner.own.index(x.field))
        if t is T.Deref:
            return '(I.Dereference %s)' % self.e(x.base)
        assert t is T.Guard and x.kind == 'tag', x
        return '(I.Narrow %s %d)' % (self.place(x.base), x.record.number)

    def c(self, x):
        return '(record { form = %s; shape = %s })' % (self.e(x), self.shape(x.type))

    # statements
    def statements(self, l):
        return self.chain('no_statement', 'next_statement', [self.st(x) for x in l])

    def branches(self, arms):
        return self.chain('no_branch', 'next_branch', ['%s %s' % (self.c(c), self.statements(b)) for c, b in arms])

    def parts(self, l):
        return self.chain('no_part', 'next_part', ['%s %s' % (when, self.statements(b)) for when, b in l])

    def labels(self, ls):
        return '(I.Labels %s)' % listed('TheLabelOf.One %s' % integer(a) if c is None else 'TheLabelOf.Range %s %s' % (integer(a), integer(c)) for a, c in ls)

    def st(self, x):
        t = type(x)
        if t is T.Assign:
            return '(I.Assign %s %s)' % (self.d(x.dest), self.c(x.x))
        if t in (T.CopyArray, T.CopyString):
            return '(I.CopyArray %s %s)' % (self.d(x.dest), self.d(x.x))
        if t is T.CopyRecord:
            return '(I.CopyRecord %s %s)' % (self.d(x.dest), self.d(x.x))
        if t is T.IncDec:
            return '(I.%s %s %s)' % ('Increase' if x.op == '+' else 'Decrease', self.d(x.dest), self.c(x.n))
        if t is T.InclExcl:
            return '(I.%s %s %s)' % ('Include' if x.op == '+' else 'Exclude', self.d(x.dest), self.c(x.x))
        if t is T.New:
            return '(I.New %s)' % self.d(x.dest)
        if t is T.Assert:
            return '(I.Assert %s)' % self.c(x.x)
        if t is T.OutChar:
            return '(I.OutChar %s)' % self.c(x.x)
        if t is T.OutInt:
            return '(I.OutInt %s %s)' % (self.c(x.x), self.c(x.n))
        if t is T.OutString:
            return '(I.OutString %s)' % self.d(x.x)
        if t is T.OutLn:
            return 'I.OutLn'
        if t is T.InChar:
            return '(I.InChar %s)' % self.d(x.dest)
        if t is T.CallStat:
            return '(I.Invoke %s)' % self.call(x.call)
        if t is T.If:
            return '(I.If %s %s)' % (self.branches(x.arms), self.statements(x.other or []))
        if t is T.While:
            return '(I.While %s)' % self.branches(x.arms)
        if t is T.Repeat:
            return '(I.Repeat %s %s)' % (self.statements(x.stats), self.c(x.cond))
        if t is T.For:
            return '(I.For %s %s %s %s %s)' % (self.d(x.var), self.c(x.first), self.c(x.limit), integer(x.step), self.statements(x.stats))
        if t is T.Case:
            return '(I.Case %s %s)' % (self.c(x.x), self.parts([(self.labels(ls), b) for ls, b in x.arms]))
        assert t is T.TypeCase, x
        parts = self.parts([('(I.Extends %d)' % r.number, b) for r, _, b in x.arms])
        return '(I.CasePointer %s %s)' % (self.c(x.x), parts) if x.kind == 'ptr' else '(I.CaseParameter %s %s)' % (self.d(x.x), parts)

    # the program
    def texts(self, q):
        """The uses of strings in the tree, in its order (fields in the order in which the other compiler declares them)."""
        found = []

        def walk(x):
            if isinstance(x, T.Str):
                found.append(bytes(x.data))
            elif isinstance(x, (list, tuple)):
                for y in x:
                    walk(y)
            elif hasattr(x, '__dict__') and not isinstance(x, (T.Var, T.Record, T.Pointer, T.Proc, T.Array, T.Text)) and type(x).__module__ == 'tree':
                for k, y in vars(x).items():
                    if k not in ('type', 'var', 'record', 'field'):
                        walk(y)
        walk(q.stats)
        walk(q.result)
        return found

    def mode(self, v):
        return 'TheMode.' + {'value': 'Value', 'ref': 'Place', 'vrecord': 'Record', 'open': 'Open'}[v.home]

    def procedure(self, q):
        self.q = q
        t = q.type or T.Proc([], T.NOTHING)
        formals = listed('record { mode = %s; variable = %s; shape = %s }' % (self.mode(v), truth(f.var), self.shape(f.type)) for v, f in zip(q.params, t.params))
        return 'record { module_number = %d; line = %d; is_body = %s; formals = %s; result = %s; locals = %s; texts = %s; body = %s; answer = %s }' % (
            q.module, q.line, truth(q.body), formals, self.shape(t.result), listed(self.shape(v.type) for v in q.locals), listed(letters(s) for s in self.texts(q)),
            self.statements(q.stats), some(None if q.result is None else self.c(q.result)))

    def entity(self, o):
        if isinstance(o, C.ConstObj) and isinstance(o.value, (bytes, bytearray)):
            return 'I.OfConstant (I.Chars %s)' % letters(bytes(o.value))
        if isinstance(o, C.ConstObj):
            return 'I.OfConstant (I.Bits %s %d)' % (self.shape(o.type), int(o.value) & T.MASK)
        if isinstance(o, C.TypeObj):
            return 'I.OfType %s' % self.shape(o.type)
        if isinstance(o, T.Var):
            return 'I.OfVariable %d' % self.p.modules[o.module].vars.index(o)
        return 'I.OfProcedure %d' % o.proc.number

    def module(self, m):
        objects = listed('record { name = %s; exported = %s; entity = %s }' % (letters(n), truth(o.exported), self.entity(o)) for n, o in m.scope.table_exported.items())
        return 'record { name = %s; objects = %s; variables = %s; body = %d }' % (letters(m.name), objects, listed(self.shape(v.type) for v in m.vars), m.body)

    def record(self, r):
        fields = listed('record { name = %s; exported = %s; shape = %s }' % (letters(f.name), truth(f.exported), self.shape(f.type)) for f in r.own)
        return 'record { module_number = %d; base = %s; level = %d; fields = %s; cells = %d; extent = %s }' % (
            r.module, some(None if r.base is None else r.base.number), r.level, fields, r.ncells, extent_of(self.p, r))

    def program(self):
        return 'record { records = %s; pointers = %s; modules = %s; procedures = %s; imports_in = %s }' % (
            listed(self.record(r) for r in self.p.records), listed('Some %d' % x.target.number for x in CountedPointer.all),
            listed(self.module(m) for m in self.p.modules), listed(self.procedure(q) for q in self.p.procs), truth(self.p.imports_in))


HEAD = '''-- Small modules, and what the judgement says of them. Written by bench/judged_rows.py from their texts.
use Rattle.std.specs.Prelude.{◌≡◌, ℕ, List, [], ◌∷◌, Bool, true, false, Option, Some, None, pos, negsuc}
use Rattle.std.proofs.Common.{refl}
use Rattle.ob_symbol.specs.declared.symbol.Symbol.{Symbol}
use Rattle.ob_symbol.specs.declared.symbol.Kind.{Kind}
use Rattle.ob_symbol.specs.declared.symbol.Kind.TheVariants.{Int, Ident}
use Rattle.ob_symbol.specs.declared.symbol.Kind.TheVariants as TheKind
use Rattle.ob_syntax.specs.Syntax as S
use Rattle.ob_syntax.specs.declared.expressions.Relation.TheVariants as TheRelation
use Rattle.ob_syntax.specs.declared.expressions.Sign.TheVariants as TheSign
use Rattle.ob_syntax.specs.declared.expressions.AddOperator.TheVariants as TheAddOperator
use Rattle.ob_syntax.specs.declared.expressions.MulOperator.TheVariants as TheMulOperator
use Rattle.ob_syntax.specs.declared.statements.Label.TheVariants as TheLabel
use Rattle.ob_types.specs.declared.types.Mode.TheVariants as TheMode
use Rattle.ob_types.specs.declared.tree.Unary.TheVariants as TheUnary
use Rattle.ob_types.specs.declared.tree.Binary.TheVariants as TheBinary
use Rattle.ob_types.specs.declared.tree.Relation.TheVariants as TheComparison
use Rattle.ob_types.specs.declared.statements.Label.TheVariants as TheLabelOf
use Rattle.ob_judge.specs.Shapes as H
use Rattle.ob_judge.specs.Image as I
use Rattle.ob_judge.specs.Modules.{Parsed, Verdict, Legal, Fault, checked}

abbrev symbol : Kind → ℕ → ℕ → Symbol
symbol kind from to = record { kind = kind; from = from; to = to }

'''


def used(line, text):
    """A line of imports without those that the text doesn't use."""
    alias = re.match(r'use .* as (\w+)$', line)
    if alias:
        return line if re.search(r'\b%s\.' % alias.group(1), text) else None
    names = re.match(r'(use .*\.\{)(.*)\}$', line)
    if not names:
        return line
    kept = [n for n in names.group(2).split(', ') if re.search(r'(?<![\w.])%s(?!\w)' % re.escape(n), text) or n.strip('◌') in text and '◌' in n]
    return names.group(1) + ', '.join(kept) + '}' if kept else None


def head(text):
    """The file's head, with the imports that are used."""
    rest = HEAD[HEAD.index('\nabbrev'):] + text
    lines = [used(line, rest) if line.startswith('use ') else line for line in HEAD.split('\n')]
    return '\n'.join(line for line in lines if line is not None)


def judged(sources):
    """The modules that are looked at, and the verdict; none where a fault isn't one of the judgement."""
    CountedPointer.count, CountedPointer.all = 0, []
    try:
        p = deep(lambda: C.check_sources(sources))
    except Fault as f:
        return (sources[:f.module + 1], 'Fault %d %d %d' % (f.module, f.number, f.at)) if f.number >= 30 else (sources, None)
    return sources, 'Legal (%s)' % Checked(p).program()


def main():
    out, counts = [], {'Fault': 0, 'Legal': 0}
    for row in re.split(r'(?m)^---\n', open(sys.argv[1]).read()):
        if not row.strip():
            continue
        name, text = row.strip('\n').split('\n', 1)
        sources, verdict = judged([s.encode() for s in re.split(r'(?m)^===\n', text)])
        if verdict is None:
            print('not for the judgement:', name)
            continue
        counts[verdict.split(' ')[0]] += 1
        values = []
        for i, s in enumerate(sources):
            values.append('%s_%d' % (name, i))
            said = ' '.join(s.decode('latin1').split()).replace('"', "''")
            out.append('-- %s\nabbrev %s : Parsed\n%s = %s\n' % (said, values[-1], values[-1], Parsed(s).value()))
        out.append('pub %s : checked %s ≡ %s\n%s = refl\n' % (name, listed(values), verdict, name))
    text = '\n'.join(out)
    open(sys.argv[2], 'w').write(head(text) + text)
    print('refused', counts['Fault'], 'legal', counts['Legal'])


if __name__ == '__main__':
    main()

#!/usr/bin/env python3
"""Makes the input of crates/parse_vectors and the answers that are wanted, by another parser.

    bench/parse_vectors.py [FOLDER]

Writes `stdin` and `stdout` into FOLDER (that crate's, if none is given); bench/other_compiler.py says where the other
parser is.
"""
import os
import random

from other_compiler import folder_of
import parse  # noqa: E402
from scan import Fault, Symbol, scan  # noqa: E402

# Small modules that have the whole grammar in them.
MODULES = '''
MODULE Empty; END Empty.
===
MODULE Imports; IMPORT Out, In, S := Stacks; BEGIN Out.Ln END Imports.
===
MODULE Consts; CONST a* = 1; b = a + 2 * 3 DIV 4 MOD 5; c = "text"; d = 41X; e = {1, 3 .. 5}; f = {}; g =
TRUE; h = ~FALSE; m = -a; END Consts.
===
MODULE TypesOf; TYPE A* = ARRAY 10, 20 OF INTEGER; R = RECORD a, b*: INTEGER; c: CHAR END; E = RECORD (R) END;
P = POINTER TO R; N = POINTER TO RECORD next: N; END; F = PROCEDURE (VAR a, b: INTEGER; c: ARRAY OF CHAR):
BOOLEAN; G = PROCEDURE; H = PROCEDURE (); M = M0.T; VAR v: A; w, x*: ARRAY 2 OF M0.T; END TypesOf.
===
MODULE Procs; PROCEDURE p*; END p; PROCEDURE q(a: INTEGER; VAR b: ARRAY OF CHAR): INTEGER; CONST k = 1; TYPE t
= CHAR; VAR z: t; PROCEDURE inner(): S.T; BEGIN RETURN z END inner; BEGIN p; z := inner() RETURN a + k END q;
BEGIN p END Procs.
===
MODULE Ifs; VAR x: INTEGER; BEGIN IF x > 0 THEN x := 1 ELSIF x = 0 THEN x := 2; ELSIF x # 3 THEN ELSE x := 4
END; IF a & b OR ~c THEN END END Ifs.
===
MODULE Cases; VAR x: INTEGER; BEGIN CASE x OF 1: x := 1 | 2, 4 .. 6: x := 2; x := 3 | | "a" .. "z", 41X: | M.k
.. n: x := 5 END; CASE p OF T: p.x := 1 | M.T0: END END Cases.
===
MODULE Loops; VAR i: INTEGER; BEGIN WHILE i < 10 DO INC(i) ELSIF i >= 20 DO i := i - 1; i := i END; REPEAT i
:= i + 1; UNTIL i > 10; FOR i := 0 TO 10 BY 2 DO Out.Int(i, 0) END; FOR i := 0 TO 1 DO END END Loops.
===
MODULE Designators; BEGIN a.b[1, 2].c^.d(T).e := f(x, y)(z); p^ := q[i][j]; r(T)^.x(1); Out.Ln; a[b[c]] := {1
.. n} + {a, b .. c} - {} * s / t; END Designators.
===
MODULE Expressions; BEGIN x := -a + b - c OR d; y := +a * b / c DIV d MOD e & f; z := ((a = b) # (c <= d)) &
(1 IN s) OR (p IS T) & ~(~x); w := NIL; v := a >= 1; END Expressions.
===
MODULE Empties; VAR BEGIN ;; IF a THEN ; ELSE ;; END; CASE x OF END; CASE x OF | | END; ; END Empties.
===
MODULE Parts; CONST TYPE VAR PROCEDURE p; CONST TYPE VAR BEGIN END p; PROCEDURE q(): T; RETURN NIL END q;
BEGIN END Parts.
'''.split('===')

TERMINALS = ('ident integer string char ARRAY BEGIN BY CASE CONST DIV DO ELSE ELSIF END FALSE FOR IF IMPORT IN IS MOD'
             ' MODULE NIL OF OR POINTER PROCEDURE RECORD REPEAT RETURN THEN TO TRUE TYPE UNTIL VAR WHILE + - * / ~ & .'
             ' , ; | ( [ { := ^ = # < > <= >= .. : ) ] }').split()
KINDS = {'ident': ('ident', 'a'), 'integer': ('int', 1), 'string': ('text', b'a'), 'char': ('char', 65)}
WORDS = {'ident': 'ident', 'int': 'integer', 'text': 'string', 'char': 'char'}


def word(symbol):
    """The word for a scanned symbol."""
    return WORDS.get(symbol.kind) or str(symbol.value)


def symbol(index, text):
    """The symbol that a word stands for; its place is its index."""
    kind, value = KINDS.get(text) or ('word' if text.isupper() else 'mark', text)
    return Symbol(kind, value, index, index + 1)


def answer(words):
    """The other parser's answer."""
    try:
        parse.parse([symbol(i, w) for i, w in enumerate(words)], len(words))
        return f'ok {len(words)}'
    except Fault as fault:
        return {20: 'syntax', 21: 'too deep'}[fault.number] + f' {fault.at}'


def nested(before, opens, inner, closes, after, count):
    """A module in which a construct is nested."""
    return (before + ' ' + (opens + ' ') * count + inner + ' ' + (closes + ' ') * count + after).split()


def nests(count):
    """A module for each construct that counts against nesting, this many deep, and mixed ones."""
    def statement(opens, closes, inner='', less=0):
        return nested('MODULE ident ; BEGIN', opens, inner, closes, 'END ident .', count - less)

    def expression(opens, closes):
        return nested('MODULE ident ; BEGIN ident :=', opens, 'ident', closes, 'END ident .', count)

    def type_(opens, closes, inner='ident', less=0):
        return nested('MODULE ident ; TYPE ident =', opens, inner, closes, '; END ident .', count - less)

    return [
        expression('(', ')'), expression('~', ''), expression('{', '}'), expression('ident [', ']'),
        expression('ident (', ')'), statement('IF ident THEN', 'END'), statement('WHILE ident DO', 'END'),
        statement('CASE ident OF integer :', 'END'), statement('REPEAT', 'UNTIL ident'),
        statement('FOR ident := integer TO integer DO', 'END'), type_('ARRAY integer OF', ''),
        type_('RECORD ident :', 'END'), type_('POINTER TO', ''),
        nested('MODULE ident ;', 'PROCEDURE ident ;', '', 'END ident ;', 'END ident .', count),
        type_('POINTER TO', '', 'PROCEDURE', 1), type_('POINTER TO', '', 'PROCEDURE ( ident : ARRAY OF ident )', 1),
        statement('IF ident THEN', 'END', 'ident [ integer ] := ident', 1),
        statement('IF ident THEN', 'END', 'REPEAT UNTIL ident', 1),
        statement('IF ident THEN', 'END', 'REPEAT UNTIL ( ident )', 2), type_('RECORD ( ident ) ident :', 'END'),
        statement('IF ident THEN', 'END', 'ident := ( ident ) + ( ident ) * ~ ident', 1),
        type_('ARRAY ( integer ) OF', '', less=1),
    ]


def changed(words):
    """The words with one or two changes: one left out, put in, replaced, exchanged or doubled, or the end cut off."""
    for _ in range(random.choice((1, 1, 1, 2))):
        kind = random.randrange(6)
        i = random.randrange(len(words))
        if kind == 0:
            del words[i]
        elif kind == 1:
            words.insert(i, random.choice(TERMINALS))
        elif kind == 2:
            words[i] = random.choice(TERMINALS)
        elif kind == 3:
            j = min(i + 1, len(words) - 1)
            words[i], words[j] = words[j], words[i]
        elif kind == 4:
            words = words[:i]
        else:
            words.insert(i, words[i])
        if not words:
            words = ['MODULE']
    return words


# Modules of 1,048,576 symbols, the most that the parser takes: `repeat N .. again` stands for N times the words in it.
LARGEST = [
    'MODULE ident ; BEGIN ident := integer repeat 524283 + integer again END ident .',
    'MODULE ident ; BEGIN repeat 1048569 ; again END ident .',
    'MODULE ident ; BEGIN ident repeat 262141 ; ident := ident again ; ; ; ; END ident .',
    'MODULE ident ; BEGIN CASE ident OF repeat 1048565 | again END END ident .',
    'MODULE ident ; BEGIN ident := { integer repeat 524282 , integer again } END ident .',
    'MODULE ident ; repeat 174761 PROCEDURE ident ; END ident ; again BEGIN ; ; ; END ident .',
]


def spread(line):
    """The words that a line stands for."""
    words, start, times = [], 0, 1
    line = iter(line.split())
    for w in line:
        if w == 'repeat':
            times, start = int(next(line)), len(words)
        elif w == 'again':
            words += words[start:] * (times - 1)
        else:
            words.append(w)
    return words


def main():
    folder = folder_of('parse_vectors')
    random.seed(20)
    small = [[word(s) for s in scan(text.strip().encode())] for text in MODULES]
    for words in small:
        assert answer(words).startswith('ok'), answer(words)
    cases = small + nests(100) + nests(101)
    cases += [changed(list(random.choice(small))) for _ in range(1000)]
    with open(os.path.join(folder, 'stdin'), 'w') as out:
        out.writelines(' '.join(words) + '\n' for words in cases)
        out.writelines(line + '\n' for line in LARGEST)
    with open(os.path.join(folder, 'stdout'), 'w') as out:
        out.writelines(answer(words) + '\n' for words in cases)
        for line in LARGEST:
            words = spread(line)
            assert len(words) == 1048576, (line, len(words))
            out.write(answer(words) + '\n')


main()

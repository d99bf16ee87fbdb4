#!/usr/bin/env python3
"""The judgements on modules that are wanted of crates/module_vectors, by another checker.

    bench/check_vectors.py TRIES SEED

bench/module_vectors.py takes `vectors` from here: the small modules of bench/rows, those of bench/rows/whole, some examples, and
changes of these last, of one symbol mostly. Called by itself this prints what so many other changes give, to be compared by hand,
and how many verdicts there are of each rule. bench/other_compiler.py says where the other checker is.
"""
import collections
import random
import sys

import other_compiler  # noqa: F401
from module_texts import WHOLE, example, pieces_of, row_files, texts_line
import check  # noqa: E402
from scan import Fault, scan  # noqa: E402

# Short texts for rules of symbols and of nests, on both sides of each.
SYMBOLS = [b'MODULE M; %s END M.' % part for part in (
    b'BEGIN !', b'CONST a = 1_0;', b'(* (* *)', b'(* (* *) *)', b'CONST a = "b;', b'CONST a = "b\n";', b'CONST a = 9223372036854775807;',
    b'CONST a = 9223372036854775808;', b'CONST a = 0FFFFFFFFFFFFFFFFH; b = 0FFX;', b'CONST a = 10000000000000000H;', b'CONST a = 100X;',
    b'VAR %s: SET;' % (b'a' * 255), b'VAR %s: SET;' % (b'a' * 256))]
SYMBOLS += [b'MODULE M; END M. (*', b'MODULE %s; END M.' % (b'a' * 256), b'MODULE M; BEGIN', b'MODULE M; VAR a INTEGER; END M.', b'MODULE M; END M. END']
for count in (100, 101):
    SYMBOLS += [b'MODULE M; VAR b: BOOLEAN; BEGIN b := %sb END M.' % (b'~' * count), b'MODULE M; TYPE a = %sCHAR; END M.' % (b'ARRAY 1 OF ' * count),
                b'MODULE M; VAR b: SET; BEGIN b := %sb%s END M.' % (b'(' * count, b')' * count)]

# How many changes are kept of each verdict, at most; 0 is legal.
WANTED = {0: 150, 10: 12, 11: 8, 12: 12, 13: 15, 14: 8, 20: 100, 21: 1, 30: 190, 31: 370, 32: 90, 33: 80, 34: 100, 35: 70, 36: 100, 37: 40, 38: 30,
          39: 90, 40: 130, 41: 60, 42: 60}

OPERATORS = '+ - * / & OR DIV MOD = # < <= > >= IN IS'.split()
MARKS = OPERATORS + ': ; , . .. := ^ | ( ) [ ] { } ~'.split()
WORDS = ('ARRAY BEGIN BY CASE CONST DIV DO ELSE ELSIF END FOR IF IMPORT IN IS MOD MODULE NIL OF OR POINTER PROCEDURE RECORD REPEAT RETURN THEN TO TRUE'
         ' TYPE UNTIL VAR WHILE').split()
LITERALS = ('0 1 3 64 256 1048577 9223372036854775807 9223372036854775808 0FFFFFFFFFFFFFFFFH "a" "ab" "" 41X 100X TRUE NIL {} {1}').split()
TYPES = 'INTEGER BOOLEAN CHAR BYTE SET'.split()
NAMES = TYPES + 'ABS ODD LEN LSL ORD CHR INC NEW ASSERT z'.split()
BEGINS = 'BEGIN ; THEN DO REPEAT ELSE'.split()


class Text:
    """A module's text as symbols, each with what stands before it; `kinds` has what the symbols are."""

    def __init__(self, source):
        symbols, at = scan(source), 0
        self.symbols, self.kinds, self.before = [], [], []
        for s in symbols:
            self.before.append(source[at:s.at].decode())
            self.symbols.append(source[s.at:s.to].decode())
            self.kinds.append(s.kind)
            at = s.to

    def source(self):
        return ''.join(b + s for b, s in zip(self.before, self.symbols)).encode() + b'\n'

    def names(self):
        return [s for s, kind in zip(self.symbols, self.kinds) if kind == 'ident']

    def place(self, kinds=None, symbols=None, behind=None, before=None, near=None):
        """Where a symbol of these kinds, or among these, stands, perhaps behind or before some others, or at most so many behind a word; none
        where there is none."""
        found = [i for i in range(len(self.symbols)) if not (
            kinds and self.kinds[i] not in kinds or symbols and self.symbols[i] not in symbols
            or behind and self.symbols[i - 1] not in behind or before and self.symbols[i + 1:i + 2] not in [[s] for s in before]
            or near and near[0] not in self.symbols[max(0, i - near[1]):i])]
        return random.choice(found) if found else None

    def name_place(self, **test):
        return self.place(kinds=['ident'], **test)

    def declaration(self):
        """Where a declaration begins."""
        return self.name_place(behind=['CONST', 'TYPE', 'VAR', ';'], before=['=', ':', '*', ','])

    def drop(self, start, end):
        for part in (self.symbols, self.kinds, self.before):
            del part[start:end]

    def put(self, i, *symbols, before=' '):
        """Puts symbols before the one with this number."""
        self.symbols[i:i] = symbols
        self.kinds[i:i] = ['new'] * len(symbols)
        self.before[i:i] = [before] * len(symbols)

    def set(self, i, symbols):
        """One of these in the place of a symbol, if it is there."""
        if i is not None:
            self.symbols[i] = random.choice(symbols)

    def end(self, start):
        """The end of what one symbol begins: behind the next `;` outside of brackets, or at what closes the brackets round it."""
        depth = 0
        for i in range(start, len(self.symbols)):
            s = self.symbols[i]
            depth += (s in ('(', '[', '{', 'RECORD')) - (s in (')', ']', '}', 'END'))
            if depth < 0:
                return i
            if depth == 0 and s == ';':
                return i + 1
        return len(self.symbols)


# The kinds of changes; `others` are the names of all modules of the program.

def name(text, others):
    text.set(text.name_place(), others + text.names() + NAMES)


def type_name(text, others):
    text.set(text.name_place(behind=[':', 'OF', 'TO', '(', 'IS']), TYPES + [s for s in text.names() if s[0].isupper()])


def operator(text, others):
    text.set(text.place(symbols=OPERATORS), OPERATORS)


def mark(text, others):
    text.set(text.place(symbols=MARKS), MARKS)


def keyword(text, others):
    i = text.place(kinds=['word'])
    how = random.randrange(3)
    if how == 0:
        text.drop(i, i + 1)
    elif how == 1:
        text.put(i, text.symbols[i])
    else:
        text.set(i, WORDS)


def literal(text, others):
    text.set(text.place(kinds=['int', 'char', 'text']), LITERALS + text.names())


def exchange(text, others):
    i = random.randrange(len(text.symbols) - 1)
    j = random.choice([i + 1, random.randrange(len(text.symbols))])
    text.symbols[i], text.symbols[j] = text.symbols[j], text.symbols[i]


def declaration(text, others):
    """One dropped, or once more at the place of another."""
    i = text.declaration()
    if i is not None and random.randrange(2):
        text.drop(i, text.end(i))
    elif i is not None:
        text.put(text.declaration(), *text.symbols[i:text.end(i)])


def statement(text, others):
    """One dropped, or once more at another place."""
    i = text.place(kinds=['ident', 'word'], behind=BEGINS)
    if i is not None and random.randrange(2):
        text.drop(i, text.end(i))
    elif i is not None:
        text.put(text.place(behind=BEGINS), *text.symbols[i:text.end(i)])


def star(text, others):
    """One dropped or put behind a declared name."""
    i = text.place(symbols=['*'], before=[':', '=', ',', '(', ';'])
    if i is not None and random.randrange(2):
        text.drop(i, i + 1)
    elif text.declaration() is not None:
        text.put(text.declaration() + 1, '*', before='')


def argument(text, others):
    """An argument, a parameter, an index or an element dropped or put in."""
    i = text.place(symbols=['(', ',', '['])
    if i is not None and random.randrange(2):
        text.put(i + 1, random.choice(text.names() + LITERALS), ',')
    elif i is not None:
        end = next((j for j in range(i + 1, len(text.symbols)) if text.symbols[j] in (',', ')', ']', ';')), i + 1)
        text.drop(i + 1, end + (text.symbols[end] == ','))


def var(text, others):
    """A VAR of a parameter dropped or put in."""
    i = text.place(symbols=['VAR'], behind=['(', ';'])
    if i is not None and random.randrange(2):
        text.drop(i, i + 1)
    else:
        i = text.name_place(behind=['(', ';'], before=[':', ','])
        if i is not None:
            text.put(i, 'VAR')


def answer(text, others):
    """A RETURN dropped or put in, or a result's type dropped."""
    i, j = text.place(symbols=['RETURN']), text.place(symbols=[':'], behind=[')'])
    how = random.randrange(3)
    if how == 0:
        text.put(text.place(symbols=['END']), 'RETURN', random.choice(text.names() + LITERALS))
    elif how == 1 and i is not None:
        text.drop(i, text.symbols.index('END', i))
    elif j is not None:
        text.drop(j, j + 2)


def selector(text, others):
    """A selector dropped or put in."""
    i = text.place(symbols=['.', '^'], behind=text.names())
    if i is not None and random.randrange(2):
        text.drop(i, i + (2 if text.symbols[i] == '.' else 1))
    else:
        name = random.choice(text.names())
        put = random.choice([['^'], ['.', name], ['[', name, ']'], ['[', '0', ']'], ['(', name, ')'], ['(', ')']])
        text.put(text.name_place() + 1, *put, before='')


def base(text, others):
    """A record's base put in or exchanged."""
    i = text.place(symbols=['RECORD'])
    if i is not None and text.symbols[i + 1] == '(':
        text.set(i + 2, text.names() + TYPES)
    elif i is not None:
        text.put(i + 1, '(', random.choice(text.names() + TYPES), ')')


def label(text, others):
    """A label exchanged or put in."""
    i = text.place(behind=['OF', '|', '..'], near=('CASE', 30))
    if i is not None and random.randrange(2):
        text.set(i, LITERALS + text.names())
    elif i is not None:
        text.put(i, random.choice(LITERALS + text.names()), random.choice([',', '..']))


def imported(text, others):
    text.set(text.name_place(behind=['IMPORT', ',', ':='], near=('IMPORT', 8)), others + ['In', 'Out', 'Z'])


def byte(text, others):
    """Something that isn't a symbol, or is too long for one."""
    i = random.randrange(len(text.symbols))
    how = random.randrange(5)
    if how == 0:
        text.put(i, random.choice(['!', '$', '%', "'", '?', '@', '_', '`', '\\', '(*', '(* ; *)']))
    elif how == 1:
        text.symbols[i] = text.symbols[i][:-1] + '"'
    elif how == 2:
        text.symbols[i] = text.symbols[i][:-1]
    elif how == 3:
        i = text.name_place()
        text.symbols[i] = (text.symbols[i] * 256)[:random.choice([255, 256])]
    else:
        text.put(i, random.choice(LITERALS))


def constant(text, others):
    """Something put into a constant expression."""
    i = random.choice([text.place(behind=['ARRAY', 'BY']), text.place(kinds=['int', 'char', 'text', 'ident'], behind=['='], near=('CONST', 40))])
    if i is not None:
        name = random.choice(text.names())
        call, relation = ['LEN', '(', name, ')', '+'], ['"ab"', random.choice(['=', '<']), '"b"', '=']
        text.put(i, *random.choice([[name, '+'], [name, '.', random.choice(others), '+'], call, relation, ['NIL', '='], ['{', name, '}', '+'],
                                    ['1', 'DIV', '0', '+']]))


def written_name(text, others):
    """What a statement or an argument writes exchanged for another name."""
    text.set(text.name_place(behind=BEGINS + ['(', ':'], before=[':=', '.', '[', '^', ',', ')']), text.names() + others + ['In.Done'])


def member(text, others):
    """A member or a field exchanged for another."""
    i = text.place(symbols=['.'], behind=text.names(), before=text.names())
    if i is not None:
        text.set(i + random.choice([1, 1, -1]), others)


def foreign(text, others):
    """A name of another module in place of one that is used, mostly at what is written."""
    module = text.name_place(before=[',', ';', ':='], near=('IMPORT', 8))
    i = text.name_place(before=random.choice([[':=', '.', '[', ')', ','], [':=', ';', ')', '*', '+']]))
    if i is not None and module is not None:
        text.symbols[i] = text.symbols[module] + '.' + random.choice(others)


def assignment(text, others):
    """One put in."""
    i = text.place(behind=['BEGIN'])
    if i is not None:
        selector = random.choice([[], ['.', random.choice(others)], ['[', '0', ']']])
        text.put(i, random.choice(text.names()), *selector, ':=', random.choice(text.names() + LITERALS), ';')


CHANGES = [name, type_name, operator, mark, keyword, literal, exchange, statement, argument, answer, selector, imported, byte, written_name, assignment]
CHANGES += [declaration, star, var, base, label, member, foreign] * 2 + [constant] * 5


def changed(texts):
    """These texts with one change in one of them, and the change's name."""
    texts = list(texts)
    if len(texts) > 1 and not random.randrange(40):
        random.shuffle(texts)
        return 'order', texts
    change, i = random.choice(CHANGES), random.randrange(len(texts))
    text = Text(texts[i])
    change(text, [s for t in texts for s in Text(t).names()])
    texts[i] = text.source()
    return change.__name__, texts


def verdict(texts):
    """The rule that is broken first, 0 for none, and the verdict in words."""
    try:
        check.check_sources(texts)
        return 0, 'legal'
    except Fault as fault:
        return fault.number, 'fault %d in %d at %d' % (fault.number, fault.module, fault.at)


def legal():
    """Legal modules: those that have the whole language, and the shorter examples."""
    return [texts for _, texts in pieces_of(WHOLE)] + [example(name) for name in ('Answer', 'Squares', 'Wrap', 'Range')]


def plain(text):
    """The text in which changes without a difference are the same."""
    return b' '.join(text.split())


def changes(tries, wanted):
    """The different changes among so many, as many of each verdict as are wanted."""
    bases, kept = legal(), collections.Counter()
    bases += [texts for texts in bases if len(texts) > 1] * 3
    seen = {tuple(map(plain, texts)) for texts in bases}
    for _ in range(tries):
        which, texts = changed(random.choice(bases))
        if tuple(map(plain, texts)) not in seen:
            seen.add(tuple(map(plain, texts)))
            number, words = verdict(texts)
            kept[number] += 1
            if kept[number] <= wanted.get(number, tries):
                yield which, texts, number, words


def modules():
    """Modules without a change: small ones of bench/rows, those above, and examples."""
    files = [name for name in row_files() if name != 'limits.txt']  # whose texts are in short
    found = [(which, texts) for name in files for which, texts in pieces_of(name) if sum(map(len, texts)) <= 200]
    found += [('symbols', [text]) for text in SYMBOLS] + [('legal', texts) for texts in legal()]
    return [(which, texts, *verdict(texts)) for which, texts in found]


def told(cases):
    """Says how many verdicts there are of each rule."""
    for number, count in sorted(collections.Counter(number for _, _, number, _ in cases).items()):
        print('rule %d:' % number if number else 'legal:', count, file=sys.stderr)


def vectors():
    """The lines of the stored run, and the lines that are wanted."""
    random.seed(30)
    cases = modules()
    assert all(number == 0 for which, _, number, _ in cases if which == 'legal')
    unchanged = len(cases)
    cases += changes(60000, WANTED)
    print(unchanged, 'modules,', len(cases) - unchanged, 'changes')
    told(cases)
    return [texts_line('check ' + which, texts) for which, texts, _, _ in cases], [words for _, _, _, words in cases]


if __name__ == '__main__':
    tries, seed = map(int, sys.argv[1:])
    random.seed(seed)
    found = list(changes(tries, {}))
    for which, texts, _, words in found:
        print(texts_line('check ' + which, texts), end='')
        print(words)
    told(found)

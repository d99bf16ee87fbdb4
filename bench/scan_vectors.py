#!/usr/bin/env python3
"""Makes the input of crates/scan_vectors and what is wanted of it, by another scanner.

    bench/scan_vectors.py [FOLDER]

Writes `stdin` and `stdout` into FOLDER (that crate's, if none is given); bench/other_compiler.py says where the other
scanner is.
"""
import os
import random

from other_compiler import folder_of
from scan import Fault, RESERVED, scan  # noqa: E402

MARKS = {'+': 'Plus', '-': 'Minus', '*': 'Times', '/': 'Slash', '~': 'Tilde', '&': 'Ampersand', '.': 'Period',
         ',': 'Comma', ';': 'Semicolon', '|': 'Bar', '(': 'LeftParen', '[': 'LeftBracket', '{': 'LeftBrace',
         ':=': 'Becomes', '^': 'Arrow', '=': 'Equal', '#': 'NotEqual', '<': 'Less', '>': 'Greater',
         '<=': 'LessEqual', '>=': 'GreaterEqual', '..': 'Range', ':': 'Colon', ')': 'RightParen',
         ']': 'RightBracket', '}': 'RightBrace'}

# Texts with something to see in them.
TEXTS = [
    b'', b' \t\r\n\x1f', b'MODULE M; BEGIN Out.Int(12, 0) END M.', b'a1B2 If x(*no*)y', b'(* a (* b *) c *) x',
    b'"a\0b" "" "\xff"', b' '.join(w.encode() for w in sorted(RESERVED)), b'array ARRAYS ARR',
    b'+-*/~&.,;|([{:=^=#<><=>=..:)]}', b':=: = := <== ...', b'( *)', b'12AB', b'0FFXH', b'1..2',
    b'1H2H 1X2X 007 1ABCDEFG',
    b'0FFFFFFFFFFFFFFFFH 9223372036854775807 8000000000000000H 7FFFFFFFFFFFFFFFH 00000000000000000000FH',
    b'0FFX 41X 0000041X', b'a $', b'\x7f', b'x \x80', b"'a'", b'(*(*)*)', b'a (* b (* c *)', b'(*', b'(*)', b'"',
    b'x "abc', b'"a\n"', b'"a\r"', b'9223372036854775808', b'100X', b'10000000000000000H',
    b'a 99999999999999999999 $', b'x $ (*', b'(* $ *) 100X $', b'"a $', b'a' * 255, b'a' * 256, b'A' * 300,
    b'18446744073709551616', b'18446744073709551615H', b'0FFFFFFFFFFFFFFFFFFFFX',
]
# Pieces of which texts are put together at random.
PIECES = [b'a', b'B7', b'IF', b'ELSIF', b'END', b'0', b'12', b'255', b'0FFH', b'0AX', b'100X', b'9' * 20, b'"s"', b'"',
          b'(*', b'*)', b'(', b')', b'*', b':', b'=', b':=', b'<', b'>', b'.', b'..', b'+', b'#', b'$', b' ', b'\n',
          b'\x80', b'H', b'X', b'~', b'{', b'}', b'|', b'^', b'[', b']', b'&', b',', b';']


def escaped(text):
    """The line that stands for a text."""
    out = []
    for b in text:
        if b == 92:
            out.append('\\\\')
        elif b == 10:
            out.append('\\n')
        elif b == 13:
            out.append('\\r')
        elif 32 <= b < 127:
            out.append(chr(b))
        else:
            out.append('\\x%02x' % b)
    return ''.join(out)


def kind_of(symbol):
    """The kind, as the program prints it."""
    k, v = symbol.kind, symbol.value
    if k == 'ident':
        return 'Ident'
    if k == 'int':
        return 'Int(%d)' % v
    if k == 'char':
        return 'Char(%d)' % v
    if k == 'text':
        return 'Text'
    if k == 'word':
        return 'Word(%sWord)' % v.capitalize()
    return 'Mark(%s)' % MARKS[v]


def wanted(text):
    """What is to be printed of a text."""
    try:
        symbols = [s for s in scan(text) if s.kind != 'end']
    except Fault as fault:
        return 'rule %d at %d' % (fault.number, fault.at)
    each = ''.join('Symbol { kind: %s, from: %d, to: %d } ' % (kind_of(s), s.at, s.to) for s in symbols)
    return each + '%d symbols' % len(symbols)


def main():
    folder = folder_of('scan_vectors')
    dice = random.Random(7)
    texts = TEXTS + [b''.join(dice.choice(PIECES) for _ in range(dice.randint(1, 12))) for _ in range(400)]
    with open(os.path.join(folder, 'stdin'), 'w') as lines:
        lines.writelines(escaped(t) + '\n' for t in texts)
    with open(os.path.join(folder, 'stdout'), 'w') as answers:
        answers.writelines(wanted(t) + '\n' for t in texts)


main()

#!/usr/bin/env python3
"""Turns a made module into C or Pascal, for other compilers.

    pass_times text SEED SIZE | bench/others.py c|pascal

It knows the lines that crates/bulk_text makes, and ends where one isn't known. Numbers have 64 bits and wrap: C wants -fwrapv where
the compiler makes use of overflow. DIV and MOD round down, which a function does in each.
"""
import re
import sys

C_HEAD = r'''int printf(const char *, ...);
typedef long long integer;
static integer quotient(integer x, integer y) { integer q = x / y; return q * y > x ? q - 1 : q; }
static integer modulus(integer x, integer y) { integer r = x % y; return r < 0 ? r + y : r; }'''

PASCAL_HEAD = r'''program Bulk;
function quotient(x, y: Int64): Int64; var q: Int64; begin q := x div y; if q * y > x then q := q - 1; quotient := q end;
function modulus(x, y: Int64): Int64; var r: Int64; begin r := x mod y; if r < 0 then r := r + y; modulus := r end;'''

LINES = [
    (r'MODULE Bulk; IMPORT Out;', C_HEAD, PASCAL_HEAD),
    (r'PROCEDURE (\w+)\(a, b: INTEGER\): INTEGER; VAR c, d, i: INTEGER; BEGIN c := a; d := b;',
     r'static integer \1(integer a, integer b) { integer c, d, i; c = a; d = b;',
     r'function \1(a, b: Int64): Int64; var c, d, i: Int64; begin c := a; d := b;'),
    (r'c := c \* (\d+) \+ d;', r'c = c * \1 + d;', r'c := c * \1 + d;'),
    (r'IF c < d THEN c := d - (\d+) ELSE d := d \+ (\d+) END;',
     r'if (c < d) c = d - \1; else d = d + \2;',
     r'if c < d then c := d - \1 else d := d + \2;'),
    (r'i := 0; WHILE i < (\d+) DO c := c \+ d; i := i \+ 1 END;',
     r'i = 0; while (i < \1) { c = c + d; i = i + 1; }',
     r'i := 0; while i < \1 do begin c := c + d; i := i + 1 end;'),
    (r'd := d DIV (\d+) \+ c MOD (\d+);', r'd = quotient(d, \1) + modulus(c, \2);', r'd := quotient(d, \1) + modulus(c, \2);'),
    (r'RETURN (.+) END (\w+);', r'return \1; }', r'\2 := \1 end;'),
    (r'BEGIN Out\.Int\((.+), 0\); Out\.Ln END Bulk\.',
     r'int main(void) { printf("%lld\\n", \1); return 0; }',
     r'begin writeln(\1) end.'),
]


def turned(line, column):
    """The line in the language of this column."""
    for row in LINES:
        found = re.fullmatch(row[0], line)
        if found:
            return found.expand(row[column])
    sys.exit('not a line of a made module: ' + line)


def main():
    column = {'c': 1, 'pascal': 2}[sys.argv[1]]
    for line in sys.stdin:
        print(turned(line.rstrip('\n'), column))


main()

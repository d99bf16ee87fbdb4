#!/usr/bin/env python3
"""Modules at the bounds of what a procedure may have, and modules that copy arrays of each length, in short: in them [9*part] stands for so
many copies of a part, with their numbers in place of #, which `spread` makes, and vector_texts::spread in the programs that read
them.

    bench/size_texts.py (asserts | homes | swaps | branches | tests) VALUES

prints a module with a procedure of about so many values, for bench/values.sh.
"""
import re
import sys


# so many statements that make one value each, which live nowhere
ASSERTS = 'MODULE A; BEGIN [%d*ASSERT(TRUE); ]END A.'

# so many pairs of values and two, each of which lives across a call and has a home whatever the policy, and a single one that may be there
HOMES = ('MODULE H; IMPORT Out; VAR n, s: INTEGER; PROCEDURE N; END N; PROCEDURE F(): INTEGER; BEGIN n := n + 1 RETURN n END F; PROCEDURE Q(x: INTEGER); BEGIN s := s * 3 + x END Q; '
         'PROCEDURE P; VAR x, y: INTEGER; BEGIN N; Q(x); Q(y); [%d*x := F(); y := F(); Q(x); Q(y); ]%sEND P; BEGIN P; Out.Int(n, 0); Out.Int(s, 21) END H.')

# a loop whose header has so many pairs of parameters and two, each pair of which changes places at the loop's end
SWAPS = ('MODULE S; IMPORT Out; VAR s: INTEGER; PROCEDURE Q(x: INTEGER); BEGIN s := s * 3 + x END Q; PROCEDURE P; VAR [%d*a#, b#, ]i, t: INTEGER; BEGIN i := 0; a0 := 7; '
         'WHILE i < 3 DO [%d*t := a#; a# := b#; b# := t; ]i := i + 1 END; [%d*Q(b#); ]Q(a0) END P; BEGIN P; Out.Int(s, 0) END S.')

# a procedure with so many pairs of homes before all others, which calls itself with 24 words, others by number and by value, and divides; and a trap
ARGUMENTS = ('MODULE F; IMPORT Out; VAR n, s, x, y: INTEGER; f: PROCEDURE (a: INTEGER): INTEGER; PROCEDURE Q(a: INTEGER): INTEGER; RETURN a DIV 3 END Q; '
             'PROCEDURE G(): INTEGER; BEGIN n := n + 1 RETURN n END G; PROCEDURE N(x: INTEGER); BEGIN s := s * 3 + x END N; '
             'PROCEDURE P([22*a#, ]a22: INTEGER; d: INTEGER): INTEGER; VAR i, j, k, t, u, v: INTEGER; BEGIN [%d*u := G(); v := G(); N(u); N(v); ]'
             'i := a0 + a22; j := a7; k := a4; WHILE i > 0 DO t := i; i := j; j := k; k := t - 1; IF i = a21 THEN x := x + f(i) END END; '
             'IF d > 0 THEN x := x + P(k - j, i, [18*a#, ]j, x, a4, d - 1) END; RETURN x + a5 * Q(k) END P; '
             'BEGIN f := Q; y := P([22*# * 7, ]2, 3); Out.Int(y, 0); Out.Int(s, 21); ASSERT(y = 0) END F.')

# six values for each of so many IFs, each of which reads its own: all live from the first on
BRANCHES = ('MODULE B; VAR s: INTEGER; PROCEDURE Q(c: CHAR); BEGIN s := s + ORD(c) + 1 END Q; PROCEDURE P(b: BOOLEAN); VAR [%d*c#, d#, e#, f#, g#, h#, ]z: CHAR; '
            'BEGIN [%d*IF b THEN Q(c#); Q(d#); Q(e#); Q(f#); Q(g#); Q(h#) END; ]Q(z) END P; BEGIN P(TRUE); P(FALSE) END B.')

# a loop of so many tests over two variables each, all of which live around it, and half of which are its parameters
TESTS = ('MODULE T; IMPORT Out; VAR s: INTEGER; PROCEDURE Q(x: INTEGER); BEGIN s := s * 3 + x END Q; PROCEDURE P; VAR [%d*a#, b#, ]i: INTEGER; BEGIN i := 0; [%d*a# := i; b# := s; ]'
         'WHILE i < 9 DO [%d*IF i = # THEN a# := b# END; ]i := i + 1 END; [%d*Q(a#); Q(b#); ]END P; BEGIN s := 7; P; Out.Int(s, 0) END T.')

# a procedure of so many tests among forty small ones
LARGE = ('MODULE L; IMPORT Out; VAR s: INTEGER; [20*PROCEDURE P#(x: INTEGER): INTEGER; BEGIN IF x > # THEN x := x - 1 END RETURN x * 3 + # END P#; ]'
         'PROCEDURE Q(a: INTEGER): INTEGER; VAR i, t: INTEGER; BEGIN t := a; FOR i := 0 TO 9 DO [%d*IF t MOD 7 < i THEN t := t + P3(t) MOD 100 ELSE t := t * 5 + # END; ]END RETURN t END Q; '
         '[20*PROCEDURE R#(x: INTEGER): INTEGER; RETURN Q(x) + # END R#; ]BEGIN s := R7(5); Out.Int(s, 0) END L.')


def asserts(n):
    return ASSERTS % n


def homes(n):
    return HOMES % (n // 2 - 1, 'x := F(); N; Q(x) ' if n % 2 else '')


def swaps(n):
    return SWAPS % (n, n, n)


def arguments(n):
    return ARGUMENTS % (n // 2)


def branches(n):
    return BRANCHES % (n, n)


def tests(n):
    return TESTS % (n, n, n, n)


def large(n):
    return LARGE % n


def spread(short):
    """A text with its copies."""
    return re.sub(r'\[(\d+)\*([^]]*)\]', lambda found: ''.join(found[2].replace('#', str(i)) for i in range(int(found[1]))), short)


def copied(offset):
    """A record with so many characters, an array of each length from 1 to 17 and a character; each array is copied, and a part without cells."""
    before = 'a: ARRAY %d OF CHAR; ' % offset if offset else ''
    put = 'Put(r#.a, 48); Put(s#.a, 58); ' if offset else ''
    show = 'Show(s#.a); ' if offset else ''
    return ('MODULE C; IMPORT Out; TYPE E = RECORD END; Z = RECORD %(before)se: E; c: CHAR END; [17*R# = RECORD %(before)sb: ARRAY # + 1 OF CHAR; c: CHAR END; ]'
            'VAR [17*r#, s#: R#; ]y, z: Z; PROCEDURE Put(VAR t: ARRAY OF CHAR; n: INTEGER); VAR i: INTEGER; BEGIN FOR i := 0 TO LEN(t) - 1 DO t[i] := CHR(n + i) END END Put; '
            'PROCEDURE Show(t: ARRAY OF CHAR); VAR i: INTEGER; BEGIN FOR i := 0 TO LEN(t) - 1 DO Out.Char(t[i]) END END Show; '
            'PROCEDURE Any(VAR t: ARRAY OF CHAR; u: ARRAY OF CHAR); BEGIN t := u END Any; '
            'BEGIN %(empty)sy.c := "y"; z.c := "z"; z.e := y.e; Out.Char(z.c); [17*%(put)sPut(r#.b, 65); Put(s#.b, 97); r#.c := "."; s#.c := "!"; s#.b := r#.b; %(show)sShow(s#.b); Out.Char(s#.c); '
            'Put(s#.b, 97); Any(s#.b, r#.b); %(show)sShow(s#.b); Out.Char(s#.c); s# := r#; Show(s#.b); Out.Char(s#.c); Out.Ln; ]END C.') % {
                'before': before, 'put': put, 'show': show, 'empty': 'Put(y.a, 65); Put(z.a, 97); z.e := y.e; Show(z.a); ' if offset else ''}


def main():
    values = int(sys.argv[2])
    print(spread({'asserts': lambda: asserts(values), 'homes': lambda: homes(values), 'swaps': lambda: swaps(values // 4 - 3), 'branches': lambda: branches((values - 2) // 6), 'tests': lambda: tests(values // 7 - 2)}[sys.argv[1]]()))


if __name__ == '__main__':
    main()

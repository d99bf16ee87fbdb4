#!/usr/bin/env python3
"""Makes the vectors of crates/trc_runs, which are its input, and the answers that are wanted, by another compiler.

    bench/trc_vectors.py [FOLDER]

Writes `stdin` and, with another section `vectors`, `stdout` into FOLDER (that crate's, if none is given): worked programs, the modules of bench/rows with one choice
of policy, traces and registers after another, made modules, procedures of very many values and copies of each length, commands with their options, files that aren't there, limits, each trap
in a procedure of an imported module, images that are built anew from those of version 1, notes and their audits, objects and their images, batches, what modules mean with the fewest turns in which
that is over and with one less, and the bytes of the smallest image of each version, cut off at each place and changed at each. bench/other_compiler.py says where the other compiler is; how lines are written is
said in that crate's vectors.rt.
"""
import functools
import itertools
import os

from other_compiler import CALLED, folder_of, put_section
from module_texts import pieces_of, row_files
import size_texts
from size_texts import spread
import check  # noqa: E402
import image  # noqa: E402
import meaning  # noqa: E402
import trc  # noqa: E402

CHOICES = list(itertools.product(['plain', 'linear', 'bottomup', 'mixed'], ['bi', 'uni'], ['16', '4', '8']))


class Short(bytes):
    """A text in short."""
    def spread(self):
        return spread(self.decode()).encode()


def module(body, declared='', imports='Out'):
    return 'MODULE M; %s%sBEGIN %s END M.' % ('IMPORT %s; ' % imports if imports else '', declared, body)


def run(text, *options, given=b''):
    return ['run', 'M.Mod', *options], {'M.Mod': text.encode()}, given


def worked():
    """Programs with what they show: operators, traps, recursion, records, input."""
    yield run(module('Out.Int(6*7, 0); Out.Ln'))
    for first in ('(-7) DIV 2', '7 DIV 0', '7 DIV (-1)'):
        yield run(module('Out.Int(%s, 0); Out.Char(" "); Out.Int((-7) MOD 2, 0)' % first))
    swaps = ('MODULE S; IMPORT Out; PROCEDURE P; VAR a, b, t, i: INTEGER; BEGIN a := 1; b := 2; i := 0; WHILE i < 3 DO t := a; a := b; '
             'b := t; i := i + 1 END; Out.Int(a, 0); Out.Int(b, 0) END P; BEGIN P END S.')
    names = ['a%d' % i for i in range(1, 21)]
    sums = 'MODULE T; IMPORT Out; PROCEDURE P; VAR %s: INTEGER; BEGIN %s; Out.Int(%s, 0) END P; BEGIN P END T.' % (
        ', '.join(names), '; '.join('%s := %d' % (n, i + 1) for i, n in enumerate(names)), ' + '.join(names))
    queens = ('MODULE Queens; IMPORT Out; VAR a: ARRAY 6 OF BOOLEAN; b, c: ARRAY 11 OF BOOLEAN; count: INTEGER; PROCEDURE Try(i: INTEGER); '
              'VAR j: INTEGER; BEGIN FOR j := 0 TO 5 DO IF ~a[j] & ~b[i + j] & ~c[i - j + 5] THEN a[j] := TRUE; b[i + j] := TRUE; '
              'c[i - j + 5] := TRUE; IF i < 5 THEN Try(i + 1) ELSE INC(count) END; a[j] := FALSE; b[i + j] := FALSE; '
              'c[i - j + 5] := FALSE END END END Try; BEGIN Try(0); Out.Int(count, 0); Out.Ln END Queens.')
    for text in (swaps, sums, queens):
        for policy, traces, regs in CHOICES:
            yield run(text, '--policy', policy, '--traces', traces, '--regs', regs)
        for jobs in ('1', '3', '64'):
            yield ['build', 'A', 'M.Mod', '--jobs', jobs], {'M.Mod': text.encode()}, b''
    for i in ('3', '-1', '2'):
        yield run(module('i := %s; a[i] := 1' % i, 'VAR a: ARRAY 3 OF INTEGER; i: INTEGER; ', ''))
    yield run(module('WHILE TRUE DO END', imports=''), '--steps', '1000')
    yield run(module('WHILE TRUE DO END', imports=''), '--steps', '0')
    for n in (8192, 8193):
        yield run(module('Out.Char("a"); D(%d); Out.Char("b")' % n, 'PROCEDURE D(n: INTEGER); BEGIN IF n > 1 THEN D(n - 1) END END D; '))
        yield run(module('FOR i := 1 TO %d DO NEW(p) END' % n, 'VAR p: POINTER TO RECORD a: ARRAY 1023 OF INTEGER END; i: INTEGER; ', ''))
    yield run('MODULE C; (* a (* b *) END C.')
    yield run('MODULE C; (* a (* b *) *) END C.')
    records = ('TYPE B = RECORD END; E = RECORD (B) x: INTEGER END; F = RECORD (E) END; PB = POINTER TO B; PE = POINTER TO E; '
               'PF = POINTER TO F; VAR p: PB; e: PE; f: PF; ')
    for body in ('NEW(e); p := e; e := p(PE)', 'NEW(f); p := f; e := p(PE)', 'NEW(p); e := p(PE)', 'e := p(PE)', 'ASSERT(~(p IS PE))'):
        yield run(module(body, records, ''))
    loop = 'MODULE T; VAR i: INTEGER; BEGIN i := 0; WHILE i < 9 DO IF i = 3 THEN i := i + 2 END; i := i + 1 END END T.'
    for policy, traces in itertools.product(['plain', 'linear', 'bottomup', 'mixed'], ['bi', 'uni']):
        yield ['traces', 'M.Mod', '--policy', policy, '--traces', traces], {'M.Mod': loop.encode()}, b''
    for body in ('Out.Int(0FFFFFFFFFFFFFFFFH, 0); Out.Int(42, 5); Out.Char(41X)', 'Out.Int(ORD("0"), 0)', 'Out.Int(9223372036854775808, 0)',
                 'Out.Char(100X)'):
        yield run(module(body))
    echo = module('In.Char(c); WHILE In.Done DO Out.Char(c); In.Char(c) END', 'VAR c: CHAR; ', 'In, Out')
    for given in (b'ab', b'', bytes(range(256)), b'a' * 2000):
        yield run(echo, given=given)
    tests = ('VAR i: INTEGER; y: BYTE; short: ARRAY 3 OF CHAR; long: ARRAY 4 OF CHAR; '
             'PROCEDURE Q(VAR s: ARRAY OF CHAR); BEGIN s := "abc" END Q; ')
    for body in ('i := 5; CASE i OF 1: | 2..4: END', 'ASSERT(i = 1)', 'i := 64; ASSERT(i IN {1})', 'i := 256; y := i', 'Q(short)', 'Q(long)'):
        yield run(module(body, tests, ''))
    local = 'VAR n: INTEGER; PROCEDURE P; VAR a: ARRAY 1048576 OF INTEGER; BEGIN IF n > 0 THEN n := n - 1; P END END P; '
    yield run(module('n := 1; P', local, ''))


def modules():
    """Several modules, in their order and in another, and what isn't there."""
    a = b'MODULE A; PROCEDURE Twice*(x: INTEGER): INTEGER; BEGIN RETURN 2*x END Twice; END A.'
    b = b'MODULE B; IMPORT A, Out; BEGIN Out.Int(A.Twice(21), 0); Out.Ln END B.'
    files = {'A.Mod': a, 'B.Mod': b}
    for words in ('run A.Mod B.Mod', 'run B.Mod A.Mod', 'build O A.Mod B.Mod', 'build O B.Mod', 'traces A.Mod B.Mod', 'run A.Mod C.Mod',
                  'build O C.Mod B.Mod', 'traces C.Mod', 'exec C.Mod', 'run A.Mod A.Mod', 'run ' + ' '.join(['A.Mod'] * 65),
                  'run ' + ' '.join(['A.Mod'] * 64)):
        yield words.split(' '), files, b''


def commands():
    """Words that are taken and words that are refused."""
    text = {'M.Mod': module('Out.Int(6*7, 0); Out.Ln').encode()}
    for words in ('', 'help', 'help me', 'walk', 'run', 'build', 'build A', 'elf', 'elf A', 'elf A B', 'elf A M.Mod', 'elf A M.Mod --regs 3', 'elf A M.Mod --steps 1', 'elf A M.Mod --from A',
                  'traces', 'exec', 'exec A B', 'batch', 'batch A', 'batch M.Mod A', 'batch M.Mod', 'batch M.Mod --from A', 'batch M.Mod --regs 17',
                  'batch M.Mod --steps x', 'bulk', 'bulk 7', 'bulk 7 2',
                  'bulk 7 2 3', 'bulk 7 0', 'bulk 7 1001', 'bulk 9223372036854775808 1', 'bulk 9223372036854775807 1', 'bulk 7 2 --steps 10',
                  'bulk 7 3 --policy mixed --traces uni --regs 4 --jobs 2', 'run M.Mod --policy fast', 'run M.Mod --policy', 'run M.Mod --regs 3',
                  'run M.Mod --regs 17', 'run M.Mod --regs 04', 'run M.Mod --traces tri', 'run M.Mod --jobs 0', 'run M.Mod --jobs 65',
                  'run M.Mod --jobs 64', 'run M.Mod --steps 15', 'run M.Mod --steps=16', 'run M.Mod --steps 1000000000000001',
                  'run M.Mod --steps x', 'run --steps 16 M.Mod', 'run -- M.Mod', 'run M.Mod --', 'run M.Mod --help', 'traces M.Mod --regs 4',
                  'audit', 'audit A', 'audit A B', 'audit A B M.Mod', 'audit A M.Mod M.Mod', 'audit A B M.Mod --regs 3', 'audit A B M.Mod --traces tri',
                  'audit A B M.Mod --jobs 2', 'audit A B M.Mod --policy plain', 'audit A B M.Mod --steps 3', 'audit A B M.Mod --from B',
                  'audit A B M.Mod --notes B', 'build A M.Mod --notes', 'build A M.Mod --notes N', 'build A M.Mod --notes N --notes N', 'run M.Mod --notes N',
                  'elf A M.Mod --notes N', 'build A M.Mod --notes N --from A',
                  'mean', 'mean M.Mod', 'mean M.Mod --turns 0', 'mean M.Mod --turns=007', 'mean M.Mod --turns', 'mean M.Mod --turns x', 'mean M.Mod --turns 1000000000000001',
                  'mean M.Mod --turns 1000000000000000', 'mean M.Mod --turns 1 --turns 1', 'mean M.Mod --steps 1', 'mean M.Mod --traces uni', 'mean M.Mod --regs 4', 'mean Away.Mod',
                  'both', 'both M.Mod', 'both M.Mod --turns 0 --steps 0', 'both M.Mod --turns 0 --steps 15', 'both M.Mod --steps 16', 'both M.Mod --turns x', 'both M.Mod --steps x',
                  'both M.Mod --policy fast', 'both M.Mod --policy mixed --traces uni --regs 4 --jobs 2 --steps 100 --turns 0', 'both Away.Mod', 'both M.Mod --notes N',
                  'run M.Mod --turns 1', 'exec M.Mod --turns 1', 'build A M.Mod --turns 1', 'batch M.Mod --turns 1',
                  'build A M.Mod --steps 4', 'exec A --policy plain', 'build A M.Mod', 'build A M.Mod --policy plain --regs 4'):
        yield words.split(' '), text, b''


TRAPS = '''MODULE T;
TYPE A = RECORD END; B = RECORD (A) END; PA = POINTER TO A; PB = POINTER TO B; PX = POINTER TO RECORD x: INTEGER END;
  PH = POINTER TO RECORD h: ARRAY 1048576 OF CHAR END;
VAR i: INTEGER; y: BYTE; s: SET; a: ARRAY 3 OF INTEGER; t: ARRAY 3 OF CHAR;
PROCEDURE Index*; BEGIN a[i + 3] := 1 END Index;
PROCEDURE Nil*; VAR p: PX; BEGIN p := NIL; p.x := 1 END Nil;
PROCEDURE Guard*; VAR p: PA; q: PB; BEGIN NEW(p); q := p(PB) END Guard;
PROCEDURE Divisor*; BEGIN i := 7 DIV i END Divisor;
PROCEDURE Assert*; BEGIN ASSERT(i # 0) END Assert;
PROCEDURE Case*; BEGIN CASE i OF 1: END END Case;
PROCEDURE Element*; BEGIN INCL(s, i + 64) END Element;
PROCEDURE Depth*; BEGIN Depth END Depth;
PROCEDURE Large; VAR c: ARRAY 1048576 OF CHAR; BEGIN Large END Large;
PROCEDURE Local*; BEGIN Large END Local;
PROCEDURE Heap*; VAR p: PH; BEGIN WHILE TRUE DO NEW(p) END END Heap;
PROCEDURE Range*; BEGIN i := 256; y := i END Range;
PROCEDURE Fill(VAR c: ARRAY OF CHAR); BEGIN c := "abc" END Fill;
PROCEDURE Copy*; BEGIN Fill(t) END Copy;
END T.
'''


def traps():
    """Each trap in a procedure of an imported module, and two in bodies; one after another choice."""
    names = ['Index', 'Nil', 'Guard', 'Divisor', 'Assert', 'Case', 'Element', 'Depth', 'Local', 'Heap', 'Range', 'Copy']
    for name, (policy, traces, regs) in zip(names, CHOICES):
        files = {'T.Mod': TRAPS.encode(), 'M.Mod': b'MODULE M; IMPORT T; BEGIN T.%s END M.' % name.encode()}
        yield ['run', 'T.Mod', 'M.Mod', '--policy', policy, '--traces', traces, '--regs', regs], files, b''
    for text in ('(* one\ntwo *)\nMODULE M;\nVAR i: INTEGER;\nBEGIN\n  CASE i OF 1: END\nEND M.',
                 'MODULE M;\nVAR t: ARRAY 3 OF CHAR;\nPROCEDURE P(VAR c: ARRAY OF CHAR);\nBEGIN c := "abc" END P;\nBEGIN P(t) END M.',
                 'MODULE M; IMPORT Out; BEGIN Out.Int(7 DIV 0, 0) END M.',
                 'MODULE M;\nIMPORT Out;\nPROCEDURE D(n: INTEGER); BEGIN IF n > 1 THEN D(n - 1) END END D;\nBEGIN D(8193) END M.'):
        yield run(text)
    # what an image holds: the same trap told by exec
    built = {'T.Mod': TRAPS.encode(), 'M.Mod': b'MODULE M; IMPORT T; BEGIN T.Divisor END M.'}
    image = built_of(['build', 'A', 'T.Mod', 'M.Mod'], built)
    yield ['exec', 'A'], {'A': image}, b''
    yield ['exec', 'A'], {'A': first_of(image)}, b''
    # the only place is behind the trap, and in a module that isn't there
    yield ['exec', 'A'], {'A': with_places([0xD4200020, 0xD4000001], [(1, 0, 1)])}, b''
    yield ['exec', 'A'], {'A': with_places([0xD4200020, 0xD4000001], [(0, 4294967295, 4294967295)])}, b''


def built_of(words, files):
    return bytes(trc.Run(CALLED + words, dict(files), b'').files[words[1]])


def notes_of(words, files):
    """The notes that a call of `build --notes N` writes; none where it is refused."""
    return bytes(trc.Run(CALLED + words, dict(files), b'').files.get('N', b''))


def first_of(data):
    """The image of these bytes, in version 1."""
    i = image.read_image(data, (1, 2), True)
    return image.write_image(image.Image(1, i.flags, i.code, i.globals, i.constants, i.frame))


def with_places(code, places):
    return image.write_image(image.Image(2, 0, code, 0, b'', 0, places))


def anew():
    """Images built anew from those of version 1, from others, in place, and from what isn't there."""
    files = {'E.Mod': b'MODULE E; END E.', 'M.Mod': module('Out.Int(6*7, 0); Out.Ln').encode(), 'F.Mod': b'MODULE F; BEGIN x END F.'}
    second = built_of(['build', 'A', 'M.Mod'], files)
    first = first_of(second)
    whole = dict(files, E1=first_of(built_of(['build', 'A', 'E.Mod'], files)), M1=first, M2=second, Cut=first[:-1], More=first + b'\0', None_=b'')
    for words in ('build O E.Mod --from E1', 'build E1 E.Mod --from E1', 'build O M.Mod --from M1', 'build M1 M.Mod --from M1',
                  'build O --from M1 M.Mod', 'build O M.Mod --from=M1', 'build O M.Mod --from M2', 'build O M.Mod --from E1',
                  'build O M.Mod --from Cut', 'build O M.Mod --from More', 'build O M.Mod --from None_', 'build O M.Mod --from M.Mod',
                  'build O M.Mod --from M1 --policy plain', 'build O M.Mod --from Gone', 'build O Gone.Mod --from Away', 'build O F.Mod --from M1',
                  'build O F.Mod --from Gone', 'build O M.Mod --from', 'build O M.Mod --from M1 --from M1', 'run M.Mod --from M1', 'exec M1 --from M1',
                  'build O E.Mod M.Mod --from Gone'):
        yield words.split(' '), whole, b''
    for n in list(range(32)) + list(range(32, len(first), 16)):
        yield ['build', 'O', 'M.Mod', '--from', 'M1'], dict(files, M1=first[:n] + bytes([first[n] ^ 0x41]) + first[n + 1:]), b''


def audits():
    """Notes of forty lists of modules, each written and audited; of small modules cut off and changed at many of their bytes; others that are unsound."""
    pieces = [texts for name in row_files() if not os.path.dirname(name) for _, texts in pieces_of(name)]
    found = 0
    for sources, (policy, traces, regs) in zip(pieces[::3], itertools.cycle(CHOICES[::-1])):
        names = ['M%d.Mod' % i for i in range(len(sources))]
        files, options = dict(zip(names, sources)), ['--traces', traces, '--regs', regs]
        build = ['build', 'O', *names, '--policy', policy, *options, '--notes', 'N']
        notes = notes_of(build, files)
        if notes and found < 40 and len(notes) < 4000:
            found += 1
            yield build, files, b''
            yield ['audit', 'O', 'N', *names, *options], dict(files, N=notes), b''
            yield ['audit', 'O', 'N', *names, '--traces', traces, '--regs', '4'], dict(files, N=notes), b''
            yield ['audit', 'O', 'N', *names, '--traces', 'bi' if traces == 'uni' else 'uni', '--regs', regs], dict(files, N=notes), b''
    files = {'E.Mod': b'MODULE E; END E.', 'M.Mod': module('Out.Int(6*7, 0); Out.Ln').encode(), 'F.Mod': b'MODULE F; BEGIN x END F.',
             'L.Mod': b'MODULE T; VAR i: INTEGER; BEGIN REPEAT i := i + 1 UNTIL i = 5 END T.'}
    empty, small, loop = (notes_of(['build', 'O', name, '--notes', 'N'], files) for name in ('E.Mod', 'M.Mod', 'L.Mod'))
    whole = dict(files, NE=empty, NM=small, NL=loop, None_=b'', More=small + b'\0', Image=built_of(['build', 'A', 'M.Mod'], files),
                 M1=first_of(built_of(['build', 'A', 'M.Mod'], files)))
    for words in ('audit O NM M.Mod', 'audit NM NM M.Mod', 'audit M.Mod NM M.Mod', 'audit O NE E.Mod', 'audit O NE M.Mod', 'audit O NM E.Mod', 'audit O NL L.Mod',
                  'audit O NM L.Mod', 'audit O NL M.Mod', 'audit O None_ M.Mod', 'audit O More M.Mod', 'audit O Image M.Mod', 'audit O M.Mod M.Mod', 'audit O Gone M.Mod',
                  'audit O Gone F.Mod', 'audit O Gone Away.Mod', 'audit O NM Away.Mod', 'audit O NM M.Mod Away.Mod', 'audit O NM F.Mod', 'audit O None_ F.Mod', 'audit O NM M.Mod M.Mod',
                  'audit O NM M.Mod E.Mod', 'audit O NM ' + ' '.join(['M.Mod'] * 65), 'audit O Gone ' + ' '.join(['M.Mod'] * 65), 'audit O NM ' + ' '.join(['M.Mod'] * 64),
                  'build O M.Mod --notes O', 'build O M.Mod --notes M.Mod', 'build O M.Mod --from M1 --notes N', 'build M1 M.Mod --from M1 --notes M1',
                  'build O E.Mod --from M1 --notes N', 'build O F.Mod --notes N', 'build O Away.Mod --notes N', 'build O E.Mod M.Mod L.Mod --notes N --jobs 3'):
        yield words.split(' '), whole, b''
    for n in itertools.chain(range(16), range(16, len(small), 29)):
        yield ['audit', 'O', 'N', 'M.Mod'], dict(files, N=small[:n]), b''
    for n in itertools.chain(range(8), range(8, len(loop), 4)):
        yield ['audit', 'O', 'N', 'L.Mod'], dict(files, N=loop[:n] + bytes([loop[n] ^ (1 if n % 8 else 3)]) + loop[n + 1:]), b''


def object_of(words, files):
    """The object that a call of `object` writes; none where it is refused."""
    return bytes(trc.Run(CALLED + words, dict(files), b'').files.get(words[1], b''))


def objects():
    """Objects of forty lists of modules under each policy, and their images; every byte of a small one cut off or changed; others in other orders, of
    edited modules, by other options, of modules that are refused, and words that no call takes."""
    pieces = [texts for name in row_files() if not os.path.dirname(name) for _, texts in pieces_of(name)]
    several = [texts for texts in pieces if len(texts) > 1]
    found = 0
    for sources, (policy, traces, regs) in zip(itertools.chain(several, pieces[1::2]), itertools.cycle(CHOICES[::-1])):
        names = ['M%d.Mod' % i for i in range(len(sources))]
        files, options = dict(zip(names, sources)), ['--policy', policy, '--traces', traces, '--regs', regs]
        calls = [['object', 'O%d' % i, *names[:i + 1], *options] for i in range(len(sources))]
        made = {call[1]: object_of(call, files) for call in calls}
        if found < 40 and all(made.values()) and sum(map(len, made.values())) < 8000:
            found += 1
            for call in calls:
                yield call, files, b''
            yield ['link', 'A', *made], made, b''
            yield ['build', 'A', *names, *options], files, b''
    files = {'A.Mod': b'MODULE A; PROCEDURE Twice*(x: INTEGER): INTEGER; BEGIN RETURN 2*x END Twice; END A.',
             'B.Mod': b'MODULE B; IMPORT A, Out; BEGIN Out.Int(A.Twice(21), 0); Out.Ln END B.',
             'C.Mod': b'MODULE C; IMPORT Out; BEGIN Out.Int(1, 0) END C.', 'E.Mod': b'MODULE E; END E.', 'F.Mod': b'MODULE F; BEGIN x END F.'}

    def given(words):
        return object_of(words.split(' '), files)
    first, second, third = given('object O A.Mod'), given('object O A.Mod B.Mod'), given('object O A.Mod C.Mod')
    edited = second.replace(b'A.Twice(21)', b'A.Twice(22)')
    longer = given('object O A.Mod').replace(b'2*x', b'x+x')
    whole = dict(files, a=first, b=second, c=third, a8=given('object O A.Mod --regs 8'), b8=given('object O A.Mod B.Mod --regs 8'),
                 bu=given('object O A.Mod B.Mod --traces uni'), bp=given('object O A.Mod B.Mod --policy plain'), alone=given('object O C.Mod'),
                 e=given('object O E.Mod'), edited=edited, longer=longer, None_=b'', More=first + b'\0', Image=built_of(['build', 'A', 'E.Mod'], files),
                 N=notes_of(['build', 'O', 'A.Mod', '--notes', 'N'], files))
    for words in ('object O A.Mod', 'object O A.Mod B.Mod', 'object O E.Mod', 'object O B.Mod', 'object O B.Mod A.Mod', 'object O F.Mod', 'object O A.Mod F.Mod', 'object O F.Mod A.Mod',
                  'object O Away.Mod', 'object O A.Mod Away.Mod', 'object O A.Mod A.Mod', 'object A.Mod A.Mod', 'object O', 'object', 'object O A.Mod --from e', 'object O A.Mod --notes N',
                  'object O A.Mod --steps 3', 'object O A.Mod --policy', 'object O A.Mod --jobs 64', 'object O A.Mod --jobs 65', 'object O A.Mod --regs 3', 'object O --regs 4 A.Mod',
                  'object O ' + ' '.join(['A.Mod'] * 65), 'object O ' + ' '.join(['E.Mod'] * 64), 'object O A.Mod B.Mod C.Mod --policy mixed --traces uni --regs 8',
                  'link O a b', 'link O b a', 'link O b', 'link O a', 'link O a a', 'link O a b b', 'link O a b c', 'link O a c b', 'link O a c', 'link O alone a b', 'link O a alone b', 'link O e',
                  'link O a b8', 'link O a8 b8', 'link O a8 b', 'link O a bu', 'link O a bp', 'link O b a8', 'link O a edited', 'link O longer b', 'link O edited', 'link O a More', 'link O More',
                  'link O None_', 'link O a None_', 'link O a None_ b8', 'link O a b8 None_', 'link O Image', 'link O N', 'link O A.Mod', 'link O a A.Mod', 'link O Gone', 'link O a Gone', 'link O Gone None_',
                  'link O None_ Gone', 'link a a b', 'link O', 'link', 'link O a --regs 16', 'link O a --policy linear', 'link O a --jobs 1', 'link O a --from a', 'link O -- a b',
                  'link O ' + ' '.join(['a'] * 65), 'link O ' + ' '.join(['a'] * 64), 'link O ' + ' '.join(['Gone'] * 65)):
        words = words.split(' ')
        yield words, {name: whole[name] for name in words[1:] if name in whole}, b''
    small = whole['e']
    for n in itertools.chain(range(24), range(24, len(small), 7)):
        yield ['link', 'O', 'x'], {'x': small[:n]}, b''
    for n in itertools.chain(range(48), range(48, len(small), 4)):
        yield ['link', 'O', 'x'], {'x': small[:n] + bytes([small[n] ^ (0x41 if n % 3 == 0 else 1)]) + small[n + 1:]}, b''
    for n in range(0, len(second), 7):
        yield ['link', 'O', 'a', 'b'], {'a': first, 'b': second[:n] + bytes([second[n] ^ (1 if n % 2 else 2)]) + second[n + 1:]}, b''


def batches():
    """Lists of jobs: worked ones, bad ones, and two with two hundred made jobs of every kind."""
    files = {'A.Mod': b'MODULE A; PROCEDURE Twice*(x: INTEGER): INTEGER; BEGIN RETURN 2*x END Twice; END A.',
             'B.Mod': b'MODULE B; IMPORT A, Out; BEGIN Out.Int(A.Twice(21), 0); Out.Ln END B.',
             'M.Mod': module('Out.Int(42, 0); Out.Ln').encode(), 'In.Mod': module('In.Char(c); Out.Char(c); IF ~In.Done THEN Out.Char("-") END', 'VAR c: CHAR; ', 'In, Out').encode()}
    for text in (b'0 A.Mod B.Mod\n1 M.Mod\n0 Missing.Mod\n', b'', b'2 M.Mod\n', b'0 M.Mod', b'0 M.Mod\n1 M.Mod', b'0 M.Mod\n0  M.Mod\n', b'0 M.Mod \n', b' 0 M.Mod\n',
                 b'0\n', b'\n', b'00 M.Mod\n', b'0 M.Mod\n\n1 M.Mod\n', b'0 \xff\n1 M.Mod\n', b'1 B.Mod A.Mod\n1 A.Mod\n0 In.Mod\n', b'0 M.Mod Missing.Mod Away.Mod\n',
                 b'1' + b' M.Mod' * 65 + b'\n1' + b' M.Mod' * 64 + b'\n', b'0\tM.Mod\n', b'0 LIST\n1 M.Mod\n'):
        yield ['batch', 'LIST'], dict(files, LIST=text), b'input'
    yield ['batch', 'LIST', '--steps', '15', '--policy', 'plain'], dict(files, LIST=b'0 M.Mod\n1 M.Mod\n'), b''
    kinds = ('Out.Int(%d, 0)', 'Out.Int(%d, 0); ASSERT(FALSE)', 'Out.Int(%d, 0); WHILE TRUE DO END', 'Out.Int(x%d, 0)', 'Out.Int(%d DIV 0, 0)')
    for options in ([], ['--policy', 'mixed', '--traces', 'uni', '--regs', '4', '--jobs', '1']):
        made, lines = dict(files), []
        for job in range(200):
            body = kinds[job // 3 % len(kinds)] % job
            made['J%d' % job] = trc.bulk_text(job, 1 + job % 2) if job % 3 == 0 else module(body).encode()
            names = ['J%d' % job] if job % 17 else ['A.Mod', 'B.Mod', 'J%d' % job]
            lines.append('%d %s\n' % (job * 7 // 5 % 2, ' '.join(names)))
        yield ['batch', 'LIST', '--steps', '20000', *options], dict(made, LIST=''.join(lines).encode()), b''


def workers():
    """The same modules by one, three and sixty-four workers."""
    moves = ('MODULE S; IMPORT Out; PROCEDURE P; VAR a, b, t, i: INTEGER; BEGIN a := 1; b := 2; i := 0; '
             'WHILE i < 3 DO t := a; a := b; b := t; i := i + 1 END; Out.Int(a, 0); Out.Int(b, 0) END P; BEGIN P END S.')
    names = ['a%d' % i for i in range(1, 21)]
    sums = ('MODULE L; IMPORT Out; PROCEDURE P; VAR ' + ', '.join(names) + ': INTEGER; BEGIN '
            + '; '.join('%s := %d' % (name, i + 1) for i, name in enumerate(names))
            + '; Out.Int(' + ' + '.join(names) + ', 0) END P; BEGIN P END L.')
    for jobs in ('1', '3', '64'):
        for text in (moves, sums):
            yield ['build', 'O', 'M.Mod', '--regs', '4', '--jobs', jobs], {'M.Mod': text.encode()}, b''
        for size in ('60', '400'):
            yield ['bulk', '7', size, '--jobs', jobs], {}, b''


def least_turns(sources, given, most=20000):
    """The fewest turns with which what the modules mean is over; the most that are tried where it isn't with these; none where they mean nothing."""
    try:
        program = check.check_sources(sources)
    except (trc.Fault, trc.Limit):
        return None
    given = given if program.imports_in else b''

    def goes_on(turns):
        return isinstance(meaning.meaning(program, given, turns), meaning.Going)
    low, high = (most if goes_on(most) else 0), most
    while low < high:
        middle = (low + high) // 2
        low, high = (middle + 1, high) if goes_on(middle) else (low, middle)
    return low


def meant(names, sources, given, choice, most=20000):
    """What modules mean with the fewest turns in which that is over, and with one less; and beside a run."""
    files, turns = dict(zip(names, sources)), least_turns(sources, given, most)
    if turns is None:
        yield ['mean', *names], files, given
        yield ['both', *names], files, given
        return
    for limit in sorted({max(turns - 1, 0), turns}):
        yield ['mean', *names, '--turns', str(limit)], files, given
    policy, traces, regs = choice
    yield ['both', *names, '--policy', policy, '--traces', traces, '--regs', regs, '--steps', '20000', '--turns', str(turns)], files, given


def meanings():
    """What the modules of the other rows mean: the worked ones, each trap, a heap that is full, too many calls, the modules of bench/rows, and made ones."""
    down = 'PROCEDURE D(n: INTEGER); BEGIN IF n > 1 THEN D(n - 1) END END D; '
    deep = module('Out.Char("a"); D(8192); Out.Char("b")', down)
    for turns in ('16384', '16383'):
        yield ['mean', 'M.Mod', '--turns', turns], {'M.Mod': deep.encode()}, b''
    yield ['mean', 'M.Mod', '--turns', '0'], {'M.Mod': module('WHILE TRUE DO END', imports='').encode()}, b''
    choices = itertools.cycle(CHOICES)
    once = set()
    for words, files, given in itertools.chain(worked(), modules(), traps()):
        names = [word for word in words if word.endswith('.Mod')]
        key = (tuple(names), tuple(sorted(files.items())), given)
        if words[0] == 'run' and key not in once:
            once.add(key)
            if all(name in files for name in names) and len(names) <= 64:
                yield from meant(names, [files[name] for name in names], given, next(choices), 2200000)
            else:
                yield ['mean', *names], files, given
                yield ['both', *names], files, given
    for words, files, given in stored():
        names = [word for word in words if word.endswith('.Mod')]
        yield from meant(names, [files[name] for name in names], given, next(choices))
    for seed in range(0, 200, 4):
        yield from meant(['M.Mod'], [trc.bulk_text(seed, 2 + seed % 5)], b'', next(choices))


def sizes():
    """Procedures of as many values as there may be and of one more, of homes on both sides of the reach of one load, and copies of each length at
    each offset: texts in short."""
    long = [(size_texts.asserts(8000), CHOICES[::6]), (size_texts.asserts(8001), CHOICES[:1]), (size_texts.swaps(1950), CHOICES[::6]),
            (size_texts.arguments(4010), CHOICES[:2]), (size_texts.arguments(4090), CHOICES[:2])]
    long += [(size_texts.homes(n), CHOICES[::6]) for n in (4095, 4096, 8000)]
    for short, choices in long:
        for policy, traces, regs in choices:
            yield ['run', 'M.Mod', '--policy', policy, '--traces', traces, '--regs', regs], {'M.Mod': Short(short.encode())}, b''
    for offset, (policy, traces, regs) in zip(range(10), itertools.cycle(CHOICES[::5])):
        text = Short(size_texts.copied(offset).encode())
        yield ['run', 'M.Mod', '--policy', policy, '--traces', traces, '--regs', regs], {'M.Mod': text}, b''
        turns = str(least_turns([text.spread()], b''))
        yield ['both', 'M.Mod', '--policy', policy, '--traces', traces, '--regs', regs, '--turns', turns], {'M.Mod': text}, b''


def images():
    """The smallest image, in each version whole, cut off at each place, and changed at each; and some that read."""
    second = built_of(['build', 'A', 'M.Mod'], {'M.Mod': b'MODULE E; END E.'})
    for whole in (first_of(second), second):
        cut = [whole[:n] for n in range(len(whole))] + [whole + b'\0']
        changed = [whole[:n] + bytes([whole[n] ^ 0x41]) + whole[n + 1:] for n in range(len(whole))]
        for data in [whole] + cut + changed:
            yield ['exec', 'A', '--steps', '1000'], {'A': data}, b'xyz'
        for steps in ('9', '8'):
            yield ['exec', 'A', '--steps', steps], {'A': whole}, b''
    places = [(0, 0, 1), (20, 1, 2), (40, 2, 3)]
    for other in ([], [(0, 0, 1), (0, 1, 2)], [(1, 0, 1), (0, 1, 2)], [(0, 0, 1), (47, 1, 2)], [(0, 0, 1), (46, 1, 2)], [(4294967295, 0, 1)], places):
        i = image.read_image(second, (1, 2), True)
        data = image.write_image(image.Image(2, i.flags, i.code, i.globals, i.constants, i.frame, other))
        yield ['exec', 'A', '--steps', '1000'], {'A': data}, b''


def stored():
    """The modules of bench/rows but those of the judgement, with one choice after another."""
    pieces = [texts for name in row_files() if not os.path.dirname(name) for _, texts in pieces_of(name)]
    for sources, (policy, traces, regs) in zip(pieces, itertools.cycle(CHOICES)):
        names = ['M%d.Mod' % i for i in range(len(sources))]
        words = ['run', *names, '--policy', policy, '--traces', traces, '--regs', regs, '--steps', '20000']
        yield words, dict(zip(names, sources)), b'some input\n'


def made():
    """Two hundred made modules of some sizes, with one choice after another."""
    for seed, (policy, traces, regs) in zip(range(200), itertools.cycle(CHOICES)):
        yield ['bulk', str(seed), str(2 + seed % 5), '--policy', policy, '--traces', traces, '--regs', regs], {}, b''


def written(data):
    signs = {10: '\\n', 9: '\\t', 92: '\\\\'}
    return ''.join(signs.get(b) or (chr(b) if 32 <= b <= 126 else '\\x%02x' % b) for b in data)


def line(words, files, given):
    short = ['spread'] if any(isinstance(data, Short) for data in files.values()) else []
    fields = [' '.join(short + words)] + ['%s=%s' % (name, written(data)) for name, data in files.items()]
    return '\t'.join(fields + (['<' + written(given)] if given else [])) + '\n'


@functools.cache
def printed(short):
    """What a run of a text in short comes to: what it means, whatever the choice, which takes the other compiler less time than an image."""
    return trc.Run(CALLED + ['mean', 'M.Mod'], {'M.Mod': short.spread()}, b'')


def called(words, files, given):
    if words[:1] == ['run'] and isinstance(files.get('M.Mod'), Short):
        return printed(files['M.Mod'])
    return trc.Run(CALLED + words, {name: data.spread() if isinstance(data, Short) else data for name, data in files.items()}, given)


def answer(words, files, given):
    """What a call prints. The other compiler has no `elf`: it is refused as `build` is, but for `--from` and `--notes`, and its bytes aren't printed."""
    asked = ['build' if words[0] == 'elf' and '--from' not in words and '--notes' not in words else words[0]] + words[1:]
    call = called([] if asked == [''] else asked, files, given)
    call.out = call.out.replace(b'run|build|traces', b'run|build|elf|traces')
    told = written((call.err + '\n').encode()) if call.err else ''
    wrote = written(call.files[words[1]]) if words[0] in ('build', 'audit', 'object', 'link') and len(words) > 1 and words[1] in call.files else ''
    if words[0] == 'build' and '--notes' in words[:-1]:
        wrote += ' ' + written(call.files.get(words[words.index('--notes') + 1], b''))
    return '%d %s | %s%s\n' % (call.status, written(bytes(call.out)), told, wrote)


def main():
    calls = [call for part in (worked, modules, commands, traps, anew, audits, objects, batches, workers, meanings, sizes, images, stored, made) for call in part()]
    with open(os.path.join(folder_of('trc_runs'), 'stdin'), 'w') as out:
        out.writelines(line(*call) for call in calls)
    put_section('vectors', ''.join(answer(*call) for call in calls))
    print(len(calls), 'calls')


main()

"""Makes crates/block_runs/proofs/Rows.antt: small modules, lowered and run by a compiler of its own, as rows that the check
computes.

    python3 bench/block_rows.py > crates/block_runs/proofs/Rows.antt

It takes blocks and outputs from the plain compiler that bench/other_compiler.py finds.
"""
import sys

from other_compiler import STAGE
import check, lower, meaning, backend, machine
from meaning import Ended, Trapped

def lst(xs): return ' '.join(['%s ∷' % x for x in xs] + ['[]']) if xs else '[]'
def nums(xs): return lst(map(str, xs))
def opt(v): return 'None' if v is None else '(Some %d)' % v
WITH = {'Const','Global','Local','Plus','Code','Arg','Set','IsPtr','IsTag','GuardPtr','GuardTag','Call','Svc'}
def code(o):
    name = {'Code':'CodeOf'}.get(o.code,o.code)
    return '(%s %d)' % (name, o.n % 2**64) if o.code in WITH else name
def op(o):
    return 'op %s (%s) %s' % (code(o), nums(o.uses), opt(o.d))
def end(e):
    if e.kind=='Jump': return '(Jump %d (%s))' % (e.to, nums(e.args))
    if e.kind=='Branch': return '(Branch %d %d %d %d %d)' % (e.cond,e.a,e.b,e.yes,e.no)
    if e.kind=='Nonzero': return '(Nonzero %d %d %d)' % (e.a,e.yes,e.no)
    if e.kind=='Return': return '(Return %s)' % opt(e.a)
    return '(Trap %d)' % e.k
def block(b):
    return 'block (%s) (%s) %s' % (nums(b.params), lst(op(o) for o in b.ops), end(b.end))
def proc(p):
    return 'procedure %s %d %d (%s)' % ('true' if p.counted else 'false', p.local_cells, p.local_bytes, lst('\n      %s' % block(b) for b in p.blocks))

rows = []
def row(name, comment, sources, input_=b'', calls=8192, cells=1048576, heap=64, local=256):
    p = check.check_sources([s.encode() for s in sources])
    low = lower.lower(p, STAGE)
    r = meaning.deep(lambda: meaning.meaning(p, input_, 10**6))
    img = backend.compile_program(p, stage=STAGE)
    m = machine.Machine(img, input_)
    h = m.run(10**6)
    if isinstance(r, Ended):
        assert h[0] == 'Ended' and bytes(m.out) == r.out, (h, m.out, r)
        out = 'Ended (%s)' % nums(r.out)
    else:
        assert h[0] == 'Trapped' and h[1] == r.kind
        out = 'Trapped (Kind %d %d) (%s)' % (r.kind, r.proc, nums(r.out))
    consts = low.layout.constants()
    rows.append((name, comment, low.procs, low.layout.globals, consts, input_, out, m.steps, calls, cells, heap, local))
    print(name, out, 'steps', m.steps, 'consts', len(consts), file=sys.stderr)

row('loops_and_numbers', 'loops, DIV and MOD, ABS, ODD, shifts, relations, numbers written with a width',
 ['MODULE M; IMPORT Out; VAR i, n: INTEGER; BEGIN i := -3; WHILE i < 4 DO n := n + ABS(i); IF ODD(i) THEN Out.Int(i DIV 2, 3) ELSE Out.Int(i MOD 3, 0) END; i := i + 1 END; Out.Int(n, 0); Out.Int(LSL(5, 3) + ASR(-16, 2) - ROR(1, 63) * 3, 4); Out.Ln END M.'])
row('sets', 'sets: constructors, ranges, membership, inclusion, the four operators',
 ['MODULE M; IMPORT Out; VAR s, t: SET; i: INTEGER; BEGIN i := 3; s := {1, i .. 5}; t := -s * {0 .. 7}; INCL(s, 9); EXCL(s, 4); FOR i := 0 TO 10 DO IF i IN s THEN Out.Int(i, 2) END END; IF {1, 3} <= s THEN Out.Char("y") END; Out.Int(ORD(s / t + (s - t)), 0) END M.'])
row('arrays_and_records', 'globals: indices, fields, a copy of an array, comparison of texts, a string',
 ['MODULE M; IMPORT Out; TYPE R = RECORD a, b: INTEGER END; VAR x, y: ARRAY 3 OF R; s, t: ARRAY 6 OF CHAR; i: INTEGER; BEGIN FOR i := 0 TO 2 DO x[i].a := i * i; x[i].b := -i END; y := x; x[1].a := 7; Out.Int(y[1].a + x[1].a * 10, 0); s := "abc"; t := "abd"; IF s < t THEN Out.String(s) END; IF s = "abc" THEN Out.Char("=") END END M.'])
row('calls', 'procedures: results, parameters by address, more than four arguments, a procedure variable, local arrays set to zero',
 ['''MODULE M; IMPORT Out; TYPE F = PROCEDURE (x: INTEGER): INTEGER; VAR f: F; n: INTEGER;
PROCEDURE Six(a, b, c, d, e, g: INTEGER): INTEGER; BEGIN RETURN a + 2*b + 3*c + 4*d + 5*e + 6*g END Six;
PROCEDURE Twice(x: INTEGER): INTEGER; BEGIN RETURN 2*x END Twice;
PROCEDURE Add(VAR x: INTEGER; y: INTEGER); VAR a: ARRAY 2 OF INTEGER; BEGIN a[1] := y; x := x + a[0] + a[1] END Add;
PROCEDURE Fact(n: INTEGER): INTEGER; VAR r: INTEGER; BEGIN IF n < 2 THEN r := 1 ELSE r := n * Fact(n - 1) END RETURN r END Fact;
BEGIN f := Twice; n := f(20); Add(n, 2); Out.Int(n, 0); Out.Int(Six(1, 1, 1, 1, 1, 2), 0); Out.Int(Fact(5), 5) END M.'''])
row('objects', 'NEW, fields through pointers, a type test and guards, on pointers and on a record passed by address',
 ['''MODULE M; IMPORT Out; TYPE P = POINTER TO B; B = RECORD x: INTEGER END; Q = POINTER TO E; E = RECORD (B) y: INTEGER END; VAR p: P; q: Q;
PROCEDURE Show(VAR b: B); BEGIN IF b IS E THEN Out.Int(b(E).y, 0) ELSE Out.Int(b.x, 0) END END Show;
BEGIN NEW(q); q.x := 4; q.y := 2; p := q; IF p IS Q THEN Out.Int(p(Q).x, 0) END; Show(p^); NEW(p); p.x := 9; Show(p^); IF ~(p IS Q) THEN Out.Char("n") END; q := p(Q) END M.'''])
row('input', 'bytes of the input, and its end', ['MODULE K; IMPORT In, Out; VAR c: CHAR; BEGIN In.Char(c); WHILE In.Done DO Out.Char(c); In.Char(c) END END K.'], b'ab')
row('two_bodies', "two modules' bodies, one after the other; a call across modules",
 ['MODULE A; IMPORT Out; PROCEDURE Twice*(x: INTEGER): INTEGER; BEGIN RETURN 2*x END Twice; BEGIN Out.Char("A") END A.', 'MODULE B; IMPORT A, Out; BEGIN Out.Int(A.Twice(21), 0); Out.Ln END B.'])
row('trap_in_a_procedure', 'a trap carries the number of the procedure that runs', ['MODULE M; IMPORT Out; VAR a: ARRAY 3 OF INTEGER; PROCEDURE At(i: INTEGER): INTEGER; RETURN a[i] END At; BEGIN Out.Char("a"); Out.Int(At(3), 0) END M.'])
row('trap_of_a_call', 'trap 9 carries the number of the procedure that is called', ['MODULE M; IMPORT Out; PROCEDURE P; VAR a: ARRAY 1048576 OF INTEGER; BEGIN a[0] := 1 END P; PROCEDURE Q; VAR b: INTEGER; PROCEDURE R(VAR x: INTEGER); VAR a: ARRAY 1048576 OF INTEGER; BEGIN x := a[0] END R; BEGIN R(b); Out.Int(b, 0) END Q; BEGIN Out.Char("a"); Q END M.'])
row('division_by_zero', 'DIV by a number that is not positive', ['MODULE M; IMPORT Out; VAR n: INTEGER; BEGIN Out.Int(7 DIV n, 0) END M.'])
row('cases', 'CASE with labels, ranges and types, and a CASE without a match', ['''MODULE M; IMPORT Out; TYPE P = POINTER TO B; B = RECORD x: INTEGER END; Q = POINTER TO E; E = RECORD (B) y: INTEGER END; VAR p: P; q: Q; i: INTEGER;
BEGIN NEW(q); p := q; CASE p OF Q: Out.Char("q") | P: Out.Char("p") END; FOR i := 0 TO 9 DO CASE i OF 0: Out.Char("0") | 2 .. 4, 7: Out.Char("r") | 1, 5, 6: Out.Char("o") END END END M.'''])

print('''-- Small programs that run to what they mean: blocks, operations and expected output come from a compiler of its own for
-- the language, which was held against a meaning of the language and against its own machine.
use Rattle.std.proofs.Common.{◌≡◌, ℕ, ◌+◌, ◌*◌, Bool, true, false, List, [], ◌∷◌, ◌++◌, replicate, Option, Some, None, refl}
use Rattle.std.specs.Fmt.{digits}
use Rattle.run_laws.specs.Runs.{Outcome, Ended, Trapped, run}
use Rattle.block_runs.specs.declared.code.Code.{Code}
use Rattle.block_runs.specs.declared.code.Code.TheVariants.{Const, Global, Local, Plus, Arg, Load, Store, LoadByte, StoreByte, Add, Sub, And, Or, Eor, Bic, Lsl, Asr, Ror, Mul, MulAdd, Neg, Not, Abs, Max0, Odd, Set, Flip, Bit, Span, Has, Div, Mod, Below, Fits, Byte, Elem, NotNil, True, IsPtr, IsTag, GuardPtr, GuardTag, New, Call, CallAt, Copy, Zero, Compare, Svc}
use Rattle.block_runs.specs.declared.code.Code.TheVariants.{Code as CodeOf}
use Rattle.block_runs.specs.declared.end.End.{End}
use Rattle.block_runs.specs.declared.end.End.TheVariants.{Jump, Branch, Nonzero, Return, Trap}
use Rattle.block_runs.specs.Blocks.{Operation, CodeBlock, Procedure}
use Rattle.block_runs.specs.States.{World, State, Starts, Stop, Kind}
use Rattle.a64_memory.specs.Areas.{data_base, local_base, heap_base, zeroed}
use Rattle.block_runs.specs.Steps.{block_system}

abbrev op : Code → List ℕ → Option ℕ → Operation
op code uses def = record { code = code; uses = uses; def = def }

abbrev block : List ℕ → List Operation → End → CodeBlock
block params ops end = record { params = params; ops = ops; end = end }

abbrev procedure : Bool → ℕ → ℕ → List CodeBlock → Procedure
procedure counted cells bytes blocks = record { blocks = blocks; counted = counted; cells = cells; bytes = bytes }

-- a world with less memory than the first one has, so that it can be written out
abbrev small_world : (globals : ℕ) (constants input : List ℕ) (calls cells local heap : ℕ) → World
small_world globals constants input calls cells local heap = record {
  memory = record { base = data_base; bytes = replicate globals 0 ++ constants } ∷ zeroed local_base local ∷ zeroed heap_base (8 * heap) ∷ [];
  body = 0;
  calls = calls;
  cells = cells;
  local = local_base;
  next = heap_base;
  free = heap;
  input = input;
}

-- at most so many steps, where the code of procedure p lies at 65536 + 4 * p
abbrev runs : ℕ → List Procedure → World → Outcome Stop
runs steps procedures world = run (block_system procedures (λ p. 65536 + 4 * p)).step steps (Starts world) []
''')
for (name, comment, procs, globs, consts, inp, out, steps, calls, cells, heap, local) in rows:
    print('-- %s' % comment)
    print('abbrev %s_code : List Procedure' % name)
    print('%s_code =' % name)
    for p in procs: print('    %s\n    ∷' % proc(p))
    print('    []\n')
    print('pub %s : runs %d %s_code (small_world %d (%s) (%s) %d %d %d %d) ≡ %s' % (name, steps, name, globs, nums(consts), nums(inp), calls, cells, local, heap, out))
    print('unfolding digits')
    print('%s = refl\n' % name)

"""Makes crates/audit_rows/proofs/Rows.antt: results for small modules, as they are made and with a number or two of their notes changed, each
with what an independent audit says of them; and notes of the smallest module, with what an independent reader says.

    python3 bench/audit_rows.py > crates/audit_rows/proofs/Rows.antt        (then rt fmt in the crate)

Operations other than calls stand as Add: no audit reads them. It takes all from the plain compiler that bench/other_compiler.py finds.
"""
import os
import random

import other_compiler
import backend
import notes
import trc

MODULES = {
    'empty': b'MODULE E; END E.',
    'loop': b'MODULE L; IMPORT Out; VAR i: INTEGER; BEGIN i := 0; REPEAT i := i + 1; IF i = 2 THEN Out.Int(i, 0) ELSIF i > 3 THEN Out.Int(i * i, 3) END UNTIL i = 5; '
            b'Out.Ln END L.',
    'calls': b'MODULE P; TYPE F = PROCEDURE (x: INTEGER): INTEGER; VAR r: INTEGER; f: F; PROCEDURE s(a, b, c, d, e, g: INTEGER): INTEGER; VAR t: INTEGER; '
             b'BEGIN t := a + b * c; WHILE t < d DO t := t + e * g END; RETURN t - a END s; PROCEDURE q(x: INTEGER): INTEGER; RETURN x + x END q; '
             b'BEGIN f := q; r := s(1, 2, 3, f(4), 5, 6) END P.',
    'gcd': open(os.path.join(other_compiler.TOP, 'examples', 'Gcd.Mod'), 'rb').read(),
}
BASES = [('empty', 'plain', 16), ('loop', 'linear', 4), ('loop', 'bottomup', 6), ('loop', 'plain', 4), ('calls', 'linear', 4), ('calls', 'bottomup', 4), ('calls', 'plain', 6),
         ('gcd', 'linear', 6)]
EACH = 2                        # rows of one reason
TRIES = 20000


def row(xs):
    return '(' + ' '.join(['%s ∷' % x for x in xs] + ['[]']) + ')'


def option(v):
    return 'None' if v is None else '(Some %d)' % v


def code(o):
    if o.code in ('Call', 'Svc'):
        return '(%s %d)' % (o.code, o.n or 0)
    return o.code if o.call else 'Add'


def end(e):
    return {'Jump': lambda: '(Jump %d %s)' % (e.to, row(e.args)), 'Branch': lambda: '(Branch %d %d %d %d %d)' % (e.cond, e.a, e.b, e.yes, e.no),
            'Nonzero': lambda: '(Nonzero %d %d %d)' % (e.a, e.yes, e.no), 'Return': lambda: '(Return %s)' % option(e.a), 'Trap': lambda: '(Trap %d)' % e.k}[e.kind]()


def lir(o):
    return '(lir %s %s %s %s)' % (code(o), row(o.uses), option(o.d), 'true' if o.call else 'false')


def node(b):
    return '(node %s %s %s)' % (row(b.params), row(lir(o) for o in b.ops), end(b.end))


def flow(f):
    return '(flow %d %s)' % (f.values, row(node(b) for b in f.blocks))


def place(p):
    return '(%s %d)' % p


def line(l):
    kind = l[0]
    if kind == 'Lir':
        return '(Does %d)' % l[1]
    if kind in ('Store', 'Load'):
        return '(%s %d %d)' % l
    if kind == 'Moves':
        return '(Moves %s)' % row('move %s %s' % (place(to), place(source)) for to, source in l[1])
    return '(Takes %d)' % l[1] if kind == 'Result' else '(Target %s)' % place(l[1])


def places(p):
    homed = p.order if getattr(p, 'order', None) is not None else sorted(p.homed)
    return '(places %s %s)' % (row(option(v) for v in p.regs), row(homed))


def result(o):
    return 'result %d %s %s %s %s' % (o.number, row(places(p) for p in o.starts), row(places(p) for p in o.ends), row(row(line(l) for l in ls) for ls in o.lines), row(row(r) for r in o.regs))


def words_of(data):
    return [int.from_bytes(data[i:i + 4], 'little') for i in range(8, len(data), 4)]


def bytes_of(words):
    return b'TRC64NOT' + b''.join(w.to_bytes(4, 'little') for w in words)


def said(plan, regs, outs):
    """What the audit says of results, as a term, and its reason."""
    bad = notes.audit(plan, regs, outs)
    if bad is None:
        return 'Sound', 'sound all the same'
    reason = ' '.join(w for w in bad[3].split() if not any(c.isdigit() for c in w))
    return 'Unsound %d %d %d' % bad[:3], reason.split(" in ('Reg',")[0].replace("('Reg', is empty", 'empty')


print('''-- What the audit says of results, as an independent audit has it, and what is read in notes. The numbers behind an equation's name are the
-- places of the notes' bytes that it changes, and what stands there.
use Rattle.std.proofs.Common.{◌≡◌, ℕ, Bool, true, false, List, [], ◌∷◌, ◌++◌, Option, Some, None, Ok, Err, length, refl}
use Rattle.std.specs.Prelude.{slice_set, take}
use Rattle.block_runs.specs.declared.code.Code.{Code}
use Rattle.block_runs.specs.declared.code.Code.TheVariants.{Add, Call, CallAt, Svc}
use Rattle.block_runs.specs.declared.end.End.{End}
use Rattle.block_runs.specs.declared.end.End.TheVariants.{Jump, Branch, Nonzero, Return, Trap}
use Rattle.lir_core.specs.declared.flow.Lir.{Lir}
use Rattle.lir_core.specs.declared.flow.Node.{Node}
use Rattle.lir_core.specs.declared.flow.Flow.{Flow}
use Rattle.lir_core.specs.declared.flow.Trace.{Trace}
use Rattle.lir_core.specs.declared.places.Place.{Place}
use Rattle.lir_core.specs.declared.places.Place.TheVariants.{Reg, Home, Out}
use Rattle.lir_core.specs.declared.places.Move.{Move}
use Rattle.lir_core.specs.declared.places.Places.{Places}
use Rattle.lir_core.specs.declared.places.Line.{Line}
use Rattle.lir_core.specs.declared.places.Line.TheVariants.{Store, Load, Moves, Target}
use Rattle.lir_core.specs.declared.places.Line.TheVariants.{Lir as Does, Result as Takes}
use Rattle.lir_core.specs.declared.places.TraceOut.{TraceOut}
use Rattle.alloc_audit.specs.declared.verdict.Verdict.TheVariants.{Sound, Unsound}
use Rattle.plain_form.specs.Spelling.{number}
use Rattle.plain_form.specs.Reading.{number_at, up_to_at, list_at, mark_at, whole_of}
use Rattle.plain_form.specs.results.Reading.{held_at, places_at, place_at, move_at, stored_at, line_at, result_at}
use Rattle.trace_notes.specs.Notes.{notes}
use Rattle.audit_rows.specs.Answers.{Planned, verdict, bytes_of, read}

abbrev lir : Code → List ℕ → Option ℕ → Bool → Lir
lir code uses def call = record { template = code; uses = uses; def = def; call = call }

abbrev node : List ℕ → List Lir → End → Node
node params lirs end = record { params = params; lirs = lirs; end = end; freq = 0; preds = []; enter = None }

abbrev flow : ℕ → List Node → Flow
flow values nodes = record { nodes = nodes; values = values; args = 0; counted = true; local_cells = 0; local_bytes = 0 }

abbrev trace : List ℕ → Trace
trace nodes = record { nodes = nodes }

abbrev move : Place → Place → Move
move to from = record { to = to; from = from }

abbrev places : List (Option ℕ) → List ℕ → Places
places regs homed = record { regs = regs; homed = homed }

abbrev result : ℕ → List Places → List Places → List (List Line) → List (List ℕ) → TraceOut
result number starts ends lines regs = record { trace = number; starts = starts; ends = ends; lines = lines; regs = regs }
''')
plans = {}
for name, text in MODULES.items():
    plan = plans[name] = trc.make_plan([name], [text], 'bi', other_compiler.STAGE)
    print('abbrev %s : Planned' % name)
    print('%s = record { flows = %s; live = %s; cuts = %s }\n' % (name, row(flow(f) for f in plan.flows), row(row(row(sorted(s)) for s in live) for live in plan.lives),
                                                             row(row('trace %s' % row(t) for t in cut) for cut in plan.cuts)))
made = []
for name, policy, regs in BASES:
    data = notes.write_notes([o for outs in backend.results(plans[name], policy, regs) for o in outs])
    base = '%s_%s_%d' % (name, policy, regs)
    made.append((base, name, regs, words_of(data)))
    outs = notes.read_notes(data)
    print('abbrev %s : List TraceOut\n%s = %s\n' % (base, base, row(result(o) for o in outs)))
    print('pub %s_passes : verdict %d %s %s ≡ %s\n%s_passes = refl\n' % (base, regs, name, base, said(plans[name], regs, outs)[0], base))


def equation(made, changes):
    """An equation with these changes of its notes, and the reason; none where they aren't read."""
    base, name, regs, words = made
    changed = list(words)
    for at, value in changes:
        changed[at] = value
    try:
        outs = notes.read_notes(bytes_of(changed))
    except notes.NoteFault:
        return None
    was = notes.read_notes(bytes_of(words))
    if len(was) != len(outs):
        return None
    term = base
    for t, (old, new) in enumerate(zip(was, outs)):
        if result(old) != result(new):
            term = '(slice_set %s %d (%s))' % (term, t, result(new))
    verdict, reason = said(plans[name], regs, outs)
    label = base + ''.join('-%d' % (8 + 4 * at) for at, value in changes) + '-to' + ''.join('-%d' % value for at, value in changes)
    return reason, 'pub %s : verdict %d %s %s ≡ %s\n%s = refl\n' % (label, regs, name, term, verdict, label)


rows = [('missing', 'pub none : verdict 16 empty [] ≡ Unsound 0 0 0\nnone = refl\n'),
        ('past the last trace', 'pub two : verdict 16 empty (empty_plain_16 ++ empty_plain_16) ≡ Unsound 1 0 0\ntwo = refl\n'),
        equation(made[0], [(4, 1)])]                                            # byte 24
rows += [equation(made[-1], [change]) for change in ((268, 5), (268, 9), (271, 2))]
kinds, seen = {}, set()
r = random.Random(7)
for _ in range(TRIES):
    one = r.choice(made)
    changes = []
    for _ in range(r.choice((1, 1, 1, 2))):
        at = r.randrange(len(one[3]))
        changes.append((at, r.choice((one[3][at] + 1, max(one[3][at] - 1, 0), r.randrange(8), 0))))
    if any(one[3][at] == value for at, value in changes) or len({at for at, _ in changes}) < len(changes):
        continue
    found = equation(one, changes)
    if found is None or found in seen or kinds.get(found[0], 0) >= EACH:
        continue
    seen.add(found)
    kinds[found[0]] = kinds.get(found[0], 0) + 1
    rows.append(found)
for reason, text in rows:
    print('-- %s\n%s' % (reason, text))

base, name, regs, words = made[0]
data = bytes_of(words)
assert len(data) == 184
UNFOLD = 'unfolding number number_at up_to_at held_at list_at places_at place_at move_at stored_at line_at result_at mark_at whole_of\n'
print('---- Notes\n\nabbrev small : List ℕ\nsmall = %s\n' % row(words))
print('pub spelled : notes empty_plain_16 ≡ bytes_of small\nunfolding number\nspelled = refl\n')
print('pub counted : length (notes empty_plain_16) ≡ 184\nunfolding number\ncounted = refl\n')


def reading(label, term, data):
    try:
        outs = notes.read_notes(data)
        told = 'Ok %s' % row(result(o) for o in outs)
    except notes.NoteFault as fault:
        told = 'Err (%d, %d)' % (fault.number, fault.at)
    print('pub %s : read %s ≡ %s\n%s%s = refl\n' % (label, term, told, UNFOLD, label))


def changed(at, value):
    return bytes_of([value if i == at else w for i, w in enumerate(words)])


reading('read-back', '(bytes_of small)', data)
reading('read-24-to-1', '(bytes_of (slice_set small 4 1))', changed(4, 1))
for n in (0, 7, 8, 183):
    reading('read-first-%d' % n, '(take %d (bytes_of small))' % n, data[:n])
reading('read-0-to-85', '(slice_set (bytes_of small) 0 85)', b'U' + data[1:])
reading('read-one-more', '(bytes_of small ++ 0 ∷ [])', data + bytes(1))
LINE = [1, 0, 0, 0, 1, 1]                                                     # a result with one list of one line
TAILS = [('kind', [6]), ('register', [4, 16]), ('place', [5, 3]), ('store', [1, 15, 7, 0]), ('moves', [3, 1, 0, 15, 1, 4294967295, 0]), ('target', [5, 2, 9, 0])]
for label, end in TAILS:
    reading('read-line-' + label, '(bytes_of %s)' % row(LINE + end), bytes_of(LINE + end))

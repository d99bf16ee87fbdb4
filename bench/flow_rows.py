"""Makes crates/a64_select/proofs/Rows.antt: procedures and their flows, as another compiler for the language gives them.

    python3 bench/flow_rows.py > crates/a64_select/proofs/Rows.antt

It takes them from the plain compiler that bench/other_compiler.py finds.
"""
from other_compiler import STAGE
import backend
import check
import lower
import ssa
from ssa import Block, End, Op, Proc

NUMBERED = {'Const', 'Global', 'Local', 'Plus', 'Code', 'Arg', 'Set', 'IsPtr', 'IsTag', 'GuardPtr', 'GuardTag', 'Call', 'Svc'}


def row(xs):
    return '(' + ' '.join(['%s ∷' % x for x in xs] + ['[]']) + ')'


def option(v):
    return 'None' if v is None else '(Some %d)' % v


def code(o):
    return '(%s %d)' % (o.code, o.n) if o.code in NUMBERED else o.code


def end(e):
    return {'Jump': lambda: '(Jump %d %s)' % (e.to, row(e.args)), 'Branch': lambda: '(Branch %d %d %d %d %d)' % (e.cond, e.a, e.b, e.yes, e.no),
            'Nonzero': lambda: '(Nonzero %d %d %d)' % (e.a, e.yes, e.no), 'Return': lambda: '(Return %s)' % option(e.a), 'Trap': lambda: '(Trap %d)' % e.k}[e.kind]()


def made(name, comment, proc):
    flow = backend.select(proc)
    print('-- %s' % comment)
    print('abbrev %s_proc : Proc' % name)
    print('%s_proc = proc %d (' % (name, proc.values))
    for b in proc.blocks:
        print('    block %s %s %s %d %s ∷' % (row(b.params), row('op %s %s %s' % (code(o), row(o.uses), option(o.d)) for o in b.ops), end(b.end), b.freq, option(b.enter)))
    print('    [])\n')
    print('pub %s : selected %s_proc ≡ flow %d (' % (name, name, flow.values))
    for b in flow.blocks:
        print('    node %s %s %s %d %s %s ∷' % (row(b.params), row('lir %s %s %s %s' % (code(o), row(o.uses), option(o.d), 'true' if o.call else 'false') for o in b.ops), end(b.end), b.freq, row(b.preds), option(b.enter)))
    print('    [])')
    print('%s = refl\n' % name)


def graph(ends, freqs):
    blocks = [Block([], [], e, f) for e, f in zip(ends, freqs)]
    blocks[0].ops = [Op('Const', 1, [], 0)]
    proc = Proc(blocks, 1, 0, False, 0, 0)
    assert ssa.is_valid(proc)
    return proc


print('''-- Procedures and their flows, as another compiler for the language gives them.
use Rattle.std.proofs.Common.{◌≡◌, ℕ, Bool, true, false, List, [], ◌∷◌, Option, Some, None, refl}
use Rattle.block_runs.specs.declared.code.Code.{Code}
use Rattle.block_runs.specs.declared.code.Code.TheVariants.{Const, Global, Load, Store, Add, Svc}
use Rattle.block_runs.specs.declared.end.End.{End}
use Rattle.block_runs.specs.declared.end.End.TheVariants.{Jump, Branch, Nonzero, Return, Trap}
use Rattle.ssa_core.specs.declared.procedure.Op.{Op}
use Rattle.ssa_core.specs.declared.procedure.Block.{Block}
use Rattle.ssa_core.specs.declared.procedure.Proc.{Proc}
use Rattle.lir_core.specs.declared.flow.Lir.{Lir}
use Rattle.lir_core.specs.declared.flow.Node.{Node}
use Rattle.lir_core.specs.declared.flow.Flow.{Flow}
use Rattle.a64_select.specs.Selected.{selected}

abbrev op : Code → List ℕ → Option ℕ → Op
op code uses def = record { code = code; uses = uses; def = def }

abbrev block : List ℕ → List Op → End → ℕ → Option ℕ → Block
block params ops end freq enter = record { params = params; ops = ops; end = end; freq = freq; enter = enter }

abbrev proc : ℕ → List Block → Proc
proc values blocks = record { blocks = blocks; values = values; args = 0; counted = false; local_cells = 0; local_bytes = 0 }

abbrev lir : Code → List ℕ → Option ℕ → Bool → Lir
lir code uses def call = record { template = code; uses = uses; def = def; call = call }

abbrev node : List ℕ → List Lir → End → ℕ → List ℕ → Option ℕ → Node
node params lirs end freq preds enter = record { params = params; lirs = lirs; end = end; freq = freq; preds = preds; enter = enter }

abbrev flow : ℕ → List Node → Flow
flow values nodes = record { nodes = nodes; values = values; args = 0; counted = false; local_cells = 0; local_bytes = 0 }
''')


def branch(yes, no):
    return End('Branch', cond=0, a=0, b=0, yes=yes, no=no)


def nonzero(yes, no):
    return End('Nonzero', a=0, yes=yes, no=no)


def jump(to):
    return End('Jump', to=to)


text = b'MODULE T; IMPORT Out; VAR i: INTEGER; BEGIN i := 0; WHILE i < 9 DO IF i = 3 THEN Out.Char("x") END; i := i + 1 END END T.'
made('loop_with_if', 'a loop with an IF: no edge is critical', lower.lower(check.check_sources([text]), STAGE).procs[0])
made('equal_targets', 'a test whose targets are one block, to which nothing else leads: no edge is split', graph([branch(1, 1), End('Return')], [8, 4]))
made('equal_targets_of_a_join', 'a test whose targets are one block, to which another leads too: each edge gets a node', graph([nonzero(1, 2), branch(2, 2), End('Return')], [16, 4, 8]))
made('two_back_edges', "a loop's header with two back edges, one of them from a test", graph([jump(1), branch(2, 4), nonzero(1, 3), jump(1), End('Return')], [1, 8, 4, 2, 1]))

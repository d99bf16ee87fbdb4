#!/usr/bin/env python3
"""Makes the input of crates/policy_vectors and the answers that are wanted, by another compiler.

    bench/policy_vectors.py [FOLDER]

Writes `stdin` and `stdout` into FOLDER (that crate's, if none is given); bench/other_compiler.py says where the other
compiler is. A line of the input is a policy (and `alone` where no trace has a hint), a number of registers and a flow as in
bench/flow_vectors.py, but that a call begins with `call` in place of `op`, or with `aim` where its first use is the address
that is called. The answer has four lines for each node of each trace: its start places (what each register has, then the
homed values), its lines, the registers named, and its end places.
"""
import os

from other_compiler import STAGE, folder_of, line_of
import backend  # noqa: E402
import ssa  # noqa: E402
import trc  # noqa: E402

NEST = '''MODULE N; IMPORT Out; PROCEDURE P(n: INTEGER): INTEGER; VAR i, j, k, s: INTEGER; BEGIN s := 0; i := 0;
WHILE i < n DO j := 0; WHILE j < i DO k := j; REPEAT s := s + k; k := k + 1 UNTIL k > i; j := j + 1 END;
FOR k := 0 TO 3 DO IF k = i THEN s := s - 1 ELSIF k > i THEN s := s + 2 ELSE s := s * 2 END END; i := i + 1 END
RETURN s END P; BEGIN Out.Int(P(5), 0) END N.'''
MANY = '''MODULE A; IMPORT Out; TYPE F = PROCEDURE (a, b, c, d, e, g: INTEGER): INTEGER; VAR h: F;
PROCEDURE S(a, b, c, d, e, g: INTEGER): INTEGER; BEGIN RETURN a + b * (c + d * (e + g * (a - b))) END S;
PROCEDURE T(x, y: INTEGER; f: F): INTEGER; VAR i, r, u: INTEGER; BEGIN r := 0; u := y;
FOR i := 0 TO x DO r := r + f(i, r, x, y, u, i * r) * u; IF r > 100 THEN u := S(r, i, u, y, x, 7) - u END END
RETURN r + u END T; BEGIN h := S; Out.Int(T(3, 4, h), 0); Out.Ln END A.'''
FIVE = '''MODULE F; IMPORT Out; PROCEDURE P(a, b, c, d, e: INTEGER): INTEGER; BEGIN RETURN ((a + b) * (c + d)) * e END P;
BEGIN Out.Int(P(1, 2, 3, 4, 5), 0) END F.'''


def operation_of(o):
    return [('aim' if o.code == 'CallAt' else 'call') if o.call else 'op', '-' if o.d is None else o.d] + o.uses


def place(p):
    return {'Reg': 'x', 'Home': 'h', 'Out': 'o'}[p[0]] + str(p[1])


def places(q):
    return ['-' if v is None else v for v in q.regs] + ['home'] + sorted(q.homed)


def words_of(line):
    """A line's words."""
    if line[0] == 'Lir':
        return ['do', line[1]]
    if line[0] == 'Result':
        return ['result', 'x%d' % line[1]]
    if line[0] in ('Store', 'Load'):
        return [line[0].lower(), 'x%d' % line[1], line[2]]
    if line[0] == 'Target':
        return ['aim', place(line[1])]
    return ['moves'] + [place(p) for move in line[1] for p in move]


def answer_of(outs):
    """The lines that are wanted of results."""
    lines = []
    for out in outs:
        for start, code, named, end in zip(out.starts, out.lines, out.regs, out.ends):
            rows = (['start'] + places(start), ['lines'] + [w for line in code for w in words_of(line)],
                    ['regs'] + named, ['end'] + places(end))
            lines += [' '.join(map(str, row)) for row in rows]
    return lines


def results_alone(policy, flow, live, traces, regs):
    """The results of a flow's traces without hints."""
    return [backend.allocate(backend.policy_of(policy, flow, trace), backend.TraceIn(flow, live, trace, regs), None)
            for trace in traces]


def main():
    folder = folder_of('policy_vectors')
    texts = [NEST.encode(), MANY.encode(), FIVE.encode(), trc.bulk_text(7, 6)]
    lines, answers = [], []
    for text in texts:
        for flow in trc.make_plan(['M'], [text], 'bi', STAGE).flows:
            live, traces = ssa.live(flow), backend.build('bi', flow)
            for regs in (4, 5, 8, 16):
                for policy in ('plain', 'linear', 'bottom_up', 'mixed'):
                    lines.append(line_of([policy, regs, 'flow', flow.values, flow.args], flow, operation_of))
                    answers += answer_of(backend.final_results(policy, flow, live, traces, regs))
                lines.append(line_of(['linear', 'alone', regs, 'flow', flow.values, flow.args], flow, operation_of))
                answers += answer_of(results_alone('linear', flow, live, traces, regs))
    for name, rows in (('stdin', lines), ('stdout', answers)):
        with open(os.path.join(folder, name), 'w') as file:
            file.write('\n'.join(rows) + '\n')
    print(len(lines), 'cases')


main()

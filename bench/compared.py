"""The table that `compare` tells, made of the figures of the other compiler.

Moves are the steps on edges; stores are the lines and steps that write a home, loads those that read one, a call's arguments and
target among them.
"""
from other_compiler import STAGE
import backend  # noqa: E402
import check  # noqa: E402
from lower import Limit  # noqa: E402
from machine import Machine  # noqa: E402

POLICIES = ['plain', 'linear', 'bottomup', 'mixed']
CHOICES = ([(policy, 'bi', 16) for policy in POLICIES] + [(policy, 'uni', 16) for policy in POLICIES]
           + [(policy, 'bi', 8) for policy in POLICIES[1:]] + [(policy, 'bi', 4) for policy in POLICIES[1:]])
WIDTHS = [6, 6, 6, 6, 6, 5, 16]
NAMES = ['words', 'traces', 'moves', 'stores', 'loads', 'frame', 'steps']


def is_home(place):
    return place[0] == 'Home'


def of_step(step):
    """Whether a step on an edge stores, and whether it loads."""
    if step[0] == 'Copy':
        return is_home(step[1]), is_home(step[2])
    return (False, is_home(step[1])) if step[0] == 'Save' else (is_home(step[1]), False)


def of_line(line):
    """Whether a line stores, and how many loads it has."""
    if line[0] == 'Moves':
        return False, sum(is_home(source) for _, source in line[1])
    return line[0] == 'Store', line[0] == 'Load' or line[0] == 'Target' and is_home(line[1])


def counted(parts):
    """The moves, stores and loads of a procedure's lines in code order."""
    moves = stores = loads = 0
    for part in parts:
        if part[0] in ('Edge', 'Body'):
            stored, loaded = of_step(part[1]) if part[0] == 'Edge' else of_line(part[2])
            moves += part[0] == 'Edge'
            stores += stored
            loads += loaded
    return moves, stores, loads


def row(choice, cells, end):
    numbers = ' '.join(str(cell).rjust(width) for cell, width in zip(cells, WIDTHS))
    return '%-8s %-7s %4s %s %s\n' % (*choice, numbers, end)


def made_row(choice, plan, given, steps):
    """The row of a choice that passes no limit."""
    policy, _, regs = choice
    results = backend.results(plan, policy, regs)
    image = backend.place(plan, results, STAGE)
    counts = [counted(backend.resolve(*parts)) for parts in zip(plan.flows, plan.cuts, results)]
    machine = Machine(image, given)
    halt = machine.run(steps)
    end = 'trapped-%d' % halt[1] if halt[0] == 'Trapped' else halt[0].lower()
    traces = sum(len(cut) for cut in plan.cuts)
    return row(choice, [len(image.code), traces, *map(sum, zip(*counts)), image.frame, machine.steps], end)


def table(sources, given, steps):
    """The table of some modules' texts, on an input and with so many steps."""
    program = check.check_sources(sources)
    plans = {builder: backend.plan(program, builder, STAGE) for builder in ('bi', 'uni')}
    text = row(('policy', 'builder', 'regs'), NAMES, 'end')
    for choice in CHOICES:
        try:
            text += made_row(choice, plans[choice[1]], given if program.imports_in else b'', steps)
        except Limit as limit:
            text += row(choice, '-' * len(NAMES), 'limit-%d' % limit.args[0])
    return text

#!/usr/bin/env python3
"""Makes the random programs of crates/machine_vectors, and what they come to by another machine.

    bench/machine_programs.py [FILE]

Each program has 32 words of the A64 table, from all its rows, with branches within the program, loads and stores in
each region, services and traps; a few words are in no row. Each is run for at most 2,000 steps. bench/other_compiler.py
says where the other machine is.
"""
import os
import random
import sys

from other_compiler import TOP
import a64  # noqa: E402
from image import Image  # noqa: E402
from machine import Machine  # noqa: E402

WORDS, STEPS, INPUT, CONSTANTS = 32, 2000, b'Z!', b'text\0\0\0\0' + bytes(8)
random.seed(20261127)
pick = random.choice

# X9 to X12 hold addresses of the program's words, X19 and X21 those of local data and heap, X24 that of the constants.
POINTERS = [9, 10, 11, 12]
BASES = [19, 21, 24, 31, 19, 21]
LOW = [0, 1, 2, 3, 4, 5, 6, 7]


def beginning():
    out = []
    for p in POINTERS:
        out.append(a64.movz(p, 1, 1))
        out.append(a64.addi(p, p, 4 * random.randrange(10, WORDS)))
    return out + [a64.subi(31, 31, 1, True), a64.movz(1, 0)]


def field(row, name, at):
    """A value for a field of a row at word `at`."""
    if name in ('imm26', 'imm19'):
        far = random.randrange(0, WORDS + 1) if random.random() < 0.97 else WORDS + 3
        return (far - at) % (1 << a64.FIELDS[name][1])
    if name == 'type':
        return random.randrange(3)
    if name in ('cond', 'bcond'):
        return random.randrange(15)
    if name == 'imm12' and row in ('LDR', 'STR', 'LDRB', 'STRB'):
        return pick([0, 0, 1, 2, 3, 8, random.randrange(1 << 12)])
    if name == 'Rn' and row in ('BR', 'BLR', 'RET'):
        return pick(POINTERS + [30])
    if name == 'Rn' and row[:2] in ('LD', 'ST'):
        return pick(BASES) if random.random() < 0.95 else pick(LOW)
    if name == 'Rd' and row in ('ADDI', 'SUBI'):
        return pick(LOW)
    if name in ('Rd', 'Rt', 'Rm', 'Rn', 'Ra'):
        return pick(LOW) if random.random() < 0.93 else 31
    return random.randrange(1 << a64.FIELDS[name][1])


def word(at):
    chance = random.random()
    if chance < 0.18:
        return a64.svc(pick([2, 2, 2, 2, 2, 1, 4, 3]))
    if chance < 0.21:
        return pick([a64.svc(0), a64.svc(0), a64.brk(random.randrange(1, 12)), a64.svc(9), random.randrange(1 << 32)])
    if chance < 0.24:
        return a64.addi(0, 24, 0)
    if chance < 0.27:
        return a64.movz(2, 1, 0)
    row = pick([r for r in a64.ROWS if r not in ('SVC', 'BRK')])
    return a64.w(row, **{name: field(row, name, at) for name in a64.ROWS[row][1]})


def program():
    words = beginning()
    while len(words) < WORDS:
        words.append(word(len(words)))
    return words


def told(halt):
    name = halt[0]
    return name if len(halt) == 1 else '%s(%d)' % (name, halt[1])


def main():
    file = sys.argv[1] if len(sys.argv) > 1 else os.path.join(TOP, 'crates', 'machine_vectors', 'data', 'a64-programs.txt')
    lines, kinds = [], {}
    while len(lines) < 300:
        words = program()
        m = Machine(Image(code=words, globals=8, constants=CONSTANTS, frame=16), INPUT)
        halt = m.run(STEPS)
        kind = halt[0]
        if len(m.out) > 160 or m.steps < 12 or kinds.get(kind, 0) >= 80:
            continue
        kinds[kind] = kinds.get(kind, 0) + 1
        lines.append('%s -> %s %s' % (' '.join('%08x' % w for w in words), told(halt), bytes(m.out).hex()))
    with open(file, 'w') as out:
        out.write('# Programs of words of the A64 table, and what they come to by another machine (bench/machine_programs.py):\n')
        out.write('# WORDS -> HALT OUTPUT. Frames of 16 bytes, 8 bytes of globals, the constants "text" and 12 zeros, the\n')
        out.write('# input "Z!", at most 2,000 steps; the output in hexadecimal digits.\n')
        out.write('\n'.join(lines) + '\n')
    print(kinds)


main()

#!/usr/bin/env python3
"""Makes the input of crates/elf_vectors: images, and the native programs that are wanted of them, by another program.

    bench/elf_rows.py [FOLDER]
    bench/elf_rows.py elf OUT FILE.Mod {FILE.Mod}

Writes `stdin` and `stdout` into FOLDER (that crate's, if none is given): some examples, and what these write on the machine, by linear scan with 16 registers and
plainly with 4, and a made image with each row of the table, SP wherever it may stand, calls of services and traps, and words
that aren't in the table. `elf` writes the native program of modules. bench/other_compiler.py says where the other compiler
is; bench/rows/native_runtime.txt has the runtime in assembly. How lines are written is said in crates/elf_vectors.
"""
import os
import re
import struct
import sys

from other_compiler import CALLED, TOP, folder_of
import a64  # noqa: E402
import image  # noqa: E402
import machine  # noqa: E402
import trc  # noqa: E402

INPUT = b'one two\nthree\n'
EXAMPLES = [['Answer'], ['Count'], ['Range'], ['Stack', 'UseStack']]
SP_IN_BOTH = ('ADDI', 'SUBI')
SP_AT_RN = SP_IN_BOTH + ('SUBSI', 'LDR', 'STR', 'LDRB', 'STRB', 'LDRR', 'LDRR8', 'STRR', 'STRR8', 'LDRBR', 'STRBR')
SERVICES = {1: 'char_service', 2: 'int_service', 3: 'string_service', 4: 'read_service'}


# ---------------------------------------------------------------- the runtime
def number(text):
    return 31 if text in ('SP', 'XZR') else int(text[1:])


def word_of(line, at, labels):
    """The word of a line of assembly that stands at a place, with branches to labels."""
    op, _, rest = line.partition(' ')
    args = [x for x in re.split(r'[,\[\]]', rest) if x]
    imm = lambda x: int(x.lstrip('#'))
    to = lambda: 4 * (labels[args[-1]] - at)
    if op in ('B', 'BL'):
        return {'B': a64.b, 'BL': a64.bl}[op](to())
    if op in ('CBZ', 'CBNZ'):
        return {'CBZ': a64.cbz, 'CBNZ': a64.cbnz}[op](number(args[0]), to())
    if op == 'RET':
        return a64.ret()
    if op == 'SVC':
        return a64.svc(imm(args[0]))
    if op in ('MOVZ', 'MOVN'):
        half = int(args[2].split()[1]) // 16 if len(args) > 2 else 0
        return a64.w(op, Rd=number(args[0]), imm16=imm(args[1]), hw=half)
    if op in ('LDR', 'STR', 'LDRB', 'STRB') and args[2].startswith('#'):
        unit = 1 if op.endswith('B') else 8
        return a64.w(op, Rt=number(args[0]), Rn=number(args[1]), imm12=imm(args[2]) // unit)
    if op in ('LDRB', 'STRB'):
        return a64.w(op + 'R', Rt=number(args[0]), Rn=number(args[1]), Rm=number(args[2]))
    if op in ('ADD', 'SUB') and args[2].startswith('#'):
        return a64.w(op + 'I', Rd=number(args[0]), Rn=number(args[1]), imm12=imm(args[2]), sh=int(len(args) > 3))
    registers = dict(Rd=number(args[0]), Rn=number(args[1]), Rm=number(args[2]))
    if op == 'MSUB':
        return a64.w(op, Ra=number(args[3]), **registers)
    if op == 'SDIV':
        return a64.w(op, **registers)
    shift, by = args[3].split() if len(args) > 3 else ('LSL', '0')
    return a64.w(op, type=['LSL', 'LSR', 'ASR'].index(shift), imm6=int(by), **registers)


def text_words(text):
    data = text.encode() + b'\0'
    data += b'\0' * (-len(data) % 4)
    return list(struct.unpack('<%dI' % (len(data) // 4), data))


def runtime():
    """The words of the runtime, and where its labels stand."""
    lines = open(os.path.join(TOP, 'bench', 'rows', 'native_runtime.txt')).read().splitlines()
    labels, items = {'links': -10}, []
    for line in (line.strip() for line in lines):
        if line.endswith(':'):
            labels[line[:-1]] = len(items)
        elif line.startswith('text '):
            items += text_words(line[6:-1])
        elif line and not line.startswith('#'):
            items.append(line)
    return [x if isinstance(x, int) else word_of(x, at, labels) for at, x in enumerate(items)], labels


RUNTIME, LABELS = runtime()


# ---------------------------------------------------------------- the words
def field(word, name):
    low, width = a64.FIELDS[name]
    return word >> low & (1 << width) - 1


def on_frame(word, row):
    """The word with X28 where 31 is SP."""
    for name, rows in (('Rd', SP_IN_BOTH), ('Rn', SP_AT_RN)):
        if row in rows and field(word, name) == 31:
            word += (28 - 31) << a64.FIELDS[name][0]
    return word


def load(register, n):
    return [a64.movz(register, n & 0xffff), a64.movk(register, n >> 16, 1)]


def words_of(im):
    """The words before the runtime."""
    decoded = [a64.decode(word) for word in im.code]
    calls = [at for at, i in enumerate(decoded) if i and i.row == 'SVC' and 1 <= i['imm16'] <= 4]
    stubs = {at: len(im.code) + 4 * j for j, at in enumerate(calls)}
    links = len(im.code) + 4 * len(calls)
    start = links + 10
    out = []
    for at, (word, i) in enumerate(zip(im.code, decoded)):
        row, k = (i.row, i['imm16'] if i.row in ('SVC', 'BRK') else None) if i else (None, None)
        if at in stubs:
            out.append(a64.b(4 * (stubs[at] - at)))
        elif row == 'SVC' and k == 0:
            out.append(a64.b(4 * (start + LABELS['ending'] - at)))
        elif row == 'BRK' and k < 16:
            out.append(a64.bl(4 * (start + LABELS['trap_entries'] + 2 * k - at)))
        else:
            out.append(on_frame(word, row))
    for at in calls:
        p = stubs[at]
        service = start + LABELS[SERVICES[decoded[at]['imm16']]]
        out += [a64.str_(30, 31), a64.bl(4 * (service - p - 1)), a64.ldr(30, 31), a64.b(4 * (at + 1 - p - 3))]
    out += [a64.b(-4 * links)] + load(0, 0x10000 + 4 * (start + len(RUNTIME))) + load(1, 0x10000000 + im.globals)
    out += load(2, len(im.constants)) + load(28, 0x40000000 + 8193 * im.frame) + [a64.movz(9, im.flags)]
    return out


# ---------------------------------------------------------------- the file
def head_of(im, words):
    """The bytes before the zeros."""
    entry = 0x10000 + 4 * (len(words) - 10 + 1)
    total = 4 * (len(words) + len(RUNTIME)) + len(im.constants)
    page = 65536
    loads = [(1, 5, page, 0x10000, total, total, page)]
    for address, size in [(0x10000000, im.globals + len(im.constants)), (0x20000000, 8 << 20), (0x40000000, 8193 * im.frame),
                          (0x80000000, 64 << 20), (0x90000000, 1114112)]:
        loads.append((1, 6, 0, address, 0, size, page))
    loads.append((0x6474E551, 6, 0, 0, 0, 0, 16))
    head = b'\x7fELF' + bytes([2, 1, 1]) + bytes(9)
    head += struct.pack('<HHIQQQIHHHHHH', 2, 183, 1, entry, 64, 0, 0, 64, 56, 7, 64, 0, 0)
    for kind, rights, place, address, stored, size, align in loads:
        head += struct.pack('<IIQQQQQQ', kind, rights, place, address, address, stored, size, align)
    return head


def elf_of(im):
    words = words_of(im)
    head = head_of(im, words)
    return head + bytes(65536 - len(head)) + struct.pack('<%dI' % (len(words) + len(RUNTIME)), *words, *RUNTIME) + im.constants


# ---------------------------------------------------------------- images
def built(names, *options):
    """The image of modules."""
    folder = os.path.join(TOP, 'examples')
    files = {n + '.Mod': open(os.path.join(folder, n + '.Mod'), 'rb').read() for n in names}
    run = trc.Run(CALLED + ['build', *options, 'out.img'] + list(files), files, b'')
    if run.status != 0:
        raise SystemExit('no image: %s' % run.err)
    return image.read_image(bytes(run.files['out.img']), (1, 2))


def made():
    """An image with each row, SP wherever it may stand, services, traps, and words that aren't in the table."""
    code = []
    for row, (base, fields) in a64.ROWS.items():
        if row in ('SVC', 'BRK'):
            continue
        code.append(base)
        for at, name in enumerate(fields):
            low, width = a64.FIELDS[name]
            value = {'type': 2, 'cond': 14, 'bcond': 14}.get(name, (1 << width) - 1)
            code.append(base + (value << low))
        code.append(base + sum(({'type': 2, 'cond': 14, 'bcond': 14}.get(n, (1 << a64.FIELDS[n][1]) - 1)) << a64.FIELDS[n][0] for n in fields))
    code += [a64.svc(k) for k in (1, 2, 3, 4, 0, 5, 4, 3, 2, 1, 65535)] + [a64.brk(k) for k in list(range(17)) + [65535]]
    code += [0, 0xffffffff, 0xd503201f, 0x910003e0 ^ 1 << 23, a64.svc(0)]
    return image.Image(1, 1, code, 40, bytes(range(1, 25)), 65536 // 2)


def written(im):
    """What the image writes on the machine, with its trap's line; its last line ends."""
    m = machine.Machine(im, INPUT)
    halt = m.run(1000000)
    out = bytes(m.out).decode()
    if halt[0] == 'Trapped':
        out += 'trc: trap %d\n' % halt[1]
    if not out.endswith('\n'):
        raise SystemExit('the last line has no end')
    return out[:-1]


def hexes(data):
    return ' '.join('%02x' % b for b in data)


def words_line(words):
    return ' '.join('%08x' % w for w in words)


def rows():
    lines, wanted = ['runtime ' + words_line(RUNTIME)], []
    images = []
    for names in EXAMPLES:
        for label, options in (('linear', ['--regs', '16']), ('plain', ['--policy', 'plain', '--regs', '4'])):
            images.append((names[-1] + '-' + label, built(names, *options)))
    images.append(('made', made()))
    for name, im in images:
        words = words_of(im)
        lines += ['image %s %d %d %d' % (name, im.flags, im.globals, im.frame), 'code ' + words_line(im.code), 'constants ' + hexes(im.constants)]
        lines += ['head ' + hexes(head_of(im, words)), 'words ' + words_line(words)]
        wanted.append('%s %d' % (name, len(elf_of(im))))
        if name != 'made':
            lines.append('run ' + hexes(INPUT))
            wanted.append(written(im))
    folder = folder_of('elf_vectors')
    open(os.path.join(folder, 'stdin'), 'w').write('\n'.join(lines) + '\n')
    open(os.path.join(folder, 'stdout'), 'w').write('\n'.join(wanted) + '\n')


def main():
    if sys.argv[1:2] == ['elf']:
        files = {os.path.basename(n): open(n, 'rb').read() for n in sys.argv[3:]}
        run = trc.Run(CALLED + ['build', 'out.img'] + list(files), files, b'')
        if run.status != 0:
            raise SystemExit('no image: %s' % run.err)
        open(sys.argv[2], 'wb').write(elf_of(image.read_image(bytes(run.files['out.img']), (1, 2))))
    else:
        rows()


main()

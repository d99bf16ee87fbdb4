"""Compares native programs with the machine; bench/native.sh calls it.

    native.py PROGRAM EMULATOR

PROGRAM is the built `trc`, EMULATOR runs a program for Linux on AArch64. Each program is run by `trc run` and as a file that `trc
elf` writes, on the same input: output, status and error line must be the same. The programs are the examples and vectors of
crates/trc_runs, and a thousand made ones. Then a loop of a hundred million turns is measured both ways.
"""
import ast
import os
import re
import subprocess
import sys
import tempfile
import time

TOP = os.path.dirname(os.path.dirname(os.path.abspath(__file__)))
CRATES = os.path.join(TOP, 'crates')
CHOICES = [(p, t, r) for p in ('linear', 'mixed', 'bottomup', 'plain') for t in ('bi', 'uni') for r in ('4', '5', '8', '16')]
LOOP = b'''MODULE Loop; IMPORT Out;
PROCEDURE P; VAR i, sum: INTEGER; BEGIN i := 0; sum := 0; WHILE i < 100000000 DO sum := sum + i; i := i + 1 END; Out.Int(sum, 0); Out.Ln END P;
BEGIN P END Loop.
'''


def examples():
    """The calls of `run` that crates/trc_runs makes of examples: words, files, input."""
    text = open(os.path.join(CRATES, 'trc_runs', 'src', 'examples.rt')).read().partition('] = [\n')[2].partition('\n];')[0]
    folder = os.path.join(TOP, 'examples')
    files = {name: open(os.path.join(folder, name), 'rb').read() for name in os.listdir(folder)}
    for words, given in ast.literal_eval('[' + re.sub(r'^\s*//.*$', '', text, flags=re.M) + ']'):
        yield words.split(' '), files, given.encode()


def bytes_of(written):
    """The bytes of a text as a vector has it."""
    plain = re.sub(r'\\(n|t|\\|x[0-9a-f]{2})', lambda m: {'n': '\n', 't': '\t', '\\': '\\'}.get(m[1]) or chr(int(m[1][1:], 16)), written)
    return plain.encode('latin-1')


def vectors():
    """The vectors of crates/trc_runs."""
    for line in open(os.path.join(CRATES, 'trc_runs', 'stdin'), encoding='latin-1').read().splitlines():
        words, *parts = line.split('\t')
        given = b''.join(bytes_of(part[1:]) for part in parts if part.startswith('<'))
        files = {part.partition('=')[0]: bytes_of(part.partition('=')[2]) for part in parts if not part.startswith('<')}
        yield words.split(' '), files, given


def made(count):
    """The modules that `trc bulk` makes, small ones, each by another choice."""
    for seed in range(1, count + 1):
        policy, traces, regs = CHOICES[seed % len(CHOICES)]
        yield ['run', 'Bulk.Mod', '--policy', policy, '--traces', traces, '--regs', regs], {'Bulk.Mod': bulk_text(seed, 1 + seed % 4)}, b''


def bulk_text(seed, size):
    drawn = [seed]

    def draw():
        drawn[0] = (drawn[0] * 6364136223846793005 + 1442695040888963407) % (1 << 64)
        return drawn[0] >> 33
    out = ['MODULE Bulk; IMPORT Out;\n']
    for i in range(size):
        out.append('PROCEDURE P%d(a, b: INTEGER): INTEGER; VAR c, d, i: INTEGER; BEGIN c := a; d := b;\n' % i)
        for _ in range(8):
            kind, k = draw() % 4, draw() % 16 + 1
            out.append(['c := c * %d + d;\n' % k, 'IF c < d THEN c := d - %d ELSE d := d + %d END;\n' % (k, k),
                        'i := 0; WHILE i < %d DO c := c + d; i := i + 1 END;\n' % k, 'd := d DIV %d + c MOD %d;\n' % (k, k)][kind])
        out.append('RETURN c + d END P0;\n' if i == 0 else 'RETURN P%d(c, d) END P%d;\n' % (i - 1, i))
    out.append('BEGIN Out.Int(P%d(1, 2), 0); Out.Ln END Bulk.\n' % (size - 1))
    return ''.join(out).encode()


class Both:
    """Runs programs both ways, in a folder of its own."""
    def __init__(self, program, emulator, folder):
        self.program, self.emulator, self.folder = program, emulator, folder

    def call(self, words, given=b''):
        done = subprocess.run(words, input=given, cwd=self.folder, capture_output=True, timeout=600)
        return done.returncode, done.stdout, done.stderr

    def write(self, files):
        for name, text in files.items():
            with open(os.path.join(self.folder, name), 'wb') as f:
                f.write(text)

    def native(self, words):
        """Writes the native program of a call of `run`; whether there is one."""
        steps = [at for at, word in enumerate(words) if word == '--steps']
        kept = [word for at, word in enumerate(words) if at not in steps and at - 1 not in steps]
        status, _, _ = self.call([self.program, 'elf', 'native', *kept[1:]])
        if status == 0:
            os.chmod(os.path.join(self.folder, 'native'), 0o755)
        return status == 0

    def emulated(self, given=b''):
        return self.call([self.emulator, './native'], given)

    def differs(self, words, given):
        """What a call of `run` comes to both ways, where that isn't the same; nothing where the words are refused, steps are
        spent or there is no program."""
        meant = self.call([self.program, *words], given)
        if meant[0] in (1, 7) or not self.native(words):
            return None
        found = self.emulated(given)
        line = re.sub(rb'^(trc: trap \d+)( .*)?$', rb'\1', meant[2], flags=re.M)
        self.compared += 1
        return None if found == (meant[0], meant[1], line) else (meant, found)

    def compare(self, name, cases):
        self.compared, differ = 0, 0
        for words, files, given in cases:
            if words[0] != 'run':
                continue
            self.write(files)
            both = self.differs(words, given)
            if both:
                differ += 1
                print('%s: %s: %r, natively %r' % (name, ' '.join(words), *both))
        print('%-9s %4d runs, %d differ' % (name, self.compared, differ), flush=True)
        return differ

    def measure(self):
        self.write({'Loop.Mod': LOOP})
        words = ['run', 'Loop.Mod']
        times = []
        for run in (lambda: self.call([self.program, *words, '--steps', '1000000000']), self.emulated):
            self.native(words)
            start = time.time()
            out = run()
            times.append(1000 * (time.time() - start))
            if out[:2] != (0, b'4999999950000000\n'):
                raise SystemExit('the loop differs: %r' % (out,))
        print('a loop of 100,000,000 turns: on the machine %d ms, natively under the emulator %d ms' % tuple(times))


def main():
    with tempfile.TemporaryDirectory() as folder:
        both = Both(os.path.abspath(sys.argv[1]), sys.argv[2], folder)
        differ = both.compare('examples', examples()) + both.compare('vectors', vectors()) + both.compare('made', made(1000))
        both.measure()
    sys.exit(1 if differ else 0)


main()

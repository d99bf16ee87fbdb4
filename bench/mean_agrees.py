#!/usr/bin/env python3
"""Holds `trc mean` against another compiler's, over all programs of the stored runs.

    bench/mean_agrees.py [PROGRAM [MOST]]

PROGRAM is the built program of crates/trc (`rt run` leaves it in that crate's out/). The programs are those of the stored runs of
module_vectors (the modules of bench/rows, made ones, those at limits), trc_runs (its vectors and its examples), each once with each input that it
has there. Where one is refused, the line and the status must be the same. Else its fewest turns are found, up to
MOST, which are 2,500,000 if no other number is given; with these, and with one less, `mean` must write the same bytes, end with the same
status, and tell the same trap, with the module and line of its procedure. Where it goes on with MOST turns, it must do so here too. The script prints how many
programs there were and how they came out, and ends with status 1 where one is told otherwise. bench/other_compiler.py says where the
other compiler is.
"""
import collections
import os
import subprocess
import sys
import tempfile

from other_compiler import CALLED, TOP
from module_texts import EXAMPLE_NAMES, example
from size_texts import spread
import check  # noqa: E402
import meaning  # noqa: E402
import trc  # noqa: E402
from scan import Fault  # noqa: E402

MOST = int(sys.argv[2]) if len(sys.argv) > 2 else 2500000
INPUTS = [b'some input\n', b'12 + 3 * (4 - 5) =\n']


def read(text):
    """The bytes of a field of a stored run."""
    out, i = bytearray(), 0
    while i < len(text):
        if text[i] != '\\':
            out += text[i].encode()
            i += 1
        elif text[i + 1] == 'x':
            out.append(int(text[i + 2:i + 4], 16))
            i += 4
        else:
            out += {'n': b'\n', 't': b'\t', '\\': b'\\'}[text[i + 1]]
            i += 2
    return bytes(out)


def lines_of(crate):
    with open(os.path.join(TOP, 'crates', crate, 'stdin')) as stored:
        for line in stored:
            line = line.rstrip('\n')
            yield (spread(line[len('spread '):]) if line.startswith('spread ') else line).split('\t')


def calls():
    """The modules and the input of each program, which may come again."""
    for fields in lines_of('module_vectors'):
        yield [read(text) for text in fields[1:]], INPUTS[0]
    for fields in lines_of('trc_runs'):
        words, given = fields[0].split(' '), b''
        files = {}
        for field in fields[1:]:
            if field.startswith('<'):
                given = read(field[1:])
            else:
                name, _, text = field.partition('=')
                files[name] = read(text)
        sources = [files[word] for word in words if word.endswith('.Mod') and word in files]
        if words[0] == 'bulk' and len(words) > 2 and words[1].isdigit() and words[2].isdigit() and 0 < int(words[2]) <= 1000:
            sources = [trc.bulk_text(int(words[1]), int(words[2]))]
        if sources:
            yield sources, given
    for names in EXAMPLE_NAMES:
        for given in INPUTS:
            yield example(*names), given


def fewest(sources, given):
    """The fewest turns with which what the modules mean is over; none where they are refused or it goes on with the most."""
    try:
        program = check.check_sources(sources)
    except Fault:
        return None
    evaluator = []

    def run():
        evaluator.append(meaning.Evaluator(program, given if program.imports_in else b'', MOST))
        return evaluator[0].run()
    return None if isinstance(meaning.deep(run), meaning.Going) else MOST - evaluator[0].turns


def told(program, folder, words, given):
    """What the program tells: status, output, line."""
    done = subprocess.run([program, *words], input=given, cwd=folder, capture_output=True)
    return done.returncode, done.stdout, done.stderr.decode()


def wanted(words, files, given):
    """What the other compiler tells."""
    call = trc.Run(CALLED + words, dict(files), given)
    return call.status, bytes(call.out), call.err and call.err + '\n'


def end_of(answer):
    """How a program came out, in a word or two."""
    status, _, line = answer
    return {0: 'ended', 2: 'refused for a fault', 3: 'refused for a limit', 6: ' '.join(line.split()[1:3]), 7: 'went on'}[status]


def main():
    program = os.path.realpath(sys.argv[1] if len(sys.argv) > 1 else os.path.join(TOP, 'crates', 'trc', 'out', 'trc'))
    if not os.access(program, os.X_OK):
        sys.exit(program + " isn't there: rt run in crates/trc builds it")
    programs = dict.fromkeys((tuple(sources), given) for sources, given in calls())
    ends, runs, spent, others = collections.Counter(), 0, 0, 0
    with tempfile.TemporaryDirectory() as folder:
        for sources, given in programs:
            names = ['M%d.Mod' % i for i in range(len(sources))]
            files = dict(zip(names, sources))
            for name, text in files.items():
                with open(os.path.join(folder, name), 'wb') as out:
                    out.write(text)
            turns = fewest(sources, given)
            for limit in [MOST] if turns is None else [turns, turns - 1][:turns + 1]:
                words = ['mean', *names, '--turns', str(limit)]
                mine, theirs = told(program, folder, words, given), wanted(words, files, given)
                runs += 1
                if mine != theirs or limit != turns and theirs[0] not in (2, 3, 7):
                    others += 1
                    print('with %d turns %r where %r is wanted:\n%s' % (limit, mine, theirs, b'===\n'.join(sources).decode('latin-1')))
                if limit in (turns, MOST):
                    ends[end_of(theirs)] += 1
                if theirs[0] in (2, 3):
                    turns = 0
                    break
            spent += turns or 0
    print('%d programs, %d calls, %d turns in all' % (len(programs), runs, spent))
    for end, number in sorted(ends.items()):
        print('%6d %s' % (number, end))
    print('%d are told otherwise' % others)
    sys.exit(others > 0)


main()

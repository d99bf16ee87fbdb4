#!/usr/bin/env python3
"""The images of modules that are wanted of crates/module_vectors, by another compiler.

bench/module_vectors.py takes `vectors` from here: the modules of bench/rows, made modules, and programs at limits and beyond; those
that have no image with one choice, the others with each policy, among them both builders and 4 to 16 registers; and modules that
have the whole language in them, by every choice. bench/other_compiler.py says where the other compiler is.
"""
import itertools

from other_compiler import STAGE, sum_of, sum_of_places
from module_texts import EXAMPLE_NAMES, WHOLE, example, pieces_of, rows, short_line, texts_line
import size_texts
from size_texts import spread
import backend  # noqa: E402
import check  # noqa: E402
import trc  # noqa: E402
from scan import Fault  # noqa: E402
from lower import Limit  # noqa: E402

CHOICES = ['linear bi 16', 'plain bi 4', 'bottomup uni 8', 'mixed bi 5']
SEVERAL = ['linear bi 16 8', 'plain bi 4 2', 'bottomup uni 8 64', 'mixed bi 5 3']  # by so many workers
EVERY = list(itertools.product(['plain', 'linear', 'bottomup', 'mixed'], ['uni', 'bi'], [4, 8, 16]))


def limits():
    """Programs at a limit, and one beyond."""
    for n in (1333, 1334):
        yield [b'MODULE B; VAR a: INTEGER; BEGIN ' + b'; '.join([b'IF a = 0 THEN a := 1 END'] * n) + b' END B.']
    names = [b'a%d' % i for i in range(500)]
    moved = b'; '.join(b'%s := %s' % (x, y) for x, y in zip(names, names[1:]))
    yield [b'MODULE H; PROCEDURE P; VAR ' + b', '.join(names) + b': INTEGER; BEGIN WHILE a0 < 9 DO ' + moved + b' END END P; BEGIN P END H.']
    yield [b'MODULE S; VAR a: INTEGER; BEGIN a := ' + b'+'.join([b'a'] * 20000) + b' END S.']
    yield [b'MODULE C; VAR a: INTEGER; BEGIN CASE a OF ' + b' | '.join(b'%d:' % (i * 7919 % 10007) for i in range(10000)) + b' END END C.']
    yield [b'MODULE N; CONST ' + b''.join(b'c%d = %d; ' % (i, i) for i in range(3000)) + b'VAR a: INTEGER; BEGIN a := c2999 END N.']
    for n in (1048574, 1048575, 1048576):
        yield [b'MODULE G; VAR a: ARRAY %d OF BYTE; END G.' % n]
    for n in (1048576, 1048577):
        yield [b'MODULE L; PROCEDURE P; VAR a: ARRAY %d OF BYTE; END P; END L.' % n]
    for n in (4095, 4096):
        yield [b'MODULE P; ' + b''.join(b'PROCEDURE p%d; END p%d; ' % (i, i) for i in range(n)) + b'END P.']


def sized():
    """Texts in short of very many values and homes, of copies, and of a large procedure among small ones, each with choices."""
    all_policies = ['plain bi 16', 'linear bi 16', 'bottomup bi 16', 'mixed bi 16']
    yield size_texts.asserts(8000), all_policies
    yield size_texts.asserts(8001), all_policies[:1]
    for n in (2665, 2666):
        yield 'MODULE V; VAR a: INTEGER; BEGIN a := a[%d*+a] END V.' % n, CHOICES[:1]
    for n in (4095, 4096, 8000):
        yield size_texts.homes(n), all_policies
    yield size_texts.swaps(1950), all_policies[:1]
    for n in (4010, 4040, 4090):
        yield size_texts.arguments(n), ['plain bi 16', 'bottomup bi 4']
    for offset in range(10):
        yield size_texts.copied(offset), CHOICES
    yield size_texts.large(400), SEVERAL


def answer(sources, choice):
    policy, builder, regs = choice.split()[:3]
    for i, source in enumerate(sources):
        if len(source) > 1048576:
            return 'limit 55 at %d' % i
    try:
        image = backend.compile_program(check.check_sources(sources), policy, builder, int(regs), STAGE)
    except Fault as fault:
        return 'fault %d in %d at %d' % (fault.number, fault.module, fault.at)
    except Limit as limit:
        return 'limit %d at %d' % (limit.number, limit.index)
    return 'image %d frame %d globals %d constants %d flags %d sum %d places %d sum %d' % (
        len(image.code), image.frame, image.globals, len(image.constants), image.flags, sum_of(image), len(image.places), sum_of_places(image))


def every_image(texts):
    """The lines of all images of modules; none where they pass a limit."""
    program = check.check_sources(texts)
    try:
        plans = {builder: backend.plan(program, builder, STAGE) for builder in ('uni', 'bi')}
        images = [backend.place(plans[builder], backend.results(plans[builder], policy, regs), STAGE) for policy, builder, regs in EVERY]
    except Limit:
        return None
    heads = ['%s %s %d' % choice for choice in EVERY]
    return '\n'.join(['images'] + ['%s words %d sum %d' % (head, len(image.code), sum_of(image)) for head, image in zip(heads, images)])


def vectors():
    """The lines of the stored run, and the lines that are wanted."""
    lines, answers = [], []
    pieces = [texts for _, texts in rows()] + [[trc.bulk_text(i, 2 + i % 4)] for i in range(1, 9)] + list(limits())
    for sources in pieces:
        for choice in CHOICES:
            lines.append(texts_line(choice, sources))
            answers.append(answer(sources, choice))
            if not answers[-1].startswith('image'):
                break
    for short, choices in sized():
        text = spread(short).encode()
        for choice in choices:
            lines.append(short_line(choice, short))
            answers.append(answer([text], choice))
    for name, sources in list(pieces_of(WHOLE)) + [(names[-1], example(*names)) for names in EXAMPLE_NAMES]:
        images = every_image(sources)
        if images:
            lines.append(texts_line('every ' + name, sources))
            answers.append(images)
    print(len(pieces), 'pieces,', len(lines), 'lines')
    return lines, answers

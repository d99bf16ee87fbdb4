"""What the scripts that write rows share: values as definitions write them, and, by `other_compiler`, what they are held against."""
from other_compiler import STAGE
from lower import Layout


def some(x):
    return 'None' if x is None else '(Some %s)' % x


def listed(xs):
    xs = list(xs)
    return '[]' if not xs else '(' + ' ∷ '.join(xs) + ' ∷ [])'


def letters(text):
    return listed(str(c) for c in (text if isinstance(text, bytes) else text.encode()))


def truth(b):
    return 'true' if b else 'false'


def extent_of(program, record):
    """What a record type takes where small scalars take a byte."""
    layout = Layout(program, STAGE)
    return 'record { bytes = %d; wide = %s }' % (layout.bytes(record), truth(layout.align(record) == 8))


def integer(n):
    return '(pos %d)' % n if n >= 0 else '(negsuc %d)' % (-n - 1)

"""Modules' texts that vectors are made of: those of bench/rows and of the examples, and lines that have them."""
import os

from other_compiler import TOP

ROWS = os.path.join(TOP, 'bench', 'rows')
WHOLE = os.path.join('whole', 'modules.txt')  # legal modules that have the whole language in them
EXAMPLES = os.path.join(TOP, 'examples')
EXAMPLE_NAMES = [['Answer'], ['Calc'], ['Collatz'], ['Count'], ['Functions'], ['Gcd'], ['Interpreter'], ['List'], ['Lucky'], ['Matrices'], ['Range'], ['Sets'],
                 ['Shapes'], ['Sorting'], ['Squares'], ['Texts'], ['Tree'], ['Wrap'], ['Stack', 'UseStack']]  # the modules of each


def pieces_of(name):
    """The name and the modules' texts of each piece of a file in bench/rows."""
    for piece in open(os.path.join(ROWS, name)).read().split('---\n'):
        first, _, text = piece.strip('\n').partition('\n')
        if first and text and '[' not in first and 'MODULE' in text:
            yield first.split()[0], [m.strip('\n').encode() + b'\n' for m in text.split('===\n')]


def row_files():
    """The files in bench/rows that have modules."""
    judged = [os.path.join('judged', name) for name in sorted(os.listdir(os.path.join(ROWS, 'judged')))]
    return [name for name in sorted(os.listdir(ROWS)) + judged if name.endswith('.txt') and name != 'spoils.txt']


def rows():
    """The name and the modules' texts of each piece in bench/rows."""
    for name in row_files():
        yield from pieces_of(name)


def example(*names):
    """The texts of examples."""
    return [open(os.path.join(EXAMPLES, name + '.Mod'), 'rb').read() for name in names]


def written(text):
    """A text as it is written in a line."""
    return text.decode().replace('\\', '\\\\').replace('\t', '\\t').replace('\n', '\\n')


def texts_line(words, texts):
    """A line of these words, and texts behind them."""
    return words + ''.join('\t' + written(text) for text in texts) + '\n'


def short_line(words, short):
    """A line of these words, and a text in short, of which the programs that read it make copies."""
    return 'spread ' + texts_line(words, [short.encode()])

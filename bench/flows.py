#!/usr/bin/env python3
"""Prints a flow or a procedure of a shape and of about so many nodes, as crates/flow_vectors reads it.

    bench/flows.py chain|ladder|nest NODES [flow|proc]

chain: each node jumps to the next. ladder: diamonds, one behind the other. nest: loops, each in the one before. Value 0
is made in the first node and read in the last, so it is live everywhere else; each node makes a value, and most read that
of a node just before. So there are as many values as nodes, and few of them are live anywhere.
"""
import sys


def chain(n):
    return [((i + 1,), None, 1 << 20, i - 1) for i in range(n - 1)] + [((), None, 1 << 20, n - 2)]


def ladder(n):
    nodes = []
    for i in range(0, n - 4, 4):
        nodes += [((i + 1, i + 2), None, 1 << 20, i - 1), ((i + 3,), None, 1 << 19, i), ((i + 3,), None, 1 << 19, i),
                  ((i + 4,), None, 1 << 20, i)]
    return nodes + [((), None, 1 << 20, len(nodes) - 1)]


def nest(n):
    """Level k has the node that enters, the header and the exit, which jumps to the header around."""
    d = max(n // 3, 1)
    end = 3 * d                                     # numbers: enter 2k, header 2k + 1, the body 2d, exit of k at end - k
    nodes = []
    for k in range(d):
        freq = 1 << min(20 + 3 * k, 50)
        nodes.append(((2 * k + 1,), None, freq, 2 * k - 1))
        nodes.append(((2 * k + 2, end - k), 2 * k, min(8 * freq, 1 << 50), -1))
    nodes.append(((2 * d - 1,), None, 1 << 50, 2 * d - 1))
    for k in range(d - 1, 0, -1):
        nodes.append(((2 * k - 1,), None, 1 << min(20 + 3 * k, 50), 2 * k + 1))
    nodes.append(((), None, 1 << 20, 1))
    return nodes


def main():
    nodes = {'chain': chain, 'ladder': ladder, 'nest': nest}[sys.argv[1]](int(sys.argv[2]))
    preds = [[] for _ in nodes]
    for i, (to, _, _, _) in enumerate(nodes):
        for t in to:
            preds[t].append(i)
    proc = sys.argv[3:] == ['proc']
    out = ['proc' if proc else 'flow', len(nodes), 0]
    for i, (to, enter, freq, read) in enumerate(nodes):
        out += ['block' if proc else 'node', freq, '-' if enter is None else enter, 'params']
        if not proc:
            out += ['preds'] + preds[i]
        out += ['op'] + ([['Const', 0], ['Plus', 1]][read >= 0] if proc else []) + [i] + ([read] if read >= 0 else [])
        out += ['jump', to[0]] if len(to) == 1 else ['nonzero', i] + list(to) if to else ['return', 0]
    print(*out)


main()

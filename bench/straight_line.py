#!/usr/bin/env python3
"""Prints a flow of one node with so many operations, as crates/policy_vectors reads it, for 16 registers.

    bench/straight_line.py OPERATIONS

Each operation makes a value and reads those made one and 24 operations before it, so some 24 values are live throughout:
more than there are registers.
"""
import sys

count = int(sys.argv[1])
out = [16, 'flow', count, 0, 'node', 1 << 20, '-', 'params', 'preds']
for i in range(count):
    out += ['op', i] + ([i - 1] if i >= 1 else []) + ([i - 24] if i >= 24 else [])
out += ['return', count - 1]
print(*out)

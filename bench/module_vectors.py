#!/usr/bin/env python3
"""Makes the input of crates/module_vectors and the answers that are wanted, by another compiler.

    bench/module_vectors.py [FOLDER]

Writes `stdin` and `stdout` into FOLDER (that crate's, if none is given): the judgements, procedures and images of check_vectors,
lower_vectors and compile_vectors beside this. bench/other_compiler.py says where the other compiler is; how lines are written is said
in crates/module_vectors and crates/vector_texts.
"""
import os

from other_compiler import folder_of
import check_vectors
import compile_vectors
import lower_vectors


def main():
    folder = folder_of('module_vectors')
    lines, answers = [], []
    for part in (check_vectors, lower_vectors, compile_vectors):
        found = part.vectors()
        lines += found[0]
        answers += found[1]
    with open(os.path.join(folder, 'stdin'), 'w') as out:
        out.writelines(lines)
    with open(os.path.join(folder, 'stdout'), 'w') as out:
        out.writelines(line + '\n' for line in answers)


main()

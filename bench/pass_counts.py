#!/usr/bin/env python3
"""Makes what crates/pass_times must print without words, by another compiler.

    bench/pass_counts.py [FOLDER]

Writes `stdout` into FOLDER (that crate's, if none is given): for each policy the words of a made module of 100 procedures, in Bi traces
with 16 registers, what it writes, and the steps of its run. bench/other_compiler.py says where the other compiler is.
"""
import os

from other_compiler import STAGE, folder_of
import backend  # noqa: E402
import check  # noqa: E402
import machine  # noqa: E402
import trc  # noqa: E402

def counted(policy):
    """The lines of a policy."""
    image = backend.compile_program(check.check_sources([trc.bulk_text(7, 100)]), policy, 'bi', 16, STAGE)
    run = machine.Machine(image)
    assert run.run(10 ** 9) == ('Ended',)
    return '7 100 %s\nwords %d\noutput %ssteps %d\n' % (policy, len(image.code), bytes(run.out).decode(), run.steps)


def main():
    with open(os.path.join(folder_of('pass_times'), 'stdout'), 'w') as out:
        out.writelines(map(counted, ['plain', 'linear', 'bottomup', 'mixed']))


main()

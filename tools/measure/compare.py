#!/usr/bin/env python3
"""Runs two programs on plan files in turn, and compares what they print and how long they take. The time is the
processor's (user and system), since other work on the machine disturbs it less than the clock's; the best run counts.

compare.py RUNS BENCH BASELINE FILE..
"""
import os
import resource
import subprocess
import sys


def spent():
    used = resource.getrusage(resource.RUSAGE_CHILDREN)
    return used.ru_utime + used.ru_stime


def timed(program, path):
    before = spent()
    done = subprocess.run([program, path], stdout=subprocess.PIPE, check=True)
    return spent() - before, done.stdout


def main():
    runs, bench, baseline, paths = int(sys.argv[1]), sys.argv[2], sys.argv[3], sys.argv[4:]
    same = True
    print('| plan | bench, s | baseline, s | ratio |\n|---|---|---|---|')
    for path in paths:
        pairs = [(timed(bench, path), timed(baseline, path)) for _ in range(runs)]
        told = {out for pair in pairs for _, out in pair}
        best = [min(pair[side][0] for pair in pairs) for side in (0, 1)]
        name = os.path.basename(path)
        if len(told) == 1:
            print(f'| `{name}` | {best[0]:.3f} | {best[1]:.3f} | {best[0] / best[1]:.2f} |', flush=True)
        else:
            print(f'| `{name}` | prints something else | | |', flush=True)
            same = False
    sys.exit(0 if same else 1)


main()

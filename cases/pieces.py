#!/usr/bin/env python3
"""pieces.py PROGRAM   runs the checks of a set and of a text among the cases, with their input cut into pieces.

Each `check set` and `check text` of cases/*.jsonl is run once for each size of pieces, and has to come to the output and
the status of its row. The last line is 'N passed, M failed'."""
import json
import os
import sys
from concurrent.futures import ThreadPoolExecutor
from importlib.machinery import SourceFileLoader
from importlib.util import module_from_spec, spec_from_loader
from pathlib import Path

HERE = Path(__file__).resolve().parent
SIZES = (1, 7, 4095, 4097)
JOBS = (["check", "set"], ["check", "text"])
# Pieces of one byte of the longest inputs are some millions of reads.
MOST_PIECES = 300_000


def rows():
    """The module that runs a row."""
    loader = SourceFileLoader("rows", str(HERE / "run"))
    module = module_from_spec(spec_from_loader("rows", loader))
    loader.exec_module(module)
    return module


def checks():
    for path in sorted(HERE.glob("*.jsonl")):
        for line in path.read_text(encoding="utf-8").splitlines():
            if line.strip():
                case = json.loads(line)
                if case["words"] in JOBS:
                    yield path.name, case


def main(program):
    run = rows()
    cut = [(name, {**case, "piece": size}) for name, case in checks() for size in SIZES
           if len(run.input_of(case)) <= size * MOST_PIECES]
    with ThreadPoolExecutor(os.cpu_count()) as threads:
        differences = list(threads.map(lambda at: run.difference(program, at[1]), cut))
    failed = 0
    for (name, case), told in zip(cut, differences):
        if told:
            failed += 1
            print(f"{name}: {case['name']}, in pieces of {case['piece']}: {told}")
    print(f"{len(cut) - failed} passed, {failed} failed")
    return 1 if failed or not cut else 0


if __name__ == "__main__":
    if len(sys.argv) != 2:
        sys.exit(__doc__)
    sys.exit(main(os.path.abspath(sys.argv[1])))

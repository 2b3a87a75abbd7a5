"""Runs of the lister, each held to the rules. What is held is told in __main__.py."""

import subprocess
import sys
from collections import Counter
from concurrent.futures import ThreadPoolExecutor
from functools import partial
from itertools import islice
from pathlib import Path

from inputs import inputs
from listing import listing
from shapes import fault_of, label

AT_A_TIME = 2
BATCH = 200
REPORT = 20_000
LONGEST = 60


def fault_of_run(words, sheet, expected):
    """What is wrong with the run of a program on a sheet, None if nothing is."""
    try:
        run = subprocess.run(words, input=sheet, capture_output=True, timeout=LONGEST)
    except subprocess.TimeoutExpired:
        return f"it did not end in {LONGEST} seconds"
    if run.returncode != 0:
        return f"it ended with status {run.returncode}: {run.stderr[:200]!r}"
    fault = fault_of(run.stdout, len(sheet))
    if fault is not None:
        return f"{fault}: {run.stdout[:200]!r}"
    if run.stdout != expected.encode():
        return f"it printed {run.stdout[:200]!r}, and the rules give {expected[:200]!r}"
    return None


def hold_input(words, sheet):
    """The label of what the rules give, and the fault of the run if there is one."""
    expected = listing(sheet)
    return label(expected), fault_of_run(words, sheet, expected)


def stop(home, index, sheet, fault):
    failed = home / "target" / "failed_input"
    failed.parent.mkdir(exist_ok=True)
    failed.write_bytes(sheet)
    sys.exit(f"input {index}, now in {failed}: {fault}")


def hold_inputs(home, words, count, seed):
    """Runs the inputs and counts them by what the rules give."""
    counts, source = Counter(), islice(inputs(home, seed), count)
    with ThreadPoolExecutor(AT_A_TIME) as pool:
        while batch := list(islice(source, BATCH)):
            done = counts.total()
            for index, (what, fault) in enumerate(pool.map(partial(hold_input, words), batch)):
                if fault is not None:
                    stop(home, done + index, batch[index], fault)
                counts[what] += 1
            if counts.total() % REPORT == 0:
                print(f"{counts.total()} of {count}", flush=True)
    return counts


def hold_all(home, program, count, seed):
    """Holds the program to the rules on so many inputs, and tells what they were."""
    if not Path(program).is_file():
        sys.exit(f"there is no program {program}; tools/run_program lister builds it")
    words = [Path(program).resolve()]
    counts = hold_inputs(home, words, count, seed)
    print(f"{counts.total()} inputs of seed {seed} hold")
    for what, times in sorted(counts.items()):
        print(f"  {what}: {times}")

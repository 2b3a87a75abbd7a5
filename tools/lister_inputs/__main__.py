"""Feeds the lister inputs made by chance, and holds what it prints to the rules.

    python3 tools/lister_inputs                         100,000 inputs of seed 1
    python3 tools/lister_inputs COUNT [SEED [PROGRAM]]  as told
    python3 tools/lister_inputs --check                 tests the program itself

PROGRAM is the lister that rt built in the repository if it is not told. The inputs
are those of inputs.py. Of each run this has to hold:

    it ends with status 0, in a minute at most;
    it prints a listing, or one line `refused GROUP NUMBER PLACE` (shapes.py);
    what it prints is, byte for byte, what the rules give (listing.py).

The second follows from the third where listing.py is right. It is asked by itself
because it needs no reading of a sheet.

The same seed gives the same inputs. A first input that fails is written to
target/failed_input, and the run ends with status 1.
"""

import sys
from pathlib import Path

HOME = Path(__file__).resolve().parent.parent.parent
# The folder of the tools, for what they share, and for the rules in stored_sheets.
sys.path.append(str(HOME / "tools"))

from input_tests import check
from runs import hold_all

# Count, seed and program, as far as they are not told.
USUAL = ("100000", "1", HOME / "crates" / "lister" / "out" / "lister")


def main(arguments):
    if arguments == ["--check"]:
        check(HOME)
    elif len(arguments) <= 3 and all(word.isdecimal() for word in arguments[:2]):
        count, seed, program = (*arguments, *USUAL[len(arguments):])
        hold_all(HOME, program, int(count), int(seed))
    else:
        sys.exit("usage: python3 tools/lister_inputs [COUNT [SEED [PROGRAM]]] | --check")


if __name__ == "__main__":
    main(sys.argv[1:])

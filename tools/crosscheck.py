#!/usr/bin/env python3
"""A second answer to everything that the library answers, worked out by other means.

usage: python3 tools/crosscheck.py --seed N [--more K] CASES ANSWERS
       python3 tools/crosscheck.py --answer <CASES >ANSWERS
       python3 tools/crosscheck.py --self-check

The first form writes cases, one a line, and the answers that are due; K times as many random cases with --more.
The program `crosscheck` reads the same cases, asks the library, and has to print the same answers.
The second answers cases that somebody else wrote, the third tries the reference on itself.

Nothing here is fast or clever, and nothing is taken from the library. A pattern is read from left to right, with a
stack of the groups that are open, into a syntax tree. Of each part of the tree it is worked out which stretches of
the line read; the trails of a stretch are listed, all of them, and the best is looked up in the list. Where there
would be too many trails to list, the case is left out.

The folder `reference` beside this file has, from the bottom: `patterns` (notations, reading a pattern), `shelf` (trees
laid on a line, the five calls), `cues` (cue records), `answers` (the orders of the program `mark`; how a case is
answered), `shapes` (all lawful patterns of a length), `case_list` (the list of cases, and chance), `cases` (what is asked),
`checks` (the check of all this itself).
"""

import argparse
import sys

sys.dont_write_bytecode = True  # before the imports, so that no folder of compiled files is left beside the sources

from reference.answers import Answerer
from reference.cases import write_cases
from reference.checks import CHECKS


def main():
    parser = argparse.ArgumentParser(description=__doc__.split("\n")[0])
    parser.add_argument("--seed", type=int, default=1)
    parser.add_argument("--more", type=int, default=1)
    parser.add_argument("--answer", action="store_true")
    parser.add_argument("--self-check", action="store_true")
    parser.add_argument("files", nargs="*", help="where the cases and the answers go")
    options = parser.parse_args()
    sys.setrecursionlimit(20_000)
    if options.self_check:
        for check in CHECKS:
            check()
    elif options.answer:
        answerer = Answerer()
        for case in sys.stdin:
            print(answerer.answer(case.rstrip("\n")))
    elif len(options.files) == 2:
        write_cases(options.seed, options.more, *options.files)
    else:
        parser.error("two files are wanted")


if __name__ == "__main__":
    main()

#!/usr/bin/env python3
"""generate.py [--seed N] [--steps N] FOLDER: writes generated traces to FOLDER, each beside the lines that the model gives for it.

    calls     books refused, sizes at their limits, every refusal of every call alone and in pairs, days at random
    pokes     states that nobody loaded

The same seed gives the same traces. Every call that is made for a number has to get it from the model, and every number of
document 01's order has to be seen for every call. Exit status: 0 all seen; 1 something wasn't, or the model contradicts what a
call was made for.
"""
import argparse
import collections
import os
import random
import sys
from typing import Dict, List

sys.dont_write_bytecode = True
import days
import document
import edges
import faults
import pokes
from recorder import Recorder, WrongClaim

SEED = 20012
STEPS = 3000            # of the days at random


def calls(seed: int, steps: int) -> Recorder:
    r = Recorder(random.Random("calls %d" % seed))
    edges.everything(r)
    for trial in faults.TRIALS:
        faults.try_trial(r, trial)
    days.everything(r, steps)
    return r


def poked(seed: int) -> Recorder:
    r = Recorder(random.Random("pokes %d" % seed))
    pokes.everything(r)
    return r


def made(seed: int, steps: int) -> Dict[str, Recorder]:
    return {"calls": calls(seed, steps), "pokes": poked(seed)}


# ---- what was seen

def total(recorders: Dict[str, Recorder], counter: str) -> collections.Counter:
    return sum((getattr(r, counter) for r in recorders.values()), collections.Counter())


def unseen(recorders: Dict[str, Recorder]) -> List[str]:
    tally, sizes = total(recorders, "tally"), total(recorders, "sizes")
    missing = ["%s accepted" % name for name in document.ORDER if not tally[name, 0]]
    missing += ["%s refused with %d" % (name, n) for name, order in document.ORDER.items() for n in order if not tally[name, n]]
    missing += ["%s of %d bytes, answered with %d" % size for size in document.SIZES if not sizes[size]]
    return missing + ["a fault for " + what for what in faults.unclaimed()]


def table(recorders: Dict[str, Recorder]) -> List[str]:
    tally, lines = total(recorders, "tally"), ["call     accepted  refused, in document 01's order: number x times"]
    for name, order in document.ORDER.items():
        lines.append("%-8s %8d  %s" % (name, tally[name, 0], " ".join("%dx%d" % (n, tally[name, n]) for n in order)))
    sizes = total(recorders, "sizes")
    seen = ["%s %d" % (name, size) for name, size, number in document.SIZES if sizes[name, size, number]]
    return lines + ["bytes handed in, at the limits: " + ", ".join(seen)]


# ---- writing

def write(folder: str, name: str, content: bytes) -> None:
    with open(os.path.join(folder, name), "wb") as file:
        file.write(content)


def parse(words: List[str]):
    parser = argparse.ArgumentParser(prog="generate.py", formatter_class=argparse.RawDescriptionHelpFormatter, description=__doc__,
                                     usage=argparse.SUPPRESS)
    parser.add_argument("--seed", type=int, default=SEED)
    parser.add_argument("--steps", type=int, default=STEPS)
    parser.add_argument("folder")
    return parser.parse_args(words)


def main(words: List[str]) -> int:
    options = parse(words)
    try:
        recorders = made(options.seed, options.steps)
    except WrongClaim as problem:
        print("generate.py: seed %d: %s" % (options.seed, problem), file=sys.stderr)
        return 1
    for name, r in recorders.items():
        write(options.folder, name + ".trace", r.trace())
        write(options.folder, name + ".expect", r.expected())
    missing = unseen(recorders)
    print("\n".join(["seed %d" % options.seed, *table(recorders), *("never seen: " + what for what in missing)]))
    return 1 if missing else 0


if __name__ == "__main__":
    sys.exit(main(sys.argv[1:]))

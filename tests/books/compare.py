#!/usr/bin/env python3
"""compare.py: has books listed by a program and by the model, and holds one to the other.

    compare.py [OPTION..] RUNNER [WORD..]             RUNNER is found in PATH or is a file; it gets one book on standard input
    compare.py [OPTION..] --exec PROGRAM [WORD..]     the same; all words after --exec are the program's
    compare.py [OPTION..] --python MODULE:FUNCTION    a function from a book to its listing

It prints the seed first; the same seed gives the same books. A program that is started by a shell script spends most of its
time in the shell: give the direct command line for a whole run. Where a fault's place is known when the book is made, the model
is held to it too. Exit status: 0 no mismatch; 1 a mismatch, or a refusal, a kind of fault or a limit that was never seen; 2 it
could not run.
"""
import argparse
import collections
import multiprocessing
import os
import sys
import time
from typing import Callable, Iterable, List, NamedTuple

sys.dont_write_bytecode = True
import cases
import faults
import model
import runners

SEED = 20011
MISMATCHES = 10     # then it stops
CHUNK = 50          # books that a worker takes at a time
SHOWN = 48          # bytes of a book, or of a line, in an account


# ---- what has to be seen

LIMITS = ("1 host", "32 hosts", "0 interfaces", "8 interfaces", "host name of 1", "host name of 256", "interface name of 1",
          "interface name of 256", "1 command", "64 commands", "1 entry", "16 entries", "12232 bytes", "host group 0",
          "host group 65535", "entry group 0", "entry group 65535", "bit 0", "bit 33", "bit 63", "word 0", "inner space")


def limits_of(book: bytes, said: model.Contents) -> set:
    """The limits that a good book is at."""
    def count(number: int, one: str, more: str) -> str:
        return "%d %s" % (number, one if number == 1 else more)

    seen = {"%d bytes" % len(book), count(len(said.hosts), "host", "hosts"),
            count(len(said.interfaces), "interface", "interfaces")}
    for host in said.hosts:
        seen |= {"host name of %d" % len(host.name), "host group %d" % host.group}
    for face in said.interfaces:
        seen |= {"interface name of %d" % len(face.name), count(face.commands, "command", "commands"),
                 count(len(face.entries), "entry", "entries")}
        for entry in face.entries:
            seen.add("entry group %d" % entry.group)
            seen.update("bit %d" % c for c in (0, 33, 63) if entry.word >> c & 1)
            if entry.word == 0:
                seen.add("word 0")
    if any(b" " in part.name for part in (*said.hosts, *said.interfaces)):
        seen.add("inner space")
    return seen.intersection(LIMITS)


class Tally:
    """What was seen in a part of the books; parts add up."""

    def __init__(self):
        self.books = 0
        self.outcomes = collections.Counter()               # number -> books
        self.kinds = collections.defaultdict(set)           # number -> kinds of fault, alone
        self.pairs = collections.defaultdict(set)           # number -> pairs of kinds
        self.limits = set()
        self.mismatches = []

    def note(self, case: cases.Case, number: int, said: model.Contents) -> None:
        self.books += 1
        self.outcomes[number] += 1
        if number == 0:
            self.limits |= limits_of(case.book, said)
        if case.family == "alone":
            self.kinds[number].add(case.kind)
        elif case.family == "pairs":
            self.pairs[number].add(case.kind)

    def add(self, other: "Tally") -> None:
        self.books += other.books
        self.outcomes += other.outcomes
        for number in other.outcomes:
            self.kinds[number] |= other.kinds[number]
            self.pairs[number] |= other.pairs[number]
        self.limits |= other.limits
        self.mismatches += other.mismatches

    def unseen(self) -> List[str]:
        missing = ["refusal %d" % number for number in range(40, 49) if not self.outcomes[number]]
        missing += ["%d: %s" % (number, kind) for kind, number in faults.KINDS.items() if kind not in self.kinds[number]]
        return missing + ["limit: " + limit for limit in LIMITS if limit not in self.limits]


# ---- comparing

def shortened(book: bytes) -> str:
    shown = book.hex() if len(book) <= SHOWN else book[:SHOWN].hex() + ".." + book[-8:].hex()
    return "%d bytes: %s" % (len(book), shown or "(none)")


def first_difference(expected: bytes, given: bytes) -> List[str]:
    """The first line in which the outputs differ, from both."""
    pairs = list(zip(expected.splitlines(True) + [b""], given.splitlines(True) + [b""]))
    number, (wanted, got) = next((n, pair) for n, pair in enumerate(pairs, 1) if pair[0] != pair[1])
    at = next((k for k, (a, b) in enumerate(zip(wanted, got)) if a != b), min(len(wanted), len(got)))
    begin = max(0, at - SHOWN // 2)
    return ["  line %d%s" % (number, ", from byte %d on" % begin if begin else ""),
            "  model:   %r" % wanted[begin:begin + SHOWN], "  program: %r" % got[begin:begin + SHOWN]]


def account(index: int, case: cases.Case, verdict, expected: bytes, answer: runners.Answer, ended: str) -> List[str]:
    """What is wrong with that answer; nothing if it is right."""
    said = []
    if case.claim is not None and case.claim != verdict:
        said.append("  the model gives %d at %d, and the book was made as %d at %d" % (*verdict, *case.claim))
    if answer.output != expected:
        said += first_difference(expected, answer.output)
    if answer.ended != ended:
        said.append("  the program ended with %s, and %s is expected" % (answer.ended, ended))
    if said:
        said.insert(0, "book %d (%s: %s), %s" % (index, case.family, case.kind, shortened(case.book)))
    return said


class Work(NamedTuple):
    """What every worker has from the start."""
    cases: List[cases.Case]
    run: Callable[[bytes, int], runners.Answer]
    refused_status: int


work: Work


def compare(begin: int) -> Tally:
    """A chunk of the books."""
    tally = Tally()
    for index in range(begin, min(begin + CHUNK, len(work.cases))):
        case = work.cases[index]
        verdict, said = model.load(case.book)
        answer = work.run(case.book, case.pieces)
        ended = "status %d" % (work.refused_status if verdict[0] else 0)
        tally.note(case, verdict[0], said)
        wrong = account(index, case, verdict, model.listed(verdict, said), answer, ended)
        if wrong:
            tally.mismatches.append(wrong)
            if len(tally.mismatches) == MISMATCHES:
                break
    return tally


def added(parts: Iterable[Tally]) -> Tally:
    """All parts together, or those until there are enough mismatches."""
    tally = Tally()
    for part in parts:
        tally.add(part)
        if len(tally.mismatches) >= MISMATCHES:
            break
    return tally


def compare_all(jobs: int) -> Tally:
    chunks = range(0, len(work.cases), CHUNK)
    if jobs == 1:
        return added(map(compare, chunks))
    with multiprocessing.get_context("fork").Pool(jobs) as pool:
        return added(pool.imap(compare, chunks))


# ---- reporting

def print_table(tally: Tally) -> None:
    print("outcome   books  kinds of fault alone  pairs of kinds")
    for number in [0] + sorted(set(tally.outcomes) - {0}):
        alone, pairs = len(tally.kinds[number]), len(tally.pairs[number])
        print("%-7s %7d  %20s  %14s" % (number or "good", tally.outcomes[number], alone or "-", pairs or "-"))
    print("limits seen: " + ", ".join(limit for limit in LIMITS if limit in tally.limits))


def report(tally: Tally, options, seconds: float) -> int:
    shown = tally.mismatches[:MISMATCHES]
    for number, lines in enumerate(shown, 1):
        print("mismatch %d: %s" % (number, "\n".join(lines)))
    if len(shown) == MISMATCHES:
        print("it stops after %d mismatches" % MISMATCHES)
    else:
        print_table(tally)
    missing = [] if options.only or shown else tally.unseen()
    if not (options.only or shown) and options.books >= cases.FULL > tally.books:
        missing.append("%d books" % cases.FULL)
    for what in missing:
        print("never seen: %s" % what)
    print("%.0f books a second, %.1f s" % (tally.books / seconds, seconds))
    print("books: %d books, %d mismatches (seed %d)" % (tally.books, len(shown), options.seed))
    return 1 if shown or missing else 0


def parse(words: List[str]):
    parser = argparse.ArgumentParser(prog="compare.py", formatter_class=argparse.RawDescriptionHelpFormatter,
                                     description=__doc__.partition("\n\n")[2], usage=argparse.SUPPRESS)
    parser.add_argument("--seed", type=int, default=SEED, help="default %d" % SEED)
    parser.add_argument("--books", type=int, default=cases.FULL, help="about so many, default %d and some more" % cases.FULL)
    parser.add_argument("--only", choices=list(cases.FAMILIES), help="one family of books; nothing else has to be seen")
    parser.add_argument("--jobs", type=int, default=os.cpu_count() or 1, help="so many at a time")
    parser.add_argument("--timeout", type=float, default=30.0, help="seconds that a program has for a book, default 30")
    parser.add_argument("--refused-status", type=int, default=0, help="status that a program ends with on a refused book")
    parser.add_argument("--book", type=int, metavar="INDEX", help="write that book to standard output, and nothing else")
    parser.add_argument("--python", metavar="MODULE:FUNCTION")
    parser.add_argument("--exec", nargs=argparse.REMAINDER, metavar="WORD")
    parser.add_argument("runner", nargs=argparse.REMAINDER)
    options = parser.parse_args(words)
    if options.book is None and sum(map(bool, (options.python, options.exec, options.runner))) != 1:
        parser.error("one of RUNNER, --exec and --python is needed")
    return options


def compare_and_report(made: List[cases.Case], options) -> int:
    global work
    try:
        run = runners.function(options.python) if options.python \
            else runners.program(options.exec or options.runner, options.timeout)
    except runners.CannotRun as problem:
        print("compare.py: %s" % problem, file=sys.stderr)
        return 2
    work = Work(made, run, options.refused_status)
    began = time.monotonic()
    return report(compare_all(options.jobs), options, time.monotonic() - began)


def main(words: List[str]) -> int:
    options = parse(words)
    began = time.monotonic()
    made = cases.cases(options.seed, options.books, options.only)
    if options.book is not None:
        sys.stdout.buffer.write(made[options.book].book)
        return 0
    print("seed %d: %d books (made in %.1f s), %d at a time" % (options.seed, len(made), time.monotonic() - began, options.jobs),
          flush=True)
    return compare_and_report(made, options)


if __name__ == "__main__":
    sys.exit(main(sys.argv[1:]))

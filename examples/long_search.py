#!/usr/bin/env python3
"""Carries a long search on by pickups, shows how far it has come, and goes on another time with one that was stopped.

From the repository, after `tools/install --build`:

    PYTHONPATH=bindings/python python3 examples/long_search.py

or with what `tools/install PREFIX` has installed:

    PYTHONPATH=PREFIX/share/snowgimmer/python python3 examples/long_search.py

It looks for the nearest vector of 18 integers, which takes 159,546,912 nodes, some 10 seconds. A call of the library
can't be interrupted; so each has a budget of 100,000 nodes, some milliseconds, and the search is picked up again and
again. Ctrl-C stops it between two pickups, so that nothing is lost. With --save FILE it is stored then, and with
--resume FILE it goes on.

The exit status is 0 if the vector was found, 1 if it was not or a file can't be used, 2 for wrong arguments, 130 if
Ctrl-C stopped it, and 143 if it was told to end.
"""

import argparse
import os
import random
import shutil
import signal
import sys
import time

try:
    from snowgimmer import BudgetExhausted, Names, Refusal, nearest_plane, triangular_distance
except ModuleNotFoundError as fault:
    sys.exit(f"long_search: {fault}: let PYTHONPATH name the folder that holds it, bindings/python in the repository")
except ImportError as fault:
    sys.exit(f"long_search: {fault}")

NAME = 1  # of the search, one of 1 to 8
LEVELS, NODES = 18, 100_000
MOST_NODES = 10_000_000  # some tenths of a second, after which Ctrl-C is looked for


class Unusable(Exception):
    """A file that can't be used, and what to do."""


def drawn_table(n):
    """Weights, mu and target. Like those of a reduced basis the weights fall by about a half from level to level, and
    mu is at most 1/2 in magnitude. The numbers mean nothing outside of this program."""
    draw = random.Random(5)
    weights = [2.0**(n - 1 - level) * (1 + draw.random()) for level in range(n)]
    mu = [[draw.random() - 0.5 for _ in range(n)] for _ in range(n)]
    return weights, mu, [20 * draw.random() - 10 for _ in range(n)]


class Stop:
    """Notes a signal that asks to stop. By itself Python would raise KeyboardInterrupt as soon as a call has ended, and
    what the call gave would be lost."""

    def __init__(self):
        self.number = None
        for number in signal.SIGINT, signal.SIGTERM:
            signal.signal(number, self.ask)

    def ask(self, number, _frame):
        self.number = number


class Progress:
    """Shows on standard error how far the search has come: on a terminal by one line that is redrawn, else by a line
    now and then."""

    def __init__(self, nodes):
        self.terminal = sys.stderr.isatty()
        self.start = self.shown = time.monotonic()
        self.before = nodes

    def show(self, nodes, radius):
        now = time.monotonic()
        if now - self.shown < (0.1 if self.terminal else 2):
            return
        self.shown = now
        rate = (nodes - self.before) / (now - self.start) / 1e6
        text = f"{nodes:,} nodes, {rate:.1f} million a second, standing radius {radius:.6g}"
        if self.terminal:
            # a line that is longer than the terminal is wide could not be redrawn
            self.write(f"\r{text[:shutil.get_terminal_size().columns - 1]}\x1b[K")
        else:
            self.write(f"{text}\n")

    def clear(self):
        if self.terminal:
            self.write("\r\x1b[K")

    @staticmethod
    def write(text):
        print(text, end="", file=sys.stderr, flush=True)


def read(file):
    """The names that --save wrote to a file, and how many nodes the search has."""
    try:
        with open(file, "rb") as source:
            names = Names.from_bytes(source.read())
    except OSError as fault:
        raise Unusable(f"can't read {file}: {fault.strerror}") from None
    except ValueError as fault:
        raise Unusable(f"{file}: {fault}; give a file that --save wrote") from None
    try:
        names.pick_up(NAME, 0)
    except BudgetExhausted as refusal:
        return names, refusal.nodes
    except Refusal as refusal:
        raise Unusable(f"{file}: {refusal}; give a file that --save wrote") from None


def check_folder(file):
    """That the file can be written when it is time to."""
    folder = os.path.dirname(os.path.abspath(file))
    if not os.path.isdir(folder) or not os.access(folder, os.W_OK):
        raise Unusable(f"can't write {file}: {folder} is no folder, or not yours to write; name a file in another one")


def save(names, file):
    """Writes the names beside the file, and gives them its name when they are whole."""
    try:
        with open(f"{file}.new", "wb") as target:
            target.write(names.to_bytes())
        os.replace(f"{file}.new", file)
    except OSError as fault:
        raise Unusable(f"can't write {file}: {fault.strerror}; the search is lost") from None


def carried_on(names, begin, budget, nodes, stop):
    """What the search finds, or None if it was asked to stop, when it is kept under its name; and its nodes before."""
    progress, call = Progress(nodes), begin
    try:
        while True:
            try:
                return call(), nodes
            except BudgetExhausted as refusal:
                nodes, radius = refusal.nodes, refusal.radius
            if stop.number is not None:
                return None, nodes
            progress.show(nodes, radius)
            call = lambda: names.pick_up(NAME, budget)
    finally:
        progress.clear()


def parsed(words):
    head, *_, ends = __doc__.strip().split("\n\n")
    parser = argparse.ArgumentParser(prog="long_search", description=head, epilog=ends.replace("\n", " "))
    parser.add_argument("--levels", type=int, metavar="N",
                        help=f"the number of integers, {LEVELS} if not given; each more takes several times as long")
    parser.add_argument("--nodes", type=int, default=NODES, metavar="K",
                        help=f"the nodes of a pickup, {NODES:,} if not given")
    parser.add_argument("--save", metavar="FILE",
                        help="if it is stopped, store the search in FILE, with its table and target")
    parser.add_argument("--resume", metavar="FILE",
                        help="go on with the search in FILE; if it is stopped, store it there again, or as --save says")
    options = parser.parse_args(words)
    if options.levels is not None and options.resume is not None:
        parser.error("--levels is for a new search: the one in the file of --resume has its own")
    if options.levels is None:
        options.levels = LEVELS
    if not 1 <= options.levels <= 23:
        parser.error(f"--levels is {options.levels}: it has to be from 1 to 23")
    if not 1 <= options.nodes <= MOST_NODES:
        parser.error(f"--nodes is {options.nodes}: it has to be from 1 to {MOST_NODES}")
    return options


def run(options):
    file, stop = options.save or options.resume, Stop()
    if file is not None:
        check_folder(file)
    if options.resume is not None:
        names, before = read(options.resume)
        begin = lambda: names.pick_up(NAME, options.nodes)
    else:
        table, names, before = drawn_table(options.levels), Names(), 0
        # the nearest-plane point is inside this radius, which is a square, as distances are
        radius = 1.001 * triangular_distance(*table, nearest_plane(*table).point)
        begin = lambda: names.nearest(NAME, *table, radius, options.nodes)
    found, nodes = carried_on(names, begin, options.nodes, before, stop)
    if found is not None:
        print(f"nearest: {found.nodes} nodes, distance {found.distance:g}, point", *found.point)
        return 0
    if file is not None:
        save(names, file)
        told = f"stored in {file}: --resume {file} goes on with it"
    else:
        told = "and not stored: with --save FILE it is, and --resume FILE goes on with it"
    print(f"stopped after {nodes} nodes, {told}", file=sys.stderr)
    return 128 + stop.number


def main(words):
    options = parsed(words)
    try:
        return run(options)
    except (Unusable, Refusal) as fault:
        print(f"long_search: {fault}", file=sys.stderr)
        return 1


if __name__ == "__main__":
    sys.exit(main(sys.argv[1:]))

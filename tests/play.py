#!/usr/bin/env python3
"""Random scripts: plays them on an office and holds the answers to the account.

    play.py [--office PROGRAM] [--calls N] [--seed S] [--rounds R]

Only calls that are built are played (the file `built`), with refusals at random. Prints the seed of each round.
"""
import argparse
import random
import subprocess
import sys
import tempfile

import account


class Player:
    """Knows about how long each thing may be, so that most places and keys hit something."""

    def __init__(self, seed, built):
        self.r, self.built, self.size = random.Random(seed), sorted(built), {}
        self.names = [self.r.randrange(256) for _ in range(6)]
        self.grow = True

    def number(self, kind):
        r = self.r
        if r.random() < 0.01:
            return r.choice([256, 300, 1 << 32, (1 << 64) - 1, 1 << 40])
        if kind in "nm":
            return r.choice(self.names)
        if kind == "x":
            return r.randrange(1 << 64)
        return r.choice([0, 1, r.randrange(64), r.randrange(700), r.randrange(4000)])

    def lines(self, calls):
        r = self.r
        heavy = {"insert": 40, "put": 40, "delete": 14, "drop": 14, "at": 8, "get": 8, "set": 6, "free": 1, "row": 3, "table": 3}
        weights = [heavy.get(c, 4) for c in self.built]
        for _ in range(calls):
            p = r.random()
            if p < 0.05:
                yield "refuse %d" % r.choice([0, 1, 1, 2, 3, 4, 7])
            elif p < 0.055:
                yield "room %d" % r.choice([0, 1, 5, 30, 200])
            elif p < 0.08:
                yield "room 0"
            elif p < 0.1:
                yield "held"
            call = r.choices(self.built, weights)[0]
            yield " ".join([call] + [str(self.number(k)) for k in account.CALLS[call]])


def main():
    p = argparse.ArgumentParser()
    p.add_argument("--office", default="crates/office/out/office")
    p.add_argument("--calls", type=int, default=50000)
    p.add_argument("--seed", type=int, default=1)
    p.add_argument("--rounds", type=int, default=1)
    o = p.parse_args()
    built = account.built_calls(None)
    if not built:
        sys.exit("no call is built yet")
    bad = 0
    for seed in range(o.seed, o.seed + o.rounds):
        script = "\n".join(Player(seed, built).lines(o.calls)) + "\nroom 0\nheld\n"
        told = subprocess.run([o.office], input=script.encode(), stdout=subprocess.PIPE, check=True).stdout
        with tempfile.NamedTemporaryFile() as s, tempfile.NamedTemporaryFile() as t:
            s.write(script.encode())
            s.flush()
            t.write(told)
            t.flush()
            print("seed %d: " % seed, end="", flush=True)
            bad |= subprocess.run([sys.executable, account.__file__, s.name, t.name]).returncode
    sys.exit(bad)


if __name__ == "__main__":
    main()

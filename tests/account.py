#!/usr/bin/env python3
"""An account of its own of what the office should answer, over plain lists and dictionaries.

    account.py SCRIPT              prints the answers; `?` for what depends on the trees (held, and a call that may be full)
    account.py SCRIPT OUTPUT       holds what the office printed to the rules, line by line

    --built NAMES   the calls that are built, by commas (default: those of the file `built` beside this one);
                    the others are answered `no 9`
    --scarce        any block may be refused at any time
    --quiet         print nothing but the verdict

A line `?` is held to what the rules leave open: `held n` to the bound on blocks, a call during which a block may
have been refused (after `refuse`, under `room`) to `full`, with nothing changed, or to its answer.
"""
import argparse
import bisect
import os
import sys

CALLS = {  # name: kinds of its numbers; n and m are names
    "row": "n", "table": "n", "free": "n", "length": "n", "at": "ni", "set": "nix", "insert": "nix", "delete": "ni",
    "split": "nim", "join": "nm", "put": "nkx", "get": "nk", "drop": "nk", "least": "nk", "count": "nk", "nth": "ni",
    "cut": "nkm", "merge": "nm",
}
OTHERS = {"refuse": 1, "room": 1, "held": 0}
MAY_FILL = {"row", "table", "insert", "split", "join", "put", "cut", "merge"}
NAMES = 256


def number(word):
    """A decimal below 2^64, or None."""
    if not word or any(c not in b"0123456789" for c in word):
        return None
    n = int(word)
    return n if n < 1 << 64 else None


def parse(line):
    """(word, numbers) of a line without its end, or None."""
    words = line.split(b" ")
    name = words[0].decode("latin-1")
    numbers = [number(w) for w in words[1:]]
    if None in numbers:
        return None
    want = len(CALLS[name]) if name in CALLS else OTHERS.get(name, -1)
    return (name, numbers) if len(numbers) == want else None


class Row(list):
    pass


class Table:
    def __init__(self, keys=(), words=()):
        self.keys, self.words = list(keys), list(words)

    def __len__(self):
        return len(self.keys)


class Refused(Exception):
    pass


def no(number_of_reason):
    raise Refused("no %d" % number_of_reason)


class Shelf:
    def __init__(self):
        self.things = {}

    def name(self, n):
        if n >= NAMES:
            no(1)
        return n

    def thing(self, n):
        self.name(n)
        if n not in self.things:
            no(3)
        return self.things[n]

    def of(self, n, kind):
        t = self.thing(n)
        if not isinstance(t, kind):
            no(4)
        return t

    def vacant(self, n):
        self.name(n)
        if n in self.things:
            no(2)

    def bound(self):
        """So many blocks may be held."""
        return 8 + sum(2 + len(t) // (24 if isinstance(t, Row) else 12) for t in self.things.values())

    # each call: its answer, and a function that makes the change (or None)
    def ask(self, call, a):
        return getattr(self, "do_" + call)(*a)

    def do_row(self, n):
        self.vacant(n)
        return "done", lambda: self.things.__setitem__(n, Row())

    def do_table(self, n):
        self.vacant(n)
        return "done", lambda: self.things.__setitem__(n, Table())

    def do_free(self, n):
        self.thing(n)
        return "done", lambda: self.things.pop(n)

    def do_length(self, n):
        return "word %d" % len(self.thing(n)), None

    def place(self, r, i, end=0):
        if i >= len(r) + end:
            no(5)

    def do_at(self, n, i):
        r = self.of(n, Row)
        self.place(r, i)
        return "word %d" % r[i], None

    def do_set(self, n, i, x):
        r = self.of(n, Row)
        self.place(r, i)
        return "done", lambda: r.__setitem__(i, x)

    def do_insert(self, n, i, x):
        r = self.of(n, Row)
        self.place(r, i, 1)
        return "done", lambda: r.insert(i, x)

    def do_delete(self, n, i):
        r = self.of(n, Row)
        self.place(r, i)
        return "word %d" % r[i], lambda: r.pop(i)

    def do_split(self, n, i, m):
        r = self.of(n, Row)
        self.vacant(m)
        self.place(r, i, 1)

        def change():
            self.things[m] = Row(r[i:])
            self.things[n] = Row(r[:i])
        return "done", change

    def do_join(self, n, m):
        r, s = self.of(n, Row), self.of(m, Row)
        if n == m:
            no(2)

        def change():
            self.things[n] = Row(r + s)
            del self.things[m]
        return "done", change

    def do_put(self, n, k, x):
        t = self.of(n, Table)
        i = bisect.bisect_left(t.keys, k)

        def change():
            if i < len(t.keys) and t.keys[i] == k:
                t.words[i] = x
            else:
                t.keys.insert(i, k)
                t.words.insert(i, x)
        return "done", change

    def key(self, t, k):
        i = bisect.bisect_left(t.keys, k)
        if i == len(t.keys) or t.keys[i] != k:
            no(7)
        return i

    def pair(self, t, i):
        if i >= len(t.keys):
            no(7)
        return "pair %d %d" % (t.keys[i], t.words[i]), None

    def do_get(self, n, k):
        t = self.of(n, Table)
        return "word %d" % t.words[self.key(t, k)], None

    def do_drop(self, n, k):
        t = self.of(n, Table)
        i = self.key(t, k)

        def change():
            del t.keys[i], t.words[i]
        return "word %d" % t.words[i], change

    def do_least(self, n, k):
        t = self.of(n, Table)
        return self.pair(t, bisect.bisect_left(t.keys, k))

    def do_count(self, n, k):
        t = self.of(n, Table)
        return "word %d" % bisect.bisect_left(t.keys, k), None

    def do_nth(self, n, i):
        return self.pair(self.of(n, Table), i)

    def do_cut(self, n, k, m):
        t = self.of(n, Table)
        self.vacant(m)
        i = bisect.bisect_left(t.keys, k)

        def change():
            self.things[m] = Table(t.keys[i:], t.words[i:])
            self.things[n] = Table(t.keys[:i], t.words[:i])
        return "done", change

    def do_merge(self, n, m):
        t, u = self.of(n, Table), self.of(m, Table)
        if n == m:
            no(2)
        if t.keys and u.keys and not t.keys[-1] < u.keys[0]:
            no(6)

        def change():
            self.things[n] = Table(t.keys + u.keys, t.words + u.words)
            del self.things[m]
        return "done", change


class Office:
    """What is answered to each line; where the rules leave it open, what was told decides."""

    def __init__(self, built, scarce=False):
        self.built, self.scarce, self.shelf = built, scarce, Shelf()
        self.refuse, self.room, self.line = 0, 0, 0

    def turn(self, text, told):
        """The answer to a line, None for none; `told` is what was printed, None if that isn't known."""
        self.line += 1
        asked = parse(text)
        if asked is None:
            return "line %d?" % self.line
        name, numbers = asked
        if name == "held":
            return self.held(told)
        if name == "refuse":
            self.refuse = numbers[0]
            return None
        if name == "room":
            self.room = numbers[0]
            return None
        may_be_refused = (self.refuse or self.room or self.scarce) and name in MAY_FILL
        self.refuse = 0
        if name not in self.built:
            return "no 9"
        try:
            answer, change = self.shelf.ask(name, numbers)
        except Refused as r:
            return str(r)
        if may_be_refused and told == "full":
            return "full"
        if may_be_refused and told is None:
            sys.exit("line %d: the answer depends on what was told before; give the output too" % self.line)
        if change:
            change()
        return answer

    def held(self, told):
        if told is None:
            return "?"
        words = told.split(" ")
        good = len(words) == 2 and words[0] == "held" and words[1].isdigit() and int(words[1]) <= self.shelf.bound()
        return told if good else "held at most %d" % self.shelf.bound()


def lines_of(data):
    """The lines of a file; a last one may lack its end."""
    parts = data.split(b"\n")
    return parts[:-1] if parts[-1] == b"" else parts


def built_calls(names):
    if names is None:
        names = open(os.path.join(os.path.dirname(os.path.abspath(__file__)), "built"), encoding="ascii").read()
    built = set(names.replace(",", " ").split())
    if built - set(CALLS):
        sys.exit("no such call: %s" % ", ".join(sorted(built - set(CALLS))))
    return built


def main():
    p = argparse.ArgumentParser()
    p.add_argument("script")
    p.add_argument("output", nargs="?")
    p.add_argument("--built")
    p.add_argument("--scarce", action="store_true")
    p.add_argument("--quiet", action="store_true")
    o = p.parse_args()
    office = Office(built_calls(o.built), o.scarce)
    script = lines_of(open(o.script, "rb").read())
    told = open(o.output, encoding="ascii").read().split("\n")[:-1] if o.output else None
    at = wrong = 0
    for text in script:
        was = (told[at] if at < len(told) else "(nothing)") if told is not None else None
        answer = office.turn(text, was)
        if answer is None:
            continue
        at += 1
        if told is None:
            print(answer)
        elif answer != was:
            wrong += 1
            if not o.quiet and wrong <= 20:
                print("line %d, %s: told %s, should be %s" % (office.line, text[:60].decode("latin-1"), was, answer))
    if told is not None:
        wrong += abs(len(told) - at)
        print("%d answers, %d wrong" % (at, wrong))
        sys.exit(1 if wrong else 0)


if __name__ == "__main__":
    main()

#!/usr/bin/env python3
"""Prints a function's MIR, one statement to a line, numbered as a walk by hand counts them.

    rt check --allow-holes --generated DIR        first, in the crate's folder, with a DIR outside the repository
    python3 tools/mir.py DIR CRATE PATH/FUNCTION  as: mir.py /tmp/g heap Heap/read

The statements of a block, of an arm or of a loop stand indented below it.
"""
import re
import sys

if len(sys.argv) != 4:
    sys.exit(__doc__)
folder, crate, path = sys.argv[1:]
text = open("%s/Rattle-%s-proofs/%s/Code/Mir.antt" % (folder, crate, path), encoding="utf-8").read()
text = text.split("abbrev pub table")[0].replace("Syntax.", "").replace("List.◌∷◌", "∷").replace("List.[]", "[]").replace(",", " , ")
callees = {}
for route, name in re.findall(r"^use (\S+)\.Symbol(?: as (\S+))?$", text, re.M):
    callees[(name or "Symbol") + ".name"] = route


def parse(source):
    """The terms of SOURCE: a word, or a list of terms for what stands in brackets."""
    stack = [[]]
    for word in re.findall(r"[()]|[^\s()]+", source):
        if word == "(":
            stack.append([])
        elif word == ")":
            done = stack.pop()
            stack[-1].append(done)
        else:
            stack[-1].append(word)
    return stack[0]


def show(term):
    if isinstance(term, str):
        return term
    if len(term) == 3 and term[0] == "∷":
        items = []
        while isinstance(term, list) and len(term) == 3 and term[0] == "∷":
            items.append(term[1])
            term = term[2]
        if len(items) > 2 and all(isinstance(i, str) and i.isdigit() for i in items):
            return '"%s"' % "".join(chr(int(i)) for i in items)
        return "[%s]" % ", ".join(show(i) for i in items)
    if "," in term:
        parts, rest = [], list(term)
        while "," in rest:
            parts.append(rest[:rest.index(",")])
            rest = rest[rest.index(",") + 1:]
        return "(%s)" % ", ".join(show(p[0] if len(p) == 1 else p) for p in parts + [rest] if p)
    head = term[0] if term else ""
    if head == "call" and len(term) == 4:
        callee = term[1] if isinstance(term[1], str) else term[1][0]
        return "call %s %s %s" % (callees.get(callee, callee), show(term[2]), show(term[3]))
    if head == "deref":
        return "deref"
    if head == "place":
        return "_%s%s" % (term[1], "" if term[2] == "[]" else " " + show(term[2]))
    return "(%s)" % " ".join(show(t) for t in term)


def body(term, depth, label=""):
    pad = "    " * depth
    head = term if isinstance(term, str) else term[0]
    if head == "seq":
        n = 1
        while isinstance(term, list) and term[0] == "seq":
            body(term[1], depth, "%d  " % n)
            term, n = term[2], n + 1
        body(term, depth, "%d  " % n)
    elif head in ("block", "loop"):
        print(pad + label + head)
        body(term[1], depth + 1)
    elif head == "cond":
        print("%s%sif %s" % (pad, label, show(term[1])))
        body(term[2], depth + 1)
        print(pad + "   else")
        body(term[3], depth + 1)
    else:
        line = show(term)
        print(pad + label + (line[1:-1] if line.startswith("(") else line))


for name, value in re.findall(r"^abbrev pub by_name-s-\d+ : Body\s+by_name-s-(\d+) =(.*?)(?=^abbrev pub|\Z)", text, re.S | re.M):
    terms = parse(value)
    body(terms[0] if len(terms) == 1 else terms, 0, "%s  " % name)

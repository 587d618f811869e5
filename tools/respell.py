#!/usr/bin/env python3
"""Brings the spelling of a repository of an older Rattle to today's, after /opt/rattle/port/port.py: python3 tools/respell.py [FOLDER]

1. The repository's own definitions and lemmas go to snake case: what crates/*/specs and crates/*/proofs/*.antt define is
   written anew wherever it stands in .antt, .rt and .edit files. Names that begin with a capital (types, and laws named
   after them) stay, and so do functions of src/, strings and comments of .rt files.
2. `ground` is a word that clauses may not use: the ghost member of `Blocks` becomes `as_ground`, the definition `after_asking`.
3. Ghost members get the bound that they belong to: `W.Store.memory`, `B.Blocks.as_ground`, `C.Codec.width`, `K.Node.Codec`.
4. In answers and invariants the names that Rattle makes of names of the code keep their underscores.
5. Each root file gets `#![tactic(auto)]`.

It is kept so that what had landed can be turned again and set beside today's text. Run it once.
"""

import os
import re
import sys

SEPARATES = re.compile(r"([\s(){}\[\],.;:@`\"]+|λ)")
DEFINES = re.compile(r"^(?:pub |abbrev |unfoldable )*([^\s(){}\[\],.;:]+) : ")
WORD = re.compile(r"^[a-z][A-Za-z0-9'₀-₉_+-]*$")

# names whose plain spelling would fall together with another
CHOSEN = {
    "attach-asks": "asks_to_attach",
    "climb-asks": "asks_to_climb",
    "cut-asks": "asks_to_cut",
    "leaf-asks": "asks_of_leaf",
    "look-asks": "asks_to_look",
    "next-asks": "asks_of_next",
    "node-asks": "asks_of_node",
    "side-asks": "asks_of_side",
    "turn-asks": "asks_of_turn",
    "put-undone": "undone_by_put",
    "tall-blocks": "blocks_when_tall",
    "tall-contents": "contents_when_tall",
    "tall-uses": "uses_when_tall",
    "no-pair": "without_pair",
    "of-table": "on_table",
    "counts-++": "counts_of_append",
    "all-built": "all_are_built",
    "core-built": "core_is_built",
    "keys-rise": "keys_stay_rising",
    "parted-and-joined": "joined_again",
    "drop-none": "drops_none",
    "blockWord": "word_of_block",
    "blocksAbove": "blocks_over",
    "blocksFor": "blocks_needed",
    "blocksIn": "blocks_within",
    "blocksToAttach": "attach_blocks",
    "entryWord": "word_of_entry",
    "firstKey": "front_key",
    "firstPair": "front_pair",
    "isFull": "limit_reached",
    "leafEntry": "entry_of_leaf",
    "mostEntries": "most_on_page",
    "next-child": "following_child",
    "pair-at": "pair_found_at",
    "word-at": "word_found_at",
    "runOn": "run_after",
    "stillFront": "front_after",
}


def files(root, *endings):
    for folder, dirs, names in os.walk(os.path.join(root, "crates")):
        dirs[:] = sorted(d for d in dirs if d != "out")
        for name in sorted(names):
            if name.endswith(endings):
                yield os.path.join(folder, name)


def is_lemma_file(root, path):
    parts = os.path.relpath(path, root).split(os.sep)
    return parts[2] == "specs" or (parts[2] == "proofs" and len(parts) == 4)


def read(path):
    with open(path, encoding="utf-8") as f:
        return f.read()


def defined(root):
    found = set()
    for path in files(root, ".antt"):
        if not is_lemma_file(root, path):
            continue
        for line in read(path).split("\n"):
            m = DEFINES.match(line.strip())
            if m and WORD.match(m.group(1)):
                found.add(m.group(1))
    return found


def snake(name):
    name = name.replace("getD", "get_or").replace("++", "append")
    name = re.sub(r"(?<=[a-z0-9])([A-Z])", lambda m: "_" + m.group(1).lower(), name)
    return name.replace("-", "_")


def words(root):
    """Every word of the repository's sources, to see which new names fall together with one."""
    found = {}
    for path in files(root, ".antt", ".rt"):
        for token in SEPARATES.split(read(path)):
            found.setdefault(token, set()).add(os.path.relpath(path, root))
    return found


def turned(text, names, is_code):
    out = []
    for line in text.split("\n"):
        if is_code and line.lstrip().startswith("//"):
            out.append(line)
            continue
        out.append("".join(names.get(token, token) for token in SEPARATES.split(line)))
    return "\n".join(out)


def write(path, text, new):
    if new != text:
        with open(path, "w", encoding="utf-8") as f:
            f.write(new)


def respell(root):
    names = {}
    for name in defined(root):
        new = CHOSEN.get(name, snake(name))
        if new != name:
            names[name] = new
    seen = words(root)
    backward = {}
    for name, new in sorted(names.items()):
        if new in backward:
            print(f"falls together: {name} and {backward[new]}: {new}")
        if new in seen:
            print(f"is there: {name}: {new} in {sorted(seen[new])[:4]}")
        backward[new] = name
    for path in files(root, ".antt", ".rt", ".edit"):
        text = read(path)
        write(path, text, turned(text, names, path.endswith(".rt")))


CLAUSE = re.compile(r"(requires|ensures|ghost)\b")
GROUND = re.compile(r"(?<!\w)ground(?![\w'])")
ALONE = r"(?<![\w.])%s (?=[a-z])"


def is_trait_below(path):
    """The traits' own files, in which a member stands alone."""
    return path.endswith(("store/src/lib.rt", "things/src/lib.rt"))


def name_ground(path, line):
    bare = line.strip()
    if path.endswith(".rt") and not CLAUSE.match(bare) or bare.startswith("--"):
        return line
    line = GROUND.sub("as_ground", line)
    return line.replace(".proofs.as_ground.", ".proofs.ground.").replace("-as_ground", "-ground")


def name_bounds(path, line):
    bare = line.strip()
    if not bare.startswith(("requires", "ensures")):
        return line
    if "/page/src/page/" in path:
        line = line.replace("entries width decode", "entries C.Codec.width C.Codec.decode")
    line = line.replace("Node-as-Codec.", "K.Node.Codec.").replace("Leaf-as-Codec.", "K.Leaf.Codec.")
    if is_trait_below(path):
        return line
    line = re.sub(ALONE % "memory", "W.Store.memory ", line)
    if not re.search(r"/(heap|heaptour|ration|lent)/", path):
        line = re.sub(ALONE % "as_ground", "B.Blocks.as_ground ", line)
    return line


def turn_things(path, text):
    """In the trait above `Blocks` its member is named in full, and so is a bound's in `times`."""
    if not path.endswith("things/src/lib.rt"):
        return text
    i, j = text.index("pub trait Bounds"), text.index("// Whoever asks.")
    text = text[:i] + re.sub(r"(?<![\w.])as_ground", "Self.Blocks.as_ground", text[i:j]) + text[j:]
    text = text.replace("AtStart (as_ground b.old)", "AtStart (B.Blocks.as_ground b.old)")
    return text.replace("requires nothing { shelf u.old", "requires nothing { U.Users.shelf u.old")


def label_words(root):
    """The names of the code that have an underscore, as an older Rattle wrote them in what it made."""
    found = {"copy_from_slice"}
    for path in files(root, ".rt"):
        found.update(re.findall(r"\b[a-z][a-z0-9]*(?:_[a-z0-9]+)+\b", read(path)))
    return {name.replace("_", "-"): name for name in found}


def mend_label(labels, token):
    parts, out, i = token.split("-"), [], 0
    while i < len(parts):
        for j in range(len(parts), i, -1):
            whole = "-".join(parts[i:j])
            if j > i + 1 and whole in labels:
                out.append(labels[whole])
                break
        else:
            j = i + 1
            out.append(parts[i])
        i = j
    return "-".join(out)


def turn_answers(labels, path, text):
    out = []
    for line in text.split("\n"):
        if not line.startswith("use ") or "Goals" in line:
            line = re.sub(r"[A-Za-z0-9_'-]+", lambda m: mend_label(labels, m.group(0)), line)
        out.append(line)
    text = "\n".join(out).replace("invariant-of-", "invariant_of-").replace("type-inv", "type_inv")
    text = re.sub(r"\boverflow-(cast|add|mul|sub|div|rem|neg|shl|shr)\b", r"overflow_\1", text)
    text = re.sub(r"\bin-(ok|err|default)\b", r"in_\1", text.replace("from-residual", "from_residual"))
    if "/page/" not in path:
        text = re.sub(r"\bg\.(Leaf|Node|Item)\.", r"g.K.\1.", text)
        text = re.sub(r"\bg\.met\.(Leaf|Node)\.", r"g.met.K.\1.", text)
    return text


def has_tactic(path, text):
    if not re.search(r"/crates/\w+/src/(lib|main)\.rt$", path) or "tactic(auto)" in text:
        return text
    lines, i = text.split("\n"), 0
    while lines[i].startswith("//"):
        i += 1
    return "\n".join(lines[:i] + ["#![tactic(auto)]", ""] + lines[i:])


def turn_members(root):
    labels = label_words(root)
    for path in files(root, ".antt", ".rt"):
        text = read(path)
        if path.endswith("things/specs/Ground.antt"):
            new = re.sub(r"(?<![\w.])ground(?= f m g|(?= :)| g\.block| \(at)", "after_asking", text)
        else:
            new = "\n".join(name_bounds(path, name_ground(path, line)) for line in text.split("\n"))
        new = has_tactic(path, turn_things(path, new))
        parts = os.path.relpath(path, root).split(os.sep)
        if parts[2] == "proofs" and len(parts) > 4 and parts[-1] != "Proof.antt":
            new = turn_answers(labels, path, new)
        write(path, text, new)


def main():
    root = os.path.abspath(sys.argv[1] if len(sys.argv) > 1 else ".")
    respell(root)
    turn_members(root)


main()

#!/usr/bin/env python3
"""Writes the fixed text of a walk by hand, with holes: of a method with `&mut self` and unsigned numbers, of a struct that owns memory.

    python3 tools/skeleton.py CRATE TYPE PATH FUNCTION [--params b:u32,x:u64] [--result unit|bool|u8|u16|u32|u64|usize]
                              [--opens FILE:NAME] [--requires held,inside] [--ensures 1|2]

CRATE       the crate, as heap
TYPE        the struct, as Heap
PATH        where the proof stands below proofs/, as Heap
--params    the parameters after `&mut self`
--opens     for a struct with a `view`: the file of proofs/ that has NAME_opens and NAME_closes, as OpenHeap:heap; without it, std's `opens` and `closes`
--requires  a name for each fact of `requires`, in order, by which the walk cites it; the check finds what it says
--ensures   how many facts `ensures` has; 2 takes `says_two` from proofs/Facts.antt

It prints a Proof.antt with holes at the value at the exit, at a result, for the walk, and at each fact of `ensures`.
Take it as crates/CRATE/proofs/PATH/FUNCTION/Proof.antt, and check with --allow-holes. `rt tidy` drops the imports that are left over.
"""
import argparse
import sys

options = argparse.ArgumentParser(usage=__doc__)
for name in ("crate", "type", "path", "function"):
    options.add_argument(name)
options.add_argument("--params", default="")
options.add_argument("--result", default="unit")
options.add_argument("--opens", default="")
options.add_argument("--requires", default="")
options.add_argument("--ensures", type=int, default=1, choices=(1, 2))
o = options.parse_args()

BITS = {"u8": 8, "u16": 16, "u32": 32, "u64": 64, "usize": 64}
TAKEN = "c W 𝓣 M y a l are bounds κs qs h h' rb ro numbers r fits rest f R code stayed kept la lf fs s seen us".split()
params = [p.strip().split(":") for p in o.params.split(",") if p.strip()]
facts = [p.strip() for p in o.requires.split(",") if p.strip()]
if [p for p in params if len(p) != 2 or p[1] not in BITS] or o.result not in ["unit", "bool"] + list(BITS):
    sys.exit("skeleton.py: a parameter is NAME:TYPE, and a TYPE one of " + " ".join(BITS))
for p in [p for p, _ in params] + facts:
    if p in TAKEN:
        sys.exit("skeleton.py: the walk has its own %s: give another name" % p)
n = len(params)
types = [t for _, t in params]
width = lambda t: "w%d" % BITS[t]


def nest(items):
    text = "tt"
    for item in reversed(items):
        text = "(%s, %s)" % (item, text)
    return text


def listed(items):
    return "(%s)" % " ∷ ".join(items + ["[]"]) if items else "[]"


# the result: as the machine has it, as the contract has it, its holes, and the last step
if o.result == "unit":
    value, result, chosen, last, brings = "vunit", "tt", "", "feq_i ! _ (vunit ∷ []) _ refl", ""
elif o.result == "bool":
    value, result, chosen, last, brings = "(vbool r)", "r", "let r : Bool = ? in ", "owns_it ! bool _ (bool_Makes 𝓛) r _ refl", "bool_Makes"
else:
    w = width(o.result)
    value, result, brings = "(vint %s r)" % w, "r", "uint_Makes"
    chosen = "let r : ℕ = ? in let fits : r < 2 ^ %d = ? in " % BITS[o.result]
    last = "owns_it ! %s _ (uint_Makes 𝓛 %s) r _ (refl, fits)" % (o.result, w)

crate, function = o.crate, o.function
struct, path = o.type.strip("/").replace("/", "."), o.path.strip("/").replace("/", ".")
file, _, short = o.opens.partition(":")
if o.opens and not short:
    sys.exit("skeleton.py: --opens is FILE:NAME")
opens = "%s_opens ! tt s rb ro (λ h seen kept la lf fs." % short if short else "opens ! tt R rb ro (λ us."
entry, fields, last_value = ("s", "Inside", "(view h')") if short else ("h", "R.Denot", "h'")
closes = "%s_closes ! tt h' ? rb ro" % short if short else "closes ! tt R h' us rb ro"
extra = ["use Rattle.%s.proofs.Facts.{says_two}" % crate] if o.ensures == 2 else []
if short:
    extra += ["use Rattle.%s.specs.declared.%s.TheInside.{Inside}" % (crate, struct), "use Rattle.%s.specs.declared.%s.TheView.{view}" % (crate, struct)]
    extra += ["use Rattle.%s.proofs.%s.{%s_opens, %s_closes}" % (crate, file.replace("/", "."), short, short)]
required = " ⊛ ".join(["raw (fact 𝓤 _)"] * len(facts))
heard = "".join(("split ! $ " if k < len(facts) else "") + "heard ! _ (λ %s. " % fact for k, fact in enumerate(facts, 1))

print("""-- `%(function)s`. Assumes `Logic`.
use Rattle.std.proofs.Common.{◌≡◌, ℕ, ◌+◌, ◌*◌, ◌^◌, ◌<◌, Bool, List, [], ◌∷◌, length, get_or, set, refl, sym, ap, ◌∙◌, length-set, arith, w8, w16, w32, w64}
use Rattle.std.proofs.VecSteps.Shapes.{after}
use Rattle.std.proofs.raw_atomic.Walks.{proved}
use base.Fml.{ftrue, fat, flft, fobs, fbor}
use base.Fraction.{full_share}
use base.Logic.{id⊢}
use mir.Syntax.{ty_int, named}
use mir.Val.{Val, vint, vbool, vptr, vunit}
use contract.Monad.{fact}
use contract.Running.{tables}
use types.Kit.{‵, raw, ◌⊛◌, given, prop, Sq, at_ret, ◌$◌, ◌∵◌, !, step, qed, done, move, keep, use1, use2, learn, split, join, fsplit, fsplit3, fjoin, feq_i, rewrite, suffices, frame, group}
use types.Part.{whole, sub, look_in}
use types.Run.{enter, of_opd, lit, unit_lit, un, bin, addr, load, look, store, stop, fld, hop, assigns, assigns_last, first, blocks, exec, returns, well_typed}
use types.SemTy.{Body}
use types.ByLocal.{alloc_all, pass_all, free_all, look_at, get, through, sets, sets_last, env}
use denote.Builtin.{u8, u16, u32, u64, usize, bool}
use denote.Exit.{yes}
use denote.Laws.{shows}
use denote.Memory.{mem, cell_at}
use denote.Plain.{uint_in, uint_out, uint_vals, uint_Tells%(brings)s}
use denote.RattleType.{owns, Valss}
use denote.Ref.{MutRef, mut_at, mut_vals, mut_Tells}
use denote.Signature.{plain}
use denote.Steps.{nothing, heard, owned as owns_it, opens, closes, peeks}
use denote.Triple.Walked.{Stays, walk_of, says, stay_dropped, Goes-dropped, stay_ref, Goes-ref, ends_at}
use Rattle.%(crate)s.specs.contracts.%(struct)s.{the_row as R}
use Rattle.%(crate)s.specs.contracts.%(path)s.%(function)s as f
%(extra)suse Rattle.%(crate)s.proofs.%(path)s.%(function)s.Statement.{statement}
use Rattle.%(crate)s.proofs.%(path)s.%(function)s.Code as code

abbrev stayed : Stays f.ended.signature.params f.ended.kept
stayed = %(stayed)s

pub %(function)s_spec : {M : Type 1} → statement M
%(function)s_spec 𝓤 𝓛 𝓜 𝓡 wired =
    let c = f.clauses 𝓛 𝓜.mem 𝓡.returns in let W = walk_of 𝓛 f.ended stayed c in let 𝓣 = tables 𝓤 𝓛.H 𝓜 𝓡 𝓡.env in
    proved 𝓛 f.ended stayed c 𝓜 𝓡 %(goes)s
    f.Key.name code.function (code.unfolded 𝓤 𝓛.H 𝓜 𝓡 wired)
    (λ κs. %(vals)s) (λ κs. %(tells)s) (λ κs qs bounds a _ are.
    let rb = a.0.ref_ptr.0 in let ro = a.0.ref_ptr.1 in let %(entry)s = a.0.now in%(names)s
    let numbers : Valss %(rows)s = %(numbers)s in
    let y : W.Ghost = ((κs, qs, bounds, a, (mut_vals a.0, numbers)), tt) in
    qed 𝓛 (((‵ (flft κs.0 qs.0) ⊛ ‵ ftrue) ⊛ ‵ ((MutRef (named 0) κs.0 R).own_val a.0 (mut_vals a.0)) ⊛ ‵ (owns %(rows)s a.1 numbers)) ∷ %(required)s ∷ []) ∵
%(heard)s    split ! $ split ! $ move ! (2 ∷ []) $ split ! $ keep ! (0 ∷ 2 ∷ []) $
    -- [self; the token of its lifetime]
    enter ! _ _ _ _ _ $
    alloc_all ! (λ l. pass_all ! refl %(passed)s $
    fsplit3 ! $ move ! (1 ∷ 2 ∷ 3 ∷ []) $
    %(opens)s
    -- the value at the exit, as record h { .. }. Steps that open more go above this line
    %(chosen)slet h' : %(fields)s = ? in
    step (λ (rest : Sq 𝓛 (‵ (fobs a.0.ghost_name (R.coded.code %(last_value)s)) ∷ ‵ (fbor κs.0 (Body (mem R) rb ro a.0.ghost_name)) ∷ ‵ (flft κs.0 qs.0) ∷ ‵ (mut_at a.0 (mut_vals a.0)) ∷ []) (prop (W.post y %(value)s))).
    -- the walk, a line for each statement, and then: %(closes)s $ returns ! (look_at ! 0 refl) $ free_all ! refl $ rest
    ?) $
    -- [two parts of self; the token; self's first part]
    move ! (3 ∷ []) $
    suffices ! _ (ends_at 𝓛 f.ended stayed c y %(value)s %(result)s %(lasts)s %(fit)s) $ %(says)s $
    group ! 3 $ nothing ! $ %(joined)smove ! (1 ∷ 0 ∷ []) $ join ! $ nothing ! $ move ! (2 ∷ 0 ∷ []) $ join ! $ frame ! $ frame ! $
    %(last)s $ done !)))%(closed)s""" % dict(
    function=function, crate=crate, struct=struct, path=path, brings=", " + brings if brings else "", extra="".join(line + "\n" for line in extra),
    stayed=nest(["stay_ref (0 ∷ []) tt (plain (λ _. R))"] + ["stay_dropped _ yes"] * n),
    goes=nest(["Goes-ref 𝓛 1 0 tt (plain (λ _. R))"] + ["Goes-dropped 𝓛 1 (plain (λ _. %s)) yes (λ κs x w. refl)" % t for t in types]),
    vals=nest(["mut_vals"] + ["uint_vals " + width(t) for t in types]), tells=nest(["mut_Tells (named 0) κs.0 R"] + ["uint_Tells " + width(t) for t in types]),
    names="".join(" let %s = a%s.0 in" % (p, ".1" * k) for k, (p, _) in enumerate(params, 1)), rows=listed(types), numbers=nest(["vint %s %s ∷ []" % (width(t), p) for p, t in params]),
    required=("(%s)" % required if len(facts) > 1 else required) or "‵ ftrue", heard="    move ! (1 ∷ []) $ %s\n" % heard.strip() if facts else "",
    passed=nest(["(tt, tt)"] + ["(tt, record { fits = are%s.0.1 })" % (".1" * k) for k in range(1, n + 1)]), opens=opens, closes=closes, entry=entry, fields=fields, last_value=last_value, chosen=chosen, value=value, result=result,
    lasts=nest([last_value.strip("()") if last_value != "h'" else "h'"] + ["tt"] * n), fit=nest(["tt"] * (n + 1)), says=("says ! ?", "says_two ! (?, ?)")[o.ensures - 1], joined="nothing ! $ join ! $ " * n, last=last, closed=")" * len(facts)))

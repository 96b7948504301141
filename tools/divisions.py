"""Prints the laws of remainders of which linear arithmetic makes facts: their tables of rule lines, the list of them, the lines on
which they stand, and the answers that say that each table is allowed. They are searched for here.

    python3 tools/divisions.py crates/nq_division_laws
"""
import os, sys
sys.dont_write_bytecode = True
from facts import DIFFERENCES, ENDS, FIXES, IRREFLEXIVE, LESS, NUMBERS, as_clause, by_size, cases, difference_is_number, last, ordinal_less, positive_is_more, rule, size_of_number, under_more
from replays import L, R, named, no, table
from balances import show, subst
from printing import term

OWN = {"REMAINDER"}
DIVIDED = R("(IF (ZEROP Y) F (IF (LESSP X Y) F T))")
TESTS = ["(ZEROP Y)", "(LESSP X Y)"]
TAKEN = R("(DIFFERENCE X Y)")

# the lines on which the laws stand

def difference_is_less():
    less = L.axiom("LESSP", 2)
    chain = L.cut(less, L.inst(named["less_is_transitive"], {"X": "Z", "Y": R("(SUB1 X)"), "Z": "X"}), R("(LESSP (SUB1 X) X)"))
    tests = ["(ZEROP Y)", "(ZEROP (SUB1 X))", "(ZEROP (SUB1 Y))"]
    lemmas = NUMBERS + [chain, less, positive_is_more(), named["zero_is_zero"]]
    line = by_size("(IF (ZEROP X) T (IF (ZEROP Y) T (LESSP (DIFFERENCE X Y) X)))", "X", {"Y": R("(SUB1 Y)")}, [], tests, lemmas=lemmas, rules=DIFFERENCES)
    return as_clause(line, "(ZEROP X) | (ZEROP Y) | (LESSP (DIFFERENCE X Y) X)")

def difference_falls():
    number, size = difference_is_number(), last(size_of_number(), "(NOT (NUMBERP X)) | (EQUAL (COUNT X) X)")
    below = L.cut(number, L.inst(ordinal_less(), {"X": TAKEN, "Y": "X"}), ("NUMBERP", TAKEN))
    below = last(L.cut(named["not_zero_is_number"], below, R("(NUMBERP X)")), "(ZEROP X) | (EQUAL (ORD-LESSP (DIFFERENCE X Y) X) (LESSP (DIFFERENCE X Y) X))")
    sizes = [L.cut(number, L.inst(size, {"X": TAKEN}), ("NUMBERP", TAKEN)), last(L.cut(named["not_zero_is_number"], size, R("(NUMBERP X)")), "(ZEROP X) | (EQUAL (COUNT X) X)")]
    goal = [no(DIVIDED), R("(ORD-LESSP (COUNT (DIFFERENCE X Y)) (COUNT X))")]
    return L.within(cases(goal, ["(ZEROP X)", *TESTS], lemmas=ENDS + [difference_is_less()], rules=[below, *sizes, LESS[2]]), goal)

def difference_keeps_less():
    chain = L.inst(named["less_is_transitive"], {"X": TAKEN, "Y": "X"})
    return L.cut(difference_is_less(), chain, ("LESSP", TAKEN, "X"))

# each with the two on which it stands
STEPS = [("difference_is_less", difference_is_less, "size_falls", "less_is_transitive"),
         ("difference_falls", difference_falls, "size_falls", "difference_is_less"),
         ("difference_keeps_less", difference_keeps_less, "difference_is_less", "less_is_transitive")]

# the laws

def by_division(claim, base, step, **how):
    """by induction on the size of X, where Y is taken away from X"""
    p, s = R(claim), {"X": TAKEN}
    first = cases([DIVIDED, p], base, **how)
    then = cases([no(DIVIDED), no(subst(s, p)), p], step, **how)
    ordinal = L.inst(named["size_is_ordinal"], {"X": "X"})
    return L.induct(p, ("COUNT", "X"), ordinal, first, [(DIVIDED, then, [(difference_falls(), s)])])

def remainders():
    opened = dict(opens=[R("(REMAINDER X Y)")])
    rules = [rule("(ZEROP Y) | (LESSP X Y) | (EQUAL (REMAINDER X Y) (REMAINDER (DIFFERENCE X Y) Y))", **opened), rule("(ZEROP Y) | (NOT (LESSP X Y)) | (EQUAL (REMAINDER X Y) (FIX X))", **opened)]
    all_rules = rules + [named["remainder_where_zero"]]
    yield "remainder_is_number", by_division("(NUMBERP (REMAINDER X Y))", TESTS, TESTS, lemmas=ENDS + [named["fix_is_number"]], rules=all_rules)
    line = by_division("(IF (ZEROP Y) T (LESSP (REMAINDER X Y) Y))", TESTS + ["(ZEROP X)"], TESTS, lemmas=ENDS + [positive_is_more()], rules=rules + FIXES)
    yield "remainder_is_less", under_more(as_clause(line, "(ZEROP Y) | (LESSP (REMAINDER X Y) Y)"), "Y")
    how = dict(lemmas=ENDS + [IRREFLEXIVE, difference_keeps_less()], rules=all_rules + FIXES + [named["nothing_less_than_zero"], LESS[2]])
    yield "remainder_is_no_more", by_division("(NOT (LESSP X (REMAINDER X Y)))", TESTS + ["(ZEROP X)"], TESTS + ["(ZEROP X)"], **how)

# printing

LAWS = """//! The laws of remainders that show facts. They are printed.
ghost use Rattle.std.specs.Prelude.{◌∷◌, [], IsSome};
ghost use Rattle.nq_division_laws.specs.LawClauses.{difference_falls_clause, difference_keeps_less_clause};
ghost use Rattle.nq_replay.specs.Replaying.{law_clause};

%(uses)suse nq_replay::Law;

/// A law of remainders, by induction on a size, which falls where a number is taken away from one that is no smaller.
#[derive(Clone, Copy, Debug, PartialEq, Eq)]
pub enum DivisionLaw {
%(variants)s}

/// The table of a law, after the two lines on which they stand.
pub fn division_table(law: DivisionLaw) -> Law
    ensures { IsSome (law_clause result (difference_falls_clause ∷ difference_keeps_less_clause ∷ [])) }
{
    match law {
%(arms)s    }
}
"""
CLAUSES = """-- The clauses on which the laws of remainders stand. They are printed.
use Rattle.std.specs.Prelude.{List, [], ◌∷◌}
use Rattle.nq_logic.specs.Terms.{Term}
use Rattle.nq_logic.specs.Words.{variable, call0, call1, call2, call3}
"""
UNFOLDING = "unfolding law_line law_clause symbols_of number_of tree_depth\n"
ANSWERS = """use Rattle.std.proofs.Common.{refl}
use Rattle.nq_logic.specs.Ground.{symbols_of}
use Rattle.nq_logic.specs.Numerals.{number_of}
use Rattle.nq_logic.specs.Sizes.{tree_depth}
use Rattle.nq_replay.specs.Replaying.{law_line, law_clause}
use Rattle.nq_division_laws.proofs.%s.Goals as goal
"""
STEPS_HEAD = """//! The lines on which the laws of remainders stand: that a difference is smaller. They are printed.
ghost use Rattle.std.specs.Prelude.{◌≡◌, ◌∷◌, [], IfOk, Some};
ghost use Rattle.nq_division_laws.specs.LawClauses.{%s};
ghost use Rattle.nq_kernel.specs.Growing.{WorkStands, LineHolds};
ghost use Rattle.nq_replay.specs.LawClauses.{less_is_transitive_clause, size_falls_clause};
ghost use Rattle.nq_replay.specs.Replaying.{law_clause};
ghost use Rattle.nq_replay.specs.Uncounted.{GrowsUncounted};

%suse nq_history::History;
use nq_kernel::Work;
use nq_replay::{Law, replay};
use std::alloc::AllocError;
"""
STEP = """
/// The table of %(cl)s.
fn %(nm)s_law() -> Law
    ensures { law_clause result (%(one)s_clause ∷ %(two)s_clause ∷ []) ≡ Some %(nm)s_clause }
{
    %(up)s
}

/// Adds the line of %(cl)s, after those of `%(one)s` and `%(two)s`.
pub fn %(nm)s(work: &mut Work, history: &History, first: u64, second: u64) -> Result<u64, AllocError>
    requires stands { WorkStands history.now work.old }
    requires first { LineHolds work.old first %(one)s_clause }
    requires second { LineHolds work.old second %(two)s_clause }
    ensures line { IfOk result (λ n. LineHolds work.new n %(nm)s_clause) }
    ensures grows { GrowsUncounted history.now work.old work.new }
{
    let law = %(nm)s_law();
    replay(work, history, law, &[first, second])
}
"""
STEP_ANSWERS = """use Rattle.std.proofs.Common.{[], ◌∷◌}
%(imports)suse Rattle.nq_division_laws.proofs.LawLemmas.{two_stand, two_law, by_table_of_two}
use Rattle.nq_division_laws.proofs.steps.%(nm)s.Goals as goal

pub replay-requires-clause-known : goal.replay-requires-clause-known
replay-requires-clause-known c = two_stand c.args.work.now c.args.first c.args.second %(one)s_clause %(two)s_clause c.requires.first c.requires.second

pub replay-requires-clause-law : goal.replay-requires-clause-law
replay-requires-clause-law c = two_law c.args.work.now c.args.first c.args.second c.%(nm)s_law-law.result %(one)s_clause %(two)s_clause %(nm)s_clause c.requires.first c.requires.second c.%(nm)s_law-law.ensures

pub returns-clause-line : goal.returns-clause-line
returns-clause-line c =
    by_table_of_two c.args.work.now c.replay.new.work c.replay.result c.args.first c.args.second c.%(nm)s_law-law.result %(one)s_clause %(two)s_clause %(nm)s_clause c.requires.first c.requires.second c.%(nm)s_law-law.ensures c.replay.ensures.line
"""

def shown(line):
    return ", ".join("`%s`" % show(t) for t in L.c(line))

def main(crate):
    def put(path, text):
        path = os.path.join(crate, path)
        os.makedirs(os.path.dirname(path), exist_ok=True)
        open(path, "w").write(text)
    def put_table(name, line, known):
        put("src/tables/%s.rt" % name, table(name, line, known, "nq_replay", OWN))
        modules.append(name)
    modules, lines = [], {name: named[name] for name in ("size_falls", "less_is_transitive")}
    clauses, steps = CLAUSES, ""
    for nm, find, one, two in STEPS:
        line = lines[nm] = find()
        put_table(nm, line, [lines[one], lines[two]])
        clauses += "\n-- %s\nabbrev pub %s_clause : List Term\n%s_clause = %s\n" % (", ".join(map(show, L.c(line))), nm, nm, " ∷ ".join([term(t) for t in L.c(line)] + ["[]"]))
        how = dict(nm=nm, up=nm.upper(), cl=shown(line), one=one, two=two)
        steps += STEP % how
        ours = sorted(n for n in (one, two, nm) if n in [s[0] for s in STEPS])
        theirs = sorted(n for n in (one, two) if n not in ours)
        how["imports"] = "".join("use Rattle.%s.specs.LawClauses.{%s}\n" % (crate, ", ".join(n + "_clause" for n in names)) for crate, names in (("nq_replay", theirs), ("nq_division_laws", ours)) if names)
        put("proofs/steps/%s_law/Answers.antt" % nm, ANSWERS % ("steps.%s_law" % nm) + "\npub returns : goal.returns\n" + UNFOLDING + "returns c = refl\n")
        put("proofs/steps/%s/Answers.antt" % nm, STEP_ANSWERS % how)
    put("specs/LawClauses.antt", clauses)
    uses = "".join("use crate::tables::%s::%s;\n" % (m, m.upper()) for m in sorted(modules))
    put("src/steps.rt", STEPS_HEAD % (", ".join(sorted(s[0] + "_clause" for s in STEPS)), uses) + steps)
    parts, answers = dict(uses="", variants="", arms=""), ANSWERS % "laws.division_table"
    names = []
    for name, line in remainders():
        put_table(name, line, [lines["difference_falls"], lines["difference_keeps_less"]])
        variant = "".join(word.capitalize() for word in name.split("_"))
        parts["variants"] += "    /// %s.\n    %s,\n" % (shown(line), variant)
        parts["arms"] += "        DivisionLaw::%s => %s,\n" % (variant, name.upper())
        answers += "\npub returns-in-%s : goal.returns-in-%s\n%sreturns-in-%s c = refl\n" % (variant, variant, UNFOLDING, variant)
        names.append(name)
    parts["uses"] = "".join("use crate::tables::%s::%s;\n" % (m, m.upper()) for m in sorted(names))
    put("src/laws.rt", LAWS % parts)
    put("src/tables.rt", "//! The tables of laws. They are printed.\n\n" + "".join("pub mod %s;\n" % m for m in sorted(modules)))
    put("proofs/laws/division_table/Answers.antt", answers)

if __name__ == "__main__":
    main(sys.argv[1])

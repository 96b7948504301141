"""Prints the laws of what single functions give that the crate nq_types keeps: their tables of rule lines, the list of them, and
the answers that say that each table is allowed. They are searched for here.

    python3 tools/kinds.py crates/nq_types
"""
import sys
sys.dont_write_bytecode = True
from facts import A, ENDS, L, R, cases, found, named, no, place, show
from printing import answers, writer
from replays import table

OWN = {"MAX", "NEGATIVEP"}
GUTS = R("(NEGATIVE-GUTS X)")
NEGATIVE = R("(NEGATIVEP X)")
NUMBER = ("NUMBERP", GUTS)

def larger_is_number():
    """what another term is less than is a number, and so is FIX"""
    number = L.inst(named["not_zero_is_number"], {"X": "Y"})
    more = cases([R("(NOT (LESSP X Y))"), R("(NUMBERP Y)")], ["(ZEROP Y)"], lemmas=ENDS + [number], rules=[named["less_than_zero"]])
    return found("(NUMBERP (MAX X Y))", lemmas=ENDS + [more, named["fix_is_number"]], opens=[R("(MAX X Y)")])

def guts_are_number():
    """the part of a negative number is a number, or 0 in the place of another term; it is 0 for other terms"""
    part = L.inst(A("MINUS", 7, 1), {"X1": GUTS})
    made = ("EQUAL", ("NEGATIVE-GUTS", ("MINUS", GUTS)), ("ZERO",))
    part = L.exact(L.forward(part, place(part, made), (1, 1), A("MINUS", 5), "X"), [no(NEGATIVE), NUMBER, ("EQUAL", GUTS, ("ZERO",))])
    inside = L.auto([no(NEGATIVE), NUMBER], lemmas=[A("ADD1", 3)], rules=[part])
    outside = L.auto([NEGATIVE, NUMBER], lemmas=[A("ADD1", 3)], rules=[A("MINUS", 8, 1)])
    return L.cut(outside, inside, NEGATIVE)

FOUND = [("larger_is_number", larger_is_number), ("guts_are_number", guts_are_number)]

LAWS = """//! The laws of what functions give that stand in no other crate. They are printed.
ghost use Rattle.std.specs.Prelude.{[], IsSome};
ghost use Rattle.nq_replay.specs.Replaying.{law_clause};

%(uses)suse nq_replay::Law;

/// A law of what a function gives, from axioms alone.
#[derive(Clone, Copy, Debug, PartialEq, Eq)]
pub enum KindLaw {
%(variants)s}

/// The table of a law.
pub fn kind_table(law: KindLaw) -> Law
    ensures { IsSome (law_clause result []) }
{
    match law {
%(arms)s    }
}
"""

def main(crate):
    put = writer(crate)
    parts, variants = dict(uses="", variants="", arms=""), []
    for name, find in FOUND:
        line = find()
        variant = "".join(word.capitalize() for word in name.split("_"))
        put("src/tables/%s.rt" % name, table(name, line, [], "nq_replay", OWN))
        parts["variants"] += "    /// %s.\n    %s,\n" % (", ".join("`%s`" % show(t) for t in L.c(line)), variant)
        parts["arms"] += "        KindLaw::%s => %s,\n" % (variant, name.upper())
        variants.append(variant)
    names = sorted(name for name, find in FOUND)
    parts["uses"] = "".join("use crate::tables::%s::%s;\n" % (m, m.upper()) for m in names)
    put("src/laws.rt", LAWS % parts)
    put("src/tables.rt", "//! The tables of laws. They are printed.\n\n" + "".join("pub mod %s;\n" % m for m in names))
    put("proofs/laws/kind_table/Answers.antt", answers("nq_types", "kind_table", variants))

if __name__ == "__main__":
    main(sys.argv[1])

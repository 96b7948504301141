"""Prints the laws of numbers of which linear arithmetic makes facts: their tables of rule lines, the list of them, and the answers
that say that each table is allowed. They are searched for here.

    python3 tools/facts.py crates/nq_number_laws
"""
import sys
sys.dont_write_bytecode = True
from replays import A, L, R, ZERO, found, named, no, table
from balances import eq, read, show, subst
from printing import answers, cone, writer

ENDS = [A("TRUE"), A("FALSE")]
NUMBERS = [A("ADD1", 2), A("ADD1", 3)] + ENDS
ZX = R("(ZEROP X)")
FIXES = [named["fix_of_zero"], named["fix_of_positive"]]
LESS = [named["less_than_zero"], named["less_of_positives"], named["zero_less_than_positive"]]
IRREFLEXIVE = named["less_is_irreflexive"]
SUB1_NUMBER = named["sub1_is_number"]

def place(line, t):
    """where a literal stands in a line, counted from 1"""
    return L.c(line).index(t) + 1

def first_equation(line):
    return next(t for t in L.c(line) if isinstance(t, tuple) and t[0] == "EQUAL")

def last(line, text):
    """the line, whose literals are these, with the last of them at its end"""
    return L.exact(line, [read(t) for t in text.split(" | ")])

def rule(text, **how):
    """a line of an equation, under conditions, that serves as a rule"""
    return last(found(text, **how), text)

def turned(line):
    return L.symmetric(line, place(line, first_equation(line)))

def cases(goal, tests, **how):
    """the line of a goal, by cases"""
    if not tests:
        return L.auto(goal, hyps=False, **how)
    return L.split(goal, R(tests[0]), lambda g: cases(g, tests[1:], **how))

def at_zero(line, s):
    """the line at 0, where that is no zero"""
    return L.cut(named["zero_is_zero"], L.inst(line, s), ("ZEROP", ZERO))

def by_size(claim, variable, falls, base, step, **how):
    """by induction on the size of a variable, where others fall too"""
    p, q = R(claim), no(("ZEROP", variable))
    s = {variable: ("SUB1", variable), **falls}
    first = cases([q, p], base, **how)
    then = cases([no(q), no(subst(s, p)), p], step, **how)
    ordinal = L.inst(named["size_is_ordinal"], {"X": variable})
    below = L.inst(named["size_falls"], {"X": variable})
    return L.induct(p, ("COUNT", variable), ordinal, first, [(q, then, [(below, s)])])

def by_both(claim, **how):
    """by induction on the size of X, where Y falls too"""
    return by_size(claim, "X", {"Y": R("(SUB1 Y)")}, ["(ZEROP Y)"], ["(ZEROP Y)"], **how)

def as_clause(line, text):
    """the literals from the line of a term that is a nest of IFs"""
    goal, p = [read(t) for t in text.split(" | ")], L.c(line)[0]
    return L.exact(L.cut(line, L.auto(goal + [no(p)], hyps=False, lemmas=ENDS), p), goal)

def under_more(line, variable="X"):
    """the line with `(NOT (LESSP 0 X))` for `(ZEROP X)`"""
    return L.cut(line, L.inst(zero_is_no_more(), {"X": variable}), ("ZEROP", variable))

# numbers

def numbers():
    """numbers by the function that makes them"""
    yield "sum_is_number", named["sum_is_number"]
    how = dict(lemmas=NUMBERS + [named["sum_is_number"]], rules=[named["product_at_zero"], named["product_at_positive"]])
    yield "product_is_number", by_size("(NUMBERP (TIMES X Y))", "X", {}, [], [], **how)
    yield "difference_is_number", difference_is_number()
    yield "quotient_is_number", quotient_is_number()
    yield "size_is_number", A("COUNT")
    yield "one_more_is_number", L.inst(A("ADD1", 2), {"X1": "X"})
    yield "one_less_is_number", SUB1_NUMBER
    yield "fix_is_number", named["fix_is_number"]
    yield "zero_is_number", named["zero_is_number"]
    yield "positive_is_number", L.cut(named["not_zero_is_number"], zero_is_no_more(), ZX)

def difference_is_number():
    return by_both("(NUMBERP (DIFFERENCE X Y))", lemmas=NUMBERS + [named["not_zero_is_number"]], opens=[R("(DIFFERENCE X Y)")])

# comparisons

def positive_is_more():
    return found("(ZEROP X) | (LESSP 0 X)", lemmas=ENDS + [named["zero_is_zero"]], rules=[LESS[2]], opens=[R("(LESSP 0 X)")])

def zero_is_no_more():
    return found("(NOT (ZEROP X)) | (NOT (LESSP 0 X))", lemmas=ENDS, rules=[LESS[0]])

def numbers_compare():
    remade, zero = named["add1_of_sub1"], named["zero_or_not_number"]
    same = L.replace(remade, place(remade, first_equation(remade)), (1, 1), R("(SUB1 Y)"), "+")
    same = turned(L.forward(same, place(same, first_equation(same)), (1,), L.inst(remade, {"X": "Y"}), "Y"))
    zeros = L.forward(zero, place(zero, first_equation(zero)), (2,), turned(L.inst(zero, {"X": "Y"})), "Y")
    lemmas = NUMBERS + [SUB1_NUMBER, L.inst(SUB1_NUMBER, {"X": "Y"}), named["not_zero_is_number"], same, zeros]
    claim = "(IF (LESSP X Y) T (IF (LESSP Y X) T (IF (NUMBERP X) (IF (NUMBERP Y) (EQUAL X Y) T) T)))"
    line = by_both(claim, lemmas=lemmas, rules=LESS)
    return as_clause(line, "(LESSP X Y) | (LESSP Y X) | (NOT (NUMBERP X)) | (NOT (NUMBERP Y)) | (EQUAL X Y)")

def less_is_truth():
    line = by_both("(IF (LESSP X Y) (EQUAL (LESSP X Y) T) T)", lemmas=ENDS, rules=[LESS[0], LESS[2], LESS[1]])
    return as_clause(line, "(NOT (LESSP X Y)) | (EQUAL (LESSP X Y) T)")

def fix_is_the_same(text):
    zeros = FIXES + [LESS[0], named["nothing_less_than_zero"]]
    return cases([R(text)], ["(ZEROP X)"], lemmas=ENDS + [IRREFLEXIVE], rules=zeros)

def ordinal_less():
    """the equation of ORD-LESSP and LESSP of numbers"""
    line = named["ordinal_less_is_less"]
    for v in "XY":
        line = L.cut(line, L.inst(A("CONS", 13, 1), {"X": v}), ("LISTP", v))
    return line

def comparisons():
    """comparisons of numbers with one another and with 0"""
    yield "numbers_compare", numbers_compare()
    more = positive_is_more()
    yield "positive_is_more", more
    yield "zero_is_no_more", zero_is_no_more()
    number = L.cut(more, named["zero_or_not_number"], ZX)
    yield "number_is_more", number
    y = L.inst(number, {"X": "Y"})
    yield "less_is_truth", less_is_truth()
    yield "fix_is_enough", fix_is_the_same("(NOT (LESSP (FIX X) X))")
    yield "fix_is_no_more", fix_is_the_same("(NOT (LESSP X (FIX X)))")
    yield "number_is_more_turned", L.symmetric(y, place(y, R("(EQUAL Y 0)")))
    less, below = R("(LESSP X Y)"), R("(ORD-LESSP X Y)")
    same = ordinal_less()
    yield "below_is_less", L.cut(same, L.replace(L.taut(below, no(below)), 1, (), less, "+"), eq(below, less))
    yield "less_is_below", L.cut(same, L.replace(L.taut(less, no(less)), 1, (), below, "-"), eq(below, less))

# one less, and differences

def add1_number(t):
    return L.cut(named["sum_is_number"], L.inst(A("ADD1", 6, 1), {"X1": t}), ("NUMBERP", t))

DIFFERENCES = [named["difference_of_zero"], named["difference_with_zero"], named["difference_of_positives"]]

def one_less_is_no_more():
    at_zero = [named["sub1_of_zero"], LESS[0], named["nothing_less_than_zero"]]
    return by_size("(NOT (LESSP X (SUB1 X)))", "X", {}, [], ["(ZEROP (SUB1 X))"], lemmas=ENDS + [IRREFLEXIVE], rules=at_zero + [L.inst(LESS[1], {"Y": R("(SUB1 X)")})])

def one_less_is_enough():
    return cases([R("(NOT (LESSP (ADD1 (SUB1 X)) X))")], ["(ZEROP X)"], lemmas=ENDS + [IRREFLEXIVE], rules=[LESS[0], named["add1_of_sub1"]])

def less_is_more_than_one_less():
    how = dict(lemmas=ENDS, rules=[*LESS, named["sub1_of_zero"], at_zero(LESS[2], {"X": ZERO})])
    line = by_size("(IF (LESSP X Y) (LESSP (SUB1 X) Y) T)", "X", {"Y": R("(SUB1 Y)")}, ["(ZEROP Y)"], ["(ZEROP Y)", "(ZEROP (SUB1 X))"], **how)
    return as_clause(line, "(NOT (LESSP X Y)) | (LESSP (SUB1 X) Y)")

def difference_is_no_more():
    below = L.inst(less_is_more_than_one_less(), {"Y": R("(DIFFERENCE (SUB1 X) (SUB1 Y))")})
    return by_both("(NOT (LESSP X (DIFFERENCE X Y)))", lemmas=ENDS + [IRREFLEXIVE, below], rules=[*DIFFERENCES, named["nothing_less_than_zero"]])

def differences():
    """one less than a number, and differences"""
    yield "one_less_of_positive", under_more(named["add1_of_sub1"])
    yield "one_less_of_zero", L.cut(positive_is_more(), named["sub1_of_zero"], ZX)
    yield "one_less_is_no_more", one_less_is_no_more()
    yield "one_less_is_enough", one_less_is_enough()
    yield "difference_is_no_more", difference_is_no_more()
    sums = [named["sum_at_zero"], named["sum_at_positive"], *FIXES]
    s2 = add1_number(R("(PLUS X Y)"))
    left = rule("(ZEROP X) | (EQUAL (LESSP (ADD1 (PLUS A B)) X) (LESSP (PLUS A B) (SUB1 X)))", rules=[named["add1_is_not_zero"], s2], opens=[R("(LESSP (ADD1 (PLUS A B)) X)")])
    right = rule("(ZEROP X) | (EQUAL (LESSP X (ADD1 (PLUS A B))) (LESSP (SUB1 X) (PLUS A B)))", rules=[named["add1_is_not_zero"], s2], opens=[R("(LESSP X (ADD1 (PLUS A B)))")])
    yield "difference_is_enough", by_both("(NOT (LESSP (PLUS Y (DIFFERENCE X Y)) X))", lemmas=NUMBERS + [IRREFLEXIVE], rules=[LESS[0], *DIFFERENCES, *sums, left])
    rules = LESS + DIFFERENCES + sums + [right, named["nothing_less_than_zero"], at_zero(FIXES[0], {"X": ZERO})]
    line = by_both("(IF (LESSP X Y) T (NOT (LESSP X (PLUS Y (DIFFERENCE X Y)))))", lemmas=NUMBERS + [IRREFLEXIVE], rules=rules)
    yield "difference_is_exact", as_clause(line, "(LESSP X Y) | (NOT (LESSP X (PLUS Y (DIFFERENCE X Y))))")
    line = by_both("(IF (LESSP Y X) T (NOT (LESSP 0 (DIFFERENCE X Y))))", lemmas=NUMBERS + [IRREFLEXIVE], rules=LESS[1:] + DIFFERENCES + [named["nothing_less_than_zero"]])
    yield "difference_is_none", as_clause(line, "(LESSP Y X) | (NOT (LESSP 0 (DIFFERENCE X Y)))")

def quotient_is_number():
    return found("(NUMBERP (QUOTIENT X Y))", lemmas=NUMBERS, opens=[R("(QUOTIENT X Y)")])

# sizes

def size_of_number():
    """the size of a number is the number"""
    zero, size, remade = turned(named["zero_or_not_number"]), named["size_of_zero"], named["add1_of_sub1"]
    base = L.forward(size, 1, (2,), zero, "X")
    base = L.forward(base, place(base, first_equation(base)), (1, 1), zero, "X")
    step = named["size_of_positive"]
    step = L.replace(step, place(step, first_equation(step)), (2, 1), R("(SUB1 X)"), "+")
    step = L.forward(step, place(step, first_equation(step)), (2,), remade, "X")
    line = by_size("(IF (NUMBERP X) (EQUAL (COUNT X) X) T)", "X", {}, [], [], lemmas=NUMBERS + [SUB1_NUMBER, base, step], rules=[])
    return as_clause(line, "(NOT (NUMBERP X)) | (EQUAL (COUNT X) X)")

def sizes():
    """sizes of parts, of numbers and of pairs, and products of positive numbers"""
    for part, name in (1, "first"), (2, "rest"):
        accessor = "CAR" if part == 1 else "CDR"
        none = L.forward(L.refl(R("(COUNT (%s X))" % accessor)), 1, (2, 1), A("CONS", 8, part), ZERO)
        yield "no_" + name, L.forward(none, place(none, first_equation(none)), (2,), named["size_of_zero"], ZERO)
    yield "size_of_number", size_of_number()
    yield "size_of_positive", L.cut(L.cut(named["not_zero_is_number"], zero_is_no_more(), ZX), size_of_number(), R("(NUMBERP X)"))
    yield "size_of_pair", found("(EQUAL (COUNT (CONS X Y)) (ADD1 (PLUS (COUNT X) (COUNT Y))))", lemmas=ENDS, rules=[L.inst(A("CONS", 14), {"X1": "X", "X2": "Y"})])
    yield "product_of_positive", under_more(named["product_at_positive"])

def branches():
    """IFs whose tests are calls of NOT or IFs"""
    yield "turned_test", found("(EQUAL (IF (NOT A) X Y) (IF A Y X))", lemmas=ENDS, opens=["NOT"])
    yield "nested_test", found("(EQUAL (IF (IF A B Z) X Y) (IF A (IF B X Y) (IF Z X Y)))", lemmas=ENDS)

TOPICS = [numbers, comparisons, differences, sizes, branches]

LAWS = """//! The laws of numbers that show facts. They are printed.
ghost use Rattle.std.specs.Prelude.{◌∷◌, [], IsSome};
ghost use Rattle.nq_replay.specs.LawClauses.{size_falls_clause};
ghost use Rattle.nq_replay.specs.Replaying.{law_clause};

%(uses)suse nq_replay::Law;

/// A law from axioms alone.
#[derive(Clone, Copy, Debug, PartialEq, Eq)]
pub enum PlainLaw {
%(plain)s}

/// A law by induction on a size, which falls where a number gets one less.
#[derive(Clone, Copy, Debug, PartialEq, Eq)]
pub enum InductiveLaw {
%(inductive)s}

/// The table of a law from axioms alone.
pub fn plain_table(law: PlainLaw) -> Law
    ensures { IsSome (law_clause result []) }
{
    match law {
%(plain_arms)s    }
}

/// The table of a law by induction, after the line that a size falls.
pub fn inductive_table(law: InductiveLaw) -> Law
    ensures { IsSome (law_clause result (size_falls_clause ∷ [])) }
{
    match law {
%(inductive_arms)s    }
}
"""

def main(crate):
    put = writer(crate)
    falls = named["size_falls"]
    parts = dict(uses="", plain="", inductive="", plain_arms="", inductive_arms="")
    variants, modules = dict(plain=[], inductive=[]), []
    for name, line in (law for topic in TOPICS for law in topic()):
        kind = "inductive" if falls in cone(L, line)[0] else "plain"
        variant = "".join(word.capitalize() for word in name.split("_"))
        clause = ", ".join("`%s`" % show(t) for t in L.c(line))
        put("src/tables/%s.rt" % name, table(name, line, [falls] if kind == "inductive" else [], "nq_replay"))
        parts[kind] += "    /// %s.\n    %s,\n" % (clause, variant)
        parts[kind + "_arms"] += "        %sLaw::%s => %s,\n" % (kind.capitalize(), variant, name.upper())
        variants[kind].append(variant)
        modules.append(name)
    parts["uses"] = "".join("use crate::tables::%s::%s;\n" % (m, m.upper()) for m in sorted(modules))
    put("src/laws.rt", LAWS % parts)
    put("src/tables.rt", "//! The tables of laws. They are printed.\n\n" + "".join("pub mod %s;\n" % m for m in sorted(modules)))
    for kind, those in variants.items():
        put("proofs/laws/%s_table/Answers.antt" % kind, answers("nq_number_laws", kind + "_table", those))

if __name__ == "__main__":
    main(sys.argv[1])

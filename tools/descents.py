"""Laws on the sizes of parts."""
import balances
from balances import *

def descents():
    topic("Descents")
    lt, turn, split = n["zero_less_than_positive"], n["less_than_add1"], n["less_is_split"]
    def positive(l, t):
        """the line without (ZEROP (ADD1 t))"""
        z = ("ZEROP", ("ADD1", t))
        return L.cut(l, L.cut(L.inst(n["add1_is_not_zero"], {"X": t}), no_truth(z), eq(z, FALSE)), z)
    p = R("(LESSP X (ADD1 X))")
    a = L.cut(positive(L.inst(lt, {"X": "X", "Y": R("(ADD1 X)")}), "X"), truth_from(p), eq(p, TRUE))
    row = A("LESSP", 2)
    b = L.cut(L.inst(turn, {"A": "X", "B": "X"}), L.replace(row, L.c(row).index(R("(LESSP (SUB1 X) X)")) + 1, (), p, "-"), eq(p, R("(LESSP (SUB1 X) X)")))
    put_law("less_than_one_more", L.cut(b, a, R("(ZEROP X)")), "(LESSP X (ADD1 X))")
    l = L.inst(split, {"X": "E", "Y": R("(ADD1 (PLUS X Y))"), "Z": R("(ADD1 Y)")})
    t = positive(L.inst(turn, {"A": "Y", "B": R("(ADD1 (PLUS X Y))")}), R("(PLUS X Y)"))
    s2 = L.cut(n["sum_is_number"], L.inst(A("ADD1", 6, 1), {"X1": R("(PLUS X Y)")}), R("(NUMBERP (PLUS X Y))"))
    t = at_last(t, (2, 1), s2, R("(PLUS X Y)"))
    l = L.forward(l, L.c(l).index(R("(LESSP (ADD1 (PLUS X Y)) (ADD1 Y))")) + 1, (), t, R("(LESSP (PLUS X Y) Y)"))
    m = L.inst(n["less_than_sum"], {"X": "Y", "Y": "X"})
    m = L.forward(m, 1, (2, 1), L.inst(n["sum_commutes"], {"X": "Y", "Y": "X"}), R("(PLUS X Y)"))
    m = L.cut(m, L.inst(n["less_turns"], {"A": R("(PLUS X Y)"), "B": "Y"}), R("(LESSP Y (ADD1 (PLUS X Y)))"))
    put_law("less_than_longer_sum", L.cut(l, m, R("(LESSP (PLUS X Y) Y)")), "(NOT (LESSP E (ADD1 Y))) | (LESSP E (ADD1 (PLUS X Y)))")
    # the size of a value made of parts, where the part is one of the sizes that are added
    l = L.taut(R("(LESSP (IF P D 0) (ADD1 S))"), no(R("(LESSP (IF P D 0) (ADD1 S))")))
    l = L.replace(l, 1, (2,), R("(COUNT C)"), "-")
    l = L.replace(l, 1, (2, 1), "X", "+")
    l = L.forward(l, 1, (1,), L.inst(A("IF", 2), {"X": "P", "Y": "D", "Z": ZERO}), "D")
    put_law("part_is_smaller", l, "(NOT (EQUAL (COUNT C) (ADD1 S))) | (NOT (LESSP (IF P D 0) (ADD1 S))) | (NOT (EQUAL C X)) | (NOT P) | (LESSP D (COUNT X))")
    # the parts of the ground shells
    one = n["less_than_one_more"]
    law("one_less_is_smaller", "(ZEROP X) | (LESSP (COUNT (SUB1 X)) (COUNT X))", lemmas=[one], rules=[n["size_of_positive"]])
    t = L.inst(A("PACK", 14), {"X1": R("(UNPACK X)")})
    t = L.exact(L.forward(t, 1, (1, 1), A("PACK", 5), "X"), [no(R("(LITATOM X)")), R("(EQUAL (COUNT X) (ADD1 (IF T (COUNT (UNPACK X)) 0)))")])
    law("atom_part_is_smaller", "(NOT (LITATOM X)) | (LESSP (COUNT (UNPACK X)) (COUNT X))", lemmas=[one], rules=[t])
    guts = R("(NEGATIVE-GUTS X)")
    t = L.inst(A("MINUS", 7, 1), {"X1": guts})
    k = next(i + 1 for i, x in enumerate(L.c(t)) if x[0] == "EQUAL")
    t = L.forward(t, k, (1, 1), A("MINUS", 5), "X")
    t = L.exact(t, [no(R("(NEGATIVEP X)")), R("(NUMBERP (NEGATIVE-GUTS X))"), R("(EQUAL (NEGATIVE-GUTS X) 0)")])
    num = L.auto([no(R("(NEGATIVEP X)")), R("(NUMBERP (NEGATIVE-GUTS X))")], lemmas=[A("ADD1", 3)], rules=[t])
    t = L.inst(A("MINUS", 14), {"X1": guts})
    t = L.exact(L.forward(t, 1, (1, 1), A("MINUS", 5), "X"), [no(R("(NEGATIVEP X)")), R("(EQUAL (COUNT X) (ADD1 (IF (NUMBERP (NEGATIVE-GUTS X)) (COUNT (NEGATIVE-GUTS X)) 0)))")])
    law("negative_part_is_smaller", "(NOT (NEGATIVEP X)) | (LESSP (COUNT (NEGATIVE-GUTS X)) (COUNT X))", lemmas=[one, num], rules=[t])
    # chains of sizes, and sizes as ordinals
    size = lambda x: ("COUNT", x)
    put_law("sizes_descend", L.inst(n["less_is_transitive"], {"X": size("X"), "Y": size("Y"), "Z": size("Z")}), "(NOT (LESSP (COUNT X) (COUNT Y))) | (NOT (LESSP (COUNT Y) (COUNT Z))) | (LESSP (COUNT X) (COUNT Z))")
    t = L.inst(n["ordinal_less_is_less"], {"X": size("X"), "Y": size("Y")})
    for v in ("X", "Y"):
        no_list = L.cut(L.inst(A("COUNT"), {"X": v}), L.inst(A("CONS", 13, 1), {"X": size(v)}), ("NUMBERP", size(v)))
        t = L.cut(t, no_list, ("LISTP", size(v)))
    less, below = R("(LESSP (COUNT X) (COUNT Y))"), R("(ORD-LESSP (COUNT X) (COUNT Y))")
    put_law("smaller_is_below", L.cut(t, L.replace(L.taut(less, no(less)), 1, (), below, "-"), eq(below, less)), "(NOT (LESSP (COUNT X) (COUNT Y))) | (ORD-LESSP (COUNT X) (COUNT Y))")
    law("fix_is_ordinal", "(ORDINALP (FIX X))", lemmas=[n["fix_is_number"], no_list_fix()], opens=[R("(ORDINALP (FIX X))")])

def no_list_fix():
    """(NOT (LISTP (FIX X)))"""
    return L.cut(n["fix_is_number"], L.inst(A("CONS", 13, 1), {"X": R("(FIX X)")}), R("(NUMBERP (FIX X))"))

def choices():
    """restrictions, which are nests of OR, of the defaults of parts"""
    topic("Choices")
    tests = ["TRUEP", "FALSEP"]
    law("truth_is_truth", "(TRUEP T)", lemmas=[A("TRUE")], opens=tests)
    law("falsity_is_falsity", "(FALSEP F)", lemmas=[A("TRUE")], opens=tests)
    different = n["truth_is_no_falsity"]
    law("truth_is_not_falsity", "(NOT (FALSEP T))", lemmas=[different], opens=tests)
    law("falsity_is_not_truth", "(NOT (TRUEP F))", lemmas=[L.cut(truth_from(FALSE), A("FALSE"), FALSE)], opens=tests)
    law("other_than_truth", "(NOT (NOT (EQUAL X T))) | (NOT (TRUEP X))", opens=["TRUEP"], hyps=False)
    law("other_than_falsity", "(NOT (NOT (EQUAL X F))) | (NOT (FALSEP X))", opens=["FALSEP"], hyps=False)
    law("first_of_choice", "(NOT X) | (OR X Y)", lemmas=[A("TRUE")], opens=["OR"])
    law("second_of_choice", "(NOT Y) | (OR X Y)", lemmas=[A("TRUE")], opens=["OR"])
    law("none_of_choice", "(NOT (NOT X)) | (NOT (NOT Y)) | (NOT (OR X Y))", lemmas=[A("FALSE")], opens=["OR"])

def spellings():
    """tests under which a part is smaller, each in another spelling"""
    topic("Spellings")
    law("list_by_no_atom", "(NOT (NOT (LISTP X))) | (NOT (NOT (NLISTP X)))", opens=["NLISTP"])
    law("equation_by_turned", "(NOT (EQUAL X Y)) | (NOT (NOT (EQUAL Y X)))")
    law("number_by_no_zero", "(NOT (NOT (NUMBERP X))) | (NOT (NOT (ZEROP X)))", lemmas=[n["not_zero_is_number"]])
    law("no_zero_by_test", "(NOT (EQUAL X 0)) | (NOT (NOT (ZEROP X)))", lemmas=[n["zero_is_zero"]])

def definitions():
    """each ground definition"""
    topic("Definitions")
    for f, (call, body) in DEFS.items():
        if f == "IDENTITY":
            continue  # that law stands under another name
        put_law("%s_opens" % f.lower().replace("-", "_"), L.axiom(f), show(eq(call, body)))

ROW_NAMES = [
    "recognizer_is_truth_value", "made_is_recognized", "base_is_recognized", "made_is_no_base", "remade_is_same", "part_of_made", "wrong_part_of_made",
    "part_of_other", "part_of_base", "wrong_part", "truth_is_none", "falsity_is_none", "kinds_differ", "size_of_made", "size_of_base",
]

def rows():
    """each row of the ground shells that is no law under another name"""
    kinds = ["number", "pair", "atom", "negative"]
    for place, (constructor, base, recognizer, accessors) in enumerate(SHELLS):
        topic("%sRows" % kinds[place].capitalize())
        for row, part, literals in shell_rows(place):
            line = L.axiom(constructor, row, part)
            if line in named.values():
                continue
            name = "%s_row_%s" % (kinds[place], ROW_NAMES[row - 1])
            if row == 13:
                name += "_from_%s" % kinds[part - 1]
            elif part and len(accessors) > 1:
                name += "_%s" % accessors[part - 1][0].lower()
            named.goals[name] = literals
            named[name] = line
            named.as_clauses.add(name)

descents()
choices()
spellings()
definitions()
rows()
named.as_clauses |= {"part_is_smaller", "sizes_descend", "smaller_is_below", "list_by_no_atom", "equation_by_turned", "number_by_no_zero", "no_zero_by_test"}

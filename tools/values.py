"""Laws from which the values of calls on values follow."""
import arithmetic
from arithmetic import *
A = L.axiom
n = named
TRUE, FALSE = ("TRUE",), ("FALSE",)

def put_law(name, line, text):
    """the line under the name, where it has just these literals"""
    goal = [R(t) for t in text.split(" | ")]
    named.goals[name] = goal
    named[name] = L.exact(line, goal)
    assert set(L.c(named[name])) == set(goal), (text, [show(x) for x in L.c(named[name])])
    return named[name]

def falsity_of(p, line):
    """(EQUAL p F), from a line with (NOT p)"""
    return L.cut(L.inst(A("FALSE", 2), {"X": p}), line, p)

def no_truth(p):
    """(NOT p), (NOT (EQUAL p F))"""
    return L.cut(L.replace(L.taut(p, no(p)), 1, (), FALSE, "+"), A("FALSE"), FALSE)

def truth_from(p):
    """p, (NOT (EQUAL p T))"""
    return L.replace(A("TRUE"), 1, (), p, "-")

def truth_of(row, p, line):
    """(EQUAL p T), from the row that p is T or F and a line with p"""
    return L.cut(row, L.cut(line, no_truth(p), p), eq(p, FALSE))

def without_true(line):
    """the line without (NOT T)"""
    return L.cut(A("TRUE"), line, TRUE)

def kinds():
    topic("Recognizers")
    t = L.cut(L.replace(A("TRUE"), 1, (), FALSE, "+"), A("FALSE"), FALSE)
    different = put_law("truth_is_no_falsity", t, "(NOT (EQUAL T F))")
    same = truth_of(L.inst(A("EQUAL", 1), {"Y": "X"}), R("(EQUAL X X)"), L.refl("X"))
    put_law("same_are_equal", same, "(EQUAL (EQUAL X X) T)")
    put_law("truth_differs_from_falsity", falsity_of(R("(EQUAL T F)"), different), "(EQUAL (EQUAL T F) F)")
    t = L.cut(truth_from(FALSE), A("FALSE"), FALSE)
    put_law("falsity_differs_from_truth", falsity_of(R("(EQUAL F T)"), t), "(EQUAL (EQUAL F T) F)")
    tests = [("number", "NUMBERP", "ADD1"), ("list", "LISTP", "CONS"), ("literal_atom", "LITATOM", "PACK"), ("negative", "NEGATIVEP", "MINUS")]
    for i, (a, r, c) in enumerate(tests):
        rx = (r, "X")
        put_law("%s_test_of_truth" % a, falsity_of((r, TRUE), A(c, 11)), "(EQUAL (%s T) F)" % r)
        put_law("%s_test_of_falsity" % a, falsity_of((r, FALSE), A(c, 12)), "(EQUAL (%s F) F)" % r)
        put_law("%s_test_of_%s" % (a, a), truth_of(A(c, 1), rx, L.taut(rx, no(rx))), "(NOT (%s X)) | (EQUAL (%s X) T)" % (r, r))
        for j, (b, s, d) in enumerate(tests):
            if i == j:
                continue
            row = A(c, 13, j + 1) if i > j else A(d, 13, i + 1)
            put_law("%s_test_of_%s" % (a, b), falsity_of(rx, row), "(NOT (%s X)) | (EQUAL (%s X) F)" % (s, r))
        t = L.replace(L.taut(rx, no(rx)), 1, (1,), FALSE, "+")  # (r F), (NOT (r X)), (NOT (EQUAL X F))
        t = L.cut(t, A(c, 12), (r, FALSE))
        put_law("%s_is_true" % a, L.cut(A("FALSE", 2), t, eq("X", FALSE)), "(NOT (%s X)) | X" % r)
        x, y = (r, "X"), (r, "Y")
        t = L.auto([no(eq(x, TRUE)), no(eq(y, FALSE)), no(eq("X", "Y"))], lemmas=[different])
        put_law("apart_by_first_%s" % a, falsity_of(eq("X", "Y"), t), "(NOT (EQUAL (%s X) T)) | (NOT (EQUAL (%s Y) F)) | (EQUAL (EQUAL X Y) F)" % (r, r))
        t = L.auto([no(eq(y, TRUE)), no(eq(x, FALSE)), no(eq("X", "Y"))], lemmas=[different])
        put_law("apart_by_second_%s" % a, falsity_of(eq("X", "Y"), t), "(NOT (EQUAL (%s X) F)) | (NOT (EQUAL (%s Y) T)) | (EQUAL (EQUAL X Y) F)" % (r, r))
    put_law("pair_is_list", A("CONS", 2), "(LISTP (CONS X1 X2))")
    put_law("atom_is_literal_atom", A("PACK", 2), "(LITATOM (PACK X1))")
    put_law("negative_is_negative", A("MINUS", 2), "(NEGATIVEP (MINUS X1))")

def differences_of_values():
    topic("Distinct")
    e = R("(EQUAL 0 (ADD1 X1))")
    t = L.replace(L.refl(R("0")), 1, (1,), R("(ADD1 X1)"), "+")  # (EQUAL (ADD1 X1) 0), (NOT (EQUAL 0 (ADD1 X1)))
    t = L.cut(t, A("ADD1", 4), R("(EQUAL (ADD1 X1) 0)"))
    put_law("zero_is_no_add1", t, "(NOT (EQUAL 0 (ADD1 X1)))")
    put_law("zero_differs_from_add1", falsity_of(e, t), "(EQUAL (EQUAL 0 (ADD1 X1)) F)")
    put_law("add1_differs_from_zero", falsity_of(R("(EQUAL (ADD1 X1) 0)"), A("ADD1", 4)), "(EQUAL (EQUAL (ADD1 X1) 0) F)")
    def step(name, part, whole, other, inner, row, guards):
        """whole and other are calls of a constructor, and their parts differ"""
        a, b = inner
        s1 = dict(zip(("X1", "X2"), whole[1:]))
        s2 = dict(zip(("X1", "X2"), other[1:]))
        l1, l2 = L.inst(row, s1), L.inst(row, s2)
        if no(TRUE) in L.c(l1):
            l1, l2 = without_true(l1), without_true(l2)
        k = L.c(l1).index(eq((part, whole), a)) + 1
        t = L.replace(l1, k, (1, 1), other, "+")
        k = L.c(t).index(eq((part, other), a)) + 1
        t = L.forward(t, k, (1,), l2, b)  # (EQUAL b a)
        k = L.c(t).index(eq(b, a)) + 1
        t = L.symmetric(t, k) if a != b else t
        t = L.cut(t, no_truth(eq(a, b)), eq(a, b))
        return put_law(name, falsity_of(eq(whole, other), t), guards + "(NOT (EQUAL (EQUAL %s %s) F)) | (EQUAL (EQUAL %s %s) F)" % (a, b, show(whole), show(other)))
    numbers = "(NOT (NUMBERP A)) | (NOT (NUMBERP B)) | "
    step("add1s_differ", "SUB1", R("(ADD1 A)"), R("(ADD1 B)"), ("A", "B"), A("ADD1", 6, 1), numbers)
    step("firsts_differ", "CAR", R("(CONS A B)"), R("(CONS C D)"), ("A", "C"), A("CONS", 6, 1), "")
    step("rests_differ", "CDR", R("(CONS A B)"), R("(CONS C D)"), ("B", "D"), A("CONS", 6, 2), "")
    step("atoms_differ", "UNPACK", R("(PACK A)"), R("(PACK B)"), ("A", "B"), A("PACK", 6, 1), "")
    step("negatives_differ", "NEGATIVE-GUTS", R("(MINUS A)"), R("(MINUS B)"), ("A", "B"), A("MINUS", 6, 1), numbers)

def parts():
    topic("Parts")
    put_law("first_of_pair", without_true(A("CONS", 6, 1)), "(EQUAL (CAR (CONS X1 X2)) X1)")
    put_law("rest_of_pair", without_true(A("CONS", 6, 2)), "(EQUAL (CDR (CONS X1 X2)) X2)")
    put_law("part_of_atom", without_true(A("PACK", 6, 1)), "(EQUAL (UNPACK (PACK X1)) X1)")
    put_law("part_of_negative", A("MINUS", 6, 1), "(NOT (NUMBERP X1)) | (EQUAL (NEGATIVE-GUTS (MINUS X1)) X1)")
    for name, r, c, i, f in [("first", "LISTP", "CONS", 1, "CAR"), ("rest", "LISTP", "CONS", 2, "CDR"), ("atom_part", "LITATOM", "PACK", 1, "UNPACK"), ("negative_part", "NEGATIVEP", "MINUS", 1, "NEGATIVE-GUTS")]:
        t = L.cut(A(c, 8, i), no_truth((r, "X")), (r, "X"))
        put_law("%s_of_other" % name, t, "(NOT (EQUAL (%s X) F)) | (EQUAL (%s X) 0)" % (r, f))
    for name, c in [("add1", "ADD1"), ("negative", "MINUS")]:
        t = L.cut(A(c, 10, 1), no_truth(R("(NUMBERP X1)")), R("(NUMBERP X1)"))
        put_law("%s_of_other" % name, t, "(NOT (EQUAL (NUMBERP X1) F)) | (EQUAL (%s X1) (%s 0))" % (c, c))
    put_law("size_of_zero", A("ADD1", 15), "(EQUAL (COUNT 0) 0)")
    law("size_step", "(NOT (NUMBERP A)) | (NOT (EQUAL (COUNT A) A)) | (EQUAL (COUNT (ADD1 A)) (ADD1 A))", rules=[A("ADD1", 14)])
    put_law("sub1_of_add1", A("ADD1", 6, 1), "(NOT (NUMBERP X1)) | (EQUAL (SUB1 (ADD1 X1)) X1)")
    put_law("sub1_of_zero_numeral", A("ADD1", 9, 1), "(EQUAL (SUB1 0) 0)")
    law("sub1_with_zero_fix", "(NOT (EQUAL (FIX X) 0)) | (EQUAL (SUB1 X) 0)", rules=[A("ADD1", 8, 1), A("ADD1", 9, 1)], opens=["FIX"], hyps=False)
    law("sub1_with_positive_fix", "(NOT (NUMBERP A)) | (NOT (EQUAL (FIX X) (ADD1 A))) | (EQUAL (SUB1 X) A)", lemmas=[n["zero_is_no_add1"]], rules=[A("ADD1", 6, 1)], opens=["FIX"], hyps=False)
    law("zero_test_with_zero_fix", "(NOT (EQUAL (FIX X) 0)) | (EQUAL (ZEROP X) T)", opens=["FIX", "ZEROP"], hyps=False)
    law("zero_test_with_positive_fix", "(NOT (EQUAL (FIX X) (ADD1 A))) | (EQUAL (ZEROP X) F)", lemmas=[n["zero_is_no_add1"], A("ADD1", 2), A("ADD1", 4)], opens=["FIX", "ZEROP"], hyps=False)
    t = L.cut(n["fix_of_other"], no_truth(R("(NUMBERP X)")), R("(NUMBERP X)"))
    put_law("fix_where_no_number", t, "(NOT (EQUAL (NUMBERP X) F)) | (EQUAL (FIX X) 0)")
    put_law("same_after_identity", A("IDENTITY"), "(EQUAL (IDENTITY X) X)")

def truths():
    topic("Truths")
    put_law("truth_is_true", A("TRUE"), "T")
    law("not_of_falsity", "(EQUAL (NOT F) T)", opens=[R("(NOT F)")])
    put_law("not_of_truth", L.inst(A("FALSE", 2), {"X": R("(NOT X)")}), "(NOT X) | (EQUAL (NOT X) F)")
    def both(f, text):
        law(f, text, opens=["AND", "OR", "IMPLIES", "IFF"])
    both("and_of_truths", "(NOT X) | (NOT Y) | (EQUAL (AND X Y) T)")
    both("and_of_first_falsity", "(EQUAL (AND F Y) F)")
    both("and_of_second_falsity", "(EQUAL (AND X F) F)")
    both("or_of_first_truth", "(NOT X) | (EQUAL (OR X Y) T)")
    both("or_of_second_truth", "(NOT Y) | (EQUAL (OR X Y) T)")
    both("or_of_falsities", "(EQUAL (OR F F) F)")
    both("implies_from_falsity", "(EQUAL (IMPLIES F Y) T)")
    both("implies_of_truths", "(NOT X) | (NOT Y) | (EQUAL (IMPLIES X Y) T)")
    both("implies_to_falsity", "(NOT X) | (EQUAL (IMPLIES X F) F)")
    both("iff_of_truths", "(NOT X) | (NOT Y) | (EQUAL (IFF X Y) T)")
    both("iff_of_falsities", "(EQUAL (IFF F F) T)")
    both("iff_of_first_truth", "(NOT X) | (EQUAL (IFF X F) F)")
    both("iff_of_second_truth", "(NOT Y) | (EQUAL (IFF F Y) F)")
    put_law("if_of_truth", A("IF", 2), "(NOT X) | (EQUAL (IF X Y Z) Y)")
    put_law("if_of_falsity", L.cut(L.inst(A("IF", 1), {"X": FALSE}), A("FALSE"), FALSE), "(EQUAL (IF F Y Z) Z)")
    law("truth_test", "(NOT (EQUAL (EQUAL X T) C)) | (EQUAL (TRUEP X) C)", opens=["TRUEP"])
    law("falsity_test", "(NOT (EQUAL (EQUAL X F) C)) | (EQUAL (FALSEP X) C)", opens=["FALSEP"])
    law("no_list_test_of_list", "(NOT (EQUAL (LISTP X) T)) | (EQUAL (NLISTP X) F)", opens=["NLISTP", R("(NOT T)")])
    law("no_list_test_of_other", "(NOT (EQUAL (LISTP X) F)) | (EQUAL (NLISTP X) T)", opens=["NLISTP", R("(NOT F)")])
    law("greater_by_less", "(NOT (EQUAL (LESSP Y X) C)) | (EQUAL (GREATERP X Y) C)", opens=["GREATERP"])
    law("at_most_where_less", "(NOT (EQUAL (LESSP Y X) T)) | (EQUAL (LEQ X Y) F)", opens=["LEQ", R("(NOT T)")])
    law("at_most_where_not_less", "(NOT (EQUAL (LESSP Y X) F)) | (EQUAL (LEQ X Y) T)", opens=["LEQ", R("(NOT F)")])
    law("at_least_where_less", "(NOT (EQUAL (LESSP X Y) T)) | (EQUAL (GEQ X Y) F)", opens=["GEQ", R("(NOT T)")])
    law("at_least_where_not_less", "(NOT (EQUAL (LESSP X Y) F)) | (EQUAL (GEQ X Y) T)", opens=["GEQ", R("(NOT F)")])
    law("greatest_where_less", "(NOT (EQUAL (LESSP X Y) T)) | (EQUAL (MAX X Y) Y)", opens=["MAX"])
    law("greatest_where_not_less", "(NOT (EQUAL (LESSP X Y) F)) | (NOT (EQUAL (FIX X) A)) | (EQUAL (MAX X Y) A)", opens=["MAX"])

def fixes():
    topic("Quotients")
    o = lambda f: [(f, "X", "Y")]
    law("difference_from_zero_value", "(EQUAL (DIFFERENCE 0 Y) 0)", lemmas=[n["zero_is_zero"]], opens=[R("(DIFFERENCE 0 Y)")])
    law("difference_with_zero_value", "(EQUAL (DIFFERENCE (ADD1 A) 0) (ADD1 A))", lemmas=[n["zero_is_zero"]], rules=[n["add1_is_not_zero"]], opens=[R("(DIFFERENCE (ADD1 A) 0)")])
    law("difference_step", "(NOT (NUMBERP A)) | (NOT (NUMBERP B)) | (NOT (EQUAL (DIFFERENCE A B) C)) | (EQUAL (DIFFERENCE (ADD1 A) (ADD1 B)) C)", rules=[n["add1_is_not_zero"], A("ADD1", 6, 1)], opens=[R("(DIFFERENCE (ADD1 A) (ADD1 B))")])
    law("quotient_by_zero", "(EQUAL (QUOTIENT X 0) 0)", lemmas=[n["zero_is_zero"]], opens=[R("(QUOTIENT X 0)")])
    law("quotient_of_less", "(NOT (EQUAL (LESSP X (ADD1 B)) T)) | (EQUAL (QUOTIENT X (ADD1 B)) 0)", rules=[n["add1_is_not_zero"]], opens=[R("(QUOTIENT X (ADD1 B))")])
    law("quotient_step", "(NOT (EQUAL (LESSP A (ADD1 B)) F)) | (NOT (EQUAL (DIFFERENCE A (ADD1 B)) C)) | (NOT (EQUAL (QUOTIENT C (ADD1 B)) D)) | (EQUAL (QUOTIENT A (ADD1 B)) (ADD1 D))", rules=[n["add1_is_not_zero"]], opens=[R("(QUOTIENT A (ADD1 B))")])
    law("remainder_by_zero", "(NOT (NUMBERP X)) | (EQUAL (REMAINDER X 0) X)", lemmas=[n["zero_is_zero"]], rules=[n["fix_of_number"]], opens=[R("(REMAINDER X 0)")])
    law("remainder_of_less", "(NOT (NUMBERP X)) | (NOT (EQUAL (LESSP X (ADD1 B)) T)) | (EQUAL (REMAINDER X (ADD1 B)) X)", rules=[n["add1_is_not_zero"], n["fix_of_number"]], opens=[R("(REMAINDER X (ADD1 B))")])
    law("remainder_step", "(NOT (EQUAL (LESSP A (ADD1 B)) F)) | (NOT (EQUAL (DIFFERENCE A (ADD1 B)) C)) | (NOT (EQUAL (REMAINDER C (ADD1 B)) D)) | (EQUAL (REMAINDER A (ADD1 B)) D)", rules=[n["add1_is_not_zero"]], opens=[R("(REMAINDER A (ADD1 B))")])
    topic("Fixes")
    fixz, fixs = n["fix_of_zero"], n["fix_of_positive"]
    zero = n["zero_is_zero"]
    fix0 = L.cut(zero, L.inst(fixz, {"X": R("0")}), R("(ZEROP 0)"))
    zx, zy = R("(ZEROP X)"), R("(ZEROP Y)")
    def at_zero(l, s):
        return L.cut(zero, L.inst(l, s), R("(ZEROP 0)"))

    def through(name, f, rules, **kw):
        goal = "(EQUAL (%s (FIX X) (FIX Y)) (%s X Y))" % (f, f)
        g = [R(goal)]
        t = L.split(g, zy, lambda g: L.split(g, zx, lambda g: L.auto(g, rules=[fixz, fixs] + rules, **kw)))
        return put_law(name, t, goal)
    # each function takes another value as 0
    dz = law("difference_of_zero", "(NOT (ZEROP X)) | (EQUAL (DIFFERENCE X Y) 0)", opens=o("DIFFERENCE"))
    dy = law("difference_with_zero", "(ZEROP X) | (NOT (ZEROP Y)) | (EQUAL (DIFFERENCE X Y) X)", opens=o("DIFFERENCE"))
    through("difference_of_fixes", "DIFFERENCE", [n["difference_from_zero_value"], dz, dy, L.exact(at_zero(dy, {"Y": R("0")}), [zx, R("(EQUAL (DIFFERENCE X 0) X)")])])
    qz = law("quotient_where_zero", "(NOT (ZEROP Y)) | (EQUAL (QUOTIENT X Y) 0)", opens=o("QUOTIENT"))
    ql = law("quotient_of_zero", "(NOT (ZEROP X)) | (EQUAL (QUOTIENT X Y) 0)", rules=[n["zero_less_than_positive"]], opens=o("QUOTIENT"))
    ql0 = at_zero(ql, {"X": R("0")})
    through("quotient_of_fixes", "QUOTIENT", [n["quotient_by_zero"], qz, ql, ql0])
    rz = law("remainder_where_zero", "(NOT (ZEROP Y)) | (EQUAL (REMAINDER X Y) (FIX X))", opens=o("REMAINDER"))
    rl = law("remainder_of_zero", "(NOT (ZEROP X)) | (EQUAL (REMAINDER X Y) 0)", rules=[n["zero_less_than_positive"], fixz], opens=o("REMAINDER"))
    rl0 = at_zero(rl, {"X": R("0")})
    rz0 = at_zero(rz, {"Y": R("0")})
    through("remainder_of_fixes", "REMAINDER", [rl, rl0, rz0, rz])
    # sums and products
    t = L.forward(L.inst(n["sum_of_fix"], {"Y": R("(FIX Y)")}), 1, (2,), n["sum_with_fix"], R("(PLUS X Y)"))
    put_law("sum_of_fixes", t, "(EQUAL (PLUS (FIX X) (FIX Y)) (PLUS X Y))")
    tz, ts = n["product_at_zero"], n["product_at_positive"]
    t0 = n["product_of_zero"]
    induct("product_with_fix", "(EQUAL (TIMES X (FIX Y)) (TIMES X Y))", [], [tz, ts, n["sum_of_fix"]])
    through("product_of_fixes", "TIMES", [tz, t0, product_zero(fixz)])
    for name, f, line in [("sum", "PLUS", "sum_of_fixes"), ("product", "TIMES", "product_of_fixes"), ("difference", "DIFFERENCE", "difference_of_fixes"), ("quotient", "QUOTIENT", "quotient_of_fixes"), ("remainder", "REMAINDER", "remainder_of_fixes"), ("less", "LESSP", "less_of_fixes")]:
        t = L.replace(n[line], 1, (1, 1), "A", "+")
        t = L.replace(t, 1, (1, 2), "B", "+")
        t = L.replace(t, 1, (1,), "C", "+")
        t = L.symmetric(t, 1)
        put_law("%s_by_fixes" % name, t, "(NOT (EQUAL (FIX X) A)) | (NOT (EQUAL (FIX Y) B)) | (NOT (EQUAL (%s A B) C)) | (EQUAL (%s X Y) C)" % (f, f))

def product_zero(fixz):
    """(NOT (ZEROP Y)) | (EQUAL (TIMES X 0) (TIMES X Y))"""
    t = L.forward(n["product_with_fix"], 1, (1, 2), L.inst(fixz, {"X": "Y"}), R("0"))
    return L.exact(t, [R("(NOT (ZEROP Y))"), R("(EQUAL (TIMES X 0) (TIMES X Y))")])

kinds()
differences_of_values()
parts()
truths()
fixes()

"""The first laws of PLUS as one log."""
from logs import *
L = Log()
R = read

class Named(dict):
    """the laws by name, each with the topic under which it was named, and with its goal; some are wanted as clauses"""
    topic = None
    def __init__(self):
        self.topics = {}
        self.goals = {}
        self.as_clauses = set()

    def __setitem__(self, name, line):
        assert self.get(name, line) == line, ("two laws of one name", name)
        if name not in self:
            self.topics[name] = self.topic
        dict.__setitem__(self, name, line)

named = Named()

def topic(name):
    named.topic = name

def law(name, text, **kw):
    goal = [R(t) for t in text.split(" | ")]
    named.goals[name] = goal
    l = L.exact(L.prove(text, **kw), goal)
    named[name] = l
    return l

A = L.axiom
add1_number, zero_number, add1_not_zero = A("ADD1", 2), A("ADD1", 3), A("ADD1", 4)
sub1_add1, remade, sub1_other, sub1_zero, wrong = A("ADD1", 6, 1), A("ADD1", 5), A("ADD1", 8, 1), A("ADD1", 9, 1), A("ADD1", 10, 1)
base = [add1_number, zero_number, add1_not_zero]

def induct(name, claim, lemmas, rules, var="X", others=(), opens=(), trace=False):
    """by induction on COUNT of the variable, which is no zero in the step"""
    p = R(claim)
    v = var
    q = no(("ZEROP", v))
    s = {w: ("SUB1", w) for w in (v, *others)}
    b = L.auto([q, p], lemmas=lemmas, rules=rules, opens=opens, trace=trace)
    st = L.auto([no(q), no(subst(s, p)), p], lemmas=lemmas, rules=rules, opens=opens, trace=trace)
    m = ("COUNT", v)
    o = L.inst(named["size_is_ordinal"], {"X": v})
    r = L.inst(named["size_falls"], {"X": v})
    l = L.induct(p, m, o, b, [(q, st, [(r, s)])])
    named[name] = l
    return l

def run():
    topic("Plus")
    topic("Zero")
    named["zero_is_number"] = zero_number
    named["add1_is_number"] = add1_number
    topic("Plus")
    law("sum_is_number", "(NUMBERP (PLUS X Y))", lemmas=base, opens=[R("(PLUS X Y)"), R("(FIX Y)")])
    topic("Zero")
    zero = law("zero_is_zero", "(ZEROP 0)", lemmas=base + [A("TRUE")], opens=[R("(ZEROP 0)")])
    add1z = law("add1_is_not_zero", "(EQUAL (ZEROP (ADD1 X)) F)", lemmas=base, opens=[R("(ZEROP (ADD1 X))")])
    zn = law("not_zero_is_number", "(ZEROP X) | (NUMBERP X)", lemmas=base, opens=[R("(ZEROP X)")])
    zz = law("zero_or_not_number", "(NOT (ZEROP X)) | (NOT (NUMBERP X)) | (EQUAL X 0)", lemmas=base, opens=[R("(ZEROP X)")])
    nz = law("positive_is_not_zero", "(ZEROP X) | (NOT (EQUAL X 0))", lemmas=base + [zero])
    fixn = law("fix_of_number", "(NOT (NUMBERP X)) | (EQUAL (FIX X) X)", opens=[R("(FIX X)")])
    fixo = law("fix_of_other", "(NUMBERP X) | (EQUAL (FIX X) 0)", opens=[R("(FIX X)")])
    fixz = law("fix_of_zero", "(NOT (ZEROP X)) | (EQUAL (FIX X) 0)", lemmas=[zz], opens=[R("(FIX X)")])
    fixs = law("fix_of_positive", "(ZEROP X) | (EQUAL (FIX X) X)", lemmas=[zn], opens=[R("(FIX X)")])
    t = L.cut(zn, L.cut(remade, nz, R("(EQUAL X 0)")), R("(NUMBERP X)"))
    add1_sub1 = named["add1_of_sub1"] = L.exact(t, [R("(ZEROP X)"), R("(EQUAL (ADD1 (SUB1 X)) X)")])
    goal = [R("(NOT (ZEROP X))"), R("(NOT (NUMBERP X))"), R("(EQUAL (SUB1 X) 0)")]
    sz = L.split(goal, R("(EQUAL X 0)"), lambda g: L.auto(g, lemmas=[zz], rules=[sub1_zero]))
    sz = named["sub1_of_zero"] = L.exact(L.cut(sub1_other, sz, R("(NUMBERP X)")), [R("(NOT (ZEROP X))"), R("(EQUAL (SUB1 X) 0)")])
    t = L.inst(A("ADD1", 7, 1), {"X1": R("(SUB1 X)")})
    t = L.forward(t, 2, (1, 1), add1_sub1, "X")
    t = L.exact(t, [R("(NUMBERP (SUB1 X))"), R("(ZEROP X)"), R("(EQUAL (SUB1 X) 0)")])
    a = L.auto([R("(NUMBERP (SUB1 X))"), R("(ZEROP X)")], lemmas=base, rules=[t])
    b = L.auto([R("(NUMBERP (SUB1 X))"), R("(NOT (ZEROP X))")], lemmas=base, rules=[sz])
    subnum = named["sub1_is_number"] = L.cut(a, b, R("(ZEROP X)"))
    topic("Ordinals")
    nolist = A("CONS", 13, 1)
    countlist = L.cut(A("COUNT"), L.inst(nolist, {"X": R("(COUNT X)")}), R("(NUMBERP (COUNT X))"))
    addlist = L.cut(add1_number, L.inst(nolist, {"X": R("(ADD1 X1)")}), R("(NUMBERP (ADD1 X1))"))
    law("size_is_ordinal", "(ORDINALP (COUNT X))", lemmas=[countlist, A("COUNT")], opens=[R("(ORDINALP (COUNT X))")])
    t = L.inst(A("ADD1", 14), {"X1": R("(SUB1 X)")})
    t = L.forward(t, 1, (1, 1), add1_sub1, "X")
    cx0 = L.exact(t, [R("(ZEROP X)"), R("(EQUAL (COUNT X) (ADD1 (IF (NUMBERP (SUB1 X)) (COUNT (SUB1 X)) 0)))")])
    cx = law("size_of_positive", "(ZEROP X) | (EQUAL (COUNT X) (ADD1 (COUNT (SUB1 X))))", lemmas=[subnum], rules=[cx0])
    t = L.inst(A("LESSP", 2), {"X": R("(ADD1 X1)")})
    t = L.forward(t, 2, (1,), sub1_add1, "X1")
    k = L.c(t).index(R("(ZEROP (ADD1 X1))")) + 1
    t = L.forward(t, k, (), L.inst(add1z, {"X": "X1"}), ("FALSE",))
    lless = L.cut(t, A("FALSE"), ("FALSE",))
    t = L.inst(lless, {"X1": R("(COUNT X)")})
    lcount = L.cut(A("COUNT"), t, R("(NUMBERP (COUNT X))"))
    law("size_falls", "(NOT (NOT (ZEROP X))) | (ORD-LESSP (COUNT (SUB1 X)) (COUNT X))", lemmas=[countlist, addlist, lcount], rules=[cx], opens=[R("(ORD-LESSP (COUNT (SUB1 X)) (COUNT X))"), R("(ORD-LESSP (COUNT (SUB1 X)) (ADD1 (COUNT (SUB1 X))))")])
    topic("Plus")
    o = [R("(PLUS X Y)")]
    pz = law("sum_at_zero", "(NOT (ZEROP X)) | (EQUAL (PLUS X Y) (FIX Y))", opens=o)
    ps = law("sum_at_positive", "(ZEROP X) | (EQUAL (PLUS X Y) (ADD1 (PLUS (SUB1 X) Y)))", opens=o)
    topic("Zero")
    fix_sub1 = law("fix_of_sub1", "(EQUAL (FIX (SUB1 X)) (SUB1 X))", lemmas=[subnum], opens=[R("(FIX (SUB1 X))")])
    fix0 = L.cut(zero, L.inst(fixz, {"X": R("0")}), R("(ZEROP 0)"))
    topic("Plus")
    induct("sum_with_zero", "(EQUAL (PLUS X 0) (FIX X))", [], [pz, ps, fixz, fixs, fix0, fix_sub1, add1_sub1])
    # commutativity
    t = L.forward(L.refl(R("(ADD1 (FIX Y))")), 1, (2, 1), L.inst(fixo, {"X": "Y"}), R("0"))
    t = L.exact(t, [R("(NUMBERP Y)"), R("(EQUAL (ADD1 (FIX Y)) (ADD1 0))")])
    addfix = L.split([R("(EQUAL (ADD1 (FIX Y)) (ADD1 Y))")], R("(NUMBERP Y)"), lambda g: L.auto(g, rules=[t, fixn, L.inst(wrong, {"X1": "Y"})]))
    named["add1_of_fix"] = addfix
    induct("sum_with_add1", "(EQUAL (PLUS X (ADD1 Y)) (ADD1 (PLUS X Y)))", [add1_number], [pz, ps, addfix, L.inst(fixn, {})] + [law("fix_of_add1", "(EQUAL (FIX (ADD1 X)) (ADD1 X))", lemmas=[add1_number], opens=[R("(FIX (ADD1 X))")])])
    fixnum = law("fix_is_number", "(NUMBERP (FIX X))", lemmas=[zero_number], opens=[R("(FIX X)")])
    def fix_of(t):
        return L.cut(t, L.inst(fixn, {"X": L.c(t)[0][1]}), L.c(t)[0])
    fixfix = fix_of(fixnum)
    fixplus = fix_of(named["sum_is_number"])
    plusfix = induct("sum_with_fix", "(EQUAL (PLUS X (FIX Y)) (PLUS X Y))", [], [pz, ps, fixfix])
    t = L.forward(plusfix, 1, (1, 2), L.inst(fixz, {"X": "Y"}), R("0"))
    t = L.exact(t, [R("(NOT (ZEROP Y))"), R("(EQUAL (PLUS X 0) (PLUS X Y))")])
    t = L.symmetric(t, 2)
    t = L.exact(t, [R("(NOT (ZEROP Y))"), R("(EQUAL (PLUS X Y) (PLUS X 0))")])
    t = L.forward(t, 2, (2,), named["sum_with_zero"], R("(FIX X)"))
    c1 = named["sum_with_no_positive"] = L.exact(t, [R("(NOT (ZEROP Y))"), R("(EQUAL (PLUS X Y) (FIX X))")])
    t = L.inst(named["sum_with_add1"], {"Y": R("(SUB1 Y)")})
    t = L.forward(t, 1, (1, 2), L.inst(add1_sub1, {"X": "Y"}), "Y")
    c2 = named["sum_with_positive"] = L.exact(t, [R("(ZEROP Y)"), R("(EQUAL (PLUS X Y) (ADD1 (PLUS X (SUB1 Y))))")])
    induct("sum_commutes", "(EQUAL (PLUS X Y) (PLUS Y X))", [], [pz, ps, c1, c2])
    # associativity
    t = L.auto([no(R("(NUMBERP X)")), R("(EQUAL (PLUS (ADD1 X) Y) (ADD1 (PLUS X Y)))")], rules=[add1z, sub1_add1], opens=[R("(PLUS (ADD1 X) Y)")])
    add1plus = named["sum_of_add1"] = L.exact(t, [no(R("(NUMBERP X)")), R("(EQUAL (PLUS (ADD1 X) Y) (ADD1 (PLUS X Y)))")])
    pa = L.cut(named["sum_is_number"], L.inst(add1plus, {"X": R("(PLUS X Y)"), "Y": "Z"}), R("(NUMBERP (PLUS X Y))"))
    fp = L.auto([R("(EQUAL (PLUS (FIX X) Y) (PLUS X Y))"), no(R("(ZEROP X)"))], rules=[pz, fixz, L.cut(zero, L.inst(pz, {"X": R("0")}), R("(ZEROP 0)"))])
    fq = L.auto([R("(EQUAL (PLUS (FIX X) Y) (PLUS X Y))"), R("(ZEROP X)")], rules=[fixs])
    fixleft = named["sum_of_fix"] = L.cut(fq, fp, R("(ZEROP X)"))
    induct("sum_associates", "(EQUAL (PLUS (PLUS X Y) Z) (PLUS X (PLUS Y Z)))", [], [pz, ps, fixleft, pa, fixplus])
    topic("Less")
    lz = law("less_than_zero", "(NOT (ZEROP Y)) | (EQUAL (LESSP X Y) F)", opens=[R("(LESSP X Y)")])
    ls = law("less_of_positives", "(ZEROP X) | (ZEROP Y) | (EQUAL (LESSP X Y) (LESSP (SUB1 X) (SUB1 Y)))", opens=[R("(LESSP X Y)")])
    lt = law("zero_less_than_positive", "(NOT (ZEROP X)) | (ZEROP Y) | (EQUAL (LESSP X Y) T)", opens=[R("(LESSP X Y)")])
    induct("less_is_irreflexive", "(NOT (LESSP X X))", [], [lz, ls, lt])
    topic("Plus")
    p0 = L.cut(zero, L.inst(pz, {"X": R("0")}), R("(ZEROP 0)"))
    law("sum_of_zero_and_number", "(NOT (NUMBERP B)) | (EQUAL (PLUS 0 B) B)", rules=[p0, fixn])
    law("sum_step", "(NOT (NUMBERP A)) | (NOT (EQUAL (PLUS A B) C)) | (EQUAL (PLUS (ADD1 A) B) (ADD1 C))", rules=[add1plus])
    topic("Ordinals")
    law("ordinal_less_is_less", "(LISTP X) | (LISTP Y) | (EQUAL (ORD-LESSP X Y) (LESSP X Y))", opens=[R("(ORD-LESSP X Y)")])
    topic("Less")
    lz0 = L.cut(zero, L.inst(lz, {"Y": R("0")}), R("(ZEROP 0)"))
    lt0 = L.exact(L.cut(zero, L.inst(lt, {"X": R("0")}), R("(ZEROP 0)")), [R("(ZEROP Y)"), R("(EQUAL (LESSP 0 Y) T)")])
    rules = [fixz, fixs, lz0, lt0, lz, lt]
    zx, zy = R("(ZEROP X)"), R("(ZEROP Y)")
    lessfix = named["less_of_fixes"] = L.split([R("(EQUAL (LESSP (FIX X) (FIX Y)) (LESSP X Y))")], zy, lambda g: L.split(g, zx, lambda g: L.auto(g, rules=rules)))
    t = L.auto([no(R("(NUMBERP X)")), no(R("(NUMBERP Y)")), R("(EQUAL (LESSP (ADD1 X) (ADD1 Y)) (LESSP X Y))")], rules=[add1z, sub1_add1], opens=[R("(LESSP (ADD1 X) (ADD1 Y))")])
    t = L.exact(t, [no(R("(NUMBERP X)")), no(R("(NUMBERP Y)")), R("(EQUAL (LESSP (ADD1 X) (ADD1 Y)) (LESSP X Y))")])
    lessadd1 = named["less_of_add1s"] = t
    t = L.inst(t, {"X": R("(PLUS X Y)"), "Y": R("(PLUS A B)")})
    t = L.cut(named["sum_is_number"], t, R("(NUMBERP (PLUS X Y))"))
    t = L.cut(L.inst(named["sum_is_number"], {"X": "A", "Y": "B"}), t, R("(NUMBERP (PLUS A B))"))
    induct("sum_is_monotone", "(EQUAL (LESSP (PLUS X Y) (PLUS X Z)) (LESSP Y Z))", [], [pz, ps, lessfix, t])
    topic("Times")
    tz = law("product_at_zero", "(NOT (ZEROP X)) | (EQUAL (TIMES X Y) 0)", opens=[R("(TIMES X Y)")])
    ts = law("product_at_positive", "(ZEROP X) | (EQUAL (TIMES X Y) (PLUS Y (TIMES (SUB1 X) Y)))", opens=[R("(TIMES X Y)")])
    a1 = L.symmetric(named["sum_associates"], 1)
    t = L.forward(a1, 1, (2, 1), named["sum_commutes"], R("(PLUS Y X)"))
    swap = named["sum_exchanges"] = L.forward(t, 1, (2,), L.inst(named["sum_associates"], {"X": "Y", "Y": "X"}), R("(PLUS Y (PLUS X Z))"))
    p00 = L.forward(L.inst(p0, {"Y": R("0")}), 1, (2,), fix0, R("0"))
    special = L.inst(swap, {"X": R("(TIMES (SUB1 X) Y)"), "Y": "Z", "Z": R("(TIMES (SUB1 X) Z)")})
    induct("product_distributes", "(EQUAL (TIMES X (PLUS Y Z)) (PLUS (TIMES X Y) (TIMES X Z)))", [], [tz, ts, p00, named["sum_associates"], special])
    topic("Sizes")
    s2 = L.cut(add1_number, L.inst(sub1_add1, {"X1": R("(ADD1 X1)")}), R("(NUMBERP (ADD1 X1))"))
    lessplus = induct("less_than_sum", "(LESSP X (ADD1 (PLUS X Y)))", [A("TRUE")], [lt, add1z, ps, s2], opens=[R("(LESSP X (ADD1 (ADD1 (PLUS (SUB1 X) Y))))"), R("(LESSP X (ADD1 (PLUS X Y)))")])
    t = L.inst(A("CONS", 14), {"X1": R("(CAR X)"), "X2": R("(CDR X)")})
    t = L.forward(t, 1, (1, 1), A("CONS", 5), "X")
    t = L.exact(t, [no(R("(LISTP X)")), R("(EQUAL (COUNT X) (ADD1 (PLUS (IF T (COUNT (CAR X)) 0) (IF T (COUNT (CDR X)) 0))))")])
    cc = law("size_of_pair", "(NOT (LISTP X)) | (EQUAL (COUNT X) (ADD1 (PLUS (COUNT (CAR X)) (COUNT (CDR X)))))", rules=[t])
    law("first_is_smaller", "(NOT (LISTP X)) | (LESSP (COUNT (CAR X)) (COUNT X))", lemmas=[lessplus], rules=[cc])
    swapped = L.inst(named["sum_commutes"], {"X": R("(COUNT (CAR X))"), "Y": R("(COUNT (CDR X))")})
    law("rest_is_smaller", "(NOT (LISTP X)) | (LESSP (COUNT (CDR X)) (COUNT X))", lemmas=[lessplus], rules=[cc, swapped])
    topic("Less")
    induct("less_is_transitive_as_term", "(IMPLIES (LESSP X Y) (IMPLIES (LESSP Y Z) (LESSP X Z)))", [], [lz, ls, lt], others=("Y", "Z"),
            opens=["IMPLIES", R("(LESSP X Y)"), R("(LESSP Y Z)"), R("(LESSP X Z)")])
    t = named["less_is_transitive_as_term"]
    p = L.c(t)[0]
    goal = [no(R("(LESSP X Y)")), no(R("(LESSP Y Z)")), R("(LESSP X Z)")]
    named["less_is_transitive"] = L.exact(L.cut(t, L.auto(goal + [no(p)], hyps=False, opens=["IMPLIES"]), p), goal)
    # products and comparisons of numerals, step by step
    topic("Times")
    law("product_of_zero", "(EQUAL (TIMES 0 Y) 0)", lemmas=[zero], opens=[R("(TIMES 0 Y)")])
    law("product_step", "(NOT (NUMBERP A)) | (NOT (EQUAL (TIMES A B) C)) | (NOT (EQUAL (PLUS B C) D)) | (EQUAL (TIMES (ADD1 A) B) D)", rules=[add1z, sub1_add1], opens=[R("(TIMES (ADD1 A) B)")])
    topic("Less")
    named["nothing_less_than_zero"] = lz0
    law("zero_less_than_add1", "(EQUAL (LESSP 0 (ADD1 Y)) T)", rules=[add1z], lemmas=[zero], opens=[R("(LESSP 0 (ADD1 Y))")])
    law("less_step", "(NOT (NUMBERP A)) | (NOT (NUMBERP B)) | (NOT (EQUAL (LESSP A B) C)) | (EQUAL (LESSP (ADD1 A) (ADD1 B)) C)", rules=[lessadd1])

run()

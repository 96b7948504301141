"""Laws of sums and products from which a linear contradiction follows. A form stands for two terms a and b where a with the
form's negative part equals b with its positive part."""
import values
from values import *
S = lambda *xs: xs[0] if len(xs) == 1 else ("PLUS", xs[0], S(*xs[1:]))
ZERO = R("0")

def at_last(l, path, line, t):
    """the line's equation with t at the path, by a line with an equation"""
    k = next(i + 1 for i, x in enumerate(L.c(l)) if isinstance(x, tuple) and x[0] == "EQUAL")
    return L.forward(l, k, path, line, t)

def side(l):
    return next(x for x in L.c(l) if isinstance(x, tuple) and x[0] == "EQUAL")[2]

def by_rule(l, path, rule):
    """the rule's equation, from left to right, at the path of the right side"""
    u = at(side(l), path)
    e = L.c(rule)[-1]
    s = match(e[1], u, {})
    assert s is not None, (show(e), show(u))
    return at_last(l, (2,) + path, L.inst(rule, s), subst(s, e[2]))

def by_hypothesis(l, path, t):
    """t in the place of what stands at the path of the right side, under the hypothesis that the two are equal"""
    c = L.c(l)
    k = next(i + 1 for i, x in enumerate(c) if isinstance(x, tuple) and x[0] == "EQUAL")
    return L.replace(l, k, (2,) + path, t, "+")

def is_sum(t):
    return isinstance(t, tuple) and t[0] == "PLUS"

def leaves(t):
    return leaves(t[1]) + leaves(t[2]) if is_sum(t) else [t]

def setup():
    global ASSOC, SWAP, COMM, ZEROS
    topic("Products")
    p0 = L.cut(n["zero_is_zero"], L.inst(n["sum_at_zero"], {"X": ZERO}), R("(ZEROP 0)"))
    ASSOC, COMM = n["sum_associates"], n["sum_commutes"]
    SWAP = n["sum_exchanges"]
    t = L.forward(L.refl(R("(PLUS X (PLUS Y 0))")), 1, (2, 2), L.inst(n["sum_with_zero"], {"X": "Y"}), R("(FIX Y)"))
    t = L.forward(t, 1, (2,), n["sum_with_fix"], R("(PLUS X Y)"))
    ZEROS = put_law("sum_with_one_zero_more", L.symmetric(t, 1), "(EQUAL (PLUS X Y) (PLUS X (PLUS Y 0)))")

def flat(l, path=()):
    """the right side from the path on as a nest to the right"""
    t = at(side(l), path)
    if not is_sum(t):
        return l
    while is_sum(at(side(l), path)[1]):
        l = by_rule(l, path, ASSOC)
    return flat(l, path + (2,))

def nest_path(i):
    return (2,) * i

def sorted_nest(l):
    l = flat(l)
    m = len(leaves(side(l)))
    for _ in range(m):
        for i in range(m - 1):
            node = at(side(l), nest_path(i))
            last = i == m - 2
            a, b = node[1], node[2] if last else node[2][1]
            if repr(a) > repr(b):
                l = by_rule(l, nest_path(i), COMM if last else SWAP)
    return l

def padded(l, count):
    l = flat(l)
    for _ in range(count):
        l = by_rule(l, nest_path(len(leaves(side(l))) - 2), ZEROS)
    return l

def normal(t, zeros):
    l = L.refl(t)
    l = padded(l, zeros - leaves(t).count(ZERO))
    return sorted_nest(l)

def ac(s, t):
    """(EQUAL s t), for two sums of the same terms but for zeros"""
    z = max(leaves(s).count(ZERO), leaves(t).count(ZERO))
    a, b = normal(s, z), normal(t, z)
    assert side(a) == side(b), (show(side(a)), show(side(b)))
    return chained(a, L.symmetric(b, 1))

def chained(a, b):
    """(EQUAL s u), from (EQUAL s t) and (EQUAL t u)"""
    return at_last(a, (2,), b, side(b))

def re_ac(l, t):
    return l if side(l) == t else chained(l, ac(side(l), t))

def cancel(l, text):
    """from (EQUAL (PLUS m a) (PLUS m b)), with sums a and b"""
    e = next(x for x in L.c(l) if isinstance(x, tuple) and x[0] == "EQUAL")
    m, a, b = e[1][1], e[1][2], e[2][2]
    assert e[2][1] == m
    t = L.forward(L.refl(("DIFFERENCE", ("PLUS", m, a), m)), 1, (2, 1), l, e[2])
    k = next(i + 1 for i, x in enumerate(L.c(t)) if isinstance(x, tuple) and x[0] == "EQUAL")
    d = n["difference_of_sum"]
    t = L.forward(t, k, (1,), L.inst(d, {"X": m, "Y": a}), ("FIX", a))
    k = next(i + 1 for i, x in enumerate(L.c(t)) if isinstance(x, tuple) and x[0] == "EQUAL")
    t = L.forward(t, k, (2,), L.inst(d, {"X": m, "Y": b}), ("FIX", b))
    for p, x in ((1, a), (2, b)):
        k = next(i + 1 for i, y in enumerate(L.c(t)) if isinstance(y, tuple) and y[0] == "EQUAL")
        t = L.forward(t, k, (p,), L.inst(n["fix_of_sum"], {"X": x[1], "Y": x[2]}), x)
    return t

def products():
    tz, ts = n["product_at_zero"], n["product_at_positive"]
    f = L.cut(n["sum_is_number"], L.inst(n["fix_of_number"], {"X": R("(PLUS X Y)")}), R("(NUMBERP (PLUS X Y))"))
    put_law("fix_of_sum", f, "(EQUAL (FIX (PLUS X Y)) (PLUS X Y))")
    pz, ps = n["sum_at_zero"], n["sum_at_positive"]
    dz, dy = n["difference_of_zero"], n["difference_with_zero"]
    dp = law("difference_of_positives", "(ZEROP X) | (ZEROP Y) | (EQUAL (DIFFERENCE X Y) (DIFFERENCE (SUB1 X) (SUB1 Y)))", opens=[("DIFFERENCE", "X", "Y")])
    s2 = L.cut(n["sum_is_number"], L.inst(A("ADD1", 6, 1), {"X1": R("(PLUS X Y)")}), R("(NUMBERP (PLUS X Y))"))
    d1 = law("difference_of_add1", "(ZEROP Y) | (EQUAL (DIFFERENCE (ADD1 (PLUS X Z)) Y) (DIFFERENCE (PLUS X Z) (SUB1 Y)))", rules=[n["add1_is_not_zero"], s2], opens=[R("(DIFFERENCE (ADD1 (PLUS X Z)) Y)")])
    g = [no(R("(ZEROP X)")), R("(EQUAL (DIFFERENCE (FIX Y) X) (FIX Y))")]
    t = L.split(g, R("(ZEROP Y)"), lambda g: L.auto(g, rules=[n["fix_of_zero"], n["fix_of_positive"], dy, n["difference_from_zero_value"]]))
    df = put_law("difference_of_fix_with_zero", L.exact(t, g), "(NOT (ZEROP X)) | (EQUAL (DIFFERENCE (FIX Y) X) (FIX Y))")
    induct("difference_of_sum", "(EQUAL (DIFFERENCE (PLUS X Y) X) (FIX Y))", [], [pz, ps, df, d1])
    t0 = induct("product_with_zero", "(EQUAL (TIMES X 0) 0)", [], [tz, ts, L.cut(n["zero_is_zero"], L.inst(pz, {"X": ZERO}), R("(ZEROP 0)")), L.cut(n["zero_is_zero"], L.inst(n["fix_of_zero"], {"X": ZERO}), R("(ZEROP 0)"))])
    # PLUS of ADD1, whatever is counted
    t = L.inst(COMM, {"X": R("(ADD1 X)")})
    t = L.forward(t, 1, (2,), L.inst(n["sum_with_add1"], {"X": "Y", "Y": "X"}), R("(ADD1 (PLUS Y X))"))
    t = L.forward(t, 1, (2, 1), L.inst(COMM, {"X": "Y", "Y": "X"}), R("(PLUS X Y)"))
    put_law("sum_of_add1_and_any", t, "(EQUAL (PLUS (ADD1 X) Y) (ADD1 (PLUS X Y)))")
    # products with a positive number on the right
    t = L.inst(n["product_distributes"], {"Y": R("(ADD1 0)"), "Z": "Y"})  # X*(1+Y) = X*1 + X*Y
    one = induct("product_with_one", "(EQUAL (TIMES X (ADD1 0)) (FIX X))", [], [tz, ts, n["fix_of_zero"], n["fix_of_positive"], n["sum_of_add1_and_any"], L.cut(n["zero_is_zero"], L.inst(pz, {"X": ZERO}), R("(ZEROP 0)")), n["fix_of_sub1"], n["add1_of_sub1"], L.inst(n["fix_of_number"], {}),
        L.cut(n["fix_is_number"], L.inst(n["fix_of_number"], {"X": R("(FIX X)")}), R("(NUMBERP (FIX X))"))])
    t = L.forward(t, 1, (2, 1), one, R("(FIX X)"))
    t = L.forward(t, 1, (2,), L.inst(n["sum_of_fix"], {"Y": R("(TIMES X Y)")}), R("(PLUS X (TIMES X Y))"))
    t = L.forward(t, 1, (1, 2), L.inst(n["sum_of_add1_and_any"], {"X": ZERO}), R("(ADD1 (PLUS 0 Y))"))
    p0 = L.cut(n["zero_is_zero"], L.inst(pz, {"X": ZERO}), R("(ZEROP 0)"))
    t = L.forward(t, 1, (1, 2, 1), p0, R("(FIX Y)"))
    t = L.forward(t, 1, (1, 2), L.inst(n["add1_of_fix"], {}), R("(ADD1 Y)"))
    pa = put_law("product_with_add1", t, "(EQUAL (TIMES X (ADD1 Y)) (PLUS X (TIMES X Y)))")
    t = L.inst(pa, {"Y": R("(SUB1 Y)")})
    t = L.forward(t, 1, (1, 2), L.inst(n["add1_of_sub1"], {"X": "Y"}), "Y")
    c2 = put_law("product_with_positive", t, "(ZEROP Y) | (EQUAL (TIMES X Y) (PLUS X (TIMES X (SUB1 Y))))")
    t = L.forward(n["product_with_fix"], 1, (1, 2), L.inst(n["fix_of_zero"], {"X": "Y"}), ZERO)
    k = L.c(t).index(R("(EQUAL (TIMES X 0) (TIMES X Y))")) + 1
    t = L.forward(t, k, (1,), t0, ZERO)
    k = L.c(t).index(R("(EQUAL 0 (TIMES X Y))")) + 1
    c1 = put_law("product_with_no_positive", L.symmetric(t, k), "(NOT (ZEROP Y)) | (EQUAL (TIMES X Y) 0)")
    pc = induct("product_commutes", "(EQUAL (TIMES X Y) (TIMES Y X))", [], [tz, ts, c1, c2])
    t = L.inst(n["product_distributes"], {"X": "Z", "Y": "X", "Z": "Y"})
    t = L.forward(t, 1, (1,), L.inst(pc, {"X": "Z", "Y": R("(PLUS X Y)")}), R("(TIMES (PLUS X Y) Z)"))
    t = L.forward(t, 1, (2, 1), L.inst(pc, {"X": "Z", "Y": "X"}), R("(TIMES X Z)"))
    t = L.forward(t, 1, (2, 2), L.inst(pc, {"X": "Z", "Y": "Y"}), R("(TIMES Y Z)"))
    ld = put_law("sum_times", t, "(EQUAL (TIMES (PLUS X Y) Z) (PLUS (TIMES X Z) (TIMES Y Z)))")
    induct("product_associates", "(EQUAL (TIMES (TIMES X Y) Z) (TIMES X (TIMES Y Z)))", [], [tz, ts, ld, n["product_of_zero"]])

def balances():
    topic("Balances")
    def finish(name, l, hyps, goal):
        return put_law(name, l, " | ".join(["(NOT %s)" % h for h in hyps] + [goal]))
    # sums of forms
    h1, h2, h3 = "(EQUAL (PLUS A N) (PLUS B P))", "(EQUAL (PLUS C N2) (PLUS D P2))", "(EQUAL (PLUS (PLUS P P2) N3) (PLUS P3 (PLUS N N2)))"
    goal = "(EQUAL (PLUS (PLUS A C) N3) (PLUS (PLUS B D) P3))"
    m = R("(PLUS N N2)")
    g = R(goal)
    l = L.refl(("PLUS", m, g[1]))
    l = re_ac(l, R("(PLUS (PLUS A N) (PLUS (PLUS C N2) N3))"))
    l = by_hypothesis(l, (1,), R("(PLUS B P)"))
    l = by_hypothesis(l, (2, 1), R("(PLUS D P2)"))
    l = re_ac(l, R("(PLUS (PLUS B D) (PLUS (PLUS P P2) N3))"))
    l = by_hypothesis(l, (2,), R("(PLUS P3 (PLUS N N2))"))
    l = re_ac(l, ("PLUS", m, g[2]))
    finish("sum_balances", cancel(l, goal), [h1, h2, h3], goal)
    # multiples of forms
    hyps = ["(EQUAL (PLUS A N) (PLUS B P))", "(EQUAL (TIMES K N) N2)", "(EQUAL (TIMES K P) P2)"]
    goal = "(EQUAL (PLUS (TIMES K A) N2) (PLUS (TIMES K B) P2))"
    l = L.refl(R("(TIMES K (PLUS A N))"))
    l = L.replace(l, 1, (2, 2), R("(PLUS B P)"), "+")
    d = n["product_distributes"]
    def left(l, path, line, t):
        k = next(i + 1 for i, x in enumerate(L.c(l)) if isinstance(x, tuple) and x[0] == "EQUAL")
        return L.forward(l, k, (1,) + path, line, t)
    l = left(l, (), L.inst(d, {"X": "K", "Y": "A", "Z": "N"}), R("(PLUS (TIMES K A) (TIMES K N))"))
    l = by_rule(l, (), d)
    k = next(i + 1 for i, x in enumerate(L.c(l)) if x[0] == "EQUAL")
    l = L.replace(l, k, (1, 2), "N2", "+")
    l = L.replace(l, k, (2, 2), "P2", "+")
    finish("multiple_balances", l, hyps, goal)
    hyps = ["(EQUAL (TIMES K C) M)", "(EQUAL (TIMES K R) S)"]
    l = L.refl(R("(TIMES K (PLUS (TIMES C E) R))"))
    l = by_rule(l, (), d)
    l = at_last(l, (2, 1), L.symmetric(L.inst(n["product_associates"], {"X": "K", "Y": "C", "Z": "E"}), 1), R("(TIMES (TIMES K C) E)"))
    l = by_hypothesis(l, (1, 1), "M")
    l = by_hypothesis(l, (2,), "S")
    finish("multiple_of_atom", l, hyps, "(EQUAL (TIMES K (PLUS (TIMES C E) R)) (PLUS (TIMES M E) S))")
    l = by_rule(L.refl(R("(TIMES K (PLUS C R))")), (), d)
    l = by_hypothesis(l, (1,), "M")
    l = by_hypothesis(l, (2,), "S")
    finish("multiple_of_constant", l, hyps, "(EQUAL (TIMES K (PLUS C R)) (PLUS M S))")
    # one more atom
    def both(name, s, t):
        put_law(name, ac(R(s), R(t)), "(EQUAL %s %s)" % (s, t))
    both("atom_is_new", "(PLUS (PLUS 0 X) (PLUS Y 0))", "(PLUS (PLUS X 0) (PLUS 0 Y))")
    both("no_atom_more", "(PLUS (PLUS A 0) B)", "(PLUS A (PLUS B 0))")
    h = "(EQUAL (PLUS (PLUS P P2) N3) (PLUS P3 (PLUS N N2)))"
    goal = "(EQUAL (PLUS (PLUS (PLUS (TIMES P E) R) (TIMES P2 E)) (PLUS (TIMES N3 E) S)) (PLUS (PLUS (TIMES P3 E) R) (PLUS (PLUS (TIMES N E) S) (TIMES N2 E))))"
    g = R(goal)
    l = ac(g[1], R("(PLUS (PLUS (PLUS (TIMES P E) (TIMES P2 E)) (TIMES N3 E)) (PLUS R S))"))
    ld = n["sum_times"]
    def fold(l, path, t):
        """a sum of products with E as one product"""
        inst = L.inst(ld, {"X": t[1][1], "Y": t[1][2], "Z": "E"})
        return at_last(l, (2,) + path, L.symmetric(inst, 1), t)
    l = fold(l, (1, 1), R("(TIMES (PLUS P P2) E)"))
    l = fold(l, (1,), R("(TIMES (PLUS (PLUS P P2) N3) E)"))
    l = by_hypothesis(l, (1, 1), R("(PLUS P3 (PLUS N N2))"))
    l = by_rule(l, (1,), ld)
    l = by_rule(l, (1, 2), ld)
    l = re_ac(l, g[2])
    finish("atom_is_known", l, [h], goal)
    h = "(EQUAL (PLUS (PLUS R X) S) (PLUS P (PLUS N Y)))"
    goal = "(EQUAL (PLUS (PLUS (PLUS U R) X) (PLUS V S)) (PLUS (PLUS U P) (PLUS (PLUS V N) Y)))"
    g = R(goal)
    l = ac(g[1], R("(PLUS (PLUS (PLUS R X) S) (PLUS U V))"))
    l = by_hypothesis(l, (1,), R(h)[2])
    l = re_ac(l, g[2])
    finish("atom_is_further", l, [h], goal)
    h1, h2 = "(EQUAL (PLUS (PLUS A X) G) (PLUS Q (PLUS B Y)))", "(EQUAL (PLUS (PLUS Q M) J) (PLUS I (PLUS G N)))"
    goal = "(EQUAL (PLUS (PLUS A (PLUS X M)) J) (PLUS I (PLUS B (PLUS Y N))))"
    g = R(goal)
    l = L.refl(("PLUS", "G", g[1]))
    l = re_ac(l, R("(PLUS (PLUS (PLUS A X) G) (PLUS M J))"))
    l = by_hypothesis(l, (1,), R(h1)[2])
    l = re_ac(l, R("(PLUS (PLUS (PLUS Q M) J) (PLUS B Y))"))
    l = by_hypothesis(l, (1,), R(h2)[2])
    l = re_ac(l, ("PLUS", "G", g[2]))
    finish("atoms_after_atom", cancel(l, goal), [h1, h2], goal)
    h1, h2 = "(EQUAL (PLUS (PLUS P P2) N3) (PLUS P3 (PLUS N N2)))", "(EQUAL (PLUS (PLUS A M) J) (PLUS I (PLUS B K)))"
    goal = "(EQUAL (PLUS (PLUS (PLUS P A) (PLUS P2 M)) (PLUS N3 J)) (PLUS (PLUS P3 I) (PLUS (PLUS N B) (PLUS N2 K))))"
    g = R(goal)
    l = ac(g[1], R("(PLUS (PLUS (PLUS P P2) N3) (PLUS (PLUS A M) J))"))
    l = by_hypothesis(l, (1,), R(h1)[2])
    l = by_hypothesis(l, (2,), R(h2)[2])
    l = re_ac(l, g[2])
    finish("form_after_form", l, [h1, h2], goal)
    # forms of terms
    both("constant_balances", "(PLUS A (PLUS 0 0))", "(PLUS 0 (PLUS A 0))")
    both("negative_constant_balances", "(PLUS 0 (PLUS A 0))", "(PLUS A (PLUS 0 0))")
    t0 = n["product_of_zero"]
    l = L.refl(R("(PLUS E (PLUS 0 (PLUS (TIMES 0 E) 0)))"))
    l = by_rule(l, (2, 2, 1), t0)
    ts1 = L.cut(L.inst(n["product_at_positive"], {"X": R("(ADD1 0)"), "Y": "E"}), L.cut(L.inst(n["add1_is_not_zero"], {"X": ZERO}), no_truth(R("(ZEROP (ADD1 0))")), R("(EQUAL (ZEROP (ADD1 0)) F)")), R("(ZEROP (ADD1 0))"))
    ts1 = L.forward(ts1, 1, (2, 2, 1), L.cut(A("ADD1", 3), L.inst(A("ADD1", 6, 1), {"X1": ZERO}), R("(NUMBERP 0)")), ZERO)
    ts1 = L.forward(ts1, 1, (2, 2), L.inst(t0, {"Y": "E"}), ZERO)  # (TIMES 1 E) = (PLUS E 0)
    r = L.refl(R("(PLUS 0 (PLUS 0 (PLUS (TIMES (ADD1 0) E) 0)))"))
    r = by_rule(r, (2, 2, 1), ts1)
    l = chained(re_ac(l, side(r)), L.symmetric(r, 1))
    put_law("atom_balances", l, "(EQUAL (PLUS E (PLUS 0 (PLUS (TIMES 0 E) 0))) (PLUS 0 (PLUS 0 (PLUS (TIMES (ADD1 0) E) 0))))")
    def rest(name, new, old, zero, rewrites):
        """the left side's first part, and 0 on the right"""
        h = "(EQUAL (PLUS %s N) (PLUS %s P))" % (old, zero)
        l = L.refl(R("(PLUS %s N)" % new))
        l = rewrites(l)
        l = by_hypothesis(l, (), R(h)[2])
        l = zeroed(l)
        finish(name, l, [h], "(EQUAL (PLUS %s N) (PLUS 0 P))" % new)

    def zeroed(l):
        z = side(l)[1]
        if z == R("(TIMES K 0)"):
            return by_rule(l, (1,), n["product_with_zero"])
        return re_ac(l, R("(PLUS 0 P)"))
    rest("sum_balances_alone", "(PLUS A B)", "(PLUS A B)", "(PLUS 0 0)", lambda l: l)
    def add1(l):
        # (ADD1 E) is (PLUS E 1)
        one = L.inst(n["sum_with_add1"], {"X": "E", "Y": ZERO})
        one = L.forward(one, 1, (2, 1), L.inst(n["sum_with_zero"], {"X": "E"}), R("(FIX E)"))
        one = L.forward(one, 1, (2,), L.inst(n["add1_of_fix"], {"Y": "E"}), R("(ADD1 E)"))
        return at_last(l, (2, 1), L.symmetric(one, 1), R("(PLUS E (ADD1 0))"))
    rest("add1_balances", "(ADD1 E)", "(PLUS E (ADD1 0))", "(PLUS 0 0)", add1)
    rest("product_balances", "(TIMES K B)", "(TIMES K B)", "(TIMES K 0)", lambda l: l)
    rest("product_balances_turned", "(TIMES B K)", "(TIMES K B)", "(TIMES K 0)", lambda l: at_last(l, (2, 1), L.inst(n["product_commutes"], {"X": "B", "Y": "K"}), R("(TIMES K B)")))
    l = L.replace(L.replace(L.refl("X"), 1, (2,), "Z", "+"), 1, (2,), "Y", "-")
    put_law("equal_through", l, "(NOT (EQUAL X Z)) | (NOT (EQUAL Y Z)) | (EQUAL X Y)")

def bounds():
    topic("Bounds")
    lz, ls, lt = n["less_than_zero"], n["less_of_positives"], n["zero_less_than_positive"]
    induct("less_is_split_as_term", "(IMPLIES (LESSP X Z) (OR (LESSP X Y) (LESSP Y Z)))", [], [lz, ls, lt], others=("Y", "Z"),
            opens=["IMPLIES", "OR", R("(LESSP X Y)"), R("(LESSP Y Z)"), R("(LESSP X Z)")])
    t = n["less_is_split_as_term"]
    p = L.c(t)[0]
    goal = [R("(LESSP X Y)"), R("(LESSP Y Z)"), no(R("(LESSP X Z)"))]
    split = put_law("less_is_split", L.cut(t, L.auto(goal + [no(p)], hyps=False, opens=["IMPLIES", "OR"]), p), "(LESSP X Y) | (LESSP Y Z) | (NOT (LESSP X Z))")
    def move(l, old, path, line, t):
        """the literal with t at the path, by a line with an equation"""
        return L.forward(l, L.c(l).index(old) + 1, path, line, t)
    mono = n["sum_is_monotone"]
    l = L.inst(split, {"X": R("(PLUS A C)"), "Y": R("(PLUS A D)"), "Z": R("(PLUS B D)")})
    l = move(l, R("(LESSP (PLUS A C) (PLUS A D))"), (), L.inst(mono, {"X": "A", "Y": "C", "Z": "D"}), R("(LESSP C D)"))
    l = move(l, R("(LESSP (PLUS A D) (PLUS B D))"), (1,), L.inst(n["sum_commutes"], {"X": "A", "Y": "D"}), R("(PLUS D A)"))
    l = move(l, R("(LESSP (PLUS D A) (PLUS B D))"), (2,), L.inst(n["sum_commutes"], {"X": "B", "Y": "D"}), R("(PLUS D B)"))
    l = move(l, R("(LESSP (PLUS D A) (PLUS D B))"), (), L.inst(mono, {"X": "D", "Y": "A", "Z": "B"}), R("(LESSP A B)"))
    sums = put_law("sums_not_less", l, "(LESSP A B) | (LESSP C D) | (NOT (LESSP (PLUS A C) (PLUS B D)))")
    # multiples, by induction on the factor
    step = L.inst(sums, {"C": R("(TIMES (SUB1 K) A)"), "D": R("(TIMES (SUB1 K) B)")})
    induct("multiples_not_less_as_term", "(OR (LESSP A B) (NOT (LESSP (TIMES K A) (TIMES K B))))", [step, A("TRUE")], [L.inst(n["product_at_zero"], {}), n["product_at_positive"], L.cut(n["zero_is_zero"], L.inst(lz, {"Y": ZERO}), R("(ZEROP 0)"))],
            var="K", opens=["OR", R("(NOT F)")])
    t = n["multiples_not_less_as_term"]
    p = L.c(t)[0]
    goal = [R("(LESSP A B)"), no(R("(LESSP (TIMES K A) (TIMES K B))"))]
    put_law("multiples_not_less", L.cut(t, L.auto(goal + [no(p)], hyps=False, opens=["OR"]), p), "(LESSP A B) | (NOT (LESSP (TIMES K A) (TIMES K B)))")
    irr = n["less_is_irreflexive"]
    put_law("nothing_less_than_itself", L.inst(irr, {"X": ZERO}), "(NOT (LESSP 0 0))")
    # the bound that a literal gives where it is false
    p0 = L.cut(n["zero_is_zero"], L.inst(n["sum_at_zero"], {"X": ZERO}), R("(ZEROP 0)"))
    swz, fixes = n["sum_with_zero"], n["less_of_fixes"]
    def fixed(a, b):
        """(EQUAL (LESSP (PLUS a 0) (PLUS 0 b)) (LESSP a b))"""
        l = L.refl(("LESSP", ("PLUS", a, ZERO), ("PLUS", ZERO, b)))
        l = L.forward(l, 1, (2, 1), L.inst(swz, {"X": a}), ("FIX", a))
        l = L.forward(l, 1, (2, 2), L.inst(p0, {"Y": b}), ("FIX", b))
        return L.forward(l, 1, (2,), L.inst(fixes, {"X": a, "Y": b}), ("LESSP", a, b))

    def backwards(l, old, line):
        """the literal with what the line's equation has on its left in place of what it has on its right"""
        e = L.c(line)[0]
        path = next(places(old, lambda z: z == e[2]))
        return L.forward(l, L.c(l).index(old) + 1, path, L.symmetric(line, 1), e[1])
    l = L.taut(R("(LESSP A B)"), no(R("(LESSP A B)")))
    l = backwards(l, no(R("(LESSP A B)")), fixed("A", "B"))
    put_law("bound_of_less", l, "(LESSP A B) | (NOT (LESSP (PLUS A 0) (PLUS 0 B)))")
    for name, x, y in [("bound_of_equation", "A", "B"), ("bound_of_equation_turned", "B", "A")]:
        l = L.inst(irr, {"X": "A"})
        l = L.replace(l, 1, (1, 2) if x == "A" else (1, 1), "B", "+")
        l = backwards(l, no(("LESSP", x, y)), fixed(x, y))
        put_law(name, l, "(NOT (EQUAL A B)) | (NOT (LESSP (PLUS %s 0) (PLUS 0 %s)))" % (x, y))
    # A below B, and so B not below A and 1
    g = R("(EQUAL (LESSP X (FIX Y)) (LESSP X Y))")
    lz0 = n["nothing_less_than_zero"]
    put_law("less_with_fix", L.split([g], R("(ZEROP Y)"), lambda g: L.auto(g, rules=[L.inst(n["fix_of_zero"], {}), n["fix_of_positive"], lz0, lz])), "(EQUAL (LESSP X (FIX Y)) (LESSP X Y))")
    law("sub1_of_any_add1", "(EQUAL (SUB1 (ADD1 X)) (FIX X))", rules=[A("ADD1", 6, 1), A("ADD1", 7, 1)], opens=["FIX"])
    l = L.inst(ls, {"X": "B", "Y": R("(ADD1 A)")})
    l = L.cut(l, L.cut(L.inst(n["add1_is_not_zero"], {"X": "A"}), no_truth(R("(ZEROP (ADD1 A))")), R("(EQUAL (ZEROP (ADD1 A)) F)")), R("(ZEROP (ADD1 A))"))
    l = at_last(l, (2, 2), L.inst(n["sub1_of_any_add1"], {"X": "A"}), R("(FIX A)"))
    l = at_last(l, (2,), L.inst(n["less_with_fix"], {"X": R("(SUB1 B)"), "Y": "A"}), R("(LESSP (SUB1 B) A)"))
    turn = put_law("less_than_add1", l, "(ZEROP B) | (EQUAL (LESSP B (ADD1 A)) (LESSP (SUB1 B) A))")
    induct("less_turns_as_term", "(IMPLIES (LESSP A B) (NOT (LESSP B (ADD1 A))))", [A("TRUE")], [turn, L.inst(n["add1_of_sub1"], {"X": "A"}), lz, ls, lt], var="A", others=("B",), opens=["IMPLIES", R("(NOT F)"), R("(LESSP A B)")])
    t = n["less_turns_as_term"]
    p = L.c(t)[0]
    goal = [no(R("(LESSP A B)")), no(R("(LESSP B (ADD1 A))"))]
    turns = put_law("less_turns", L.cut(t, L.auto(goal + [no(p)], hyps=False, opens=["IMPLIES"]), p), "(NOT (LESSP A B)) | (NOT (LESSP B (ADD1 A)))")
    # the same with the sums as they come
    l = L.refl(R("(LESSP (PLUS (PLUS B 0) 0) (PLUS (PLUS 0 A) (ADD1 0)))"))
    l = L.forward(l, 1, (2, 1), L.inst(swz, {"X": R("(PLUS B 0)")}), R("(FIX (PLUS B 0))"))
    l = L.forward(l, 1, (2, 1, 1), L.inst(swz, {"X": "B"}), R("(FIX B)"))
    l = L.forward(l, 1, (2, 2), L.inst(n["sum_with_add1"], {"X": R("(PLUS 0 A)"), "Y": ZERO}), R("(ADD1 (PLUS (PLUS 0 A) 0))"))
    l = L.forward(l, 1, (2, 2, 1), L.inst(swz, {"X": R("(PLUS 0 A)")}), R("(FIX (PLUS 0 A))"))
    l = L.forward(l, 1, (2, 2), L.inst(n["add1_of_fix"], {"Y": R("(PLUS 0 A)")}), R("(ADD1 (PLUS 0 A))"))
    l = L.forward(l, 1, (2, 2, 1), L.inst(p0, {"Y": "A"}), R("(FIX A)"))
    l = L.forward(l, 1, (2, 2), L.inst(n["add1_of_fix"], {"Y": "A"}), R("(ADD1 A)"))
    ff = L.cut(n["fix_is_number"], L.inst(n["fix_of_number"], {"X": R("(FIX X)")}), R("(NUMBERP (FIX X))"))
    l = L.forward(l, 1, (2, 1), L.inst(ff, {"X": "B"}), R("(FIX B)"))
    # (LESSP (FIX B) (ADD1 A)) is (LESSP B (ADD1 A))
    m = L.refl(R("(LESSP (FIX B) (FIX (ADD1 A)))"))
    m = L.forward(m, 1, (2,), L.inst(fixes, {"X": "B", "Y": R("(ADD1 A)")}), R("(LESSP B (ADD1 A))"))
    m = L.forward(m, 1, (1, 2), L.inst(n["fix_of_add1"], {"X": "A"}), R("(ADD1 A)"))
    l = chained(l, m)
    put_law("bound_of_not_less", backwards(turns, no(R("(LESSP B (ADD1 A))")), l), "(NOT (LESSP A B)) | (NOT (LESSP (PLUS (PLUS B 0) 0) (PLUS (PLUS 0 A) (ADD1 0))))")
    # a negative form is refuted
    hyps = ["(NUMBERP C)", "(EQUAL (PLUS A (PLUS (ADD1 C) W)) (PLUS B P))", "(EQUAL P 0)"]
    l = L.refl(R("(PLUS A (PLUS (ADD1 C) W))"))
    l = by_hypothesis(l, (), R("(PLUS B P)"))
    l = by_hypothesis(l, (2,), ZERO)
    l = at_last(l, (2,), L.inst(swz, {"X": "B"}), R("(FIX B)"))
    k = next(i + 1 for i, x in enumerate(L.c(l)) if x[0] == "EQUAL")
    l = L.forward(l, k, (1, 2), L.inst(n["sum_of_add1_and_any"], {"X": "C", "Y": "W"}), R("(ADD1 (PLUS C W))"))
    k = next(i + 1 for i, x in enumerate(L.c(l)) if x[0] == "EQUAL")
    l = L.forward(l, k, (1,), L.inst(n["sum_with_add1"], {"X": "A", "Y": R("(PLUS C W)")}), R("(ADD1 (PLUS A (PLUS C W)))"))
    e = next(x for x in L.c(l) if x[0] == "EQUAL")  # (EQUAL (ADD1 (PLUS A (PLUS C W))) (FIX B))
    m = L.inst(n["less_than_sum"], {"X": "A", "Y": R("(PLUS C W)")})
    m = L.forward(m, 1, (2,), l, R("(FIX B)"))
    m = L.forward(m, L.c(m).index(R("(LESSP A (FIX B))")) + 1, (), L.inst(n["less_with_fix"], {"X": "A", "Y": "B"}), R("(LESSP A B)"))
    put_law("negative_is_less", m, "(NOT (EQUAL (PLUS A (PLUS (ADD1 C) W)) (PLUS B P))) | (NOT (EQUAL P 0)) | (LESSP A B)")
    l = L.refl(R("(PLUS (TIMES 0 E) W)"))
    l = L.replace(l, 1, (2, 2), ZERO, "+")
    l = by_rule(l, (1,), n["product_of_zero"])
    l = by_rule(l, (), p0)
    fix0 = L.cut(n["zero_is_zero"], L.inst(n["fix_of_zero"], {"X": ZERO}), R("(ZEROP 0)"))
    l = by_rule(l, (), fix0)
    put_law("no_atom_is_zero", l, "(NOT (EQUAL W 0)) | (EQUAL (PLUS (TIMES 0 E) W) 0)")
    l = L.refl(R("(PLUS 0 W)"))
    l = L.replace(l, 1, (2, 2), ZERO, "+")
    l = by_rule(l, (), p0)
    l = by_rule(l, (), fix0)
    put_law("no_constant_is_zero", l, "(NOT (EQUAL W 0)) | (EQUAL (PLUS 0 W) 0)")

def numbers():
    topic("Balances")
    l = L.refl(R("(PLUS (PLUS A B) D)"))
    l = by_hypothesis(l, (1,), "C")
    l = by_hypothesis(l, (), "E")
    put_law("sum_on_the_left", l, "(NOT (EQUAL (PLUS A B) C)) | (NOT (EQUAL (PLUS C D) E)) | (EQUAL (PLUS (PLUS A B) D) E)")
    l = L.refl(R("(PLUS A (PLUS B C))"))
    l = by_hypothesis(l, (2,), "D")
    l = by_hypothesis(l, (), "E")
    put_law("sum_on_the_right", l, "(NOT (EQUAL (PLUS B C) D)) | (NOT (EQUAL (PLUS A D) E)) | (EQUAL (PLUS A (PLUS B C)) E)")
    put_law("equation_turns", L.replace(L.refl("X"), 1, (1,), "Y", "+"), "(NOT (EQUAL X Y)) | (EQUAL Y X)")

setup()
products()
balances()
numbers()
bounds()
named.as_clauses |= {"sums_not_less", "multiples_not_less", "bound_of_less", "bound_of_equation", "bound_of_equation_turned", "bound_of_not_less"}

"""Builds logs of rule lines, and finds them. A clause is a list of terms. Each line is given its clause here too, by the rules of
the log."""
from tables import *

def distinct(c):
    out = []
    for t in c:
        if t not in out:
            out.append(t)
    return out

def no(t):
    return ("NOT", t)

def eq(a, b):
    return ("EQUAL", a, b)

def subst(s, t):
    if isinstance(t, str):
        return s.get(t, t)
    return (t[0], *[subst(s, a) for a in t[1:]])

def at(t, path):
    for p in path:
        t = t[p]
    return t

def put(t, path, v):
    if not path:
        return v
    return (*t[:path[0]], put(t[path[0]], path[1:], v), *t[path[0] + 1:])

def numeral(t):
    while isinstance(t, tuple) and t[0] == "ADD1":
        t = t[1]
    return t == ("ZERO",)

def places(t, u, path=()):
    """innermost first"""
    if isinstance(t, tuple) and not numeral(t):
        for i in range(1, len(t)):
            yield from places(t[i], u, path + (i,))
    if u(t):
        yield path

def variables(t, out=None):
    out = [] if out is None else out
    if isinstance(t, str):
        if t not in out:
            out.append(t)
    else:
        for a in t[1:]:
            variables(a, out)
    return out

def match(pat, t, s):
    if isinstance(pat, str):
        if pat in s:
            return s if s[pat] == t else None
        s = dict(s)
        s[pat] = t
        return s
    if isinstance(t, str) or t[0] != pat[0] or len(t) != len(pat):
        return None
    for a, b in zip(pat[1:], t[1:]):
        s = match(a, b, s)
        if s is None:
            return None
    return s

class Log:
    def __init__(self):
        self.lines = []
        self.kept = {}

    def add(self, rule, clause):
        key = repr(rule)
        if key in self.kept:
            return self.kept[key]
        self.lines.append((rule, distinct(clause)))
        self.kept[key] = len(self.lines)
        return len(self.lines)

    def c(self, l):
        return self.lines[l - 1][1]

    def taut(self, *ts):
        return self.add(("TAUT", *ts), list(ts))

    def axiom(self, n, r=1, i=0):
        c = ROWS.get((n, r, i)) or [eq(*DEFS[n])]
        return self.add(("AXIOM", n, r, i), c)

    def weaken(self, l, ts):
        return self.add(("WEAKEN", l, tuple(ts)), self.c(l) + list(ts))

    def cut(self, a, b, t):
        return self.add(("CUT", a, b, t), [x for x in self.c(a) if x != t] + [x for x in self.c(b) if x != no(t)])

    def inst(self, l, s):
        s = {v: t for v, t in s.items() if v != t and any(v in variables(x) for x in self.c(l))}
        if not s:
            return l
        return self.add(("INST", l, tuple(s.items())), [subst(s, x) for x in self.c(l)])

    def refl(self, t):
        return self.add(("REFL", t), [eq(t, t)])

    def replace(self, l, k, path, t, side):
        c = list(self.c(l))
        assert not any(numeral(at(c[k - 1], path[:i])) for i in range(len(path))), "a path into a numeral"
        u = at(c[k - 1], path)
        c[k - 1] = put(c[k - 1], path, t)
        return self.add(("REPLACE", l, k, tuple(path), t, side), c + [no(eq(u, t)) if side == "+" else no(eq(t, u))])

    def join(self, a, b, p, x, y):
        return self.add(("JOIN", a, b, p, x, y), [z for z in self.c(a) if z not in (no(p), x)] + [z for z in self.c(b) if z not in (p, y)] + [("IF", p, x, y)])

    def notnot(self, l, k):
        c = list(self.c(l))
        assert c[k-1][0] == "NOT" and c[k-1][1][0] == "NOT"
        c[k - 1] = c[k - 1][1][1]
        return self.add(("NOTNOT", l, k), c)

    def induct(self, p, m, o, b, cases):
        """cases: (q, l, [(r, s)])"""
        def only(l, ts):
            assert all(x in ts for x in self.c(l)), ([show(x) for x in self.c(l)], [show(x) for x in ts])
        only(o, [("ORDINALP", m)])
        only(b, [q for q, _, _ in cases] + [p])
        for q, l, hs in cases:
            only(l, [no(q)] + [no(subst(s, p)) for _, s in hs] + [p])
            for r, s in hs:
                only(r, [no(q), ("ORD-LESSP", subst(s, m), m)])
        return self.add(("INDUCT", p, m, o, b, tuple((q, l, tuple((r, tuple(s.items())) for r, s in hs)) for q, l, hs in cases)), [p])

    # proof by working back from a goal: the line that is found has only literals of the goal
    def within(self, l, goal):
        assert all(x in goal for x in self.c(l)), ("not within", [show(x) for x in self.c(l)], [show(x) for x in goal])
        return l

    def rewrite(self, goal, k, path, line, t, go):
        """literal k has u at the path; the line has (EQUAL u t) and else literals of the goal"""
        a = goal[k]
        u = at(a, path)
        b = put(a, path, t)
        new = distinct([b if x == a else x for x in goal])
        s = go(new)
        if b not in self.c(s) or b in goal:
            return s
        n = self.replace(s, self.c(s).index(b) + 1, path, u, "-")
        if line is None:
            return n  # (NOT (EQUAL u t)) is in the goal
        return self.cut(line, n, eq(u, t))

    def forward(self, l, k, path, line, t):
        """literal k of l, counted from 1, with t for u at the path, where the line has (EQUAL u t)"""
        u = at(self.c(l)[k - 1], path)
        return self.cut(line, self.replace(l, k, path, t, "+"), eq(u, t))

    def symmetric(self, l, k):
        """literal k of l, (EQUAL a b), the other way round"""
        a, b = self.c(l)[k - 1][1:]
        return self.cut(l, self.replace(self.refl(a), 1, (1,), b, "+"), eq(a, b))

    def split(self, goal, p, go):
        a = go(distinct(goal + [no(p)]))
        if no(p) not in self.c(a):
            return a
        b = go(distinct(goal + [p]))
        if p not in self.c(b):
            return b
        return self.cut(b, a, p)

    def close(self, goal, lemmas):
        for x in goal:
            if no(x) in goal:
                return self.taut(x, no(x))
            if isinstance(x, tuple) and x[0] == "EQUAL" and x[1] == x[2]:
                return self.refl(x[1])
            if x == ("TRUE",):
                return self.axiom("TRUE")
            if x == no(("FALSE",)):
                return self.axiom("FALSE")
        for l in lemmas:
            s = self.subsumes(self.c(l), goal, {})
            if s is not None:
                return self.inst(l, s)
        return None

    def subsumes(self, c, goal, s):
        if not c:
            return s
        for g in goal:
            t = match(c[0], g, s)
            if t is not None:
                r = self.subsumes(c[1:], goal, t)
                if r is not None:
                    return r
        return None

    def auto(self, goal, lemmas=(), rules=(), opens=(), hyps=True, depth=60, trace=False):
        """lemmas close; rules are lines whose last literal is an equation, used from left to right where their other
        literals stand in the goal; opens are calls, or names of functions, to open where they stand"""
        if depth == 0:
            raise Exception("too deep: " + " | ".join(show(x) for x in goal))
        def go(g):
            return self.auto(g, lemmas, rules, opens, hyps, depth - 1, trace)
        if trace:
            print("  " * (60 - depth), " | ".join(show(x) for x in goal))
        l = self.close(goal, lemmas)
        if l is not None:
            return l
        for x in goal:  # beside (NOT (NOT t)) also t
            if isinstance(x, tuple) and x[0] == "NOT" and isinstance(x[1], tuple) and x[1][0] == "NOT":
                t = x[1][1]
                if t in goal:
                    continue
                s = go(goal + [t])
                return self.cut(s, self.taut(no(t), x), t) if t in self.c(s) else s
        for x in goal:  # a variable that equals something
            if isinstance(x, tuple) and x[0] == "NOT" and isinstance(x[1], tuple) and x[1][0] == "EQUAL":
                v, t = x[1][1], x[1][2]
                if isinstance(v, str) and v not in variables(t):
                    for k, y in enumerate(goal):
                        if y != x:
                            for path in places(y, lambda z: z == v):
                                return self.rewrite(goal, k, path, None, t, go)
        for x in goal:  # a call that equals something by a hypothesis
            if hyps and isinstance(x, tuple) and x[0] == "NOT" and isinstance(x[1], tuple) and x[1][0] == "EQUAL" and not isinstance(x[1][1], str) and not numeral(x[1][1]):
                a, b = x[1][1:]
                for k, y in enumerate(goal):
                    if y != x:
                        for path in places(y, lambda z: z == a):
                            return self.rewrite(goal, k, path, None, b, go)
        for k, x in enumerate(goal):
            for path in places(x, lambda z: True):
                u = at(x, path)
                if isinstance(u, str):
                    continue
                if u[0] == "IF":
                    _, p, a, b = u
                    if no(p) in goal or p == ("TRUE",):
                        l = self.inst(self.axiom("IF", 2), {"X": p, "Y": a, "Z": b})
                        if p == ("TRUE",):
                            l = self.cut(self.axiom("TRUE"), l, p)
                        return self.rewrite(goal, k, path, l, a, go)
                    if p in goal or p == ("FALSE",):
                        l = self.inst(self.axiom("IF", 1), {"X": p, "Y": a, "Z": b})
                        if p == ("FALSE",):
                            l = self.cut(l, self.axiom("FALSE"), p)
                        return self.rewrite(goal, k, path, l, b, go)
                for r in rules:
                    c = self.c(r)
                    e = c[-1]
                    s = match(e[1], u, {})
                    if s is None:
                        continue
                    conditions = c[:-1]
                    s = self.subsumes(conditions, goal, s)
                    if s is None:
                        continue
                    return self.rewrite(goal, k, path, self.inst(r, s), subst(s, e[2]), go)
                if u in opens or u[0] in opens:
                    d, body = DEFS[u[0]]
                    l = self.inst(self.axiom(u[0]), dict(zip(d[1:], u[1:])))
                    return self.rewrite(goal, k, path, l, subst(dict(zip(d[1:], u[1:])), body), go)
        for x in goal:
            for path in places(x, lambda z: isinstance(z, tuple) and z[0] == "IF"):
                return self.split(goal, at(x, path)[1], go)
        raise Exception("stuck: " + " | ".join(show(x) for x in goal))

    def prove(self, text, **kw):
        goal = [read(t) for t in text.split(" | ")]
        l = self.within(self.auto(goal, **kw), goal)
        return l

    def exact(self, l, goal):
        """the goal itself, its last literal last"""
        if set(self.c(l)) != set(goal):
            l = self.weaken(l, [g for g in goal if g not in self.c(l)])
        p = goal[-1]
        return l if self.c(l)[-1] == p else self.cut(l, self.taut(no(p), p), p)

"""Prints the law by which the measures of QUOTIENT and REMAINDER fall: its clause and its log, into the proofs of the crate that is
given. It is searched for here.

    python3 tools/falls.py crates/nq_falls
"""
import os, sys
sys.dont_write_bytecode = True
words = sys.argv[1:]
sys.argv[1:] = ["--list"]
out, sys.stdout = sys.stdout, open(os.devnull, "w")
import emit
sys.stdout = out
from facts import A, ENDS, LESS, L, R, difference_is_no_more, difference_is_number, named, numbers_compare, size_of_number
from balances import eq, no, show
from printing import IMPORTS, bare, clause, cone, imports, listed, nested, rule_text

NAME = "difference_falls"

def difference_is_less():
    """the difference of positive numbers is less than the first"""
    one_less, smaller = R("(SUB1 X)"), R("(DIFFERENCE (SUB1 X) (SUB1 Y))")
    s = {"X": one_less, "Y": R("(SUB1 Y)")}
    less, same = ("LESSP", smaller, one_less), eq(one_less, smaller)
    either = L.inst(numbers_compare(), {"X": one_less, "Y": smaller})
    either = L.cut(either, L.inst(difference_is_no_more(), s), ("LESSP", one_less, smaller))
    either = L.cut(named["sub1_is_number"], either, ("NUMBERP", one_less))
    either = L.cut(L.inst(difference_is_number(), s), either, ("NUMBERP", smaller))
    row, at = A("LESSP", 2), R("(LESSP (SUB1 X) X)")
    chain = L.cut(row, L.inst(named["less_is_transitive"], {"X": smaller, "Y": one_less, "Z": "X"}), at)
    line = L.cut(either, chain, less)
    line = L.cut(line, L.replace(row, L.c(row).index(at) + 1, (1,), smaller, "+"), same)
    whole = ("LESSP", smaller, "X")
    line = L.replace(line, L.c(line).index(whole) + 1, (1,), R("(DIFFERENCE X Y)"), "-")
    return L.cut(named["difference_of_positives"], line, eq(R("(DIFFERENCE X Y)"), smaller))

def difference_falls():
    line = difference_is_less()
    size = size_of_number()
    number = named["not_zero_is_number"]
    x = L.cut(number, size, R("(NUMBERP X)"))
    d = L.cut(difference_is_number(), L.inst(size, {"X": R("(DIFFERENCE X Y)")}), R("(NUMBERP (DIFFERENCE X Y))"))
    line = L.replace(line, L.c(line).index(R("(LESSP (DIFFERENCE X Y) X)")) + 1, (1,), R("(COUNT (DIFFERENCE X Y))"), "-")
    line = L.cut(d, line, eq(R("(COUNT (DIFFERENCE X Y))"), R("(DIFFERENCE X Y)")))
    line = L.replace(line, L.c(line).index(R("(LESSP (COUNT (DIFFERENCE X Y)) X)")) + 1, (2,), R("(COUNT X)"), "-")
    line = L.cut(x, line, eq(R("(COUNT X)"), "X"))
    below = L.inst(named["smaller_is_below"], {"X": R("(DIFFERENCE X Y)"), "Y": "X"})
    line = L.cut(line, below, R("(LESSP (COUNT (DIFFERENCE X Y)) (COUNT X))"))
    # where X is zero, it is less than Y
    less = R("(LESSP X Y)")
    true = L.auto([R("(ZEROP Y)"), no(R("(ZEROP X)")), less], hyps=False, lemmas=ENDS, rules=[LESS[2]])
    line = L.cut(line, true, R("(ZEROP X)"))
    for t in R("(ZEROP Y)"), less:
        line = L.cut(line, L.taut(no(t), no(no(t))), t)
    return L.exact(line, [no(no(R("(ZEROP Y)"))), no(no(less)), R("(ORD-LESSP (COUNT (DIFFERENCE X Y)) (COUNT X))")])

def printed():
    line = difference_falls()
    by_line = {}
    for name in sorted(named, key=lambda name: (named[name], list(emit.FILES).index(named.topics[name]))):
        by_line.setdefault(named[name], name)
    order, new = cone(L, line, set(by_line))
    known, own = [l for l in order if l in by_line], [l for l in order if l not in by_line]
    names = [by_line[l] for l in known]
    c = L.c(line)
    o = "\n-- %s\n" % ", ".join(show(t) for t in c)
    o += "abbrev pub %s_clause : List Term\n%s_clause = %s\n" % (NAME, NAME, bare(clause(c)))
    o += "\nabbrev %s_log : List LogLine\n%s_log =\n    " % (NAME, NAME)
    o += "\n    ∷ ".join("Ruled (%s)" % rule_text(L.lines[l - 1][0], new) for l in own) + " ∷ []\n"
    o += "\npub %s : Derivable [] (clause %s_clause)\nunfolding symbols_of number_of\n" % (NAME, NAME)
    o += "%s = everywhere %s %s_log %s_clause refl %s refl\n" % (NAME, listed([n + "_clause" for n in names]), NAME, NAME, nested(names))
    head = imports(o, IMPORTS)
    for t in emit.FILES:
        here = [n for n in names if named.topics[n] == t]
        if here:
            head += "use Rattle.nq_laws.specs.%s.{%s}\nuse Rattle.nq_laws.proofs.%s.{%s}\n" % (t, ", ".join(n + "_clause" for n in here), t, ", ".join(here))
    return "-- The size of a difference falls, by a log over the laws of arithmetic.\n" + head + o, len(own)

text, count = printed()
path = os.path.join(words[0], "proofs", "DifferenceFalls.antt")
open(path, "w").write(text)
print(count, "lines")

"""Prints the cone of a line of a log as antt data."""
import os, re
from logs import *

def cited(rule):
    k = rule[0]
    if k in ("WEAKEN", "INST", "REPLACE", "NOTNOT"):
        return [rule[1]]
    if k in ("CUT", "JOIN"):
        return [rule[1], rule[2]]
    if k == "INDUCT":
        return [rule[3], rule[4]] + [n for q, l, hs in rule[5] for n in [l] + [r for r, s in hs]]
    return []

def cone(log, line, stop=()):
    need, todo = set(), [line]
    while todo:
        l = todo.pop()
        if l in need:
            continue
        need.add(l)
        if l not in stop:
            todo += cited(log.lines[l - 1][0])
    order = [l for l in sorted(need) if l in stop] + [l for l in sorted(need) if l not in stop]
    return order, {l: i + 1 for i, l in enumerate(order)}

def term(t):
    if isinstance(t, str):
        return '(variable "%s")' % t
    if t == NIL:
        return '(literal_atom "NIL")'
    n = len(t) - 1
    return "(call%d %s)" % (n, " ".join(['"%s"' % t[0]] + [term(a) for a in t[1:]]))

def listed(xs):
    return "(" + " ∷ ".join(xs + ["[]"]) + ")" if xs else "[]"

def pairs(s, term):
    return listed(['(codes "%s", %s)' % (v, term(t)) for v, t in s])

def rule_text(rule, new, term=term):
    k = rule[0]
    if k == "TAUT":
        return "Taut %s" % listed([term(t) for t in rule[1:]])
    if k == "AXIOM":
        return 'AxiomRow (codes "%s") %d %d' % rule[1:]
    if k == "WEAKEN":
        return "Weaken %d %s" % (new[rule[1]], listed([term(t) for t in rule[2]]))
    if k == "CUT":
        return "Cut %d %d %s" % (new[rule[1]], new[rule[2]], term(rule[3]))
    if k == "INST":
        return "Instance %d %s" % (new[rule[1]], pairs(rule[2], term))
    if k == "REFL":
        return "Reflexive %s" % term(rule[1])
    if k == "REPLACE":
        return "Replace %d %d %s %s %s" % (new[rule[1]], rule[2], listed([str(p) for p in rule[3]]), term(rule[4]), "Forwards" if rule[5] == "+" else "Backwards")
    if k == "JOIN":
        return "Join %d %d %s %s %s" % (new[rule[1]], new[rule[2]], term(rule[3]), term(rule[4]), term(rule[5]))
    if k == "NOTNOT":
        return "NotNot %d %d" % (new[rule[1]], rule[2])
    if k == "INDUCT":
        cases = ["record { test = %s; step = %d; hypotheses = %s }" % (term(q), new[l], listed(["record { line = %d; pairs = %s }" % (new[r], pairs(s, term)) for r, s in hs])) for q, l, hs in rule[5]]
        return "Induct %s %s %d %d %s" % (term(rule[1]), term(rule[2]), new[rule[3]], new[rule[4]], listed(cases))

def clause(c):
    return listed([term(t) for t in c])

# what a printed file of laws may import, with where it stands
IMPORTS = [
    ("Rattle.std.proofs.Common", ["List", "[]", "◌∷◌", "refl"]),
    ("Rattle.std.specs.Prelude", ["codes"]),
    ("Rattle.nq_logic.specs.Terms", ["Term", "IsTerm"]),
    ("Rattle.nq_logic.specs.Words", ["variable", "call0", "call1", "call2", "call3", "numeral", "literal_atom"]),
    ("Rattle.nq_logic.specs.Histories", ["History"]),
    ("Rattle.nq_logic.specs.Ground", ["symbols_of"]),
    ("Rattle.nq_logic.specs.Numerals", ["number_of"]),
    ("Rattle.nq_logic.specs.Formulas", ["clause"]),
    ("Rattle.nq_logic.specs.Derivations", ["Derivable"]),
    ("Rattle.nq_logic.proofs.Clauses", ["instance_law"]),
    ("Rattle.nq_proof.specs.Rules", ["Taut", "AxiomRow", "Weaken", "Cut", "Instance", "Reflexive", "Replace", "Join", "NotNot", "Induct", "Forwards", "Backwards"]),
    ("Rattle.nq_proof.specs.Logs", ["LogLine", "Ruled"]),
    ("Rattle.nq_proof.proofs.SoundLogs", ["everywhere", "grown"]),
    ("Rattle.nq_proof.proofs.ByLaw", ["by_law"]),
    ("Rattle.nq_proof.proofs.ValueSymbols", ["literal_atom_over"]),
    ("Rattle.nq_laws.specs.Laws", ["AreDerivable"]),
]
# and a printed file of their clauses
CLAUSE_IMPORTS = [
    ("Rattle.std.specs.Prelude", ["List", "[]", "◌∷◌"]),
    ("Rattle.nq_logic.specs.Terms", ["Term"]),
    ("Rattle.nq_logic.specs.Words", ["variable", "call0", "call1", "call2", "call3", "literal_atom"]),
]

def symbol(f):
    return {"ZERO": "zero", "TRUE": "true", "FALSE": "false"}.get(f, f.lower().replace("-", "_")) + "_symbol"

def over(t, symbols):
    """the proof that the term is right, where its variables' terms are"""
    if isinstance(t, str):
        return "o" + t.lower()
    if t == NIL:
        return '(literal_atom_over h "NIL")'
    symbols.add(symbol(t[0]))
    o = "%s h" % symbol(t[0])
    if len(t) == 1:
        return "(%s)" % o
    for a in t[1:]:
        o = "(%s, %s)" % (o, over(a, symbols))
    return o

def at_terms(t):
    """the term at the terms that stand for its variables"""
    if isinstance(t, str):
        return t.lower()
    if t == NIL:
        return '(literal_atom "NIL")'
    return "(call%d %s)" % (len(t) - 1, " ".join(['"%s"' % t[0]] + [at_terms(a) for a in t[1:]]))

def names_in(t):
    if isinstance(t, str):
        return [t]
    return [v for a in t[1:] for v in names_in(a)]

def holds_atom(t):
    return t == NIL or not isinstance(t, str) and any(holds_atom(a) for a in t[1:])

def nested(xs):
    o = "tt"
    for x in reversed(xs):
        o = "(%s, %s)" % (x, o)
    return o

def at_law(name, c, goal, symbols):
    """the law at terms that meet its hypotheses, which are taken in the order of the goal"""
    *hypotheses, p = c
    if any(q[0] != "NOT" for q in hypotheses if not isinstance(q, str)) or any(isinstance(q, str) for q in hypotheses):
        return ""
    variables = sorted({v for t in goal for v in names_in(t)})
    if not variables:
        return "\npub %s_at : (h : History) → Derivable h (clause %s_clause)\n%s_at h = grown %s_clause %s h\n" % (name, name, name, name, name)
    small = [v.lower() for v in variables]
    given = ["d%d" % (i + 1) for i in range(len(hypotheses))]
    asked = [q for q in goal if q in hypotheses]
    types = ["IsTerm (symbols_of h) %s" % v for v in small] + ["Derivable h (clause (%s ∷ []))" % at_terms(q[1]) for q in asked]
    place = {q: given[i] for i, q in enumerate(asked)}
    o = "\npub %s_at : (h : History) (%s : Term) → %s → Derivable h (clause (%s ∷ []))\n" % (name, " ".join(small), " → ".join(types), at_terms(p))
    if any(holds_atom(t) for t in goal):
        o += "unfolding numeral\n"
    o += "%s_at h %s =\n    by_law h %s %s %s (grown %s_clause %s h) %s %s\n" % (
        name, " ".join(small + ["o" + v for v in small] + given), listed([term(q[1]) for q in hypotheses]), term(p), listed(['(codes "%s", %s)' % (v, v.lower()) for v in variables]),
        name, name, nested([place[q] for q in hypotheses]), over(p, symbols))
    return o

def clause_at(name, c, symbols):
    """the law's clause at terms"""
    variables = sorted({v for t in c for v in names_in(t)})
    if not variables:
        return "\npub %s_clause_at : (h : History) → Derivable h (clause %s_clause)\n%s_clause_at h = grown %s_clause %s h\n" % (name, name, name, name, name)
    small = [v.lower() for v in variables]
    types = ["IsTerm (symbols_of h) %s" % v for v in small]
    o = "\npub %s_clause_at : (h : History) (%s : Term) → %s → Derivable h (clause %s)\n" % (name, " ".join(small), " → ".join(types), listed([at_terms(t) for t in c]))
    return o + "%s_clause_at h %s =\n    instance_law h %s %s_clause (grown %s_clause %s h) %s\n" % (
        name, " ".join(small + ["o" + v for v in small]), listed(['(codes "%s", %s)' % (v, v.lower()) for v in variables]), name, name, name, nested([over(t, symbols) for t in c]))

def words_in(text):
    return set(re.findall(r"[A-Za-z_0-9]+|\[\]|∷", text))

def imports(text, table):
    """the import lines for the names of the table that stand in the text"""
    words, o = words_in(text), ""
    for module, names in table:
        used = [n for n in names if n in words or n == "◌∷◌"]
        if used:
            o += "use %s.{%s}\n" % (module, ", ".join(used))
    return o

def snake(topic):
    return re.sub(r"(?<!^)([A-Z])", r"_\1", topic).lower()

def laws_of(topic):
    return "laws_of_" + snake(topic)

def in_order(named, topic):
    return [name for name, line in sorted(named.items(), key=lambda item: item[1]) if named.topics[name] == topic]

def emit_clauses(log, named, topic, about):
    """the clauses of one topic's laws, and their list"""
    o, names = "", in_order(named, topic)
    for name in names:
        c = log.c(named[name])
        o += "\n-- %s\n" % ", ".join(show(t) for t in c)
        o += "abbrev pub %s_clause : List Term\n%s_clause = %s\n" % (name, name, bare(clause(c)))
    o += "\n-- all of these laws\nabbrev pub %s : List (List Term)\n%s = %s\n" % (laws_of(topic), laws_of(topic), bare(listed([n + "_clause" for n in names])))
    return "-- Laws of %s, as clauses.\n" % about + imports(o, CLAUSE_IMPORTS) + o

def bare(text):
    return text[1:-1] if text.startswith("(") else text

def emit(log, named, topics, topic, about):
    """the laws of one topic; each law's log begins with the laws that it cites, which are of this topic or an earlier one"""
    by_line = {}
    for name in sorted(named, key=lambda name: (named[name], topics.index(named.topics[name]))):
        assert named[name] not in by_line, ("two names", name, by_line[named[name]])
        by_line[named[name]] = name
    o, count, outside, symbols = "", 0, {}, set()
    own_names = in_order(named, topic)
    for name in own_names:
        line = named[name]
        stop = {l for l, k in by_line.items() if l != line and topics.index(named.topics[k]) <= topics.index(topic)}
        order, new = cone(log, line, stop)
        known = [l for l in order if l in stop]
        own = [l for l in order if l not in stop]
        names = [by_line[l] for l in known]
        for k in names:
            t = named.topics[k]
            assert topics.index(t) <= topics.index(topic), (name, topic, "cites", k, t)
            if t != topic:
                outside.setdefault(t, []).append(k)
        count += len(own)
        c = log.c(line)
        o += "\n-- %s\n" % ", ".join(show(t) for t in c)
        o += "abbrev %s_log : List LogLine\n%s_log =\n    " % (name, name)
        o += "\n    ∷ ".join("Ruled (%s)" % rule_text(log.lines[l - 1][0], new) for l in own) + " ∷ []\n"
        o += "\npub %s : Derivable [] (clause %s_clause)\nunfolding symbols_of number_of\n" % (name, name)
        o += "%s = everywhere %s %s_log %s_clause refl %s refl\n" % (name, listed([n + "_clause" for n in names]), name, name, nested(names))
        o += clause_at(name, c, symbols) if name in named.as_clauses else at_law(name, c, named.goals.get(name, c), symbols)
    o += "\npub %s_hold : AreDerivable %s\n%s_hold h = %s\n" % (laws_of(topic), laws_of(topic), laws_of(topic), nested(["grown %s_clause %s h" % (n, n) for n in own_names]))
    head = imports(o, IMPORTS)
    if symbols:
        head += "use Rattle.nq_logic.proofs.Symbols.{%s}\n" % ", ".join(sorted(symbols))
    head += "use Rattle.nq_laws.specs.%s.{%s}\n" % (topic, ", ".join([n + "_clause" for n in own_names] + [laws_of(topic)]))
    for t in topics:
        if t in outside:
            names = list(dict.fromkeys(outside[t]))
            head += "use Rattle.nq_laws.specs.%s.{%s}\n" % (t, ", ".join(n + "_clause" for n in names))
            head += "use Rattle.nq_laws.proofs.%s.{%s}\n" % (t, ", ".join(names))
    about = "-- Laws of %s in the ground history, each by a log over earlier ones, and at terms of any history.\n" % about
    return about + head + o, count

def emit_answer(topic):
    """the answer of the function that promises the topic's laws"""
    function = snake(topic) + "_laws"
    return ("use Rattle.nq_laws.proofs.%s.{%s_hold}\nuse Rattle.nq_laws.proofs.%s.Goals as goal\n\n" % (topic, laws_of(topic), function)
        + "pub returns : goal.returns\nreturns c = %s_hold\n" % laws_of(topic))

LIBRARY = """//! Laws of arithmetic on terms with variables, each derivable in every history.
//!
//! The clauses stand in the definitions, a file for each topic, and their proofs are logs of rule lines, which the check
//! computes. A program found and printed this crate (folder tools), and none of it is written by hand. Each law NAME is also
//! there at terms: `NAME_at` is its conclusion at terms that meet its hypotheses, or `NAME_clause_at` its clause at terms.
#![tactic(auto)]

ghost use Rattle.nq_laws.specs.Laws.{AreDerivable};
"""
MEANING = """-- What it means that clauses are laws.
use Rattle.std.specs.Prelude.{List}
use Rattle.nq_logic.specs.Terms.{Term, Each}
use Rattle.nq_logic.specs.Formulas.{clause}
use Rattle.nq_logic.specs.Histories.{History}
use Rattle.nq_logic.specs.Derivations.{Derivable}

-- each of the clauses is derivable in every history
abbrev pub AreDerivable : List (List Term) → Type 0
AreDerivable laws = (h : History) → Each (λ c. Derivable h (clause c)) laws
"""

def emit_library(files):
    """the crate's root: a function for each topic, which promises the topic's laws; files gives each topic what it is of"""
    o = LIBRARY + "".join("ghost use Rattle.nq_laws.specs.%s.{%s};\n" % (f, laws_of(f)) for f in files)
    for f, about in files.items():
        o += "\n/// Laws of %s.\npub fn %s_laws()\n    ensures { AreDerivable %s }\n{}\n" % (about, snake(f), laws_of(f))
    return o

def emit_modules(files):
    return "".join("pub mod %s\n" % f for f in files)

ANSWERS = """use Rattle.std.proofs.Common.{refl}
use Rattle.nq_logic.specs.Ground.{symbols_of}
use Rattle.nq_logic.specs.Numerals.{number_of}
use Rattle.nq_logic.specs.Sizes.{tree_depth}
use Rattle.nq_replay.specs.Replaying.{law_line, law_clause}
use Rattle.%(crate)s.proofs.laws.%(function)s.Goals as goal
"""
ANSWER = """
pub returns-in-%(variant)s : goal.returns-in-%(variant)s
unfolding law_line law_clause symbols_of number_of tree_depth
returns-in-%(variant)s c = refl
"""

def answers(crate, function, variants):
    """the answers that say that each table a function gives is allowed"""
    return ANSWERS % dict(crate=crate, function=function) + "".join(ANSWER % dict(variant=v) for v in variants)

def writer(crate):
    """what writes a text to a file of a crate"""
    def put(path, text):
        path = os.path.join(crate, path)
        os.makedirs(os.path.dirname(path), exist_ok=True)
        open(path, "w").write(text)
    return put

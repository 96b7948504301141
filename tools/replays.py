"""Prints laws as tables of rule lines for the crate nq_replay: the tables, their clauses, a function for each law and its
answers. The laws are those that the programs beside it find, and a few that are searched for here.

    python3 tools/replays.py crates/nq_replay
"""
import os, re, sys
sys.dont_write_bytecode = True
import descents
from balances import *
from arithmetic import L, named, show
from printing import cone, term

LETTERS = "ABCDEPQSXYZ"

# The words of nq_replay::words are short, so that the layout puts many of them in a line; one of more than ten letters would
# spoil that. A constant has a most number of expressions, which a word in the place of a call raises: the largest table has calls.
SHORTER = {"NEGATIVE_GUTS": "GUTS"}
SPELLED = ["less_is_transitive"]

def steps(t):
    """the steps that make the term, in words"""
    if isinstance(t, str):
        part = re.fullmatch(r"X(\d+)", t)
        assert not part or part.group(1) == "1", t
        return ["PART"] if part else [t]
    name = t[0].replace("-", "_")
    return [s for a in t[1:] for s in steps(a)] + [(SHORTER.get(name, name), "Step::Call(ground::%s, %d)" % (name, len(t) - 1))]

def worded(made, spelled):
    """the steps as they stand in the table, and the words of which they are"""
    if spelled:
        return [s if isinstance(s, str) else s[1] for s in made], []
    texts = [s if isinstance(s, str) else s[0] for s in made]
    return texts, sorted(set(texts))

def listed(texts):
    return "&[%s]" % ", ".join(texts)

def table(name, line, known, types="crate::table", own=frozenset()):
    """the law's table: the lines that it rests on, down to those that are known and to axioms; words of its own are not in nq_replay"""
    order = known + [l for l in cone(L, line, known)[0] if l not in known]
    new = {l: i + 1 for i, l in enumerate(order)}
    terms, names = [], []
    def place(things, x):
        if x not in things:
            things.append(x)
        return things.index(x)
    def pairs(s):
        return listed("LawPair { name: %d, term: %d }" % (place(names, v), place(terms, t)) for v, t in s)
    def hypothesis(r, s):
        return "LawHypothesis { line: %d, pairs: %s }" % (new[r], pairs(s))
    def case(q, l, hs):
        return "LawCase { test: %d, line: %d, steps: %s }" % (place(terms, q), new[l], listed(hypothesis(r, s) for r, s in hs))
    def rule(r):
        k = r[0]
        if k == "TAUT":
            return "Taut(%s)" % listed(str(place(terms, t)) for t in r[1:])
        if k == "AXIOM":
            return "AxiomRow(ground::%s, %d, %d)" % (r[1].replace("-", "_"), r[2], r[3])
        if k == "CUT":
            return "Cut(%d, %d, %d)" % (new[r[1]], new[r[2]], place(terms, r[3]))
        if k == "INST":
            return "Instance(%d, %s)" % (new[r[1]], pairs(r[2]))
        if k == "REFL":
            return "Reflexive(%d)" % place(terms, r[1])
        if k == "REPLACE":
            side = "Forwards" if r[5] == "+" else "Backwards"
            return "Replace(%d, %d, %s, %d, Side::%s)" % (new[r[1]], r[2], listed(map(str, r[3])), place(terms, r[4]), side)
        assert k == "INDUCT", k
        return "Induct(%d, %d, %d, %d, %s)" % (place(terms, r[1]), place(terms, r[2]), new[r[3]], new[r[4]], listed(case(*c) for c in r[5]))
    rules = ["LawRule::" + rule(L.lines[l - 1][0]) for l in order[len(known):]]
    made, words = worded([s for t in terms for s in steps(t)], name in SPELLED)
    letters = [v for v in LETTERS if v in made and v not in words]
    out = "\n/// The law `%s`.\npub const %s: Law = Law {\n    names: %s,\n    terms: &[\n" % (name, name.upper(), listed('b"%s"' % n for n in names))
    out += "".join("        %s,\n" % s for s in made) + "    ],\n    rules: &[\n" + "".join("        %s,\n" % r for r in rules) + "    ],\n};\n"
    head = "//! The table of the law `%s`. It is printed.\n\n" % name
    used = [w for w in ("Law", "LawCase", "LawHypothesis", "LawPair", "LawRule") if re.search(r"\b%s\b" % w, out)]
    uses = ["use %s::{%s};\n" % (types, ", ".join(used))]
    if own & set(words):
        uses.append("use crate::words::{%s};\n" % ", ".join(w for w in words if w in own))
    if words:
        uses.append("use %s::words::{%s};\n" % (types.split("::")[0], ", ".join(w for w in words if w not in own)))
    else:
        uses.append("use nq_steps::{Leaf, Step};\n")
    if "ground::" in out:
        uses.append("use nq_bank::ground;\n")
    if "Side::" in out:
        uses.append("use nq_rule::Side;\n")
    head += "".join(sorted(uses))
    return head + "".join("\nconst %s: Step = Step::Leaf(Leaf::Letter(b'%s'));\n" % (v, v) for v in letters) + out

def found(text, **how):
    """the line of a law that is searched for here, with just these literals"""
    goal = [read(t) for t in text.split(" | ")]
    line = L.within(L.auto(goal, **how), goal)
    assert sorted(map(repr, L.c(line))) == sorted(map(repr, goal)), text
    return line

def denied_twice(line, t):
    """the line with `(NOT (NOT t))` for t"""
    return L.cut(line, L.taut(no(t), no(no(t))), t)

def connectives():
    """calls of connectives, opened and put together"""
    ends = [A("TRUE"), A("FALSE")]
    yield "implication_opens", found("(NOT (IMPLIES X Y)) | (NOT X) | Y", lemmas=ends, opens=["IMPLIES"])
    yield "choice_opens", found("(NOT (OR X Y)) | X | Y", lemmas=ends, opens=["OR"])
    yield "pair_holds", found("(NOT X) | (NOT Y) | (AND X Y)", lemmas=ends, opens=["AND"])
    yield "first_of_pair", found("(NOT (AND X Y)) | X", lemmas=ends, opens=["AND"])
    yield "second_of_pair", found("(NOT (AND X Y)) | Y", lemmas=ends, opens=["AND"])

def measures():
    """ordinals that serve as measures, and that they fall"""
    no_list = L.cut(A("ADD1", 3), L.inst(A("CONS", 13, 1), {"X": ZERO}), ("NUMBERP", ZERO))
    zero = found("(ORDINALP 0)", lemmas=[A("ADD1", 3), no_list], opens=[read("(ORDINALP 0)")])
    yield "size_is_ordinal", named["size_is_ordinal"]
    yield "measure_is_ordinal", found("(ORDINALP (IF (ORDINALP X) X 0))", lemmas=[zero])
    yield "measure_falls", found("(NOT (ORDINALP X)) | (NOT (ORDINALP Y)) | (NOT (ORD-LESSP X Y)) | (ORD-LESSP (IF (ORDINALP X) X 0) (IF (ORDINALP Y) Y 0))")
    yield "smaller_is_below", named["smaller_is_below"]

def descending():
    """parts that are smaller than the whole, under each test that says so, and chains of sizes"""
    less = "(LESSP (COUNT (%s X)) (COUNT X))"
    yield "size_falls", named["size_falls"]
    yield "less_is_transitive", named["less_is_transitive"], "size_falls"
    yield "sizes_descend", named["sizes_descend"], "less_is_transitive"
    for name, part in ("first", "CAR"), ("rest", "CDR"):
        yield name + "_is_smaller", named[name + "_is_smaller"]
        yield name + "_by_no_atom", L.cut(named[name + "_is_smaller"], named["list_by_no_atom"], read("(NOT (LISTP X))")), name + "_is_smaller"
    yield "less_than_one_more", named["less_than_one_more"]
    yield "atom_part_is_smaller", named["atom_part_is_smaller"], "less_than_one_more"
    yield "negative_part_is_smaller", named["negative_part_is_smaller"], "less_than_one_more"
    one = named["one_less_is_smaller"]
    yield "one_less_is_smaller", one, "less_than_one_more"
    yield "one_less_by_no_zero", denied_twice(one, read("(ZEROP X)")), "one_less_is_smaller"
    no_zero = found("(NOT (ZEROP X)) | (NOT (NUMBERP X)) | (EQUAL X 0)", lemmas=[A("FALSE")], opens=["ZEROP", "OR"])
    number = L.cut(one, no_zero, read("(ZEROP X)"))
    yield "one_less_of_number", denied_twice(number, read("(EQUAL X 0)")), "one_less_is_smaller"
    turned = L.inst(named["equation_by_turned"], {"X": "X", "Y": ZERO})
    yield "one_less_of_number_turned", L.cut(number, turned, read("(EQUAL X 0)")), "one_less_is_smaller"

TOPICS = [("connectives", connectives), ("measures", measures), ("descents", descending)]

CLAUSES = """-- The clauses of the laws. They are printed.
use Rattle.std.specs.Prelude.{List, [], ◌∷◌}
use Rattle.nq_logic.specs.Terms.{Term}
use Rattle.nq_logic.specs.Words.{variable, call0, call1, call2, call3}
"""
FUNCTIONS = """//! The lines of single laws: %s. They are printed.
ghost use Rattle.std.specs.Prelude.{◌≡◌, ◌∷◌, [], IfOk, Some};
ghost use Rattle.nq_kernel.specs.Growing.{WorkStands, LineHolds};
ghost use Rattle.nq_replay.specs.Uncounted.{GrowsUncounted};
ghost use Rattle.nq_replay.specs.Replaying.{law_clause};
ghost use Rattle.nq_replay.specs.LawClauses.{%s};

use crate::replaying::replay;
use crate::table::Law;
%suse nq_history::History;
use nq_kernel::Work;
use std::alloc::AllocError;
"""
FUNCTION = """
/// The table of %(cl)s%(after)s.
fn %(nm)s_law() -> Law
    ensures { law_clause result %(known)s ≡ Some %(nm)s_clause }
{
    %(up)s
}

/// Adds the line of %(cl)s%(after)s.
pub fn %(nm)s(work: &mut Work, history: &History%(par)s) -> Result<u64, AllocError>
    requires stands { WorkStands history.now work.old }
%(req)s    ensures line { IfOk result (λ n. LineHolds work.new n %(nm)s_clause) }
    ensures grows { GrowsUncounted history.now work.old work.new }
{
    let law = %(nm)s_law();
    replay(work, history, law, &[%(arg)s])
}
"""
REFL = """use Rattle.std.proofs.Common.{refl}
use Rattle.nq_logic.specs.Ground.{symbols_of}
use Rattle.nq_logic.specs.Numerals.{number_of}
use Rattle.nq_logic.specs.Sizes.{tree_depth}
use Rattle.nq_replay.specs.Replaying.{law_line, law_clause}
use Rattle.nq_replay.proofs.%(topic)s.%(nm)s_law.Goals as goal

pub returns : goal.returns
unfolding law_line law_clause symbols_of number_of tree_depth
returns c = refl
"""
FROM_AXIOMS = """use Rattle.std.specs.Prelude.{is_some, []}
use Rattle.std.proofs.Common.{ap}
use Rattle.nq_replay.specs.LawClauses.{%(nm)s_clause}
use Rattle.nq_replay.proofs.LawLemmas.{by_table}
use Rattle.nq_replay.proofs.%(topic)s.%(nm)s.Goals as goal

pub replay-requires-clause-law : goal.replay-requires-clause-law
replay-requires-clause-law c = ap is_some c.%(nm)s_law-law.ensures

pub returns-clause-line : goal.returns-clause-line
returns-clause-line c = by_table c.replay.new.work c.replay.result c.%(nm)s_law-law.result [] %(nm)s_clause c.%(nm)s_law-law.ensures c.replay.ensures.line
"""
FROM_ONE = """use Rattle.std.proofs.Common.{[], ◌∷◌}
use Rattle.nq_replay.specs.LawClauses.{%(nm)s_clause, %(one)s_clause}
use Rattle.nq_replay.proofs.LawLemmas.{known_stands, known_law, by_table_of_one}
use Rattle.nq_replay.proofs.%(topic)s.%(nm)s.Goals as goal

pub replay-requires-clause-known : goal.replay-requires-clause-known
replay-requires-clause-known c = known_stands c.args.work.now c.args.line %(one)s_clause c.requires.line

pub replay-requires-clause-law : goal.replay-requires-clause-law
replay-requires-clause-law c = known_law c.args.work.now c.args.line c.%(nm)s_law-law.result %(one)s_clause %(nm)s_clause c.requires.line c.%(nm)s_law-law.ensures

pub returns-clause-line : goal.returns-clause-line
returns-clause-line c =
    by_table_of_one c.args.work.now c.replay.new.work c.replay.result c.args.line c.%(nm)s_law-law.result %(one)s_clause %(nm)s_clause c.requires.line c.%(nm)s_law-law.ensures c.replay.ensures.line
"""

def main(crate):
    def put(path, text):
        path = os.path.join(crate, path)
        os.makedirs(os.path.dirname(path), exist_ok=True)
        open(path, "w").write(text)
    def words(line):
        return ", ".join("`%s`" % show(t) for t in L.c(line))
    clauses, lines, modules = CLAUSES, {}, []
    for topic, laws in TOPICS:
        functions, names, uses = "", [], ""
        for nm, line, *known in laws():
            lines[nm] = line
            c = L.c(line)
            put("src/tables/%s.rt" % nm, table(nm, line, [lines[k] for k in known]))
            modules.append(nm)
            names += [k for k in [nm] + known if k not in names]
            uses += "use crate::tables::%s::%s;\n" % (nm, nm.upper())
            clauses += "\n-- %s\nabbrev pub %s_clause : List Term\n%s_clause = %s\n" % (", ".join(map(show, c)), nm, nm, " ∷ ".join([term(t) for t in c] + ["[]"]))
            how = dict(topic=topic, cl=words(line), nm=nm, up=nm.upper(), known="[]", par="", req="", arg="", after="")
            if known:
                how.update(one=known[0], known="(%s_clause ∷ [])" % known[0], par=", line: u64", arg="line", after=", after the line of " + words(lines[known[0]]))
                how["req"] = "    requires line { LineHolds work.old line %s_clause }\n" % known[0]
            functions += FUNCTION % how
            put("proofs/%s/%s_law/Answers.antt" % (topic, nm), REFL % how)
            put("proofs/%s/%s/Answers.antt" % (topic, nm), (FROM_ONE if known else FROM_AXIOMS) % how)
        put("src/%s.rt" % topic, FUNCTIONS % (laws.__doc__, ", ".join(n + "_clause" for n in names), "".join(sorted(uses.splitlines(True)))) + functions)
    put("specs/LawClauses.antt", clauses)
    put("src/tables.rt", "//! The tables of laws. They are printed.\n\n" + "".join("pub mod %s;\n" % m for m in sorted(modules)))

if __name__ == "__main__":
    main(sys.argv[1])

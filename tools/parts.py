"""Prints the laws by which a part of an object is smaller than the object, for the crate nq_shell_parts: their tables of rule
lines, their clauses, and a function for each.

    python3 tools/parts.py crates/nq_shell_parts
"""
import os, sys
sys.dont_write_bytecode = True
import replays
from balances import *
from arithmetic import L, induct, named, show
from printing import term
from replays import table

def laws():
    """sums, and the sizes of the parts of an object"""
    yield "less_than_sum", named["less_than_sum"]
    # where the part is allowed it is one of the sizes that are added
    less = R("(LESSP (COUNT A) (COUNT B))")
    l = L.taut(R("(LESSP (IF Y (COUNT X) 0) (ADD1 Z))"), no(R("(LESSP (IF Y (COUNT X) 0) (ADD1 Z))")))
    l = L.forward(l, 1, (1,), L.inst(A("IF", 2), {"X": "Y", "Y": R("(COUNT X)"), "Z": ZERO}), R("(COUNT X)"))
    yield "allowed_is_smaller", of_others(l, R("(LESSP (COUNT X) (ADD1 Z))"))
    # where it is the base of a shell its size is 0
    first = R("(LESSP 0 (ADD1 Z))")
    l = L.cut(L.inst(named["zero_less_than_add1"], {"Y": "Z"}), truth_from(first), eq(first, TRUE))
    l = L.replace(l, L.c(l).index(first) + 1, (1,), R("(COUNT X)"), "-")
    yield "base_is_smaller", of_others(l, R("(LESSP (COUNT X) (ADD1 Z))"))

def of_others(line, literal):
    """a line with the sizes of A and B for that of X and the successor of S in a literal"""
    line = L.replace(line, L.c(line).index(literal) + 1, (2,), R("(COUNT B)"), "-")
    literal = R("(LESSP (COUNT X) (COUNT B))")
    return L.replace(line, L.c(line).index(literal) + 1, (1, 1), "A", "-")

def longer():
    """the law of longer sums, after the lines that sizes fall, that LESSP is transitive, and that a number is less than one more"""
    one, transitive = named["less_than_one_more"], named["less_is_transitive"]
    more = R("(LESSP (ADD1 B) (ADD1 (ADD1 B)))")
    more = L.cut(L.inst(one, {"X": R("(ADD1 B)")}), L.inst(transitive, {"X": "X", "Y": R("(ADD1 B)"), "Z": R("(ADD1 (ADD1 B))")}), more)
    less, longer = R("(LESSP X (ADD1 Z))"), R("(LESSP X (ADD1 (PLUS Y Z)))")
    claim = ("IMPLIES", less, longer)
    rules = [named[k] for k in ("sum_at_zero", "add1_of_fix", "sum_at_positive")]
    line = induct("longer_sum_is_more", show(claim), [more], rules, var="Y", opens=["IMPLIES"])
    opened = L.inst(replays.found("(NOT (IMPLIES X Y)) | (NOT X) | Y", lemmas=[A("TRUE"), A("FALSE")], opens=["IMPLIES"]), {"X": less, "Y": longer})
    return L.cut(line, opened, claim), [named["size_falls"], transitive, one]

def restrictions():
    """choices, T and F, and terms in the place of equal ones"""
    ends = [A("TRUE"), A("FALSE")]
    yield "first_of_choice", replays.found("(NOT X) | (OR X Y)", lemmas=ends, opens=["OR"])
    yield "second_of_choice", replays.found("(NOT Y) | (OR X Y)", lemmas=ends, opens=["OR"])
    yield "neither_of_choice", replays.found("Y | X | (NOT (OR X Y))", lemmas=ends, opens=["OR"])
    equal = [L.inst(named[k], s) for k, s in (("same_are_equal", {"X": TRUE}), ("same_are_equal", {"X": FALSE}), ("truth_differs_from_falsity", {}), ("falsity_differs_from_truth", {}))]
    for name, test in ("truth_is_truth", "(TRUEP T)"), ("falsity_is_falsity", "(FALSEP F)"), ("falsity_is_no_truth", "(NOT (TRUEP F))"), ("truth_is_no_falsity", "(NOT (FALSEP T))"):
        yield name, replays.found(test, lemmas=ends, rules=equal, opens=["TRUEP", "FALSEP"])
    less = R("(LESSP (COUNT X) (COUNT Y))")
    line = L.replace(L.taut(less, no(less)), 1, (2, 1), "B", "-")
    yield "same_is_equal", L.refl("X")
    yield "smaller_as_others_are", L.replace(line, 1, (1, 1), "A", "-")

def denials():
    """denied equations"""
    yield "equation_by_turned", named["equation_by_turned"]
    equation = no(R("(EQUAL X Y)"))
    yield "equation_by_itself", L.taut(equation, no(equation))

OWN = {"TRUEP", "FALSEP"}  # words that src/words.rt has, since nq_replay has not

CLAUSES = """-- The clauses of the laws. They are printed.
use Rattle.std.specs.Prelude.{List, [], ◌∷◌}
use Rattle.nq_logic.specs.Terms.{Term}
use Rattle.nq_logic.specs.Words.{variable, call0, call1, call2, call3}
"""

def in_crate(text):
    """the text of a function or proof, of this crate"""
    return text.replace("Rattle.nq_replay.specs.LawClauses", "Rattle.nq_shell_parts.specs.LawClauses").replace("Rattle.nq_replay.proofs.%(topic)s", "Rattle.nq_shell_parts.proofs.%(topic)s")

HEAD = """//! The lines of laws: %s. They are printed.
ghost use Rattle.std.specs.Prelude.{◌≡◌, [], IfOk, Some};
ghost use Rattle.nq_kernel.specs.Growing.{WorkStands, LineHolds};
ghost use Rattle.nq_replay.specs.Uncounted.{GrowsUncounted};
ghost use Rattle.nq_replay.specs.Replaying.{law_clause};
ghost use Rattle.nq_shell_parts.specs.LawClauses.{%s};

%suse nq_history::History;
use nq_kernel::Work;
use nq_replay::{Law, replay};
use std::alloc::AllocError;
"""

def main(crate):
    def put(path, text):
        path = os.path.join(crate, path)
        os.makedirs(os.path.dirname(path), exist_ok=True)
        open(path, "w").write(text)
    clauses, modules = CLAUSES, []
    for topic, source in ("summands", laws), ("constants", denials), ("restrictions", restrictions):
        functions, uses, names = "", "", []
        for name, line in source():
            c = L.c(line)
            put("src/tables/%s.rt" % name, table(name, line, [], "nq_replay", OWN))
            modules.append(name)
            names.append(name + "_clause")
            uses += "use crate::tables::%s::%s;\n" % (name, name.upper())
            clauses += "\n-- %s\nabbrev pub %s_clause : List Term\n%s_clause = %s\n" % (", ".join(map(show, c)), name, name, " ∷ ".join([term(t) for t in c] + ["[]"]))
            how = dict(topic=topic, cl=", ".join("`%s`" % show(t) for t in c), nm=name, up=name.upper(), known="[]", par="", req="", arg="", after="")
            functions += replays.FUNCTION % how
            put("proofs/%s/%s_law/Answers.antt" % (topic, name), in_crate(replays.REFL) % how)
            put("proofs/%s/%s/Answers.antt" % (topic, name), in_crate(replays.FROM_AXIOMS) % how)
        put("src/%s.rt" % topic, HEAD % (source.__doc__, ", ".join(names), "".join(sorted(uses.splitlines(True)))) + functions)
    name, (line, known) = "less_than_longer_sum", longer()
    put("src/tables/%s.rt" % name, table(name, line, known, "nq_replay"))
    modules.append(name)
    c = L.c(line)
    clauses += "\n-- %s\nabbrev pub %s_clause : List Term\n%s_clause = %s\n" % (", ".join(map(show, c)), name, name, " ∷ ".join([term(t) for t in c] + ["[]"]))
    put("specs/LawClauses.antt", clauses)
    put("src/tables.rt", "//! The tables of laws. They are printed.\n\n" + "".join("pub mod %s;\n" % m for m in sorted(modules)))

if __name__ == "__main__":
    main(sys.argv[1])

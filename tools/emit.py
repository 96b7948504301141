"""Prints the laws of arithmetic into the crate that is given, a file of clauses and a file of logs for each topic. With
--check it prints nothing, and says which files of the crate differ from what would be printed. With --list it lists the
laws."""
import os, sys
sys.dont_write_bytecode = True
import descents
from arithmetic import L, named, show
from printing import MEANING, emit, emit_answer, emit_clauses, emit_library, emit_modules, in_order, snake
# Each file: the topic under which its laws were found, the law with which it begins (none: the topic's first), what its
# laws are of.
FILES = {
    "Zero": ("Zero", None, "0, ADD1, SUB1, NUMBERP, ZEROP and FIX"),
    "Ordinals": ("Ordinals", None, "ORDINALP and ORD-LESSP on numbers"),
    "Plus": ("Plus", None, "PLUS step by step"),
    "PlusOrder": ("Plus", "sum_with_no_positive", "the order of terms in a PLUS"),
    "Less": ("Less", None, "LESSP"),
    "LessChains": ("Less", "less_is_transitive_as_term", "chains of LESSP, and its steps on numerals"),
    "Times": ("Times", None, "TIMES"),
    "Sizes": ("Sizes", None, "COUNT"),
    "TruthValues": ("Recognizers", None, "T and F as values"),
    "NumberTests": ("Recognizers", "number_test_of_truth", "NUMBERP on values"),
    "ListTests": ("Recognizers", "list_test_of_truth", "LISTP on values"),
    "AtomTests": ("Recognizers", "literal_atom_test_of_truth", "LITATOM on values"),
    "NegativeTests": ("Recognizers", "negative_test_of_truth", "NEGATIVEP on values"),
    "Distinct": ("Distinct", None, "values of one kind that differ"),
    "Parts": ("Parts", None, "the parts of values"),
    "PartsByFix": ("Parts", "sub1_with_zero_fix", "functions of one argument, by its FIX"),
    "Connectives": ("Truths", None, "NOT, AND and OR on truth values"),
    "Implications": ("Truths", "implies_from_falsity", "IMPLIES, IFF and IF on truth values"),
    "Comparisons": ("Truths", "truth_test", "functions that are defined by a test of their arguments"),
    "Quotients": ("Quotients", None, "DIFFERENCE, QUOTIENT and REMAINDER"),
    "Fixes": ("Fixes", None, "DIFFERENCE, QUOTIENT and REMAINDER, which take another value as 0"),
    "ByFixes": ("Fixes", "sum_of_fixes", "functions of numbers, by the FIX of their arguments"),
    "Differences": ("Products", None, "DIFFERENCE of a sum"),
    "Products": ("Products", "product_with_zero", "TIMES with PLUS"),
    "Balances": ("Balances", None, "sums and multiples whose two sides agree"),
    "Atoms": ("Balances", "atom_is_new", "a sum to which a product is added"),
    "AtomSums": ("Balances", "atoms_after_atom", "sums of products, added to each other"),
    "Balanced": ("Balances", "constant_balances", "numbers, products and sums as two sides that agree"),
    "SplitLess": ("Bounds", None, "LESSP split at a number between"),
    "Bounds": ("Bounds", "sums_not_less", "comparisons of sums"),
    "LessTurns": ("Bounds", "less_with_fix", "LESSP turned into the other order"),
    "Refutations": ("Bounds", "bound_of_not_less", "bounds that a negative form refutes"),
    "Descents": ("Descents", None, "the sizes of parts"),
    "Definitions": ("Definitions", None, "each ground function, which equals the body of its definition; IDENTITY is among the parts"),
    "NumberRows": ("NumberRows", None, "the shell of numbers: the rows of its axioms that are no law under another name"),
    "PairRows": ("PairRows", None, "the shell of pairs: the rows of its axioms that are no law under another name"),
    "AtomRows": ("AtomRows", None, "the shell of literal atoms: the rows of its axioms that are no law under another name"),
    "NegativeRows": ("NegativeRows", None, "the shell of negatives: the rows of its axioms that are no law under another name"),
    "Choices": ("Choices", None, "TRUEP, FALSEP and OR, of which the restrictions of parts are made"),
    "Spellings": ("Spellings", None, "the tests under which a part is smaller, each in another spelling"),
}

def assign():
    """gives each law the file that it stands in"""
    for topic in dict.fromkeys(topic for topic, first, about in FILES.values()):
        laws = in_order(named, topic)
        starts = [(laws.index(first) if first else 0, file) for file, (t, first, about) in FILES.items() if t == topic]
        assert starts == sorted(starts), topic
        for place, law in enumerate(laws):
            named.files[law] = [file for start, file in starts if start <= place][-1]
    named.topics = named.files

def printed():
    """each file's path in the crate, with its text"""
    named.files = {}
    assign()
    yield "src/lib.rt", emit_library({file: about for file, (topic, first, about) in FILES.items()})
    yield "specs/Laws.antt", MEANING
    yield "specs/Lib.antt", emit_modules(["Laws", *FILES])
    yield "proofs/Lib.antt", emit_modules(FILES)
    for file, (topic, first, about) in FILES.items():
        text, lines = emit(L, named, list(FILES), file, about)
        yield "specs/%s.antt" % file, emit_clauses(L, named, file, about)
        yield "proofs/%s.antt" % file, text
        yield "proofs/%s_laws/Answers.antt" % snake(file), emit_answer(file)

def listed_laws():
    """the laws by topic, for the documentation"""
    named.files = {}
    assign()
    for file, (topic, first, about) in FILES.items():
        yield "\n### %s\n\nFile `%s`: laws of %s.\n\n| Law | Clause |\n|---|---|" % (file, file, about)
        for name in in_order(named, file):
            yield "| `%s` | %s |" % (name, ", ".join("`%s`" % show(t) for t in L.c(named[name])))

def main(crate, check):
    """prints the files into the crate, or counts those that differ"""
    differing = 0
    for path, text in printed():
        path = os.path.join(crate, path)
        if check:
            same = os.path.exists(path) and open(path).read() == text
            if not same:
                print("differs:", path)
            differing += not same
        else:
            os.makedirs(os.path.dirname(path), exist_ok=True)
            open(path, "w").write(text)
    return differing

words = sys.argv[1:]
if words == ["--list"]:
    for line in listed_laws():
        print(line)
elif [w for w in words if w != "--check"] and len(words) <= 2:
    sys.exit(1 if main(next(w for w in words if w != "--check"), "--check" in words) else 0)
else:
    sys.exit("usage: emit.py CRATE | emit.py --check CRATE | emit.py --list")

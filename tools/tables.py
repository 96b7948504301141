"""Terms and the tables of axioms. A term is a variable's name or a tuple of a function's name and its arguments."""
import re, sys
NIL = ("*NIL",)  # a literal atom, kept as one constant

def read(text):
    tokens = re.findall(r"[()]|[^\s()]+", text)
    def term(i):
        if tokens[i] == "(":
            i += 1
            name = tokens[i]
            i += 1
            args = []
            while tokens[i] != ")":
                a, i = term(i)
                args.append(a)
            return (name, *args), i + 1
        w = tokens[i]
        if w == "T":
            return ("TRUE",), i + 1
        if w == "F":
            return ("FALSE",), i + 1
        if w == "NIL":
            return NIL, i + 1
        if w.isdigit():
            t = ("ZERO",)
            for _ in range(int(w)):
                t = ("ADD1", t)
            return t, i + 1
        return w, i + 1
    return term(0)[0]

def show(t):
    if isinstance(t, str):
        return t
    if t == ("TRUE",):
        return "T"
    if t == ("FALSE",):
        return "F"
    if t == ("ZERO",):
        return "0"
    if t == NIL:
        return "NIL"
    return "(" + " ".join([t[0]] + [show(a) for a in t[1:]]) + ")"

DEFS = {}
for line in """
(TRUEP X) | (EQUAL X T)
(FALSEP X) | (EQUAL X F)
(NOT P) | (IF P F T)
(AND P Q) | (IF P (IF Q T F) F)
(OR P Q) | (IF P T (IF Q T F))
(IMPLIES P Q) | (IF P (IF Q T F) T)
(IFF P Q) | (IF P (IF Q T F) (IF Q F T))
(ZEROP X) | (IF (EQUAL X 0) T (IF (NUMBERP X) F T))
(FIX X) | (IF (NUMBERP X) X 0)
(PLUS X Y) | (IF (ZEROP X) (FIX Y) (ADD1 (PLUS (SUB1 X) Y)))
(LESSP X Y) | (IF (ZEROP Y) F (IF (ZEROP X) T (LESSP (SUB1 X) (SUB1 Y))))
(TIMES X Y) | (IF (ZEROP X) 0 (PLUS Y (TIMES (SUB1 X) Y)))
(DIFFERENCE X Y) | (IF (ZEROP X) 0 (IF (ZEROP Y) X (DIFFERENCE (SUB1 X) (SUB1 Y))))
(QUOTIENT X Y) | (IF (ZEROP Y) 0 (IF (LESSP X Y) 0 (ADD1 (QUOTIENT (DIFFERENCE X Y) Y))))
(REMAINDER X Y) | (IF (ZEROP Y) (FIX X) (IF (LESSP X Y) (FIX X) (REMAINDER (DIFFERENCE X Y) Y)))
(GREATERP X Y) | (LESSP Y X)
(LEQ X Y) | (NOT (LESSP Y X))
(GEQ X Y) | (NOT (LESSP X Y))
(NLISTP X) | (NOT (LISTP X))
(IDENTITY X) | X
(MAX X Y) | (IF (LESSP X Y) Y (FIX X))
(ORD-LESSP X Y) | (IF (NOT (LISTP X)) (IF (NOT (LISTP Y)) (LESSP X Y) T) (IF (NOT (LISTP Y)) F (IF (ORD-LESSP (CAR X) (CAR Y)) T (AND (EQUAL (CAR X) (CAR Y)) (ORD-LESSP (CDR X) (CDR Y))))))
(APPEND X Y) | (IF (LISTP X) (CONS (CAR X) (APPEND (CDR X) Y)) Y)
(MEMBER X Y) | (IF (NLISTP Y) F (IF (EQUAL X (CAR Y)) T (MEMBER X (CDR Y))))
(UNION X Y) | (IF (LISTP X) (IF (MEMBER (CAR X) Y) (UNION (CDR X) Y) (CONS (CAR X) (UNION (CDR X) Y))) Y)
(ADD-TO-SET X Y) | (IF (MEMBER X Y) Y (CONS X Y))
(ASSOC X Y) | (IF (LISTP Y) (IF (EQUAL X (CAR (CAR Y))) (CAR Y) (ASSOC X (CDR Y))) F)
(PAIRLIST X Y) | (IF (LISTP X) (CONS (CONS (CAR X) (CAR Y)) (PAIRLIST (CDR X) (CDR Y))) NIL)
(ORDINALP X) | (IF (LISTP X) (AND (ORDINALP (CAR X)) (AND (NOT (EQUAL (CAR X) 0)) (AND (ORDINALP (CDR X)) (OR (NOT (LISTP (CDR X))) (NOT (ORD-LESSP (CAR X) (CAR (CDR X)))))))) (NUMBERP X))
""".strip().splitlines():
    c, b = line.split(" | ")
    c = read(c)
    DEFS[c[0]] = (c, read(b))
ROWS = {}
for line in """
TRUE 1 0 | T
FALSE 1 0 | (NOT F)
FALSE 2 0 | X | (EQUAL X F)
EQUAL 1 0 | (EQUAL (EQUAL X Y) T) | (EQUAL (EQUAL X Y) F)
IF 1 0 | X | (EQUAL (IF X Y Z) Z)
IF 2 0 | (NOT X) | (EQUAL (IF X Y Z) Y)
COUNT 1 0 | (NUMBERP (COUNT X))
LESSP 2 0 | (ZEROP X) | (LESSP (SUB1 X) X)
""".strip().splitlines():
    k, *c = line.split(" | ")
    n, r, i = k.split()
    ROWS[(n, int(r), int(i))] = [read(t) for t in c]

# the ground shells: constructor, base, recognizer, and the accessors, each with whether its part is to be a number; every
# default is 0
SHELLS = [
    ("ADD1", "ZERO", "NUMBERP", [("SUB1", True)]),
    ("CONS", None, "LISTP", [("CAR", False), ("CDR", False)]),
    ("PACK", None, "LITATOM", [("UNPACK", False)]),
    ("MINUS", None, "NEGATIVEP", [("NEGATIVE-GUTS", True)]),
]

def shell_rows(place):
    """the table of shell axioms for the ground shell at this place: each row's number, part or other shell, and clause"""
    constructor, base, recognizer, accessors = SHELLS[place]
    zero = ("ZERO",)
    variables = ["X%d" % (i + 1) for i in range(len(accessors))]
    made = (constructor, *variables)
    def restricted(i):
        return ("NUMBERP", variables[i]) if accessors[i][1] else ("TRUE",)
    def no(t):
        return ("NOT", t)
    def eq(a, b):
        return ("EQUAL", a, b)
    yield 1, 0, [eq((recognizer, "X"), ("TRUE",)), eq((recognizer, "X"), ("FALSE",))]
    yield 2, 0, [(recognizer, made)]
    if base:
        yield 3, 0, [(recognizer, (base,))]
        yield 4, 0, [no(eq(made, (base,)))]
    yield 5, 0, [no((recognizer, "X"))] + ([eq("X", (base,))] if base else []) + [eq((constructor, *[(a, "X") for a, number in accessors]), "X")]
    for i, (accessor, number) in enumerate(accessors):
        yield 6, i + 1, [no(restricted(i)), eq((accessor, made), variables[i])]
        yield 7, i + 1, [restricted(i), eq((accessor, made), zero)]
        yield 8, i + 1, [(recognizer, "X"), eq((accessor, "X"), zero)]
        if base:
            yield 9, i + 1, [eq((accessor, (base,)), zero)]
        yield 10, i + 1, [restricted(i), eq(made, (constructor, *[zero if j == i else v for j, v in enumerate(variables)]))]
    yield 11, 0, [no((recognizer, ("TRUE",)))]
    yield 12, 0, [no((recognizer, ("FALSE",)))]
    for j in range(place):
        yield 13, j + 1, [no((recognizer, "X")), no((SHELLS[j][2], "X"))]
    sizes = [("IF", restricted(i), ("COUNT", v), zero) for i, v in enumerate(variables)]
    total = sizes[-1]
    for t in reversed(sizes[:-1]):
        total = ("PLUS", t, total)
    yield 14, 0, [eq(("COUNT", made), ("ADD1", total))]
    if base:
        yield 15, 0, [eq(("COUNT", (base,)), zero)]

for place, (constructor, *rest) in enumerate(SHELLS):
    for row, part, literals in shell_rows(place):
        ROWS[(constructor, row, part)] = literals

#!/usr/bin/env python3
"""Tells of each lemma that was not proved where it was left, and which rules nearly applied there.

    python3 tools/explain.py FILE.events COMMENTARY

COMMENTARY is what `nqthm run` printed for FILE.events. For each lemma that failed, ran out of steps or was refused as not proved it
prints the goals that were left over, a literal a line, or the first goal where the commentary shows none; and for each of them the
enabled rules of class REWRITE whose left side fits a term of the goal, but of whose hypotheses some do not stand in the goal: these
are what a further lemma may have to say. It reads only; no answer of the prover rests on it.
"""

import re
import sys
from pathlib import Path

CONSTANTS = ("T", "F", "NIL")
FAILED = ("Failed, ", "Out of steps.")
LIMIT = 3


# ---- forms

def tokens(text):
    """The tokens of an event file, without comments."""
    text = re.sub(r"#\|.*?\|#", " ", text, flags=re.S)
    for found in re.finditer(r';[^\n]*|"(?:\\.|[^"])*"|[()\']|[^\s()\';"]+', text, flags=re.S):
        if not found[0].startswith(";"):
            yield found[0].upper()


def form_from(rest):
    """The form that tokens spell, of which the next one stands last."""
    token = rest.pop()
    if token == "'":
        return ["QUOTE", form_from(rest)]
    if token != "(":
        return token
    items = []
    while rest and rest[-1] != ")":
        items.append(form_from(rest))
    del rest[-1:]
    return items


def forms_of(text):
    """The forms of a text."""
    rest, forms = [*tokens(text)][::-1], []
    while rest:
        forms.append(form_from(rest))
    return forms


# ---- terms

def nested(function, arguments):
    """Calls of a function of two arguments, nested to the right."""
    return arguments[0] if len(arguments) == 1 else (function, arguments[0], nested(function, arguments[1:]))


def parts_taken(name, argument):
    """The nest of CAR and CDR that a name such as CADR stands for."""
    for letter in reversed(name[1:-1]):
        argument = ("CAR" if letter == "A" else "CDR", argument)
    return argument


def term(form, bound=None):
    """The term of a form: abbreviations are written out, and a constant stays as it is written."""
    bound = bound or {}
    if isinstance(form, str):
        return bound.get(form, form)
    head, rest = form[0] if form else "NIL", form[1:]
    if not form:
        return "NIL"
    if head == "QUOTE":
        return ("QUOTE", repr(rest[0]))
    if head == "LIST":
        return nested("CONS", [term(it, bound) for it in rest] + ["NIL"])
    if head == "COND":
        *tests, last = rest
        result = term(last[1], bound)
        for test, value in reversed(tests):
            result = ("IF", term(test, bound), term(value, bound), result)
        return result
    if head == "CASE":
        *keys, last = rest[1:]
        result = term(last[1], bound)
        for key, value in reversed(keys):
            result = ("IF", ("EQUAL", term(rest[0], bound), term(["QUOTE", key])), term(value, bound), result)
        return result
    if head == "LET":
        inner = {**bound, **{name: term(value, bound) for name, value in rest[0]}}
        return term(rest[1], inner)
    arguments = [term(it, bound) for it in rest]
    if re.fullmatch(r"C[AD]{2,}R", head):
        return parts_taken(head, arguments[0])
    if head in ("AND", "OR", "PLUS", "TIMES") and len(arguments) > 2:
        return nested(head, arguments)
    return (head, *arguments)


def spelled(t):
    """The text of a term."""
    if isinstance(t, str):
        return t
    if t[0] == "QUOTE":
        return "'" + re.sub(r"[\[,'\"]", lambda it: "(" if it[0] == "[" else "", t[1]).replace("]", ")")
    return "(%s)" % " ".join([t[0], *map(spelled, t[1:])])


def subterms(t):
    """A term and all terms in it, constants aside."""
    yield t
    if not isinstance(t, str) and t[0] != "QUOTE":
        for it in t[1:]:
            yield from subterms(it)


def is_variable(t):
    return isinstance(t, str) and t not in CONSTANTS and not re.fullmatch(r"[+-]?\d+", t)


def match(pattern, t, pairs):
    """The pairs by which the pattern becomes the term, or None."""
    if is_variable(pattern):
        return pairs if pairs.setdefault(pattern, t) == t else None
    if isinstance(pattern, str) or isinstance(t, str) or pattern[0] == "QUOTE":
        return pairs if pattern == t else None
    if pattern[0] != t[0] or len(pattern) != len(t):
        return None
    for inner, outer in zip(pattern[1:], t[1:]):
        if match(inner, outer, pairs) is None:
            return None
    return pairs


def instance(t, pairs):
    """A term with all its variables replaced at once."""
    if isinstance(t, str):
        return pairs.get(t, t)
    return t if t[0] == "QUOTE" else (t[0], *(instance(it, pairs) for it in t[1:]))


def and_parts(t):
    """The parts of a conjunction."""
    return [*and_parts(t[1]), *and_parts(t[2])] if not isinstance(t, str) and t[0] == "AND" else [t]


# ---- rules and goals

def rules_of(name, t):
    """The rules of an axiom or lemma: name, hypotheses, left side."""
    hypotheses = []
    while not isinstance(t, str) and t[0] == "IMPLIES":
        hypotheses += and_parts(t[1])
        t = t[2]
    for part in and_parts(t):
        left = part[1] if not isinstance(part, str) and part[0] in ("EQUAL", "NOT") else part
        yield name, hypotheses, left


def denied(t):
    """The NOT of a term, or the term of which it is the NOT."""
    return t[1] if not isinstance(t, str) and t[0] == "NOT" else ("NOT", t)


def first_goal(event, terms):
    """The literals with which a lemma begins: the NOTs of the instances that its USE hints name, and the lemma."""
    goal = [term(event[3])]
    for hint in event[4] if len(event) > 4 and event[4] != "NIL" else []:
        for name, *pairs in hint[1:] if hint[0] == "USE" else []:
            if name in terms:
                goal.insert(-1, ("NOT", instance(terms[name], {v: term(t) for v, t in pairs})))
    return goal


def goals_left(report):
    """The goals of a report that have none below them."""
    steps = re.findall(r"^   (\d+)\. (?:GOAL|[A-Z]+ from (\d+)): (.*)$", report, flags=re.M)
    parents = {parent for _, parent, _ in steps}
    left = [goal for number, _, goal in steps if number not in parents]
    return [[term(it) for it in forms_of(goal.replace(" OR ", " "))] for goal in left if goal != "no literal"]


def assumed_by(goal):
    """What a goal lets its prover assume: the NOTs of its literals, and what an implication's hypotheses say."""
    found = {denied(it) for it in goal}
    for it in goal:
        while not isinstance(it, str) and it[0] == "IMPLIES":
            found.update(and_parts(it[1]))
            it = it[2]
    return found


def near_rules(goal, rules):
    """The rules whose left side fits a term of a goal, with those of their hypotheses that do not stand there."""
    assumed, told = assumed_by(goal), set()
    for name, hypotheses, left in rules:
        for t in (inner for literal in goal for inner in subterms(literal)):
            pairs = match(left, t, {}) if not isinstance(left, str) and not isinstance(t, str) else None
            lacking = [instance(it, pairs) for it in hypotheses] if pairs is not None else []
            lacking = [it for it in lacking if it not in assumed]
            if lacking and (name, t) not in told:
                told.add((name, t))
                yield name, t, lacking


# ---- the run

class History:
    """The events so far: terms of axioms and lemmas, rules, and what is disabled."""

    def __init__(self):
        self.names, self.terms, self.rules, self.disabled = [], {}, {}, set()

    def add(self, event, answer):
        """Adds an event that was accepted or proved."""
        word, name = event[0], event[1] if len(event) > 1 and isinstance(event[1], str) else None
        if word == "UNDO-BACK-THROUGH":
            for it in self.names[self.names.index(name):] if name in self.names else []:
                self.terms.pop(it, None), self.rules.pop(it, None)
            self.names = self.names[: self.names.index(name)] if name in self.names else self.names
        elif word in ("DISABLE", "ENABLE", "TOGGLE"):
            old = event[2] if word == "TOGGLE" else name
            is_off = word == "DISABLE" or word == "TOGGLE" and event[3] not in ("NIL", [])
            (self.disabled.add if is_off else self.disabled.discard)(old)
        else:
            self.names.append(name)
            if word in ("ADD-AXIOM", "PROVE-LEMMA"):
                self.terms[name] = term(event[3])
                if "REWRITE" in event[2]:
                    self.rules[name] = [*rules_of(name, self.terms[name])]

    def enabled(self, event):
        """The rules that are enabled for a lemma."""
        hints = event[4] if len(event) > 4 and event[4] != "NIL" else []
        named = lambda word: {it for hint in hints if hint[0] == word for it in hint[1:]}
        off = (self.disabled - named("ENABLE")) | named("DISABLE")
        return [it for name in reversed(self.rules) if name not in off for it in self.rules[name]]


def told(event, report, history):
    """What is told of a lemma that was not proved."""
    last = report.rstrip("\n").split("\n")[-1].strip()
    yield f"{event[1]}: {last}"
    goals = goals_left(report) or [first_goal(event, history.terms)]
    for number, goal in enumerate(goals[:LIMIT], 1):
        yield f"  goal {number} of {len(goals)} left over:"
        yield from (f"    {spelled(it)}" for it in goal)
        for name, t, lacking in near_rules(goal, history.enabled(event)):
            yield f"  {name} fits {spelled(t)}, and waits for {' and '.join(map(spelled, lacking))}"


def explained(text, commentary):
    """The lines for an event file and its commentary."""
    reports, history = re.split(r"^(?=\d+\. )", commentary, flags=re.M)[1:], History()
    for event, report in zip(forms_of(text), reports):
        last = [it.strip() for it in report.split("\n") if it.startswith("   ")][-1]
        if last.startswith(("Accepted", "Proved", "Undone")):
            history.add(event, last)
        elif event[0] == "PROVE-LEMMA" and last.startswith(FAILED):
            yield from told(event, report.split("\nForms ")[0], history)


def main():
    if len(sys.argv) != 3:
        print(__doc__.split("\n\n")[1].strip(), file=sys.stderr)
        return 2
    for line in explained(Path(sys.argv[1]).read_text(), Path(sys.argv[2]).read_text()):
        print(line)
    return 0


if __name__ == "__main__":
    sys.exit(main())

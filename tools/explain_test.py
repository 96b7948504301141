#!/usr/bin/env python3
"""Tests tools/explain.py on three failures, each with a lemma taken out of a classical file.

    python3 tools/explain_test.py
"""

import sys

sys.dont_write_bytecode = True
from explain import explained

LISTS = """
(DEFN PLISTP (X) (IF (LISTP X) (PLISTP (CDR X)) (EQUAL X NIL)))
(DEFN REVERSE (X) (IF (LISTP X) (APPEND (REVERSE (CDR X)) (LIST (CAR X))) NIL))
(PROVE-LEMMA APPEND-RIGHT-ID (REWRITE) (IMPLIES (PLISTP X) (EQUAL (APPEND X NIL) X)))
"""
ACCEPTED = """1. DEFN PLISTP
   Accepted by (COUNT X).
2. DEFN REVERSE
   Accepted by (COUNT X).
3. PROVE-LEMMA APPEND-RIGHT-ID
   0. GOAL: (IMPLIES (PLISTP X) (EQUAL (APPEND X NIL) X))
   Proved.
"""

# without the lemma that says that the reverse of a list is proper
LACKS_KIND = (
    LISTS + "(PROVE-LEMMA REVERSE-NIL NIL (EQUAL (APPEND (REVERSE X) NIL) (REVERSE X)))",
    ACCEPTED + """4. PROVE-LEMMA REVERSE-NIL
   Out of steps.
Forms 4, accepted 3, refused 0, failed 1, skipped 0.
""",
    """REVERSE-NIL: Out of steps.
  goal 1 of 1 left over:
    (EQUAL (APPEND (REVERSE X) NIL) (REVERSE X))
  APPEND-RIGHT-ID fits (APPEND (REVERSE X) NIL), and waits for (PLISTP (REVERSE X))
""",
)

# without the lemma on the reverse of an APPEND: the goals left over are those that have none below them
LACKS_REVERSE = (
    LISTS + "(PROVE-LEMMA REVERSE-REVERSE NIL (IMPLIES (PLISTP X) (EQUAL (REVERSE (REVERSE X)) X)))",
    ACCEPTED + """4. PROVE-LEMMA REVERSE-REVERSE
   0. GOAL: (IMPLIES (PLISTP X) (EQUAL (REVERSE (REVERSE X)) X))
   1. SIMP from 0: (NOT (PLISTP X)) OR (EQUAL (REVERSE (REVERSE X)) X)
   2. GEN from 1: (NOT (PLISTP X)) OR (EQUAL (APPEND V1 NIL) X)
   Failed, loop.
Forms 4, accepted 3, refused 0, failed 1, skipped 0.
""",
    """REVERSE-REVERSE: Failed, loop.
  goal 1 of 1 left over:
    (NOT (PLISTP X))
    (EQUAL (APPEND V1 NIL) X)
  APPEND-RIGHT-ID fits (APPEND V1 NIL), and waits for (PLISTP V1)
""",
)

# a rule that is disabled is not told, and a hypothesis that the goal has is not waited for
DISABLED = (
    LISTS + """(DISABLE APPEND-RIGHT-ID)
(PROVE-LEMMA PROPER NIL (IMPLIES (PLISTP Y) (EQUAL (APPEND Y NIL) Y)))
(PROVE-LEMMA PROPER-TOO NIL (IMPLIES (PLISTP Y) (EQUAL (APPEND Y NIL) Y)) ((ENABLE APPEND-RIGHT-ID)))
""",
    ACCEPTED + """4. DISABLE APPEND-RIGHT-ID
   Accepted.
5. PROVE-LEMMA PROPER
   Out of steps.
6. PROVE-LEMMA PROPER-TOO
   Out of steps.
Forms 6, accepted 4, refused 0, failed 2, skipped 0.
""",
    """PROPER: Out of steps.
  goal 1 of 1 left over:
    (IMPLIES (PLISTP Y) (EQUAL (APPEND Y NIL) Y))
PROPER-TOO: Out of steps.
  goal 1 of 1 left over:
    (IMPLIES (PLISTP Y) (EQUAL (APPEND Y NIL) Y))
""",
)


def main():
    cases = [LACKS_KIND, LACKS_REVERSE, DISABLED]
    wrong = [(told, wants) for text, commentary, wants in cases if (told := "".join(it + "\n" for it in explained(text, commentary))) != wants]
    for told, wants in wrong:
        print(f"told:\n{told}wanted:\n{wants}")
    print(f"explain: {len(cases)} cases, {len(wrong)} differences")
    return 1 if wrong else 0


if __name__ == "__main__":
    sys.exit(main())

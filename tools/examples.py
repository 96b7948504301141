#!/usr/bin/env python3
"""Runs the event files of examples/ and compares the answer of each form with the one that stands behind it.

    python3 tools/examples.py [PROGRAM]

Behind each form of an example stands its answer, in a comment on the line on which the form ends: `; => Proved.` It is the last
line of the form's report. PROGRAM is the proved program where it is not named, or else bin/nqthm. The log of each file must be
accepted too. Ends with status 1 where an answer is another, is missing, or a log is not accepted.
"""

import pathlib
import re
import subprocess
import sys

ROOT = pathlib.Path(__file__).resolve().parent.parent
PROVED = ROOT / "crates" / "nqthm_main" / "out" / "nqthm_main"


def without_blocks(text):
    """The text with its block comments made blank, but for the ends of their lines."""
    return re.sub(r"#\|.*?\|#", lambda it: re.sub(r"[^\n]", " ", it[0]), text, flags=re.S)


def wanted(text):
    """The answer that stands behind each form, or None where there is none."""
    answers, open_lists = [], 0
    for line in without_blocks(text).split("\n"):
        form, _, comment = line.partition(";")
        for mark in re.findall(r"[()]", form):
            open_lists += 1 if mark == "(" else -1
            if mark == ")" and open_lists == 0:
                answers.append(None)
        if comment.strip().startswith("=>") and answers:
            answers[-1] = comment.strip()[2:].strip()
    return answers


def told(commentary):
    """The last line of each report."""
    reports = re.split(r"^(?=\d+\. )", commentary, flags=re.M)[1:]
    return [[it.strip() for it in report.split("\n") if it.startswith("   ")][-1] for report in reports]


def differences(name, wants, answers):
    """What is told otherwise than wanted, a line each."""
    if len(wants) != len(answers):
        yield f"{name}: {len(wants)} forms, and {len(answers)} reports"
    for number, (want, answer) in enumerate(zip(wants, answers), 1):
        if want is None:
            yield f"{name}: no answer stands behind form {number}"
        elif want != answer:
            yield f"{name}: form {number} is answered `{answer}`, and `{want}` is wanted"


def tried(program, path):
    """What is wrong with an example, a line each."""
    run = lambda word, data: subprocess.run([program, word], input=data, capture_output=True)
    data = path.read_bytes()
    yield from differences(path.name, wanted(data.decode()), told(run("run", data).stdout.decode()))
    verdict = run("check", run("log", data).stdout).stdout.decode().rstrip("\n").split("\n")[-1]
    if not verdict.startswith("Accepted, "):
        yield f"{path.name}: check says of its log `{verdict}`"


def main():
    program = sys.argv[1] if sys.argv[1:] else str(PROVED if PROVED.is_file() else ROOT / "bin" / "nqthm")
    paths = sorted((ROOT / "examples").glob("*.events"))
    wrong = [line for path in paths for line in tried(program, path)]
    print("\n".join([*wrong, f"examples: {len(paths)} files, {len(wrong)} differences"]))
    return 1 if wrong else 0


if __name__ == "__main__":
    sys.exit(main())

#!/usr/bin/env python3
"""Shows that a form's text can't be kept past the reset of its arena.

It makes a small program over the reader, in a copy of the repository: the program keeps the text of the first form, and
looks at it before it resets the arena. That program must run. Then it tries the same program with the two lines
exchanged, so that the text is looked at after the reset: that one must not compile, as the text is borrowed.

    python3 tools/kept_form.py
"""

import pathlib
import shutil
import subprocess
import sys
import tempfile

ROOT = pathlib.Path(__file__).resolve().parent.parent

NAME = "kept_form"

PROGRAM = """//! Keeps the text of a form.
#![tactic(auto)]

use bumpalo::Bump;
use nq_io::MemSource;
use nq_sexp::{Reader, Sexp};
use std::alloc::{AllocError, Global};
use std::process::ExitCode;

fn main(rt: HostRuntime) -> ExitCode {
    match length_of_first_symbol(rt.alloc()) {
        Ok(5) => ExitCode::from(0),
        Ok(_) => ExitCode::from(1),
        Err(_) => ExitCode::from(6),
    }
}

fn length_of_first_symbol(alloc: Global) -> Result<usize, AllocError> {
    let text = b"FIRST SECOND".as_slice().to_vec(alloc)?;
    let mut source = MemSource::new(text, 64, Vec::new(alloc));
    let mut arena = Bump::new(alloc);
    let mut reader = Reader::new(alloc);
    let kept = match reader.next(&arena, &mut source) {
        Ok(Some(Sexp::Symbol(name))) => name,
        _ => b"".as_slice(),
    };
    LINES
    Ok(length)
}
"""

LOOK = "let length = kept.len();"
RESET = "let _is_reset = arena.reset().is_ok();"

# what the compiler says of a reset while a form is still to be used
BORROWED = "borrowed"


def tried(folder, lines):
    """The status and the output of the program with these lines."""
    (folder / "src").mkdir(parents=True, exist_ok=True)
    (folder / "src" / "main.rt").write_text(PROGRAM.replace("LINES", "\n    ".join(lines)))
    ran = subprocess.run(["rt", "try"], cwd=folder, capture_output=True, text=True)
    return ran.returncode, ran.stdout + ran.stderr


def main():
    with tempfile.TemporaryDirectory() as room:
        top = pathlib.Path(room) / "copy"
        skipped = shutil.ignore_patterns("out", ".git", "must-fail")
        shutil.copytree(ROOT / "crates", top / "crates", ignore=skipped)
        lines = (ROOT / "crates.txt").read_text()
        (top / "crates.txt").write_text(f"{lines}{NAME}: nq_io nq_sexp bumpalo\n")
        folder = top / "crates" / NAME
        status, said = tried(folder, [LOOK, RESET])
        if status != 0:
            sys.exit(f"a form that is looked at before the reset: status {status}, wanted 0\n{said}")
        status, said = tried(folder, [RESET, LOOK])
        if status == 0 or BORROWED not in said:
            sys.exit(f"a form that is kept past the reset: status {status}, wanted an error of borrowing\n{said}")
    print("a form that is kept past the reset of its arena does not compile")


if __name__ == "__main__":
    main()

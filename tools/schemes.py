"""Prints the laws of ordinals that the crate nq_schemes adds as lines: their tables of rule lines.

    python3 tools/schemes.py crates/nq_schemes
"""
import os, sys
sys.dont_write_bytecode = True
from replays import named, table

LAWS = ["fix_is_ordinal"]

def main(crate):
    def put(path, text):
        path = os.path.join(crate, path)
        os.makedirs(os.path.dirname(path), exist_ok=True)
        open(path, "w").write(text)
    for name in LAWS:
        put("src/tables/%s.rt" % name, table(name, named[name], [], "nq_replay"))
    put("src/tables.rt", "//! The tables of laws. They are printed.\n\n" + "".join("pub mod %s;\n" % name for name in LAWS))

if __name__ == "__main__":
    main(sys.argv[1])

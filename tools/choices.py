"""Prints the laws of OR that the crate nq_descents adds as lines: their tables of rule lines.

    python3 tools/choices.py crates/nq_descents
"""
import sys
sys.dont_write_bytecode = True
import schemes

schemes.LAWS = ["first_of_choice", "second_of_choice"]

if __name__ == "__main__":
    schemes.main(sys.argv[1])

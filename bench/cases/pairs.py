"""Makes the lines of every case in crates/curve, which rt runs on them all, or checks them. A case is a text of measured pairs, data/NAME.pairs.

pairs.py make PROGRAM..    writes the names of all texts to args, and of one that is not there, and PROGRAM's lines to stdout
pairs.py check PROGRAM..   exit 1 unless args has these names and PROGRAM writes each text's lines, which are those that the text expects

PROGRAM may be of several words, an emulator's before its own.
"""

import cases
import texts

if __name__ == "__main__":
    pairs = texts.Texts("curve", "missing.pairs", (b"breakpoints ", b"refused "))
    cases.main(__doc__, pairs.make, pairs.check)

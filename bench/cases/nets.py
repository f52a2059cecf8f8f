"""Makes the lines of every case in crates/netlist_main, which rt runs on them all, or checks them. A case is a netlist, data/NAME.net, or one of them in a version.

nets.py make PROGRAM..    writes what pairs.py does for measured pairs, and then the versions with their netlists
nets.py check PROGRAM..   exit 1 where pairs.py would; a netlist may also expect one of its lines alone
"""

import cases
import texts

# What a netlist expects in a version, by document 02. Where nothing else refuses it, a version that there is not does; the last two would be 1 if they were cut to fewer bits.
IN_VERSIONS = (
    ("1", "output_alone", "3 1 1 1"), ("1", "ohms_tighter", "2 6666667 6666667 1"), ("1", "element_all_kinds", "version 1"), ("1", "value_zero", "refused 15 line 2"),
    ("2", "output_alone", "3 10 10 1"), ("0", "output_alone", "refused 2"), ("3", "output_alone", "refused 2"), ("3", "value_zero", "refused 15 line 2"),
    ("3", "conductance_past_ohms", "refused 6"), ("255", "output_alone", "refused 2"), ("257", "output_alone", "refused 2"),
    ("18446744073709551617", "output_alone", "refused 2"))

if __name__ == "__main__":
    more = [texts.Case((f"-{version}",), f"{name}.net", expected.encode().split()) for version, name, expected in IN_VERSIONS]
    # Of no text an image is kept.
    nets = texts.Texts("netlist_main", "missing.net", (b"greatest ", b"refused "), "-\n", more)
    cases.main(__doc__, nets.make, nets.check)

#!/usr/bin/env python3
"""Before port.py: renames two aliases of proof files that have the spelling of today's library.

usage: python3 tools/port_before.py FOLDER      (a checkout of the last commit before the port)

port.py leaves out the steps for older spellings where a file has a name in snake case of today's library. Three files of
crates/promises call a module of a proof `next_row` or `place_of`; here those two aliases get a dash, and nothing else changes.
"""

import os
import re
import sys

FILES = ["proofs/Returned.antt", "proofs/ListingDetermined.antt", "specs/ReaderSays.antt"]


def main(root):
    for name in FILES:
        path = os.path.join(root, "crates", "promises", name)
        with open(path, encoding="utf-8") as f:
            text = f.read()
        for old, new in (("next_row", "next-row"), ("place_of", "place-of")):
            text = re.sub(r"(?m) as " + old + r"$", " as " + new, text)
            text = re.sub(r"(?<![.\w-])" + old + r"\.", new + ".", text)
        with open(path, "w", encoding="utf-8") as f:
            f.write(text)


if __name__ == "__main__":
    main(sys.argv[1] if len(sys.argv) > 1 else ".")

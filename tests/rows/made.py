#!/usr/bin/env python3
"""made.py FOLDER: writes the cases that are too long to keep into the folder: scripts, and transcripts by arithmetic."""
import os
import sys

sys.dont_write_bytecode = True

import limits
import sizes


def main():
    for made in (*limits.CASES, *sizes.CASES):
        script, text, more = made()
        for ending, held in {"": script, ".stdout": text, **{f".{it}": more[it] for it in more}}.items():
            with open(os.path.join(sys.argv[1], made.__name__ + ending), "w") as file:
                file.write(held)


main()

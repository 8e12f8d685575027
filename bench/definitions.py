#!/usr/bin/env python3
"""definitions.py [CRATE MODULE]: the lines of the definitions that the headline of `run` rests on, by area.

It starts from retro/specs/Program.antt, or from the module given, and follows what each file of specs/ uses. Comments,
imports and empty lines are not counted; a file is counted whole, also where the headline uses a part of it.
"""
import os
import re
import sys
from collections import Counter

CRATES = os.path.join(os.path.dirname(os.path.dirname(os.path.abspath(__file__))), "crates")
USED = re.compile(r"^(?:pub )?use Rattle\.(\w+)\.specs\.([\w.]+)", re.MULTILINE)
TEXT = ("sql_lexer", "sql_grammar", "sql_parts", "sql_build", "sql_text", "script", "rql_arguments")
PAGES = ("pager", "row_codec", "index_page", "tree_index", "heap_file", "heap_laws", "relation", "relation_laws", "sql_exec")


def file_of(crate, path):
    """The file of a module, whose path may end in names that it declares."""
    parts = path.strip(".").split(".")
    while parts:
        name = os.path.join(CRATES, crate, "specs", *parts) + ".antt"
        if os.path.exists(name):
            return name
        parts.pop()


def text_of(name):
    with open(name) as file:
        return file.read()


def main():
    crate, module = sys.argv[1:] or ("retro", "Program")
    todo, lines, files = [file_of(crate, module)], Counter(), set()
    while todo:
        name = todo.pop()
        if name is None or name in files:
            continue
        files.add(name)
        text = text_of(name)
        crate = os.path.relpath(name, CRATES).split(os.sep)[0]
        area = "text and grammar" if crate in TEXT else "tables on pages" if crate in PAGES else "the rest"
        told = re.sub(r"^(?:pub )?use [^{\n]*(?:\{[^}]*\}.*)?$", "", text, flags=re.MULTILINE)
        lines[area] += sum(bool(line.strip()) and not line.lstrip().startswith("--") for line in told.split("\n"))
        todo += [file_of(*used) for used in USED.findall(text)]
    print(f"{sum(lines.values())} lines in {len(files)} files: {dict(lines)}")


main()

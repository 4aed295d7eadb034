#!/usr/bin/env python3
"""Names the recursive form of "all" as the library does, AllByRecursion: `All` is kept for the library's own word.

    python3 tools/respell_all.py        at the top of the repository, once, after tools/respell.py
"""
import pathlib
import re

NAME = re.compile(r"(?<![A-Za-z0-9_'\-.])(All|Each)(?![A-Za-z0-9_'\-])")
IMPORT = re.compile(r"AllByRecursion as (All|Each)\b")


def main():
    for kind in ("*.antt", "*.rt"):
        for path in sorted(pathlib.Path("crates").rglob(kind)):
            if "out" in path.parts:
                continue
            text = path.read_text()
            alias = IMPORT.search(text)
            if not alias:
                continue
            lines = IMPORT.sub("AllByRecursion", text).split("\n")
            for i, line in enumerate(lines):
                if not line.lstrip().startswith(("--", "//")) and "AllByRecursion" not in line:
                    lines[i] = NAME.sub(lambda m: "AllByRecursion" if m.group(1) == alias.group(1) else m.group(0), line)
            path.write_text("\n".join(lines))


main()

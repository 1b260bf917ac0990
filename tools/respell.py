#!/usr/bin/env python3
"""Gives this repository's own definitions and lemmas the spelling of today's Rattle: words in snake case, types in camel case.

usage: python3 tools/respell.py [FOLDER]      once, at the top (or in FOLDER), right after /opt/rattle/port/port.py and before any edit by hand

respell.tsv beside it has a row for each name: old, a tab, new. The kit's own script turns them, as whole words, in clauses, ghost items, specs/ and proofs/.
"""

import subprocess
import sys
from pathlib import Path

HERE = Path(__file__).resolve().parent
SNAKE = "/opt/rattle/port/notes/2026-11-18-names-are-in-snake-case/snake.py"


def main():
    top = Path(sys.argv[1]) if len(sys.argv) > 1 else HERE.parent
    rows = HERE / "respell.tsv"
    turned = subprocess.run([sys.executable, SNAKE, "--table", str(rows), "--only", "antt,rt", "--prose", "none", str(top / "crates")])
    raise SystemExit(turned.returncode)


if __name__ == "__main__":
    main()

"""The crates that a program stands on, and a sum of all that it is made from."""
from __future__ import annotations

import hashlib
import os
import re
from typing import Dict, Iterator, List, Sequence

from building.trees import tree_id

PROGRAM = "lostd"
PARTS = ("src", "specs", "proofs")


def rows_of(top: str) -> Dict[str, str]:
    """The line of each crate in crates.txt, by its name."""
    with open(f"{top}/crates.txt", encoding="utf-8") as file:
        lines = [line.partition("#")[0].strip() for line in file]
    return {line.partition(":")[0].split()[0]: line for line in lines if line}


def uses_of(rows: Dict[str, str]) -> Dict[str, List[str]]:
    """Which crates of the repository each of them uses."""
    return {name: [used for used in row.partition(":")[2].split() if used in rows] for name, row in rows.items()}


def crates_below(uses: Dict[str, List[str]], name: str) -> List[str]:
    """The crate and all that it stands on, each after those that it uses."""
    found: List[str] = []

    def add(crate: str) -> None:
        if crate not in found:
            for used in uses[crate]:
                add(used)
            found.append(crate)

    add(name)
    return found


def code_of(top: str, name: str) -> Iterator[str]:
    """The text of each source file of a crate."""
    for folder, _, files in os.walk(f"{top}/crates/{name}/src"):
        for file in files:
            if file.endswith(".rt"):
                with open(f"{folder}/{file}", encoding="utf-8") as text:
                    yield text.read()


def lines_of(top: str, name: str) -> int:
    """How many lines of code a crate has."""
    return sum(text.count("\n") for text in code_of(top, name))


def functions_of(top: str, name: str) -> int:
    """About how many functions of a crate are proved."""
    return sum(len(re.findall(r"\bfn [a-z_]", text)) for text in code_of(top, name))


def sum_of(top: str, names: Sequence[str]) -> str:
    """A sum of the lines of crates.txt, the code, the definitions and the proofs of these crates."""
    rows, total = rows_of(top), hashlib.sha256()
    for name in sorted(names):
        parts = [tree_id(f"{top}/crates/{name}/{part}") for part in PARTS]
        total.update(f"{rows[name]} {parts}\n".encode())
    return total.hexdigest()


def sum_of_program(top: str) -> str:
    """A sum of all sources that lostd is made from."""
    return sum_of(top, crates_below(uses_of(rows_of(top)), PROGRAM))

"""How many lines of code, of definitions and of proofs a crate has."""
import re
from pathlib import Path

# A line that begins so belongs to a contract; one that ends in the middle of a clause goes on until its braces close.
CLAUSE = re.compile(r"^\s*(ghost|requires|ensures|invariant|decreases|limit)\b")


def is_test(path):
    return any(part in ("tests", "tests.rt") for part in path.parts)


def code_lines(path):
    count = 0
    depth = 0
    for line in path.read_text().splitlines():
        text = line.strip()
        if depth > 0:
            depth += text.count("{") - text.count("}")
        elif not text or text.startswith("//"):
            continue
        elif CLAUSE.match(line):
            depth = max(0, text.count("{") - text.count("}"))
        else:
            count += 1
    return count


def lines(folder):
    return sum(len(path.read_text().splitlines()) for path in folder.rglob("*.antt")) if folder.exists() else 0


def sizes(folder):
    """The lines of code, of definitions and of proofs of the crate in this folder."""
    crate = Path(folder)
    code = sum(code_lines(path) for path in sorted((crate / "src").rglob("*.rt")) if not is_test(path.relative_to(crate)))
    return code, lines(crate / "specs"), lines(crate / "proofs")

"""The crates of this repository: what each uses, what it holds, and a copy of the repository in which they are proved."""
import os
import shutil
import sys

TOP = os.path.dirname(os.path.dirname(os.path.dirname(os.path.realpath(__file__))))
sys.path.insert(0, f"{TOP}/checks/lines-of-code")

from counting import sizes


def dependencies():
    """The crates of this repository, each with those that it uses, in the order of crates.txt."""
    used = {}
    with open(f"{TOP}/crates.txt", encoding="utf-8") as file:
        for line in file:
            name, colon, others = line.split("#")[0].partition(":")
            if colon:
                used[name.split()[0]] = others.split()
    return {name: [other for other in others if other in used] for name, others in used.items()}


def below(used, name):
    """The crates that a crate uses, and those that they use."""
    found = set()
    for other in used[name]:
        found |= {other} | below(used, other)
    return found


def lowest_first(used):
    return sorted(used, key=lambda name: (len(below(used, name)), name))


def lines_of_code(name):
    return sizes(f"{TOP}/crates/{name}")[0]


def has_tests(name):
    for folder, _, files in os.walk(f"{TOP}/crates/{name}/src"):
        for file in files:
            if file.endswith(".rt"):
                with open(f"{folder}/{file}", encoding="utf-8") as it:
                    if "#[test]" in it.read():
                        return True
    return False


def edits_in(folder):
    """The names of the edits that stand right in a folder, without their ending; none where it is not there."""
    names = sorted(os.listdir(folder)) if os.path.isdir(folder) else []
    return [name[: -len(".edit")] for name in names if name.endswith(".edit")]


def copied(room, kept, without=()):
    """A copy of the repository in which these crates alone have what is kept of them, without folders of these names."""

    def left_out(folder, names):
        is_kept = os.path.basename(folder) in kept
        return [name for name in names if name == ".git" or name in without or name == "out" and not is_kept]

    shutil.copytree(TOP, f"{room}/top", symlinks=True, ignore=left_out)
    return f"{room}/top"

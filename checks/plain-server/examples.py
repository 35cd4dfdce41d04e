"""The sessions of examples/, and random ones of checks/oracle, through the plain server."""
import os
import subprocess
import sys

from compiling import TOP

# The sessions that the plain server answers otherwise, each with the reason: what it leaves out.
LEFT_OUT = {}


def replies_of(program, path):
    """The output of a replay of a file."""
    with open(path, "rb") as file:
        return subprocess.run(program.replay_words(), stdin=file, stdout=subprocess.PIPE, timeout=60).stdout


def first_difference(told, wanted):
    """The number of the first line of replies that differs."""
    pairs = zip(told.splitlines(), wanted.splitlines())
    return next((number for number, pair in enumerate(pairs, 1) if pair[0] != pair[1]), "behind the last reply")


def is_as_told(program, name):
    """Whether a session is answered as it should be, or is left out; says so where it is not the same."""
    told = replies_of(program, f"{TOP}/examples/{name}.jsonl")
    with open(f"{TOP}/examples/{name}.expected", "rb") as file:
        wanted = file.read()
    if told == wanted:
        if name in LEFT_OUT:
            print(f"{name}: is the same, and stands among those that are left out")
        return name not in LEFT_OUT
    print(f"{name}: differs, reply {first_difference(told, wanted)}: {LEFT_OUT.get(name, 'WRONG, it is not left out')}")
    return name in LEFT_OUT


def compare_examples(program):
    """Compares each session; whether each is as it should be."""
    names = sorted(name[:-6] for name in os.listdir(f"{TOP}/examples") if name.endswith(".jsonl"))
    right = [is_as_told(program, name) for name in names]
    print(f"{len(names)} sessions of examples/: {len(names) - len(LEFT_OUT)} the same, {len(LEFT_OUT)} left out, "
          f"{right.count(False)} wrong")
    return all(right)


def compare_random(program, wanted):
    """Compares so many random sessions with the oracle's replies; whether all are the same."""
    sys.path.append(f"{TOP}/checks/oracle")
    import comparing
    from sessions import Session

    comparing.PROGRAM = program.path
    passed, left_out, failed = 0, 0, []
    for seed in range(1, wanted + 1):
        session = Session(seed)
        replies = comparing.oracle_replies(session.given, session.name, session.now)
        if replies is None:
            left_out += 1
        elif comparing.lostd(session.given, session.name, session.now) == b"".join(replies):
            passed += 1
        else:
            failed.append(seed)
    print(f"{wanted} random sessions of checks/oracle: {passed} the same, {left_out} left out, since a member is named twice, "
          f"{len(failed)} wrong{': seeds ' + ' '.join(map(str, failed[:5])) if failed else ''}")
    return not failed

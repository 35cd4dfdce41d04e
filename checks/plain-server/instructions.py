"""How many instructions a line takes, by valgrind."""
import re
import shutil
import subprocess

from programs import Failed
from questions import SHOWN, Questions
from replays import maps_of, need_same, row

LINES = 2_000
COUNTED = re.compile(rb"Collected *: *(\d+)")


def counted(program, path, folder):
    """How many instructions a replay of a file takes, and its replies."""
    words = ["valgrind", "--tool=callgrind", f"--callgrind-out-file={folder}/callgrind", *program.replay_words()]
    with open(path, "rb") as file:
        ran = subprocess.run(words, stdin=file, capture_output=True)
    found = COUNTED.search(ran.stderr)
    if ran.returncode or not found:
        last = (ran.stderr.decode(errors="replace").splitlines() or ["it said nothing"])[-1]
        raise Failed(f"{program.title} under valgrind: status {ran.returncode}: {last}")
    return int(found[1]), ran.stdout


def write_joined(path, map_path, lines):
    """Writes a map and lines behind it."""
    shutil.copyfile(map_path, path)
    with open(path, "ab") as file:
        file.write(lines)


def compare_instructions(programs, sizes, given, folder):
    """Counts the instructions of both programs at each size, and prints the table."""
    if shutil.which("valgrind") is None:
        raise Failed("valgrind is not installed, and only it counts instructions: apt-get install valgrind")
    print(f"Instructions, by valgrind: of each desk line of the map, and of each of {LINES:,} questions of a kind.")
    row("mappings", "what", ("lostd", "plain"), "lostd / plain")
    for land, path, count in maps_of(sizes, folder):
        alone = [counted(program, path, folder)[0] for program in programs]
        show(land, "a desk line", [number / count for number in alone])
        for kind in given.kinds:
            lines = Questions(land).lines(kind, LINES)
            write_joined(f"{folder}/asked", path, lines)
            told = [counted(program, f"{folder}/asked", folder) for program in programs]
            need_same(b"\n" * count + lines, [replies for _, replies in told])
            show(land, SHOWN[kind], [(number - before) / LINES for (number, _), before in zip(told, alone)])


def show(land, what, numbers):
    """Prints a row of the table."""
    row(f"{land.mappings:,}", what, [f"{number:,.0f}" for number in numbers], f"{numbers[0] / numbers[1]:.2f}")

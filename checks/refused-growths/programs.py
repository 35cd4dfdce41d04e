"""Programs of rows, in which each growth of memory is refused in turn."""
import os
import re
import subprocess
import sys
import tempfile
from collections import Counter

from serving import Wrong

HERE = os.path.dirname(os.path.realpath(__file__))
TOP = os.path.dirname(os.path.dirname(HERE))
DESK_LINE = re.compile(rb'\s*\{\s*"(publish|replace|withdraw|commit)"')
MARK = b"memory ran out"
NOT_OPENED = b"open: 2"
NO_CACHE = b"capacity 1: refused, code 2"
# What a reader answers that got no cache, and what is said of it.
HANDED_BACK = [NO_CACHE, b'{"errors":{"edition":0,"error":"serviceNotImplemented"}}']
# A question, an edit that the lines of the command desk do not have, and a commit.
FURTHER = [
    b'{"findService":{"location":[{"id":"p","pos":[5000000,5000000],"profile":"geodetic-2d"}],'
    b'"service":"urn:service:sos.police"}}',
    b'{"publish":{"expires":"NO-EXPIRATION","key":"D-1","lastUpdated":"2025-12-01T00:00:00Z",'
    b'"service":"urn:service:sos.fire","serviceBoundary":[{"polygon":[[0,0],[0,10000000],[10000000,10000000],'
    b'[10000000,0],[0,0]],"profile":"geodetic-2d"}],"source":"map.example","sourceId":"D","uri":["sip:D@map.example"]}}',
    b'{"commit":{}}',
]
# What serve_desk answers to a line whose growth is refused.
NO_MEMORY = b'{"refused":{"code":20,"name":"Memory"}}'
# What the command index of rows_gate says of a refused call, with the answer of the index after it, and of the same call again.
REFUSED = {
    b"first put refused:": [b"first put again: 1"],
    b"second put refused: 1": [b"second put again: 1 2"],
    b"add refused: 1 2": [b"add again: 1 2"],
    b"holding refused": [],
}
# The edits of rows_gate for which a growth is refused: a replacement of a plain book takes no memory.
GROWING = [("book", "publish"), ("book", "withdraw"), ("routing", "publish"), ("routing", "replace"), ("routing", "withdraw")]
# What an empty book answers to the questions of rows_gate.
EMPTY = b"edition 0, held 0, keys - - - - -, not implemented, holding, at, defaults, of service, below, withdrawn - - - -"


def call(words, library, refused, count=False, given=b"", folder=None):
    """Runs a program in which one growth is refused; 0 refuses none."""
    variables = {"LD_PRELOAD": library, "REFUSE": str(refused)}
    if count:
        variables["COUNT"] = "1"
    return subprocess.run(words, input=given, env=variables, cwd=folder, capture_output=True, timeout=60)


def growths(ran):
    """How many growths a run had."""
    return int(ran.stderr.split()[-1])


def lines_of(text):
    lines = text.split(b"\n")
    return lines[:-1] if lines[-1] == b"" else lines


def read(path):
    """What a file holds; nothing where there is none."""
    if not os.path.exists(path):
        return b""
    with open(path, "rb") as file:
        return file.read()


def under(stdout, commands):
    """What a program writes of these commands: of the parts of its stdout, which begin with `== COMMAND`, those of theirs."""
    parts = {part.split(b"\n")[0].decode(): b"== " + part for part in re.split(rb"(?m)^== ", stdout)[1:]}
    return b"".join(parts[command] for command in commands)


class Program:
    """A program, with what it is given and what it must write: all its commands of the gate, or those that are named."""

    # The ways in which some growth must end.
    must_end = ()

    def __init__(self, crate, library, *commands):
        folder = f"{TOP}/crates/{crate}"
        self.words = [f"{folder}/out/{crate}", *(commands or read(f"{folder}/args").decode().split("\n")[:-1])]
        if not os.path.exists(self.words[0]):
            sys.exit(f"{self.words[0]} is not there: run `rt run` in crates/{crate} first")
        self.library = library
        self.folder = f"{folder}/data" if os.path.isdir(f"{folder}/data") else None
        self.given = read(f"{folder}/stdin")
        self.wanted = read(f"{folder}/stdout")
        if commands:
            self.wanted = under(self.wanted, commands)

    def call(self, refused, **further):
        """Runs the program over what it is given."""
        return call(self.words, self.library, refused, given=self.given, folder=self.folder, **further)

    def judge(self, refused):
        """In which way the program ends where this growth is refused."""
        ran = self.call(refused)
        if ran.returncode == 0 and ran.stdout == self.wanted:
            return "not needed"
        if ran.returncode == 1 and b"memory" in ran.stderr.lower() and self.wanted.startswith(ran.stdout):
            return "memory ran out"
        raise Wrong(f"growth {refused}: status {ran.returncode}, {ran.stdout[-200:]!r}, {ran.stderr!r}")

    def sweep(self):
        ran = self.call(0, count=True)
        if ran.stdout != self.wanted:
            raise Wrong("the text differs with no growth refused")
        made = growths(ran)
        ways = Counter(self.judge(number) for number in range(1, made + 1))
        for way in self.must_end:
            if not ways[way]:
                raise Wrong(f"no growth ends in {way!r}")
        return made, ways


class Lines(Program):
    """A command of the program rows_gate, which answers a refused line and goes on."""

    # How many bytes of lines the program is given: empty lines fill them up, so that to read them always takes as many growths.
    ROOM = 16_384

    def __init__(self, command, library):
        super().__init__("rows_gate", library, command)
        self.file = f"{command}.lines"
        self.lines = lines_of(read(f"{self.folder}/{self.file}"))
        self.answers = lines_of(self.wanted)

    def call(self, refused, lines=None, **further):
        """Runs the command over its lines, or over these."""
        given = b"".join(line + b"\n" for line in (self.lines if lines is None else lines))
        with tempfile.TemporaryDirectory() as folder:
            with open(f"{folder}/{self.file}", "wb") as file:
                file.write(given.ljust(self.ROOM, b"\n"))
            return call(self.words, self.library, refused, folder=folder, **further)

    def run(self, lines, refused=0):
        """What the command writes over these lines."""
        return lines_of(self.call(refused, lines).stdout)


class Desk(Lines):
    """The command desk, over a desk and a reader."""

    must_end = ("a desk opened again",)

    def __init__(self, library):
        super().__init__("desk", library)
        self.first = len(self.answers) - len(self.lines)

    def judge(self, refused):
        """In which way the program ends where this growth is refused."""
        ran = self.call(refused)
        answers = lines_of(ran.stdout)
        opening = self.first - 1
        if ran.returncode == 0 and answers == self.answers[:opening] + [NOT_OPENED] + self.answers[opening:]:
            return "a desk opened again"
        if ran.returncode != 0 or MARK not in answers:
            return super().judge(refused)
        if answers.count(MARK) != 1 or len(answers) != len(self.answers):
            raise Wrong(f"growth {refused}: {answers}")
        place = answers.index(MARK)
        self.judge_again(refused, place)
        return self.judge_after(refused, place)

    def judge_again(self, refused, place):
        """The marked line, given once more, has its answer, and all others have theirs."""
        number = place - self.first
        again = self.run(self.lines[: number + 1] + self.lines[number:], refused)
        if again != self.answers[:place] + [MARK] + self.answers[place:]:
            raise Wrong(f"growth {refused}: given once more, line {number + 1} gives {again}")

    def judge_after(self, refused, place):
        """What comes behind the marked line is answered as though it had not been there. Gives the kind of line."""
        number = place - self.first
        after = self.run(self.lines[: number + 1] + FURTHER, refused)
        without = self.run(self.lines[:number] + FURTHER)
        if after != without[:place] + [MARK] + without[place:]:
            raise Wrong(f"growth {refused}: line {number + 1} is marked, and what follows gives {after}")
        if not self.lines[number].startswith(b'{"commit"'):
            return "another line answered memory ran out"
        if place == self.answers.index(b"committed, edition 3") and not (
            b'"edition":1,' in without[-3] and without[-2:] == [b"staged, pending 3", b"committed, edition 4"]
        ):
            raise Wrong(f"growth {refused}: the second pair is not committed, and then {without[-3:]}")
        return f"not {self.answers[place].decode()}"


class Cache(Lines):
    """The command cache, over a desk and two readers: a desk line is answered once, a question by both."""

    # How many lines are said at the beginning of a part, and how many at its end.
    HEAD, END = 4, 2
    must_end = ("a desk opened again", "a reader handed back", "a question asked again", "a question not read", "a desk line not done")

    def __init__(self, library):
        super().__init__("cache", library)
        # For each answer the number of its line; none for what is said at the beginning and at the end of a part.
        self.numbers = [None] * (1 + self.HEAD)
        for number, line in enumerate(self.lines):
            is_question = not DESK_LINE.match(line)
            self.numbers += [None] * (self.END + self.HEAD) if line == b"next" else [number] * (2 if is_question else 1)
        self.numbers += [None] * self.END
        self.again = list(self.outputs_again())

    def outputs_again(self):
        """The outputs where a desk or a cache is refused, and then asked for again: in which way, and the lines."""
        ends = [place + 1 for place, line in enumerate(self.answers) if line.startswith(b"finds ")]
        for begin in [1, *ends[:-1]]:
            for way, place, said in (
                ("a desk opened again", begin, [NOT_OPENED]),
                ("a reader handed back", begin + self.HEAD, HANDED_BACK),
            ):
                yield way, self.answers[:place] + said + self.answers[place:]

    def is_same(self, got, wanted):
        """Whether two outputs are the same but for the counts."""
        return len(got) == len(wanted) and all(
            one == other or one.startswith((b"hits ", b"finds ")) for one, other in zip(got, wanted)
        )

    def judge(self, refused):
        """In which way the program ends where this growth is refused."""
        ran = self.call(refused)
        answers = lines_of(ran.stdout)
        for way, output in self.again:
            if ran.returncode == 0 and answers == output:
                return way
        if ran.returncode == 0 and answers != self.answers and self.is_same(answers, self.answers):
            return "a place not kept"
        if ran.returncode != 0 or MARK not in answers:
            return super().judge(refused)
        place = answers.index(MARK)
        rest = answers[:place] + answers[place + 1 :]
        if self.is_same(rest, self.answers):
            return "a question asked again"
        number = self.numbers[place]
        if MARK in rest or number is None:
            raise Wrong(f"growth {refused}: {answers}")
        self.judge_again(refused, place)
        return self.judge_rest(refused, place, rest)

    def judge_again(self, refused, place):
        """The marked line, given once more, has its answers, and all others have theirs."""
        number = self.numbers[place]
        again = self.run(self.lines[: number + 1] + self.lines[number:], refused)
        if not self.is_same(again, self.answers[:place] + [MARK] + self.answers[place:]):
            raise Wrong(f"growth {refused}: given once more, line {number + 1} gives {again}")

    def judge_rest(self, refused, place, rest):
        """All else is answered as though the marked line had not been there. Gives the kind of line."""
        number = self.numbers[place]
        if DESK_LINE.match(self.lines[number]):
            kind, wanted = "a desk line not done", self.run(self.lines[:number] + self.lines[number + 1 :])
        else:
            kind, wanted = "a question not read", self.answers[:place] + self.answers[place + 2 :]
        if not self.is_same(rest, wanted):
            raise Wrong(f"growth {refused}: line {number + 1} is marked, and another line is answered otherwise")
        return kind


class Streams(Program):
    """The command lines of the program rows_gate, over a stream of two lines, which marks the line of a refused growth."""

    LINES = rb"text aaaaaaaaaaaa\nb\n" + b"\nserve pieces=1\n"
    must_end = ("a line answered refused",)
    # What is answered, and then the growths that were refused and the bytes that were written.
    ANSWERS = (([b"12", b"1"], 0, 5), ([b"refused", b"1"], 1, 10), ([b"12", b"refused"], 1, 11))

    def __init__(self, library):
        super().__init__("rows_gate", library, "lines")
        usual, *self.marked = map(self.output, self.ANSWERS)
        self.wanted = b"".join(line + b"\n" for line in usual)

    def output(self, answer):
        """The lines that are printed at such answers."""
        texts, memory, count = answer
        end = b"lines 2 long 0 memory %d faults 0; 16 reads, %d bytes, input ended" % (memory, count)
        return [b"== lines", b"-- serve pieces=1", *texts, end]

    def call(self, refused, **further):
        """Runs the command over the stream."""
        with tempfile.TemporaryDirectory() as folder:
            with open(f"{folder}/lines.lines", "wb") as file:
                file.write(self.LINES)
            return call(self.words, self.library, refused, folder=folder, **further)

    def judge(self, refused):
        """In which way the program ends where this growth is refused."""
        ran = self.call(refused)
        if ran.returncode == 0 and lines_of(ran.stdout) in self.marked:
            return "a line answered refused"
        return super().judge(refused)


class DeskStream(Program):
    """The command hostile of the program rows_gate, over the desk lines of some input: serve_desk marks the line of a refused growth."""

    def __init__(self, library, name, lines, replies):
        super().__init__("rows_gate", library, "hostile")
        self.name, self.lines, self.replies = name, lines, replies
        staged = (number for number, reply in enumerate(replies, 1) if reply.startswith(b'{"staged"'))
        self.must_end = tuple(f"line {number} answered code 20" for number in staged)
        self.wanted = self.output(replies)
        self.replies_without = [self.run(lines[:number] + lines[number + 1 :]) for number in range(len(lines))]

    def output(self, replies):
        """The text that is printed at such replies."""
        end = b"lines %d long 0 memory 0 faults 0" % len(replies)
        return b"".join(line + b"\n" for line in [b"== hostile", b"-- desk whole", *replies, end])

    def run(self, lines):
        """The replies to these lines where no growth is refused."""
        return lines_of(self.call(0, lines).stdout)[2:-1]

    def call(self, refused, lines=None, **further):
        """Runs the command over its lines, or over these."""
        script = b"".join(b"line " + line + b"\n" for line in (self.lines if lines is None else lines))
        with tempfile.TemporaryDirectory() as folder:
            with open(f"{folder}/hostile.lines", "wb") as file:
                file.write(script + b"desk whole\n")
            return call(self.words, self.library, refused, folder=folder, **further)

    def judge(self, refused):
        """In which way the program ends where this growth is refused."""
        ran = self.call(refused)
        for number, replies in enumerate(self.replies_without):
            marked = self.output(replies[:number] + [NO_MEMORY] + replies[number:])
            if ran.returncode == 0 and ran.stdout == marked:
                return f"line {number + 1} answered code 20"
        return super().judge(refused)


def desk_streams(library):
    """The sweeps of desk lines through serve_desk: those of row `one-mapping`, and some of an identity that is withdrawn."""
    publish, commit = [line for line in lines_of(read(f"{TOP}/examples/one-mapping.jsonl")) if DESK_LINE.match(line)]
    staged = b'{"staged":{"pending":1}}'
    committed = [b'{"committed":{"edition":%d}}' % edition for edition in range(4)]
    yield DeskStream(library, "one-mapping", [publish, commit], [staged, committed[1]])
    withdraw = b'{"withdraw":{"lastUpdated":"2025-12-03T00:00:00Z","source":"map.example","sourceId":"A"}}'
    same, later = (publish.replace(b"2025-12-01", day) for day in (b"2025-12-03", b"2025-12-04"))
    gone = b'{"refused":{"code":21,"name":"Withdrawn"}}'
    yield DeskStream(
        library,
        "withdrawn",
        [publish, commit, withdraw, publish, commit, same, later, commit],
        [staged, committed[1], staged, gone, committed[2], gone, staged, committed[3]],
    )


class Index(Program):
    """The covers and the row of an index of the program rows_gate, which tells of a refused call and makes it again."""

    must_end = tuple(line.split(b":")[0].decode() for line in REFUSED)

    def __init__(self, library):
        super().__init__("rows_gate", library, "covers", "index")
        self.answers = lines_of(self.wanted)

    def judge(self, refused):
        """In which way the program ends where this growth is refused."""
        ran = self.call(refused)
        answers = lines_of(ran.stdout)
        place = next((place for place, line in enumerate(answers) if line in REFUSED), None)
        if ran.returncode != 0 or place is None:
            return super().judge(refused)
        told = [answers[place], *REFUSED[answers[place]]]
        if answers != self.answers[:place] + told + self.answers[place:]:
            raise Wrong(f"growth {refused}: {answers}")
        return told[0].split(b":")[0].decode()


class Books(Program):
    """The edits of the program rows_gate, which applies a refused edit again, and asks a refused question again."""

    must_end = ("asked again", *(f"{name} ran out of memory in a {verb}" for name, verb in GROWING))

    def __init__(self, library):
        super().__init__("rows_gate", library, "edits")
        self.answers = lines_of(self.wanted)
        self.verbs = self.verbs_of_answers()

    def verbs_of_answers(self):
        """For each line of the output the verb of the edit that it answers; None where it answers none."""
        matches = map(DESK_LINE.match, lines_of(self.given))
        verbs = iter([match.group(1).decode() for match in matches if match for _ in ("book", "routing")])
        return [next(verbs) if line.startswith((b"book ", b"routing ")) else None for line in self.answers]

    def before(self, place):
        """What the book of the line at a place answered in the line before, without how its edit went; None for an empty one."""
        name = self.answers[place].split(b" ")[0]
        for line in reversed(self.answers[:place]):
            if line.startswith(b"limits "):
                return None
            if line.startswith(name + b" "):
                return line.split(b": ", 1)[1]
        return None

    def judge(self, refused):
        """In which way the program ends where this growth is refused."""
        ran = self.call(refused)
        answers = lines_of(ran.stdout)
        place = next((place for place, (one, other) in enumerate(zip(answers, self.answers)) if one != other), None)
        if ran.returncode != 0 or place is None:
            return super().judge(refused)
        told, wanted = answers[place], self.answers[place]
        if answers[:place] + answers[place + 1 :] != self.answers:
            raise Wrong(f"growth {refused}: {told!r}, and another line is not as ever")
        if told == b"asked again":
            return "asked again"
        how, state = told.split(b": ", 1)
        name = wanted.split(b" ")[0]
        if how != name + b" ran out of memory" or state != (self.before(place) or EMPTY):
            raise Wrong(f"growth {refused}: {told!r}")
        if wanted.startswith(name + b" refused"):
            raise Wrong(f"growth {refused}: {wanted!r}, and yet {told!r}")
        return f"{how.decode()} in a {self.verbs[place]}"

    def sweep(self):
        made, ways = super().sweep()
        others = [way for way in ways if "ran out of memory in" in way and way not in self.must_end]
        if others:
            raise Wrong(f"a growth ends in {others[0]!r}")
        return made, ways


class Calls(Program):
    """The command calls of the program rows_gate: calls that take no memory, on values made before. The command prepared makes the values alone."""

    def __init__(self, library):
        super().__init__("rows_gate", library, "calls")

    def sweep(self):
        alone = call([self.words[0], "prepared"], self.library, 0, count=True, folder=self.folder)
        ran = self.call(0, count=True)
        if ran.stdout != self.wanted:
            raise Wrong("the text differs with no growth refused")
        made = growths(ran)
        if made != growths(alone):
            raise Wrong(f"{growths(alone)} growths make the values, and {made} the values and the calls")
        if self.call(made + 1).stdout != self.wanted:
            raise Wrong("the text differs where the first growth of the calls would be refused")
        return made, Counter({"in the calls": 0})

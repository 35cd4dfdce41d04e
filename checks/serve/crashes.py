"""Crashes: a server over a journal is killed at any moment, what it did not flush is torn, and it is started again."""
import contextlib
import os
import shutil
import tempfile
import threading
import time
from collections import Counter

from drawing import Endless
from kept import ClientTalk, DeskTalk, begin
from ledger import Ledger
from plain_lines import publish
from recorded import Record, Unknown
from server import COMMIT, Ended
from spelling import Dice
from tearing import TEARS, Crashed
from verdicts import Differences, shown

CLIENTS, REQUESTS, PROBES = 2, 24, 24
# Of the starts: so many are watched, so many are killed about as early as they are ready, of those of a new journal more, and so many
# new journals begin with a map.
WATCHED, EARLY, EARLY_NEW, MAPPED = 0.6, 0.15, 0.7, 0.5
# An early kill comes within so many times as long as a start took. The most seconds in which a desk gets replies, and those behind it.
MOST_EARLY, FIRST_START, LONGEST, LONGEST_MORE = 1.3, 0.1, 1.0, 0.3
MOST_REPLIES, MOST_MORE = 40, 10
# After so many kills, and where a start fails, a new journal is begun.
KILLS_OF_ONE = 40
# Journals have seeds of their own.
SEEDS = 1_000
LEFT, CUT = "journals left as they were", "journals cut"
NAMES = ["both names", "the name before", "no name"]
COUNTED = [
    "kills", "of them before ready", "of them with something that was not flushed", LEFT, CUT, *(f"journals torn: {kind}" for kind in TEARS),
    *(f"new journals left with {names}" for names in NAMES), "journals", "bytes of journals", "commits", "commits found that were not answered",
    "replies", "different replies",
]
MOST_GROUPS, MOST_PENDING, PENDING = 4, 8, 0.5


class Work(threading.Thread):
    """Desks of a server, one after another, that edit until it is gone."""

    def __init__(self, server, talk, session):
        super().__init__(daemon=True)
        self.server, self.talk, self.session = server, talk, session

    def run(self):
        with contextlib.suppress(Ended, OSError):
            while True:
                self.talk.connect(self.server)
                for _ in range(self.session.dice.randint(1, MOST_GROUPS)):
                    self.session.dice.choice([self.one_by_one, self.at_once, self.many_at_once, self.a_few])()
                if self.session.dice.chance(PENDING):
                    self.talk.ask([self.session.desk_line() for _ in range(self.session.dice.randint(1, MOST_PENDING))])
                self.talk.end()

    def one_by_one(self):
        """Lines up to a commit, each behind the reply to the one before."""
        for line in self.session.group():
            self.talk.ask([line])

    def at_once(self):
        """Lines up to a commit in one piece."""
        self.talk.ask(self.session.group())

    def many_at_once(self):
        """Some commits in one piece."""
        self.talk.ask([line for _ in range(MOST_GROUPS) for line in self.session.group()])

    def a_few(self):
        """One line, and a commit."""
        self.talk.ask([self.session.desk_line(), COMMIT])


class Story:
    """A journal, from its beginning through many crashes."""

    def __init__(self, program, folder, seed, counts, tears):
        self.program, self.folder, self.counts, self.tears = program, folder, counts, tears
        self.journal, self.dice, self.session = f"{folder}/lost.journal", Dice(seed), Endless(seed)
        self.ledger, self.told, self.requests, self.is_new, self.way = Ledger(), set(), [], True, LEFT
        self.start_seconds = FIRST_START
        self.map_words = self.with_map() if self.dice.chance(MAPPED) else []

    def with_map(self):
        """The words that begin a journal with a map, whose edits are kept."""
        lines = [publish(number) for number in range(self.dice.randint(1, 9))] + [COMMIT]
        path = f"{self.folder}/map.jsonl"
        with open(path, "wb") as file:
            file.write(b"".join(line + b"\n" for line in lines))
        self.ledger.unanswered = lines
        return ["--map", path]

    def bytes(self):
        """The bytes of the journal; none where it is not there."""
        with contextlib.suppress(FileNotFoundError), open(self.journal, "rb") as file:
            return file.read()
        return b""

    def play(self):
        """One start, up to its crash and what that leaves. What does not begin raises."""
        before = self.bytes()
        record = Record(self.folder, self.journal) if self.tears and self.dice.chance(WATCHED) else None
        is_early, begun = self.dice.chance(EARLY_NEW if self.is_new else EARLY), time.monotonic()
        kill_after = self.dice.uniform(0, MOST_EARLY * self.start_seconds) if is_early else None
        server = begin(self.program, self.journal, *(self.map_words if not before else []), record=record, kill_after=kill_after)
        if server:
            self.start_seconds = time.monotonic() - begun
            with server:
                if is_early:
                    server.timer.join()
                else:
                    self.speak(server)
        else:
            self.start_seconds *= MOST_EARLY
        self.counts["kills"] += 1
        self.counts["of them before ready"] += not server
        self.leave(before, record)

    def speak(self, server):
        """Looks at what the server has, and lets a desk and clients speak with it until it is killed."""
        self.settle(server)
        self.session.forget()
        self.requests = self.session.request_lines(REQUESTS)
        desk = DeskTalk(self.ledger.books.last())
        clients = [ClientTalk(server.queries, self.requests, Dice(self.dice.random()), desk) for _ in range(CLIENTS)]
        work = Work(server, desk, self.session)
        for thread in (*clients, work):
            thread.start()
        self.wait(desk)
        server.kill()
        for thread in (*clients, work):
            thread.join()
        self.hear(desk, clients)

    def wait(self, desk):
        """Waits until the desk has so many replies, and then for about as long as some of them took."""
        begun, wanted = time.monotonic(), self.dice.randint(0, MOST_REPLIES)
        while desk.replies < wanted and time.monotonic() - begun < LONGEST:
            time.sleep(0.001)
        each = (time.monotonic() - begun) / max(1, desk.replies)
        time.sleep(self.dice.uniform(0, min(MOST_MORE * each, LONGEST_MORE)))

    def settle(self, server):
        """The server has what the last crash left: what was answered and seen, and nothing that no desk sent."""
        edition = server.status()["edition"]
        self.counts["commits found that were not answered"] += edition > self.ledger.books.last() and not self.is_new
        self.ledger.settle(edition)
        self.is_new = False
        self.ledger.look_at_page(server.page("/health"))
        self.ledger.look_at_file(self.bytes())
        probes = server.connect()
        asked = self.requests[:PROBES]
        self.told.update(zip(asked, probes.ask_all(asked)))
        probes.end()
        self.counts["replies"] += len(asked)
        self.counts["different replies"] += len(self.told)
        self.ledger.judge(self.told)
        self.told = set()

    def hear(self, desk, clients):
        """Keeps what the desk and the clients were told."""
        ledger = self.ledger
        before = len(ledger.editions)
        ledger.take_turns(desk.turns)
        self.counts["commits"] += len(ledger.editions) - before
        for client in clients:
            self.counts["replies"] += client.replies
            self.told |= client.told
            for line, edition, last in client.falls:
                ledger.differences.add(f"query: {shown(line)}\n    edition {edition} came after {last} was told")

    def leave(self, before, record):
        """Leaves the journal as a crash may: as it is, or, where it is known what was not flushed, cut or torn there."""
        if self.is_new and self.is_new_torn():
            return
        ways = [LEFT, LEFT, CUT, *self.tears] if record else [LEFT]
        self.way = way = self.dice.choice(ways)
        if record:
            crashed, now = Crashed(before, record.calls()), self.bytes()
            if now and crashed.lacks_one(now):
                self.way = LEFT
                self.counts["records without the last call before the kill"] += 1
                return
            if now and not crashed.may_be(now):
                self.ledger.differences.add(f"the record of calls says another file of {len(crashed.last)} bytes, where {len(now)} are left")
            if way != LEFT and now:
                self.write(crashed.shorter(self.dice) if way == CUT else crashed.torn(self.dice, way))
            self.counts["of them with something that was not flushed"] += crashed.last != crashed.flushed
        self.counts[way if way in (LEFT, CUT) else f"journals torn: {way}"] += 1

    def is_new_torn(self):
        """A new journal that nobody was told of may have either name, or both, or none; whether that was done."""
        begun, chosen = f"{self.journal}.new", self.dice.choice([LEFT, *NAMES])
        if chosen == LEFT or not os.path.exists(self.journal):
            return False
        if chosen == NAMES[0] and not os.path.exists(begun):
            os.link(self.journal, begun)
        elif chosen == NAMES[1]:
            os.replace(self.journal, begun)
        elif chosen == NAMES[2]:
            os.unlink(self.journal)
        self.counts[f"new journals left with {chosen}"] += 1
        return True

    def write(self, file):
        """Makes the journal these bytes."""
        with open(self.journal, "wb") as journal:
            journal.write(file)

    def end(self):
        """One more start, which is not killed before it has been looked at; a copy of a journal that does not begin is kept."""
        with begin(self.program, self.journal, *(self.map_words if not self.bytes() else [])) as server:
            self.settle(server)


def keep_copy(journal):
    """Copies a journal to where it stays, and gives the path."""
    path = f"{tempfile.mkdtemp(prefix='lostd-crash-')}/lost.journal"
    with contextlib.suppress(FileNotFoundError):
        shutil.copy(journal, path)
    return path


def tell_story(program, seed, counts, differences, is_over, tears):
    """Plays a journal's story, until the time is over, enough is said of one journal, or something is wrong."""
    with tempfile.TemporaryDirectory() as folder:
        story = Story(program, folder, seed, counts, tears)
        try:
            for _ in range(KILLS_OF_ONE):
                story.play()
                if is_over() or story.ledger.differences.count:
                    break
            story.end()
        except (Ended, Unknown, OSError) as error:
            story.ledger.differences.add(f"{type(error).__name__}, {story.way}: {error}\n    the journal: {keep_copy(story.journal)}")
        differences.include(story.ledger.differences)
        counts["journals"] += 1
        counts["bytes of journals"] += len(story.bytes())


def run_crashes(program, seconds, seed, tears):
    """Kills servers for so long, tears what they did not flush in these ways, and judges what is published again; whether nothing was
    lost. Without ways to tear, no server is watched."""
    begun, counts, differences = time.monotonic(), Counter(dict.fromkeys(COUNTED, 0)), Differences()

    def is_over():
        return time.monotonic() - begun >= seconds

    while not counts["kills"] or not is_over():
        tell_story(program, seed * SEEDS + counts["journals"], counts, differences, is_over, tears)
    for what, count in counts.items():
        print(f"{count} {what}")
    for difference in differences.first:
        print(f"WRONG: {difference}")
    print(f"{differences.count} differences, in {time.monotonic() - begun:.0f} seconds")
    return differences.count == 0

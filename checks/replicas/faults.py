"""Faults of a fleet: each happens, lasts a while, ends, and then says what was wrong."""
import random
import signal
import subprocess
import time
from typing import NamedTuple

from fleet import FEED, FOLLOWER, http_get
from history import History, line
from maptools.feeding.standing import EMPTY

# Seconds: in which a server must reach the log's edition, and one that differs must be out of rotation and named.
LEVEL, OUT = 2.0, 2.0
FOLLOWER_STOPPED = 10.0
PATIENCE = 60.0


class Odd(NamedTuple):
    """An edit behind the log's back: when it was sent, when its commit was answered, at which server, and the edition that it made."""

    sent: float
    moment: float
    name: str
    edition: int


class Faults:
    """All that a fault needs. `wrong` is what was not as it should be, `odd` the edits behind the log's back."""

    def __init__(self, fleet, watch, seed, named):
        self.named = named
        self.fleet, self.watch, self.dice, self.history = fleet, watch, random.Random(seed), History(seed + 1)
        self.wrong, self.odd, self.counts, self.slowest = [], [], {}, {"level": 0.0, "out": 0.0, "named": 0.0}

    # ---- what is common

    def some(self):
        """One of the members."""
        return self.dice.choice(self.fleet.members)

    def wait_a_while(self):
        """Lets a fault last."""
        time.sleep(self.dice.uniform(0.2, 2.0))

    def need(self, is_so, text):
        """Notes what is wrong, unless it is so."""
        if not is_so:
            self.wrong.append(text)
            print(f"    WRONG: {text}", flush=True)

    def await_level(self, what):
        """All is up again: each server must reach the edition that the log has now."""
        begun, wanted = time.monotonic(), self.fleet.publisher.last_told()
        left = {one.name: one for one in self.fleet.members}
        while left and time.monotonic() - begun < PATIENCE:
            left = {name: one for name, one in left.items() if (one.standing() or (0,))[0] < wanted}
        passed = time.monotonic() - begun
        self.slowest["level"] = max(self.slowest["level"], passed)
        self.need(not left, f"{what}: {', '.join(left)} did not reach edition {wanted}")
        self.need(left or passed <= LEVEL, f"{what}: edition {wanted} was reached after {passed:.2f} seconds")
        back = self.fleet.balancer.await_rotation({one.name for one in self.fleet.members})
        self.need(back is not None, f"{what}: only {sorted(self.fleet.balancer.rotation())} are in rotation")

    def need_rotation(self, when):
        """Notes which servers are not in rotation."""
        missing = {one.name for one in self.fleet.members} - self.fleet.balancer.rotation()
        self.need(not missing, f"{sorted(missing)} were out of rotation {when}")

    def snapshot(self):
        """The path of a journal with the log."""
        path = f"{self.fleet.folder}/snapshot.journal"
        with open(path, "wb") as file:
            words = [FEED, "snapshot", "--log", self.fleet.database.url(FOLLOWER)]
            subprocess.run(words, stdout=file, stderr=subprocess.DEVNULL, check=True, timeout=PATIENCE)
        return path

    # ---- the faults

    def server_killed(self):
        """a server is killed, and goes on from its journal, with all that it held"""
        one = self.some()
        self.wait_a_while()
        held = one.standing() or EMPTY
        one.kill("server")
        kept = one.kept()
        self.need(kept >= held, f"{one.name} held {held} before it was killed, and its journal has {kept}")
        self.wait_a_while()
        one.start_server()

    def server_restored(self):
        """a server is killed, and starts with a snapshot of a while ago in place of its journal"""
        one, path = self.some(), self.snapshot()
        self.wait_a_while()
        one.kill("server")
        self.wait_a_while()
        one.take(path)
        one.start_server()

    def server_empty(self):
        """a server is killed, and starts empty"""
        one = self.some()
        one.kill("server")
        self.wait_a_while()
        one.empty()
        one.start_server()

    def follower_killed(self):
        """a follower is killed, and starts again"""
        one = self.some()
        one.kill("follower")
        self.wait_a_while()
        one.start_follower(self.fleet.database.url(FOLLOWER))

    def follower_stopped(self):
        """a follower is stopped for ten seconds"""
        one = self.some()
        one.signal(signal.SIGSTOP)
        out = self.fleet.balancer.await_rotation({other.name for other in self.fleet.members if other is not one}, FOLLOWER_STOPPED)
        self.need(out is not None, f"{one.name} was in rotation while its follower was stopped")
        time.sleep(FOLLOWER_STOPPED - (out or FOLLOWER_STOPPED))
        one.signal(signal.SIGCONT)

    def database_killed(self):
        """PostgreSQL is killed, and starts again; all servers stay in rotation"""
        self.fleet.database.primary.kill()
        self.wait_a_while()
        self.need_rotation("while PostgreSQL was down")
        self.fleet.database.primary.start()
        time.sleep(1)
        self.need_rotation("when PostgreSQL was back")

    def all_killed(self):
        """servers, followers and PostgreSQL are killed at once, and start again in some order"""
        path, members = self.snapshot(), list(self.fleet.members)
        for one in members:
            one.kill()
            self.dice.choice([lambda: None, one.empty, lambda one=one: one.take(path)])()
        self.fleet.database.primary.kill()
        self.wait_a_while()
        starts = [self.fleet.database.primary.start, *(lambda one=one: self.start_both(one) for one in members)]
        self.dice.shuffle(starts)
        for start in starts:
            start()

    def start_both(self, one):
        """Starts a member, in some order."""
        starts = [one.start_server, lambda: one.start_follower(self.fleet.database.url(FOLLOWER))]
        self.dice.shuffle(starts)
        for start in starts:
            start()

    def edit_behind_the_log(self):
        """a server is given an edit behind the log's back: it is out of rotation within two seconds and named, and again after a restart"""
        one, others = self.some(), {other.name for other in self.fleet.members}
        mapping = {**self.history.mapping("odd"), "source": "odd.example"}
        sent = time.monotonic()
        edition = one.edit([line("publish", mapping)])
        begun = time.monotonic()
        self.odd.append(Odd(sent, begun, one.name, edition))
        print(f"    {one.name} is at edition {edition}, which is odd", flush=True)
        out = self.fleet.balancer.await_rotation(others - {one.name}, 5 * OUT)
        self.need(out is not None and out <= OUT, f"{one.name} was in rotation {out} seconds after edition {edition}, which is odd")
        self.slowest["out"] = max(self.slowest["out"], out or 5 * OUT)
        self.need_named(one, edition)
        self.slowest["named"] = max(self.slowest["named"], time.monotonic() - begun)
        self.start_again_odd(one, edition)
        one.kill()
        if self.dice.random() < 0.5:
            one.empty()
        else:
            one.take(self.snapshot())
        one.start_server()
        one.start_follower(self.fleet.database.url(FOLLOWER))

    def need_named(self, one, edition):
        """The follower of a server that differs from an edition on must end, and say so."""
        status = one.follower.wait(PATIENCE)
        named = one.said().splitlines()[-1]
        wanted = f"{one.desk} differs from the log from edition {edition} on"
        self.need(status == 3 and wanted in named, f"the follower ended with {status}, and edition {edition} is odd: {named}")
        self.need(http_get(one.host, one.health, "/health")[0] != 200, "/health of a server that differs gave 200")

    def start_again_odd(self, one, edition):
        """A server whose journal differs is named again after a restart of both, and gets no clients."""
        one.kill()
        one.start_server()
        one.start_follower(self.fleet.database.url(FOLLOWER))
        self.need_named(one, edition)
        self.need(one.name not in self.fleet.balancer.rotation(), f"{one.name} is in rotation, whose journal has edition {edition}, which is odd")

    def upgraded(self):
        """servers and followers are started again one after another, from their journals, and no connection is lost"""
        before = self.lost()
        for one in self.fleet.members:
            self.fleet.balancer.drain(one.name)
            one.kill()
            one.start_server()
            one.start_follower(self.fleet.database.url(FOLLOWER))
            self.fleet.balancer.ask(f"set server lost/{one.name} state ready")
            back = self.fleet.balancer.await_rotation({other.name for other in self.fleet.members})
            self.need(back is not None, f"{one.name} is not in rotation again")
        self.need(self.lost() == before, f"{self.lost() - before} connections were lost while servers were started again")

    def lost(self):
        """How many connections clients have lost."""
        return sum(client.lost for client in self.watch.clients)

    def standby_promoted(self):
        """the primary is killed for good, and the standby is promoted; then it gets a standby of its own"""
        self.fleet.database.await_standby()
        self.fleet.database.primary.kill()
        self.wait_a_while()
        self.fleet.database.promote()

    def kinds(self):
        """All faults, or those with a word in what they say of themselves."""
        kinds = [
            self.server_killed, self.server_restored, self.server_empty, self.follower_killed, self.follower_stopped, self.database_killed,
            self.all_killed, self.edit_behind_the_log, self.standby_promoted, self.upgraded,
        ]
        return [kind for kind in kinds if self.named in kind.__doc__]

    def run(self, seconds):
        """Has each fault once, and then goes on until the time is over."""
        end = time.monotonic() + seconds
        for fault in self.dice.sample(self.kinds(), len(self.kinds())):
            self.have(fault)
        while time.monotonic() < end:
            self.have(self.dice.choice(self.kinds()))

    def have(self, fault):
        """Has a fault, and waits until all is well again."""
        print(f"{time.strftime('%H:%M:%S')} {fault.__doc__}", flush=True)
        fault()
        self.await_level(fault.__doc__)
        self.fleet.database.need_standby()
        self.counts[fault.__doc__] = self.counts.get(fault.__doc__, 0) + 1
        time.sleep(self.dice.uniform(0.5, 2.0))

"""Servers, each with its journal and its follower, behind HAProxy by the section of docs/REPLICAS.md as it is written there."""
import csv
import io
import json
import os
import re
import shutil
import signal
import socket
import subprocess
import time

from database import Database, Unable
from maptools.feeding.journals import commits_in
from maptools.feeding.standing import EMPTY
from processes import Program, await_port
from server import free_ports

TOP = os.path.dirname(os.path.dirname(os.path.dirname(os.path.realpath(__file__))))
PAGE, FEED = f"{TOP}/docs/REPLICAS.md", f"{TOP}/tools/lost-feed"
SECTION = re.compile(r"```text\n([^`]*^listen lost\n[^`]*)```", re.MULTILINE)
WRITTEN = """    server a 10.0.0.5:5222 check port 5226
    server b 10.0.0.6:5222 check port 5226
    server c 10.0.0.7:5222 check port 5226"""
DATABASE, PUBLISHER, FOLLOWER = "lost", "publisher", "follower"
ROLES = f"CREATE ROLE {PUBLISHER} LOGIN IN ROLE feed_publisher; CREATE ROLE {FOLLOWER} LOGIN IN ROLE feed_follower;"
PATIENCE = 60.0


def http_get(host, port, path):
    """The status and the body of a page, over a plain socket; (0, b"") where nobody answers soon."""
    try:
        with socket.create_connection((host, port), timeout=2) as peer:
            peer.sendall(f"GET {path} HTTP/1.1\r\nHost: {host}\r\nConnection: close\r\n\r\n".encode())
            answer = b""
            while piece := peer.recv(65_536):
                answer += piece
    except OSError:
        return 0, b""
    head, _, body = answer.partition(b"\r\n\r\n")
    return (int(head.split()[1]), body) if len(head.split()) > 1 else (0, b"")


class Member:
    """A server, its journal and its follower, at an address of their own."""

    def __init__(self, program, folder, name, host, ports):
        self.program, self.folder, self.name, self.host = program, folder, name, host
        self.queries, self.status, self.health = ports
        self.desk, self.journal = f"unix:{folder}/{name}.sock", f"{folder}/{name}.journal"
        self.server = self.follower = None

    def said(self):
        """What its follower said."""
        with open(f"{self.folder}/{self.name}.said", encoding="utf-8", errors="replace") as file:
            return file.read()

    def begin(self, words, wanted):
        """Starts a program whose first line begins as wanted."""
        said = open(f"{self.folder}/{self.name}.said", "ab")
        process = subprocess.Popen(words, stdin=subprocess.DEVNULL, stdout=subprocess.PIPE, stderr=said, start_new_session=True)
        said.close()
        first = process.stdout.readline()
        if not first.startswith(wanted):
            raise Unable(f"{os.path.basename(words[0])} did not begin: {first!r} {self.said()[-400:]}")
        return process

    def empty(self):
        """Takes the server's journal away: it starts empty."""
        if os.path.exists(self.journal):
            os.remove(self.journal)

    def kept(self):
        """The edition and the digest with which the server's journal ends."""
        with open(self.journal, "rb") as file:
            return [EMPTY, *(kept.standing for kept in commits_in(file))][-1]

    def take(self, journal):
        """Puts another journal in the place of the server's."""
        shutil.copyfile(journal, self.journal)

    def start_server(self, *more):
        """Starts the server with its journal, or a new one, and waits until it is ready."""
        words = [self.program, "serve", "--name", "lost.example", "--workers", "1", "--per-address", "0", "--quiet", "--journal", self.journal]
        words += ["--queries", f"{self.host}:{self.queries}", "--desk", self.desk, "--status", f"{self.host}:{self.status}"]
        self.server = self.begin([*words, *more], b"ready\n")

    def start_follower(self, log, *more):
        """Starts the follower, and waits until it is ready."""
        words = [FEED, "follow", "--log", log, "--desk", self.desk, "--status", f"{self.host}:{self.status}", "--name", self.name]
        words += ["--journal", self.journal]
        self.follower = self.begin([*words, "--listen", f"{self.host}:{self.health}", *more], b"ready ")

    def kill(self, *which):
        """Kills one or both of them."""
        for name in which or ("server", "follower"):
            process = getattr(self, name)
            if process is not None and process.poll() is None:
                process.kill()
            if process is not None:
                process.wait(PATIENCE)
                process.stdout.close()
            setattr(self, name, None)

    def signal(self, number):
        """Stops the follower, or lets it go on."""
        self.follower.send_signal(number)

    def edit(self, lines):
        """Sends lines and a commit to the server's desk, as a desk that is not its follower; the edition that this makes."""
        with socket.socket(socket.AF_UNIX) as desk, desk.makefile("rwb") as file:
            desk.settimeout(PATIENCE)
            desk.connect(self.desk[len("unix:") :])
            file.write("".join(f"{one}\n" for one in [*lines, '{"commit":{}}']).encode())
            file.flush()
            return json.loads([file.readline() for _ in range(len(lines) + 1)][-1])["committed"]["edition"]

    def standing(self):
        """The edition and the digest that the server shows; None where it does not answer."""
        status, body = http_get(self.host, self.status, "/status")
        found = re.search(rb'"edition":(\d+).*"map":"([0-9a-f]{32})"', body)
        return (int(found[1]), found[2].decode()) if status == 200 and found else None


def section(front, members, stats):
    """The section of the page, with addresses of this machine."""
    with open(PAGE, encoding="utf-8") as file:
        found = SECTION.search(file.read())
    if not found:
        raise Unable(f"{PAGE} has no block of text with `listen lost`")
    text = found[1]
    servers = [f"    server {one.name} {one.host}:{one.queries} check port {one.health}" for one in members]
    for written, here in (("bind :5222", f"bind 127.0.0.1:{front}"), (WRITTEN, "\n".join(servers))):
        if written not in text:
            raise Unable(f"the block of {PAGE} has no {written!r}")
        text = text.replace(written, here)
    return f"global\n    stats socket {stats} mode 600 level admin\n{text}"


class Balancer:
    """HAProxy before the members."""

    def __init__(self, folder, members):
        self.front = free_ports(1)[0]
        self.stats = f"{folder}/stats-{self.front}.sock"
        with open(f"{folder}/haproxy-{self.front}.cfg", "w", encoding="utf-8") as file:
            file.write(section(self.front, members, self.stats))
        self.program = Program(["/usr/sbin/haproxy", "-W", "-f", f"{folder}/haproxy-{self.front}.cfg"], stdout=subprocess.DEVNULL)
        await_port(self.front, self.program)

    def rows(self):
        """What HAProxy says of each server, by name."""
        rows = csv.DictReader(io.StringIO(self.ask("show stat").lstrip("# ")))
        return {row["svname"]: row for row in rows if row["pxname"] == "lost" and len(row["svname"]) == 1}

    def rotation(self):
        """The names of the servers that get connections."""
        return {name for name, row in self.rows().items() if row["status"].startswith("UP")}

    def ask(self, command):
        """What HAProxy answers to a command."""
        with socket.socket(socket.AF_UNIX) as peer:
            peer.settimeout(2)
            peer.connect(self.stats)
            peer.sendall(f"{command}\n".encode())
            text = b""
            while piece := peer.recv(65_536):
                text += piece
        return text.decode()

    def drain(self, name):
        """Gives a server no new connections, and waits until its last one has ended."""
        self.ask(f"set server lost/{name} state drain")
        end = time.monotonic() + PATIENCE
        while int(self.rows()[name]["scur"]) and time.monotonic() < end:
            time.sleep(0.05)

    def await_rotation(self, wanted, seconds=PATIENCE):
        """Waits until exactly these servers are in rotation; how long that took, or None where it took too long."""
        begun = time.monotonic()
        while time.monotonic() - begun < seconds:
            if self.rotation() == set(wanted):
                return time.monotonic() - begun
            time.sleep(0.02)
        return None

    def end(self):
        """Ends it."""
        self.program.end(signal.SIGTERM)


def members_of(program, folder, count):
    """So many members that are not started yet, each at an address of its own."""
    ports = free_ports(3)
    return [Member(program, folder, "abcdefghijklmnopqrstuvwxyz"[number], f"127.0.0.{number + 2}", ports) for number in range(count)]


class Log:
    """A log in a primary, and its standby, to which each commit goes before the publisher is told of it."""

    def __init__(self):
        self.ports = free_ports(2)
        self.primary = Database(self.ports[0])
        self.standby = None

    def make(self):
        """Makes the database, the log in it and the roles, and the standby."""
        self.primary.make()
        self.primary.start()
        self.primary.sql("postgres", f"CREATE DATABASE {DATABASE}")
        subprocess.run([FEED, "init", "--log", self.primary.url(DATABASE)], check=True, stdout=subprocess.DEVNULL, timeout=PATIENCE)
        self.primary.sql(DATABASE, ROLES)
        self.need_standby()

    def url(self, user):
        """The address of the log: whichever of both takes commits."""
        places = ",".join(f"127.0.0.1:{port}" for port in self.ports)
        return f"postgresql://{user}@{places}/{DATABASE}?target_session_attrs=read-write"

    def set_waiting(self, names):
        """Has each commit wait for these standbys."""
        self.primary.sql("postgres", f"ALTER SYSTEM SET synchronous_standby_names = '{names}'")
        self.primary.sql("postgres", "SELECT pg_reload_conf()")

    def need_standby(self):
        """Makes a standby, where there is none."""
        if self.standby is None:
            self.standby = Database(next(port for port in self.ports if port != self.primary.port), "standby")
            self.standby.copy_of(self.primary)
            self.standby.start()
            self.set_waiting("*")
            self.await_standby()

    def await_standby(self):
        """Waits until the standby has all."""
        end = time.monotonic() + PATIENCE
        question = "SELECT count(*) FROM pg_stat_replication WHERE sync_state = 'sync' AND state = 'streaming'"
        while self.primary.sql("postgres", question) != "1":
            if time.monotonic() > end:
                raise Unable("the standby does not follow the primary")
            time.sleep(0.1)

    def promote(self):
        """The standby becomes the primary, and the primary is no more."""
        self.standby.run("pg_ctl", "-D", self.standby.data, "-w", "promote")
        self.primary.remove()
        self.primary, self.standby = self.standby, None
        self.set_waiting("")

    def rows(self):
        """The commits: edition, digest and lines."""
        text = self.primary.sql(DATABASE, "SELECT json_build_array(edition, map, lines) FROM feed.commits ORDER BY edition")
        return [json.loads(row) for row in text.splitlines()]

    def remove(self):
        """Ends all."""
        for one in (self.primary, self.standby):
            if one is not None:
                one.remove()


class Fleet:
    """The log, the members, HAProxy before them, and a publisher that is not started yet."""

    def __init__(self, program, folder, count):
        self.program, self.folder, self.database = program, folder, Log()
        self.members, self.balancer, self.publisher = members_of(program, folder, count), None, None

    def start(self):
        """Starts all."""
        self.database.make()
        for one in self.members:
            one.start_server()
            one.start_follower(self.database.url(FOLLOWER))
        self.balancer = Balancer(self.folder, self.members)
        if self.balancer.await_rotation({one.name for one in self.members}) is None:
            raise Unable("HAProxy does not take all servers")

    def stop(self):
        """Ends all."""
        if self.balancer is not None:
            self.balancer.end()
        for one in self.members:
            one.kill()
        self.database.remove()

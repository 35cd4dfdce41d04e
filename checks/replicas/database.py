"""A PostgreSQL in a folder of its own, at a port of this machine. It refuses to run as root, so root becomes another user."""
import glob
import os
import pwd
import shutil
import signal
import subprocess
import tempfile
import time

PATIENCE = 60.0
OWNER = "postgres"
# What a new cluster has: everybody on this machine may connect, and few buffers are enough.
SETTINGS = """
listen_addresses = '127.0.0.1'
shared_buffers = '32MB'
max_connections = 100
wal_keep_size = '512MB'
hot_standby = on
wal_retrieve_retry_interval = '200ms'
"""


class Unable(Exception):
    """A database that does what it should not, or nothing."""


def programs():
    """The folder of the newest server that is installed; empty where there is none."""
    found = glob.glob("/usr/lib/postgresql/*/bin/postgres")
    return os.path.dirname(max(found, key=lambda path: int(path.split("/")[4]))) if found else ""


def as_owner():
    """What goes before a command that root must not run."""
    return ["setpriv", f"--reuid={OWNER}", f"--regid={OWNER}", "--clear-groups"] if os.geteuid() == 0 else []


def owned_folder():
    """A new folder that belongs to the user who runs the server."""
    folder = tempfile.mkdtemp(prefix="check-replicas-")
    if os.geteuid() == 0:
        owner = pwd.getpwnam(OWNER)
        os.chown(folder, owner.pw_uid, owner.pw_gid)
    return folder


class Database:
    """A cluster, and the server that runs on it."""

    def __init__(self, port, name="primary"):
        self.folder, self.port, self.process = owned_folder(), port, None
        self.data, self.said = f"{self.folder}/{name}", open(f"{self.folder}/said", "ab")

    def run(self, program, *words):
        """Runs a program of the server's; what it prints."""
        command = [*as_owner(), f"{programs()}/{program}", *words]
        ran = subprocess.run(command, capture_output=True, text=True, timeout=10 * PATIENCE, cwd=self.folder)
        if ran.returncode:
            raise Unable(f"{program}: {ran.stderr.strip()[-400:]}")
        return ran.stdout

    def make(self, more=""):
        """Makes a cluster."""
        self.run("initdb", "-D", self.data, "-A", "trust", "-U", OWNER, "-E", "UTF8", "--no-sync")
        self.write(SETTINGS + more)

    def write(self, settings):
        """Adds settings."""
        with open(f"{self.data}/postgresql.conf", "a", encoding="utf-8") as file:
            file.write(settings)

    def copy_of(self, other):
        """Becomes a standby of another one."""
        self.run("pg_basebackup", "-D", self.data, "-R", "-c", "fast", "-d", other.url("postgres"))

    def start(self):
        """Starts the server, and waits until it answers. (What a killed one left may still be there for a moment.)"""
        end = time.monotonic() + PATIENCE
        while time.monotonic() < end:
            if self.process is None or self.process.poll() is not None:
                words = [f"{programs()}/postgres", "-D", self.data, "-p", str(self.port), "-k", self.folder]
                self.process = subprocess.Popen(
                    [*as_owner(), *words], stdin=subprocess.DEVNULL, stdout=self.said, stderr=self.said, cwd=self.folder, start_new_session=True
                )
            if self.answers():
                return
            time.sleep(0.1)
        raise Unable(f"PostgreSQL did not begin: {self.texts()[-600:]}")

    def answers(self):
        """Whether it takes connections."""
        words = [f"{programs()}/pg_isready", "-q", "-h", "127.0.0.1", "-p", str(self.port)]
        return subprocess.run(words, timeout=PATIENCE, check=False).returncode == 0

    def texts(self):
        """What it said."""
        with open(f"{self.folder}/said", encoding="utf-8", errors="replace") as file:
            return file.read()

    def url(self, database, user=OWNER):
        """The address of a database."""
        return f"postgresql://{user}@127.0.0.1:{self.port}/{database}"

    def sql(self, database, text, user=OWNER):
        """What statements print, without heads; Unable where one fails."""
        words = [f"{programs()}/psql", "-X", "-q", "-At", "-v", "ON_ERROR_STOP=1", "-d", self.url(database, user)]
        ran = subprocess.run(words, input=text, capture_output=True, text=True, timeout=PATIENCE)
        if ran.returncode:
            raise Unable(ran.stderr.strip())
        return ran.stdout.strip()

    def kill(self, number=signal.SIGKILL):
        """Ends the server at once."""
        if self.process is not None and self.process.poll() is None:
            self.process.send_signal(number)
            self.process.wait(PATIENCE)

    def remove(self):
        """Ends it, and removes its folder."""
        self.kill(signal.SIGQUIT)
        self.said.close()
        shutil.rmtree(self.folder, ignore_errors=True)

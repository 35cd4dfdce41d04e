"""The programs that a check starts, each on ports of this machine and ended at its end."""
import os
import shutil
import signal
import socket
import subprocess
import tempfile
import time

HERE = os.path.dirname(os.path.realpath(__file__))
TOP = os.path.dirname(os.path.dirname(HERE))
GATEWAY = f"{TOP}/tools/lost-gateway"
PATIENCE = 30.0
# What is needed, and the package of Debian that has it.
NEEDED = {
    "/usr/sbin/kamailio": "kamailio",
    "/usr/lib/x86_64-linux-gnu/kamailio/modules/lost.so": "kamailio-utils-modules",
    "/usr/lib/x86_64-linux-gnu/kamailio/modules/tls.so": "kamailio-tls-modules",
    "/usr/sbin/haproxy": "haproxy",
    "/usr/bin/jing": "jing",
    "/usr/bin/openssl": "openssl",
    "/usr/lib/python3/dist-packages/lxml": "python3-lxml",
    "/usr/lib/python3/dist-packages/aiohttp": "python3-aiohttp",
    "/usr/lib/python3/dist-packages/prometheus_client": "python3-prometheus-client",
    "/usr/lib/python3/dist-packages/shapely": "python3-shapely",
}


class Failed(Exception):
    """A program that does not begin."""


def install_missing(needed=None):
    """Installs the packages of Debian that are missing, of those that are needed; Failed where it cannot."""
    packages = [package for path, package in (needed or NEEDED).items() if not os.path.exists(path)]
    if not packages:
        return
    print(f"installing {' '.join(packages)}", flush=True)
    given = {**os.environ, "DEBIAN_FRONTEND": "noninteractive", "RUNLEVEL": "1"}
    subprocess.run(["apt-get", "-qq", "update"], env=given, capture_output=True, timeout=600)
    command = ["apt-get", "-qq", "install", "-y", "--no-install-recommends", *packages]
    ran = subprocess.run(command, env=given, capture_output=True, timeout=1200)
    if ran.returncode:
        raise Failed(f"apt-get install {' '.join(packages)}: {ran.stderr.decode(errors='replace')[-300:]}")


def free_port(kind=socket.SOCK_STREAM):
    """A port of this machine that nobody uses."""
    with socket.socket(socket.AF_INET, kind) as one:
        one.bind(("127.0.0.1", 0))
        return one.getsockname()[1]


class Program:
    """A program that runs. Used in a `with`, it is ended at the end in any case."""

    def __init__(self, words, **more):
        self.said = tempfile.TemporaryFile()
        self.process = subprocess.Popen(words, stdin=subprocess.DEVNULL, stderr=self.said, start_new_session=True, **more)

    def __enter__(self):
        return self

    def __exit__(self, *_):
        self.end()

    def is_alive(self):
        """Whether it still runs."""
        return self.process.poll() is None

    def texts(self):
        """What it said on standard error."""
        self.said.seek(0)
        return self.said.read().decode(errors="replace")

    def end(self, number=signal.SIGTERM):
        """Ends it, and all that it began; its status."""
        if self.is_alive():
            self.process.send_signal(number)
            try:
                self.process.wait(PATIENCE)
            except subprocess.TimeoutExpired:
                os.killpg(self.process.pid, signal.SIGKILL)
                self.process.wait()
        return self.process.returncode


class Gateway(Program):
    """The gateway before some servers."""

    def __init__(self, servers, *words, program=GATEWAY):
        command = [program, "--listen", "127.0.0.1:0", "--lostd", ",".join(f"127.0.0.1:{port}" for port in servers), *words]
        super().__init__(command, stdout=subprocess.PIPE)
        ready = self.process.stdout.readline().decode()
        if not ready.startswith("ready "):
            self.end()
            raise Failed(f"the gateway did not begin: {self.texts()}")
        self.port = int(ready.rpartition(":")[2])


CERTIFICATE = ["openssl", "req", "-x509", "-newkey", "rsa:2048", "-nodes", "-days", "2", "-subj", "/CN=lost.example"]
HAPROXY = """
global
    maxconn 4000
defaults
    mode http
    timeout connect 2s
    timeout client 60s
    timeout server 10s
    timeout http-request 10s
frontend lost
    bind 127.0.0.1:{port} ssl crt {folder}/both.pem
    option forwardfor
    http-request set-header X-Forwarded-Proto https
    default_backend gateway
backend gateway
    option httpchk GET /health
    http-reuse safe
    server one 127.0.0.1:{gateway} check inter 1s
"""


class Haproxy(Program):
    """HAProxy with TLS before the gateway; its certificate lies in its folder."""

    def __init__(self, gateway):
        self.folder, self.port = tempfile.mkdtemp(prefix="check-gateway-"), free_port()
        self.certificate = f"{self.folder}/certificate.pem"
        files = ["-keyout", f"{self.folder}/key.pem", "-out", self.certificate]
        subprocess.run([*CERTIFICATE, "-addext", "subjectAltName=IP:127.0.0.1", *files], check=True, capture_output=True)
        with open(f"{self.folder}/both.pem", "wb") as both:
            for name in ("certificate", "key"):
                with open(f"{self.folder}/{name}.pem", "rb") as file:
                    both.write(file.read())
        with open(f"{self.folder}/haproxy.cfg", "w", encoding="ascii") as file:
            file.write(HAPROXY.format(port=self.port, folder=self.folder, gateway=gateway))
        super().__init__(["/usr/sbin/haproxy", "-W", "-f", f"{self.folder}/haproxy.cfg"], stdout=subprocess.DEVNULL)
        await_port(self.port, self)

    def end(self, number=signal.SIGTERM):
        status = super().end(number)
        shutil.rmtree(self.folder, ignore_errors=True)
        return status


def await_port(port, program):
    """Waits until somebody listens on a port."""
    end = time.monotonic() + PATIENCE
    while time.monotonic() < end and program.is_alive():
        try:
            socket.create_connection(("127.0.0.1", port), timeout=1).close()
            return
        except OSError:
            time.sleep(0.1)
    raise Failed(f"nobody listens on port {port}: {program.texts()[-500:]}")

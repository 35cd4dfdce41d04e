"""Runs the tools and the built program in tests."""
from __future__ import annotations

import json
import os
import signal
import socket
import subprocess
from typing import Any, Dict, List, Optional, Sequence, Tuple

TOOLS = os.path.dirname(os.path.dirname(os.path.realpath(__file__)))
TOP = os.path.dirname(TOOLS)
CASES = f"{TOOLS}/cases"


def read(path: str) -> str:
    """The text of a file under tools/cases."""
    with open(f"{CASES}/{path}", encoding="utf-8") as file:
        return file.read()


def run_tool(name: str, arguments: Sequence[str], given: str = "") -> Tuple[int, str, str]:
    """The status, the output and what is said on standard error."""
    ran = subprocess.run([f"{TOOLS}/{name}", *arguments], input=given.encode(), capture_output=True, timeout=60)
    return ran.returncode, ran.stdout.decode(), ran.stderr.decode()


def start_tool(name: str, arguments: Sequence[str]) -> Any:
    """A tool that runs, with pipes; an interrupt ends it.

    What a shell begins in the background without job control ignores interrupts, and all that it begins do.
    """
    words = [f"{TOOLS}/{name}", *arguments]
    pipes = {"stdin": subprocess.PIPE, "stdout": subprocess.PIPE, "stderr": subprocess.PIPE}
    return subprocess.Popen(words, **pipes, preexec_fn=lambda: signal.signal(signal.SIGINT, signal.SIG_DFL))


def has_ipv6() -> bool:
    """Whether this machine has the loopback address of IPv6."""
    try:
        socket.create_server(("::1", 0), family=socket.AF_INET6).close()
    except OSError:
        return False
    return True


def lostd() -> Optional[str]:
    """The built program; None where it is not there."""
    path = os.environ.get("LOSTD", f"{TOP}/crates/lostd/out/lostd")
    return path if os.access(path, os.X_OK) else None


def has_serve() -> bool:
    """Whether the built program has the subcommand serve."""
    path = lostd()
    return path is not None and b"\n  serve " in subprocess.run([path, "--help"], capture_output=True, timeout=10).stdout


def serve_has(option: str) -> bool:
    """Whether the built program's subcommand serve has an option."""
    if not has_serve():
        return False
    helped = subprocess.run([str(lostd()), "serve", "--help"], capture_output=True, timeout=10)
    return f" {option} ".encode() in helped.stdout.replace(b"\n", b" ")


def replay(lines: str) -> List[Dict[str, Any]]:
    """The replies of `lostd replay`."""
    words = [str(lostd()), "replay", "--name", "lost.example", "--now", "2026-06-01T00:00:00Z"]
    ran = subprocess.run(words, input=lines.encode(), capture_output=True, timeout=60, check=True)
    return [json.loads(line) for line in ran.stdout.splitlines()]


def question(latitude: int, longitude: int, service: str = "urn:service:sos.police") -> str:
    """A findService line."""
    place = {"id": "p", "profile": "geodetic-2d", "pos": [latitude, longitude]}
    return json.dumps({"findService": {"service": service, "location": [place]}}) + "\n"


def token_question(token: str, service: str = "urn:service:sos.police") -> str:
    """A findService line about a token."""
    place = {"id": "p", "profile": "x-token", "token": token}
    return json.dumps({"findService": {"service": service, "location": [place]}}) + "\n"


def found_in(reply: Dict[str, Any]) -> List[str]:
    """The sourceIds of a reply; none for an error."""
    return [mapping["sourceId"] for mapping in reply.get("findServiceResponse", {}).get("mapping", [])]

"""Programs as files."""
from __future__ import annotations

import contextlib
import hashlib
import os


def sum_of_bytes(body: bytes) -> str:
    """The checksum of some bytes."""
    return hashlib.sha256(body).hexdigest()


def sum_of_file(path: str) -> str:
    """The checksum of a file."""
    with open(path, "rb") as file:
        return sum_of_bytes(file.read())


def write_file(path: str, body: bytes, mode: int = 0o755) -> None:
    """Writes a file whole, or not at all."""
    os.makedirs(os.path.dirname(path), exist_ok=True)
    part = f"{path}.{os.getpid()}"
    try:
        with open(part, "wb") as file:
            file.write(body)
        os.chmod(part, mode)
        os.replace(part, path)
    except BaseException:
        with contextlib.suppress(OSError):
            os.remove(part)
        raise

"""How much memory the built program asks for: a replay of small sessions under a limit of its address space."""
from __future__ import annotations

import os
import resource
import subprocess
import unittest
from typing import List

from tests.running import TOP, lostd

EXAMPLES = f"{TOP}/examples"
# A replay of a small session needs some 4 MiB of address space, its libraries included.
LIMIT = 64 << 20


def sessions() -> List[str]:
    """The names of the sessions of examples/."""
    return sorted(name for name, ending in map(os.path.splitext, os.listdir(EXAMPLES)) if ending == ".jsonl")


def limit() -> None:
    """Limits the address space of the process."""
    resource.setrlimit(resource.RLIMIT_AS, (LIMIT, LIMIT))


@unittest.skipUnless(lostd(), "lostd is not built")
class Memory(unittest.TestCase):
    """What is asked for beyond need is refused here, and then a reply is internalError or code 20."""

    def test_a_small_session_takes_little(self) -> None:
        words = [str(lostd()), "replay", "--name", "lost.example", "--now", "2026-01-01T00:00:00Z"]
        self.assertTrue(sessions())
        for name in sessions():
            with self.subTest(name), open(f"{EXAMPLES}/{name}.jsonl", "rb") as given, open(f"{EXAMPLES}/{name}.expected", "rb") as file:
                ran = subprocess.run(words, stdin=given, capture_output=True, timeout=60, preexec_fn=limit)
                self.assertEqual((ran.returncode, ran.stderr), (0, b""))
                self.assertEqual(ran.stdout, file.read())


if __name__ == "__main__":
    unittest.main()

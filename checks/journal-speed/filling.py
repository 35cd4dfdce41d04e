"""Many edits in one commit, with a journal and without, and a start over the journal beside one over the same lines as a map."""
import os
import socket
import statistics
import threading
import time

from building.faults import Fault
from kinds import COMMIT, Districts
from measuring import middle
from programs import file_pieces, most_resident
from replays import Turns, in_turns
from server import PATIENCE
from servers import Measured, forget

LEAST_RATE, MOST_MORE, MOST_START = 0.75, 1 << 20, 1.2
LONGEST = 600


class Filling:
    """Desk lines of many edits and one commit, in a file, and the servers that get them."""

    def __init__(self, program, options, folder):
        self.program, self.options = program, options
        self.lines, self.journal = f"{folder}/lines", f"{folder}/filled.journal"
        with open(self.lines, "wb") as file:
            file.writelines(Districts(options.edits).publishes())
            file.write(COMMIT)

    def fill(self, has_journal):
        """Edits a second, and the most memory that the server has had resident."""
        if has_journal and os.path.exists(self.journal):
            os.unlink(self.journal)
        words = ["--journal", self.journal] if has_journal else []
        with Measured(self.program, *words) as server:
            begun = time.monotonic()
            self.send(server.desk_port)
            return self.options.edits / (time.monotonic() - begun), most_resident(server.process)

    def send(self, port):
        """Sends all lines, and waits for their replies, of which the last must be that of the commit."""
        with socket.create_connection(("127.0.0.1", port), PATIENCE) as peer:
            peer.settimeout(LONGEST)
            sender = threading.Thread(target=lambda: [peer.sendall(piece) for piece in file_pieces(self.lines)], daemon=True)
            sender.start()
            replies, end = b"", b'{"committed":{"edition":%d}}\n' % self.options.edits
            while not replies.endswith(end):
                piece = peer.recv(1 << 20)
                if not piece or b"refused" in piece:
                    raise Fault(f"lostd refuses an edit: {piece[-200:].decode(errors='replace')}")
                replies = (replies + piece)[-len(end) :]
            sender.join()

    def start(self, words):
        """The seconds until a server is ready that reads a file, of which the system has forgotten the pages."""
        forget(words[1])
        begun = time.monotonic()
        with Measured(self.program, *words):
            return time.monotonic() - begun


def measure_filling(program, options, folder):
    """Measures many edits in one commit and the start over them, and prints what came out."""
    filling = Filling(program, options, folder)
    pairs = [in_turns(number, [True, False], filling.fill) for number in range(options.rounds)]
    rates = Turns([[rate for rate, _ in pair] for pair in pairs])
    more = statistics.median(kept - plain for (_, kept), (_, plain) in pairs)
    size = os.path.getsize(filling.lines)
    print(f"{options.edits} edits of {size} bytes in one commit, a second: {rates.middles()[0]:.0f} with a journal, {rates.middles()[1]:.0f}"
          f" without; {middle(rates)} times as many (wanted: at least {LEAST_RATE})", flush=True)
    print(f"most memory of these: {more:.0f} bytes more with a journal (wanted: at most {MOST_MORE})", flush=True)
    runs = [["--journal", filling.journal], ["--map", filling.lines]]
    starts = Turns([in_turns(number, runs, filling.start) for number in range(options.rounds)])
    kept, plain = starts.middles()
    print(f"a start over these, seconds until ready: {kept:.3f} over the journal, {plain:.3f} over the same lines as a map; {middle(starts)}"
          f" times as long (wanted: at most {MOST_START})", flush=True)

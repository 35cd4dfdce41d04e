"""What it costs a query that replies are counted: a server with a status and one without, in turns."""
import glob
import socket
import statistics
import threading

from plain_lines import publish, question
from server import COMMIT, PATIENCE, Running, free_ports

ROUNDS = 9
LINES = 200_000
BATCH = 1_000
QUESTION = question(0) + b"\n"


class Asked(Running):
    """A server of one worker and one mapping, which counts its replies or does not."""

    def __init__(self, program, is_counting):
        self.queries, self.desk_port, status = free_ports(3)
        words = ["--queries", f"127.0.0.1:{self.queries}", "--desk", f"127.0.0.1:{self.desk_port}", "--workers", "1"]
        super().__init__(program, words + (["--status", f"127.0.0.1:{status}"] if is_counting else []))

    def prepare(self):
        """Publishes the mapping."""
        desk = self.desk()
        desk.ask_all([publish(0), COMMIT])
        desk.end()

    def processor_time(self):
        """The nanoseconds that its threads have run."""
        return sum(int(open(path).read().split()[0]) for path in glob.glob(f"/proc/{self.process.pid}/task/*/schedstat"))

    def cost(self):
        """The nanoseconds of a line, over many lines that are sent at once."""
        before = self.processor_time()
        with socket.create_connection(("127.0.0.1", self.queries), PATIENCE) as peer:
            sender = threading.Thread(target=send, args=(peer,))
            sender.start()
            lines = 0
            while lines < LINES:
                lines += peer.recv(1 << 20).count(b"\n")
            sender.join()
        return (self.processor_time() - before) / LINES


def send(peer):
    """Sends all lines."""
    for _ in range(LINES // BATCH):
        peer.sendall(QUESTION * BATCH)


def run_counting(program):
    """Prints how many times as long a line takes where its reply is counted; gives the exit status."""
    with Asked(program, False) as plain, Asked(program, True) as counting:
        plain.prepare()
        counting.prepare()
        costs = []
        for number in range(ROUNDS + 1):
            pair = (plain, counting) if number % 2 else (counting, plain)
            taken = {server: server.cost() for server in pair}
            costs.append((taken[plain], taken[counting]))
    ratios = sorted(counted / alone for alone, counted in costs[1:])
    print(f"nanoseconds of a line, not counted {statistics.median(alone for alone, _ in costs[1:]):.0f}, "
          f"counted {statistics.median(counted for _, counted in costs[1:]):.0f}; "
          f"counted takes {statistics.median(ratios):.3f} times as long ({ratios[0]:.3f} to {ratios[-1]:.3f} in {ROUNDS} rounds)")
    return 0

"""Four workers while a desk commits, beside the same ones while it does not."""
import contextlib

from asked import Asked, Desk, Waits
from building.faults import Fault
from kinds import Districts, write_file
from measuring import BUSY, WORKERS, Load, Plan, count_of, middle, on_cores, shared_cores
from replays import Turns, in_turns
from sides import Lostd

MAPPINGS, QUESTIONS, DEPTHS = 1_024, 10_000, (1, 16)


def rates_of(ask, rounds):
    """The rates while the desk commits and while it does not, in turns; a first round does not count."""
    return Turns([in_turns(number, [True, False], ask) for number in range(rounds + 1)][1:])


def measure_workers(program, options, cores, folder):
    """Measures four workers, and prints what came out."""
    if len(cores) < WORKERS:
        print(f"four workers: not measured, since there are {len(cores)} cores", flush=True)
        return
    land, load, waits = Districts(MAPPINGS), Load(folder, options.seconds), Waits(folder)
    file = write_file(land, f"{folder}/map")
    its_cores, load_cores, where = shared_cores(cores)
    with on_cores(its_cores):
        server = Lostd(program.path, file.path, WORKERS)
    with server:
        asked = Asked(server.port, land.requests(land.kinds[0], QUESTIONS), f"{folder}/asked")
        desk = Desk(waits, server, land, folder)
        for depth in DEPTHS:
            plan = Plan(BUSY, depth, None)

            def ask(is_beside):
                pairs = asked.write(desk.digits(options.seconds))
                with desk.committing(options.seconds) if is_beside else contextlib.nullcontext():
                    return load.ask(server, pairs, plan, load_cores)[0]

            rates = rates_of(ask, options.rounds)
            if not all(rate > 0 for pair in rates.pairs for rate in pair):
                raise Fault(f"no reply came within {options.seconds} s over {count_of(plan)}: give more --seconds")
            beside, alone = rates.middles()
            print(f"four workers, {count_of(plan)}: {alone:.0f} replies a second, {beside:.0f} beside 100 commits a second, {where};"
                  f" {middle(rates)} times as many", flush=True)

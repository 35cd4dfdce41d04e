"""One process of the gateway, from its start to its end."""
from __future__ import annotations

import argparse
import asyncio
import gc
import logging
import os
import resource
import signal
import sys
from typing import Dict

from aiohttp import web
from aiohttp.http_exceptions import HttpProcessingError

from gateway.http_side import Handler, Side, application
from gateway.journal import Journal
from gateway.making import answering_of
from gateway.metrics import Metrics
from gateway.pool import Pool
from gateway.processes import Place, Work

BACKLOG = 4096
TELL_AGAIN = 0.25
# Python looks for circles among new objects once so many more are there; by itself it would after every few requests.
LOOK_FOR_CIRCLES = 20_000
KEEP_ALIVE = 75.0
LARGEST_KEPT = 1 << 20


class OneLine(logging.Handler):
    """Says in one line what aiohttp and asyncio log with a traceback; and nothing of what is no HTTP, which its sender is told."""

    def emit(self, record: logging.LogRecord) -> None:
        error = record.exc_info[1] if record.exc_info else None
        if not isinstance(error, HttpProcessingError):
            text = record.getMessage().partition("\n")[0]
            print(f"lost-gateway: {text}{f' {error!r}' if error else ''}", file=sys.stderr, flush=True)


def log_in_lines() -> None:
    """Has the libraries log in lines."""
    for name in ("aiohttp", "asyncio"):
        logger = logging.getLogger(name)
        logger.addHandler(OneLine(logging.WARNING))
        logger.propagate = False


def allow_many_files() -> None:
    """Lets the process have as many connections open as the system allows it."""
    _, most = resource.getrlimit(resource.RLIMIT_NOFILE)
    resource.setrlimit(resource.RLIMIT_NOFILE, (most, most))


def keep_memory() -> None:
    """Has the C library keep the 256 KiB that asyncio takes for each read: it gives pieces of that size back to the system
    each time, and takes them again, until a larger one was given back."""
    bytes(LARGEST_KEPT)


def side_of(options: argparse.Namespace) -> Side:
    """What the HTTP side works with, as the command line says."""
    pool = Pool(options.lostd, options.pool, options.timeout)
    return Side(answering_of(options, pool), Metrics(), Journal(options.log) if options.log else None)


async def tell_often(side: Side, speaks: bool) -> None:
    """Tells what was counted and which servers are up, and on standard error what changes, until it is cancelled."""
    told: Dict[str, bool] = {}
    while True:
        await asyncio.sleep(TELL_AGAIN)
        states = side.answering.pool.states()
        side.metrics.tell(states)
        for server, is_up in states:
            if speaks and is_up != told.get(server, True):
                print(f"lost-gateway: {server} {'answers again' if is_up else 'does not answer'}", file=sys.stderr, flush=True)
            told[server] = is_up


def stopping(life: int) -> asyncio.Event:
    """What is set once the process is to end: by a signal, or since the first process is gone."""
    loop, event = asyncio.get_running_loop(), asyncio.Event()
    for number in (signal.SIGTERM, signal.SIGINT):
        loop.add_signal_handler(number, event.set)
    loop.add_reader(life, event.set)
    return event


async def listen(handler: Handler, place: Place, patience: float) -> None:
    """Serves a socket until the process is told to end, and then answers what it has, for at most so many seconds."""
    is_over = stopping(place.life)
    runner = web.AppRunner(application(handler), access_log=None, auto_decompress=False, keepalive_timeout=KEEP_ALIVE)
    await runner.setup()
    site = web.SockSite(runner, place.listener, backlog=BACKLOG, shutdown_timeout=patience)
    await site.start()
    keep_memory()
    gc.freeze()
    gc.set_threshold(LOOK_FOR_CIRCLES)
    os.write(place.ready, b".")
    await is_over.wait()
    asyncio.get_running_loop().remove_reader(place.life)
    await runner.cleanup()


async def serve(options: argparse.Namespace, place: Place) -> None:
    """Serves a socket until the process is told to end."""
    log_in_lines()
    allow_many_files()
    side = side_of(options)
    pool = side.answering.pool
    pool.start()
    telling = asyncio.get_running_loop().create_task(tell_often(side, place.is_first))
    await listen(Handler(side), place, 2 * options.timeout + 1)
    telling.cancel()
    await pool.end()


def work(options: argparse.Namespace) -> Work:
    """What each process does."""
    return lambda place: asyncio.run(serve(options, place))

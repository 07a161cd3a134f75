"""Runs scenarios on the workers of a dask scheduler."""
from __future__ import annotations

import contextlib
import json
import logging
import os
import re
import socket
import time
from pathlib import Path
from typing import Any, Iterator

from ptides import attempts, companion
from ptides.formulas.option import file_in
from ptides.program import Fault
from ptides.scenarios import Outcome, Scenario, outcome_of

# How many seconds the first worker of a cluster has to appear.
LONGEST_WAIT = 60


def packed(scenario: Scenario) -> tuple[dict[str, bytes], str]:
    """The files of a scenario that its words and its graph name, by their paths below a common folder, and where the scenario is in it."""
    here = os.path.realpath(scenario.folder)
    blocks = file_in(scenario.words)
    # A log or an air file is a word too, and a file of formulas may be part of one.
    paths = [os.path.join(here, word) for word in dict.fromkeys([scenario.graph(), *scenario.words[1:], *([blocks.path] if blocks else [])])]
    try:
        actors = json.loads(Path(paths[0]).read_text(encoding="utf-8"))["actors"]
        paths += [os.path.join(here, actor["file"]) for actor in actors if actor.get("kind") == "sensor"]
    except (OSError, ValueError, KeyError, TypeError, AttributeError):
        # The program will refuse this graph; it gets what is there.
        pass
    paths = [os.path.normpath(path) for path in paths if os.path.isfile(path)]
    common = os.path.commonpath([here, *(os.path.dirname(path) for path in paths)])
    return {os.path.relpath(path, common): Path(path).read_bytes() for path in paths}, os.path.relpath(here, common)


def place_of(address: str) -> tuple[str, int]:
    """The host and the port of an address."""
    found = re.fullmatch(r"(?:(?:tcp|tls)://)?(\[[0-9a-fA-F:.]+\]|[^\s/:]+):(\d{1,5})", address)
    if not found or not 0 < int(found[2]) < 65536:
        raise Fault(f"--dask: `{address}` is no address of a scheduler, as tcp://127.0.0.1:8786")
    return found[1].strip("[]"), int(found[2])


@contextlib.contextmanager
def cluster(address: str) -> Iterator[Any]:
    """A client of the scheduler at an address, which has a worker."""
    place = place_of(address)
    distributed = companion.needed("distributed", "python3-distributed", "--dask")
    # If nothing listens there, that is known at once, and dask would try for long.
    try:
        socket.create_connection(place, timeout=10).close()
    except OSError as fault:
        raise Fault(f"no dask scheduler at {address}: {fault.strerror or fault}") from fault
    # Its own messages on what is lost come with tracebacks; what matters is said here.
    for name in ("distributed", "tornado", "asyncio"):
        logging.getLogger(name).setLevel(logging.CRITICAL + 1)
    try:
        client = distributed.Client(address, timeout=10, set_as_default=False)
    except Exception as fault:
        raise Fault(f"no dask scheduler at {address}: {fault}".splitlines()[0]) from fault
    try:
        if not client.scheduler_info()["workers"]:
            companion.say(f"ptides bench: the dask scheduler at {address} has no worker: waiting for one, {LONGEST_WAIT} seconds at most")
            wait_for_a_worker(client, address)
        yield client
    finally:
        client.close(timeout=2)


def wait_for_a_worker(client: Any, address: str) -> None:
    """Waits until the scheduler has a worker."""
    end = time.monotonic() + LONGEST_WAIT
    while not client.scheduler_info()["workers"]:
        if time.monotonic() > end:
            raise Fault(f"the dask scheduler at {address} has no worker")
        time.sleep(0.2)


def run_there(scenarios: list[Scenario], program: str, address: str, seconds: float) -> Iterator[Outcome]:
    """Hands the scenarios to a dask scheduler, which runs those of a lost worker again on another."""
    with cluster(address) as client:
        companion.needed("cloudpickle", "python3-cloudpickle", "--dask").register_pickle_by_value(attempts)
        asked = [None if each.fault else client.submit(attempts.attempts_there, program, *packed(each), each.commands(), seconds, pure=False, retries=3)
                 for each in scenarios]
        for scenario, future in zip(scenarios, asked):
            try:
                results, taken = future.result() if future else ([], 0.0)
            except Exception as fault:
                results, taken = [(None, "", f"lost on the cluster: {fault!r}\n")], 0.0
            yield outcome_of(scenario, results, taken)

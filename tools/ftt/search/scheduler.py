"""Many machines: the questions of a search go to the workers of a scheduler of dask.distributed, some hundred in a task.

A task carries all that is asked: the files' texts or the list, and the points. The sources of this search go to each
worker once, also to one that comes later. A worker answers with the program or the library of its own machine, and only
where that is the one of this machine, byte by byte. A task whose worker ends is given to another one by dask.
"""
import hashlib
import importlib.resources
import io
import ipaddress
import logging
import os
import pathlib
import re
import sys
import tempfile
import threading
import urllib.parse
import zipfile

from . import engine
from .grid import Failed
from ..faults import Refused

# So many points are asked by a task, and so many seconds a worker is waited for.
CHUNK, PATIENCE = 250, 60
# In a thread of a worker: what answers there.
HERE = threading.local()
PACKAGES = ("ftt", "fttcan")


def sources():
    """The sources of the packages that a worker needs, by their names in an archive, as they are where this runs."""
    found = {}

    def add(folder, name):
        for it in sorted(folder.iterdir(), key=lambda entry: entry.name):
            if it.is_dir() and it.name != "__pycache__":
                add(it, f"{name}/{it.name}")
            elif it.name.endswith(".py"):
                found[f"{name}/{it.name}"] = it.read_bytes()

    for package in PACKAGES:
        try:
            add(importlib.resources.files(package), package)
        except ModuleNotFoundError:
            # fttcan is for the engine in the process alone.
            pass
    return found


def sum_of(found):
    """A sum over what `ftt` is made of."""
    told = hashlib.sha256()
    for name, data in found.items():
        if name.startswith("ftt/"):
            told.update(f"{name} {len(data)}\n".encode() + data)
    return told.hexdigest()[:16]


# The sources as they were when this was loaded, and their sum.
SOURCES = sources()
LOADED = sum_of(SOURCES)


def sum_of_file(path):
    """A sum over a file; None where there is no file to read, as for a library that the system finds."""
    try:
        return hashlib.sha256(pathlib.Path(path).read_bytes()).hexdigest()[:16]
    except (OSError, TypeError):
        return None


def engine_here(kind, path, told):
    """What answers in this thread: the file of this path where it has this sum, or what is found here."""
    if getattr(HERE, "key", None) != (kind, told):
        if path and sum_of_file(path) == told:
            found = engine.engine_at(kind, path)
        elif kind == engine.MODULE:
            found, why = engine.module_engine()
            if found is None:
                raise Failed(why)
        else:
            found = engine.program_engine()
        if sum_of_file(found.path) != told:
            raise Failed(f"{found.path or 'the library'} is not the one of the machine that asks: the sums of the files "
                         f"are {sum_of_file(found.path)} and {told}. Install the same version")
        HERE.key, HERE.engine = (kind, told), found
    return HERE.engine


def answered(question, asked, loaded, tasks):
    """The answers of some tasks, by a worker; or a text that says why it has none."""
    if loaded != LOADED:
        return "its fttsearch is another one, which it has loaded before. Start the worker anew"
    try:
        here = engine_here(*asked)
        return [question.answer(here, task) for task in tasks]
    except (Failed, Refused) as fault:
        return str(fault)


def address_of(text, is_tls):
    """The address of a scheduler, where it may be used: tcp:// on this machine alone, tls:// anywhere."""
    if not re.fullmatch(r"(tcp|tls)://(\[[0-9a-fA-F:]+\]|[A-Za-z0-9_.-]+):[0-9]{1,5}", text):
        raise Refused(f"--scheduler: {text!r} is no address. Write tcp://127.0.0.1:8786 or tls://HOST:8786.")
    parts = urllib.parse.urlsplit(text)
    if parts.scheme == "tls":
        if not is_tls:
            raise Refused("--scheduler: tls:// needs --tls-ca, --tls-cert and --tls-key.")
        return text
    try:
        is_here = ipaddress.ip_address(parts.hostname).is_loopback
    except ValueError:
        is_here = parts.hostname == "localhost"
    if not is_here:
        raise Refused("--scheduler: by tcp:// whoever reaches the port can run any code on the workers, so it is taken on "
                      "this machine alone, as tcp://127.0.0.1:8786. Use tls:// with --tls-ca, --tls-cert and --tls-key.")
    return text


def client_of(words):
    """The connection to the scheduler."""
    files = (words.tls_ca, words.tls_cert, words.tls_key)
    address = address_of(words.scheduler, all(files))
    missing = next((path for path in files if path and not os.access(path, os.R_OK)), None)
    if missing:
        raise Failed(f"{missing}: it can't be read. Is it the right path?")
    try:
        import distributed  # pylint: disable=import-outside-toplevel,import-error
    except ImportError as fault:
        raise Failed(f"--scheduler needs the Python package distributed, and {sys.executable} has none. Debian's is "
                     "python3-distributed: /usr/bin/python3 in front of fttsearch takes it.") from fault
    security = distributed.Security(tls_ca_file=words.tls_ca, tls_client_cert=words.tls_cert, tls_client_key=words.tls_key,
                                    require_encryption=True) if address.startswith("tls:") else None
    try:
        return distributed.Client(address, security=security, timeout=PATIENCE, set_as_default=False)
    except (OSError, ValueError) as fault:
        raise Failed(f"{address}: no scheduler answers there: {fault}. Start one: dask scheduler.") from fault


def send_sources(client):
    """Gives the sources to the workers, and to those that come later."""
    from distributed.diagnostics.plugin import UploadFile  # pylint: disable=import-outside-toplevel,import-error
    data = io.BytesIO()
    with zipfile.ZipFile(data, "w") as archive:
        for name, text in SOURCES.items():
            archive.writestr(name, text)
    with tempfile.TemporaryDirectory(prefix="fttsearch.") as folder:
        path = pathlib.Path(folder) / f"fttsearch-{LOADED}.zip"
        path.write_bytes(data.getvalue())
        client.register_worker_plugin(UploadFile(str(path)), name=f"fttsearch-{LOADED}")


class DaskWorkers:
    """What answers tasks at once: the workers of a scheduler."""

    def __init__(self, question, asked, words):
        self.question, self.waiting, self.threads = question, [], None
        self.asked = asked.kind, asked.path, sum_of_file(asked.path)
        self.client, self.address = client_of(words), words.scheduler
        logging.getLogger("distributed.client").setLevel(logging.ERROR)

    def begin(self):
        """Waits for a worker, and gives the sources to all."""
        import distributed  # pylint: disable=import-outside-toplevel,import-error
        try:
            self.client.wait_for_workers(1, timeout=PATIENCE)
        except (TimeoutError, distributed.TimeoutError) as fault:
            raise Failed(f"{self.address}: no worker came in {PATIENCE} s. Start some: dask worker {self.address}") from fault
        send_sources(self.client)
        threads = sum(self.client.nthreads().values())
        print(f"fttsearch: {len(self.client.nthreads())} workers with {threads} threads at {self.address}",
              file=sys.stderr)
        return threads

    def answers(self, tasks, size=CHUNK, is_mixed=False):
        """The tasks with their answers, as they come. They are given in their order, whether they are mixed or not."""
        import distributed  # pylint: disable=import-outside-toplevel,import-error
        self.threads = self.threads or self.begin()
        size = max(1, min(size, len(tasks) // (4 * self.threads)))
        parts = [tasks[first:first + size] for first in range(0, len(tasks), size)]
        self.waiting = [self.client.submit(answered, self.question, self.asked, LOADED, part, pure=False)
                        for part in parts]
        places = {future.key: place for place, future in enumerate(self.waiting)}
        for future in distributed.as_completed(self.waiting, loop=self.client.loop):
            place = places[future.key]
            try:
                said = future.result()
            except distributed.scheduler.KilledWorker as fault:
                raise Failed(f"{self.address}: each worker that took a task of {len(parts[place])} points ended: "
                             f"{fault}") from fault
            if isinstance(said, str):
                raise Failed(f"a worker of {self.address}: {said}.")
            self.waiting[place] = None
            yield from zip(parts[place], said)

    def __enter__(self):
        return self

    def __exit__(self, kind, fault, trace):
        left = [future for future in self.waiting if future is not None]
        if left:
            self.client.cancel(left)
        self.client.close()

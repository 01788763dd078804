"""Asks at points: many at once, in processes where the library answers in them, and in threads where the program does."""
import concurrent.futures
import os
import random
import signal
import sys
import threading
import time

from .engine import CALLS, MODULE
from .grid import Failed

SIGNALS = tuple(getattr(signal, name) for name in ("SIGINT", "SIGTERM", "SIGHUP") if hasattr(signal, name))
# So many points are handed to a process at once.
CHUNK = 24
# In a process of a pool: what is asked there, and what answers.
HERE = {}


def watch(parent):
    """Ends this process where the one that made it has ended."""
    while os.getppid() == parent:
        time.sleep(1)
    os._exit(1)


def begin(question, engine, parent):
    """Makes a process of a pool ready. A signal that all processes get is for the first one, which ends the others."""
    for number in SIGNALS:
        signal.signal(number, signal.SIG_IGN)
    threading.Thread(target=watch, args=(parent,), daemon=True).start()
    HERE["question"], HERE["engine"] = question, engine


def several(tasks):
    """The answers of some tasks, in a process of a pool."""
    return [HERE["question"].answer(HERE["engine"], task) for task in tasks]


class Workers:
    """What answers tasks at once, so many as there are jobs."""

    def __init__(self, question, engine, jobs):
        self.question, self.engine, self.jobs = question, engine, jobs
        self.is_here = engine.kind == MODULE
        if self.is_here:
            self.pool = concurrent.futures.ProcessPoolExecutor(jobs, initializer=begin,
                                                               initargs=(question, engine, os.getpid()))
        else:
            self.pool = concurrent.futures.ThreadPoolExecutor(jobs)

    def chunk(self, tasks):
        """Some tasks as one of the pool's."""
        if self.is_here:
            return self.pool.submit(several, tasks)
        return self.pool.submit(lambda: [self.question.answer(self.engine, task) for task in tasks])

    def answers(self, tasks, size=CHUNK, is_mixed=False):
        """The tasks with their answers, as they come. Where they are mixed, parts of them are asked in an order by chance,
        so that the time that is left can be told from the time that was taken."""
        size = max(1, min(size, len(tasks) // (4 * self.jobs))) if self.is_here else 1
        parts = [tasks[first:first + size] for first in range(0, len(tasks), size)]
        if is_mixed:
            random.Random(0).shuffle(parts)
        waiting = {self.chunk(part): part for part in parts}
        for done in concurrent.futures.as_completed(waiting):
            try:
                yield from zip(waiting.pop(done), done.result())
            except concurrent.futures.BrokenExecutor as fault:
                raise Failed("a process that asks the library was ended from outside.") from fault

    def __enter__(self):
        return self

    def __exit__(self, kind, fault, trace):
        if kind is not None:
            CALLS.end()
        self.pool.shutdown(cancel_futures=True)


def workers_of(question, asked, words):
    """What answers tasks for a call: the workers of its scheduler; else processes or threads of this machine."""
    if words.scheduler:
        from .scheduler import DaskWorkers  # pylint: disable=import-outside-toplevel
        return DaskWorkers(question, asked, words)
    return Workers(question, asked, words.jobs)


class Progress:
    """How far the points are, on standard error: a line that moves on a terminal, and else one in ten seconds."""

    def __init__(self, many, word="points"):
        self.many, self.word, self.done, self.accepted, self.began = many, word, 0, 0, time.monotonic()
        self.is_terminal = sys.stderr.isatty()
        self.told = self.began

    def step(self, is_accepted):
        """A point more."""
        self.done += 1
        self.accepted += is_accepted
        now = time.monotonic()
        if now - self.told >= (0.2 if self.is_terminal else 10):
            self.tell(now)

    def tell(self, now):
        """Tells it."""
        self.told, passed = now, now - self.began
        left = passed / max(self.done, 1) * (self.many - self.done)
        print(f"{chr(13) if self.is_terminal else ''}fttsearch: {self.done} of {self.many} {self.word}, {self.accepted} "
              f"accepted, {passed:.0f} s so far, some {left:.0f} s to go  ", file=sys.stderr,
              end="" if self.is_terminal else "\n", flush=True)

    def end(self):
        """Leaves the line that moves."""
        if self.is_terminal and self.done:
            print(file=sys.stderr)


def tried(asked, question, table, words):
    """Asks at each point that the table lacks, many at once. What is said goes into the table."""
    points = list(reversed(table.waiting))
    progress = Progress(len(points))
    if not points:
        return
    with workers_of(question, asked, words) as workers:
        try:
            for point, said in workers.answers(points):
                table.add(point, said)
                progress.step(said.accepted)
        finally:
            progress.end()

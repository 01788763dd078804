"""Trials before many cycles at once, in processes that are forks of this one."""
import concurrent.futures
import multiprocessing
import signal
import time

# A part of the cycles has at most so many, and for so many seconds this process tries alone.
MOST, ALONE = 250, 0.5
# What a fork tries.
HERE = {}


def begin():
    """Makes a process ready: a signal that all processes get is for the first one, which ends the others."""
    for number in (signal.SIGINT, signal.SIGTERM, signal.SIGHUP):
        signal.signal(number, signal.SIG_IGN if number == signal.SIGINT else signal.SIG_DFL)


def part(cycles):
    """What is found before some cycles: the trials, the gaps and the first frames."""
    sweep = HERE["sweep"].fresh()
    for cycle in cycles:
        sweep.at(cycle)
    return sweep.trials, sweep.gaps, sweep.firsts


def swept(sweep, cycles, jobs, step):
    """Tries a sweep before some cycles, by so many processes, and calls `step` with each trial."""
    began, place = time.monotonic(), 0
    is_alone = jobs == 1 or "fork" not in multiprocessing.get_all_start_methods()
    while place < len(cycles) and (is_alone or time.monotonic() - began < ALONE):
        step(sweep.at(cycles[place]))
        place += 1
    if place == len(cycles):
        return
    HERE["sweep"], cycles = sweep, cycles[place:]
    size = max(1, min(MOST, len(cycles) // (4 * jobs)))
    parts = [cycles[first:first + size] for first in range(0, len(cycles), size)]
    pool = concurrent.futures.ProcessPoolExecutor(jobs, multiprocessing.get_context("fork"), begin)
    try:
        tasks = [pool.submit(part, it) for it in parts]
        for task in concurrent.futures.as_completed(tasks):
            for trial in task.result()[0]:
                step(trial)
        for task in tasks:
            sweep.take(*task.result())
    except BaseException:
        for process in list((getattr(pool, "_processes", None) or {}).values()):
            process.terminate()
        raise
    finally:
        pool.shutdown(wait=True, cancel_futures=True)

#!/usr/bin/env python3
"""FTT-CAN on a bus of python-can, by the clock: a master, its standby, nodes and a recorder.

NOT PROVED: the clock, the bus and this Python. The library says which slots a cycle has, that no deadline is missed in
cycles, and what the bytes of a trigger are. When a cycle begins, and when a node sends, is up to Python, the system and
what else runs. How far off that was is measured while it runs, and printed.

    live_bus.py [--interface udp_multicast] [--cycles 250] [--kill 150] [--into FOLDER]
    live_bus.py --interface virtual ..

With udp_multicast each part is a process of its own, on this machine alone, and the master is killed after so many
cycles. With virtual all parts are threads of one process. FOLDER gets recording.log (as `candump -L` writes), and
system.toml and steps.csv, which have the same run as files. It needs python-can (apt install python3-can), the package
fttcan and its library.
"""
import argparse
import collections
import json
import math
import pathlib
import queue
import subprocess
import sys
import threading
import time

import can
from fttcan import (Add, Change, Frame, Heard, Layout, Master, Node, NotPlanned, Order, Refused, Remove, Rules, Standby, Trigger,
                    apply, changes, frames, slots_of)

# 125 kbit/s: a bit time lasts 8 microseconds, and a cycle of 2,500 bit times 20 milliseconds.
KBITS, CYCLE, TURNAROUND, WINDOW, NODES = 125, 2500, 30, 405, 3
BIT = 0.001 / KBITS
RULES, LAYOUT = Rules(WINDOW, NODES), Layout(CYCLE, TURNAROUND, WINDOW)
# When asynchronous frames may begin: after the trigger part, which is 135 bit times, and the turnaround.
BEGIN = 135 + TURNAROUND
# Cycles after a trigger in which the standby listens for the next one; then it sends that itself. A master that is more
# than LATE cycles late is silent for ever: LATE + 1 cycles after its last trigger. So one cycle lies between the two.
PATIENCE, LATE = 6, 4
# So many seconds before its turn the standby stops to listen, to be ready.
READY = 0.001
# Seconds after which a node does not send a frame any more, counted from its time.
OVER = 0.005
# Seconds without a trigger after which nodes and the recorder end.
SILENCE = 2.0
# A change is asked for so many cycles before it starts, so that all have been told by then.
AHEAD = 12
# Asynchronous frames of this identifier tell an accepted change.
TELLS = 0x7E0

MACHINE = [Add(slot=0, node=0, length=8, period=1, deadline=1), Add(slot=1, node=1, length=8, period=2, deadline=2),
           Add(slot=2, node=2, length=4, period=4, deadline=4), Add(slot=3, node=1, length=2, period=3, deadline=2)]
SWITCH = Add(slot=9, node=2, length=8, period=1, deadline=1)
# What is asked for when so many cycles were opened. The first switch is refused, for there is no room beside slot 1.
WISHES = {0: MACHINE, 40: [SWITCH, Add(slot=10, node=2, length=8, period=1, deadline=1)], 60: [SWITCH, Remove(1)]}


def until(when):
    """Waits for a time: sleeps up to shortly before it, and then looks at the clock."""
    while (left := when - time.time()) > 0:
        time.sleep(left - 0.0002 if left > 0.0004 else 0)


def tell(**said):
    """A line for whoever started this part."""
    print(json.dumps(said), flush=True)


class Wire:
    """A bus of python-can. Times are those of the clock of this machine, which all parts share."""

    def __init__(self, interface):
        more = {"hop_limit": 0} if interface == "udp_multicast" else {}
        channel = "239.74.163.2" if interface == "udp_multicast" else "live-bus"
        self.bus = can.Bus(interface=interface, channel=channel, **more)

    def send(self, frame):
        """Sends a frame now."""
        self.bus.send(can.Message(arbitration_id=frame.identifier, is_extended_id=False, data=frame.data,
                                  timestamp=time.time()))

    def hear(self, seconds):
        """A frame and when it was on the bus; None where there is none for so long."""
        found = self.bus.recv(max(0, seconds))
        return None if found is None else (Frame(found.arbitration_id, bytes(found.data)), found.timestamp)


class Opener:
    """What opens cycles by the clock: a master, and a standby that has taken over."""

    def __init__(self, wire, master, name):
        self.wire, self.master, self.name = wire, master, name
        self.news, self.planner, self.settled, self.accepted = collections.deque(), None, queue.Queue(), 0

    def run(self, begin, last, wishes, is_killed=lambda: False):
        """Opens the next cycle at a time, and so on up to a last one."""
        due = begin
        while self.master.next < last and not is_killed():
            until(due)
            now = time.time()
            if now > due + LATE * CYCLE * BIT:
                tell(part=self.name, silent=self.master.next)
                return
            order = self.master.open()
            for frame in frames.encode(Trigger(order.cycle, order.flags, order.window), RULES.slots):
                self.wire.send(frame)
            self.ask(order.cycle + 1, wishes.get(order.cycle))
            self.spread(order, now)
            # Nodes count from the trigger that they heard, so a late cycle makes all after it late. On a bus where triggers
            # are sent again a node keeps the time by itself: docs/ERRORS.md.
            due = max(due, now) + CYCLE * BIT
        tell(part=self.name, opened=self.master.next)

    def ask(self, cycle, operations):
        """Has a thread plan a change while cycles are opened, and settles what a thread has planned."""
        if operations:
            snapshot, start = self.master.snapshot(), cycle + AHEAD
            self.planner = threading.Thread(target=lambda: self.settled.put((snapshot.plan(start, *operations), start,
                                                                             operations, cycle)), daemon=True)
            self.planner.start()
        while not self.settled.empty():
            planned, start, operations, since = self.settled.get()
            try:
                verdict = self.master.settle(planned)
                self.accepted += 1
                self.news.extend(changes.encode_change(TELLS, self.accepted, start, *operations))
            except Refused as fault:
                verdict = fault
            tell(part=self.name, start=start, since=since, settled=cycle, verdict=verdict.row, words=str(verdict),
                 rows=rows_of(start, operations))

    def spread(self, order: Order, begun):
        """Tells of accepted changes in the asynchronous part of a cycle."""
        at = BEGIN
        while self.news and frames.fits(LAYOUT, at, len(self.news[0].data), order.window):
            until(begun + at * BIT)
            frame = self.news.popleft()
            self.wire.send(frame)
            at += frames.wire_length(frame.identifier, frame.data)


def rows_of(start, operations):
    """A change as rows of a steps file."""
    words = {Add: "add", Change: "change", Remove: "remove"}
    fields = [(words[type(it)], (it.slot,) if isinstance(it, Remove) else
               (it.slot, it.node, it.length, it.phase, it.period, it.deadline, it.priority)) for it in operations]
    return [",".join(map(str, ("and", word, *rest) if place else (word, 1, start, *rest)))
            for place, (word, rest) in enumerate(fields)]


def turn_of(table, order, slot):
    """When a slot may begin, in bit times of the cycle: after the longest frames of all slots before it. Where a bus
    arbitrates, no node has to know that."""
    newest = {}
    for placed in table:
        if placed.origin <= order.cycle:
            newest[placed.entry.slot] = placed.entry.length
    return CYCLE - order.window + sum(55 + 10 * newest[other] for other in order.slots if other < slot)


def send_slots(wire, node, table, begun):
    """Sends what a node owes in the open cycle, and answers how many were sent, and how many would have been too late.
    Without arbitration on these buses the node waits for its turn by the clock."""
    order, sent, late = node.opened, 0, 0
    for slot in slots_of(node.due()):
        turn = turn_of(table, order, slot)
        until(begun + turn * BIT)
        if time.time() <= begun + turn * BIT + OVER:
            # The node is asked for its turn, and not for the time that it is now: Python is late by less than OVER. A real
            # driver asks for the time at which its frame starts, and a reserve of the window has room for its latency.
            loaded = node.load(turn, 0x100 + slot)
            if loaded:
                wire.send(loaded.frame)
                node.sent(loaded.ticket)
                sent += 1
                continue
        late += 1
    return sent, late


def run_node(wire, number):
    """A node: learns changes, hears triggers, and sends its own slots."""
    table, told, begun, counts = [], changes.Collector(entries=32), None, (0, 0)
    with Node(LAYOUT, number=number, entries=32, tolerance=LATE + PATIENCE) as node:
        node.go_to(0)
        while (heard := wire.hear(60 if begun is None else SILENCE)) is not None:
            frame, at = heard
            if frame.identifier == TELLS and (change := told.hear(frame)):
                table = apply(table, change.start, *change.operations)
                node.learn(table)
            if frame.identifier != 0:
                continue
            # A late master makes all cycles after it late, so the clock can be some cycles ahead of the count.
            passed = 0 if begun is None else max(0, round((at - begun) / (CYCLE * BIT)) - 1)
            if node.trigger(frame, passed=passed) is Heard.OPENED:
                begun = at
                counts = tuple(map(sum, zip(counts, send_slots(wire, node, table, begun))))
    tell(part=f"node {number}", sent=counts[0], late=counts[1])


def standby_of(wire, last):
    """A standby: hears changes and triggers up to its turn, and takes over where no trigger comes."""
    standby, told, at = Standby(RULES), changes.Collector(entries=32), None
    while True:
        heard = wire.hear(60 if at is None else at + PATIENCE * CYCLE * BIT - READY - time.time())
        if heard is None:
            break
        if heard[0].identifier == TELLS:
            change = told.hear(heard[0])
            if change:
                standby.change(change.start, *change.operations)
        elif heard[0].identifier == 0:
            try:
                standby.trigger(heard[0])
                at = heard[1]
            except NotPlanned as fault:
                tell(part="standby", cycle=standby.next, fault=str(fault))
    if at is not None:
        cycle, begin = standby.next, max(time.time(), at + PATIENCE * CYCLE * BIT)
        tell(part="standby", takes_over=cycle, after=1000 * (begin - at))
        Opener(wire, standby.take_over(), "standby").run(begin, last, {})


class Recorder:
    """What hears all frames. It plays the wire: a frame begins when it is heard, or when the one before it has ended, and
    lasts as long as its bits."""

    def __init__(self):
        self.begun, self.free, self.lines = None, 0, []
        # By trigger: when it came, its slots, when each is due, and which were heard, in seconds.
        self.cycles, self.strays, self.lags = [], 0, []

    def hear(self, frame, at):
        """Notes a frame."""
        if self.begun is None:
            if frame.identifier != 0:
                return
            self.begun = at
        begin = max(self.free, math.ceil((at - self.begun) / BIT))
        length = frames.wire_length(frame.identifier, frame.data)
        self.free = begin + length
        # A recorder stamps the end of a frame, which has no intermission.
        stamp = 1_000_000 + round((self.free - 3) * BIT * 1_000_000)
        self.lines.append(f"({stamp // 1_000_000}.{stamp % 1_000_000:06d}) can0 {frame.identifier:03X}#"
                          f"{frame.data.hex().upper()}\n")
        if frame.identifier == 0:
            trigger = frames.decode([frame], RULES.slots)
            self.cycles.append((at, trigger, set(), [CYCLE - trigger.window]))
        elif frame.identifier != TELLS:
            self.slot(frame, at, length)

    def slot(self, frame, at, length):
        """Notes a frame of a slot, and how late it began."""
        begun, trigger, heard, due = self.cycles[-1]
        slot = frame.identifier - 0x100
        if slot in heard or slot not in trigger.slots:
            self.strays += 1
            return
        heard.add(slot)
        self.lags.append(at - begun - due[0] * BIT)
        due[0] += length

    def told(self):
        """What it says at its end."""
        starts = [at for at, *_ in self.cycles]
        gaps = [later - at - CYCLE * BIT for at, later in zip(starts, starts[1:])]
        flagged = sum(len(trigger.slots) for _, trigger, *_ in self.cycles[:-1])
        heard = sum(len(heard) for _, _, heard, _ in self.cycles[:-1])
        return {"triggers": len(starts), "gaps": gaps, "lags": self.lags, "flagged": flagged, "heard": heard,
                "strays": self.strays, "frames": len(self.lines)}


def recorder(wire, path):
    """A recorder, which writes the recording at its end."""
    found = Recorder()
    while (heard := wire.hear(SILENCE if found.begun else 60)) is not None:
        found.hear(*heard)
    pathlib.Path(path).write_text("".join(found.lines), encoding="ascii")
    tell(part="recorder", **found.told())


def part(words, is_killed=lambda: False):
    """Carries out one part."""
    wire = Wire(words.interface)
    tell(part=words.part, ready=True)
    if words.part == "master":
        with Master(RULES) as master:
            Opener(wire, master, "master").run(time.time() + 0.05, words.cycles, WISHES, is_killed)
    elif words.part == "standby":
        standby_of(wire, words.cycles)
    elif words.part == "recorder":
        recorder(wire, words.into / "recording.log")
    else:
        run_node(wire, int(words.part))
    wire.bus.shutdown()


PARTS = ("recorder", "standby", *map(str, range(NODES)), "master")


def by_processes(words, said):
    """Each part as a process, until all have ended. The master is killed."""
    running = {}
    for name in PARTS:
        call = [sys.executable, __file__, "--interface", words.interface, "--cycles", str(words.cycles), "--into",
                str(words.into), "--part", name]
        running[name] = subprocess.Popen(call, stdout=subprocess.PIPE, text=True)
        said.append(json.loads(running[name].stdout.readline()))
    time.sleep(0.05 + words.kill * CYCLE * BIT)
    running["master"].kill()
    for process in running.values():
        said += map(json.loads, process.communicate()[0].splitlines())


def by_threads(words, said):
    """Each part as a thread of this process. The master is told to end without a word."""
    global tell  # pylint: disable=global-statement
    tell = lambda **more: said.append(more)  # noqa: E731
    killed, running = threading.Event(), []
    for name in PARTS:
        own = argparse.Namespace(**vars(words) | {"part": name})
        running.append(threading.Thread(target=part, args=(own, killed.is_set)))
        running[-1].start()
        while {"part": name, "ready": True} not in said:
            time.sleep(0.001)
    time.sleep(0.05 + words.kill * CYCLE * BIT)
    killed.set()
    for thread in running:
        thread.join()


def spread_of(values):
    """Half of all, 99 of 100, and the greatest of some times, in milliseconds."""
    found = sorted(abs(it) * 1000 for it in values) or [0]
    return "half up to {:.3f}, 99 of 100 up to {:.3f}, all up to {:.3f} ms".format(
        *(found[min(len(found) - 1, len(found) * share // 100)] for share in (50, 99, 100)))


def files(words, said):
    """The run as files: each change in front of the cycle from which it was planned."""
    rows, opened = [], 0
    for it in said:
        if "verdict" in it:
            rows += ([f"cycle,{it['since'] - opened}"] if it["since"] > opened else []) + it["rows"]
            opened = max(opened, it["since"])
    rows.append(f"cycle,{words.cycles - opened}")
    (words.into / "steps.csv").write_text("".join(f"{row}\n" for row in rows), encoding="ascii")
    (words.into / "system.toml").write_text(f"[bus]\ncycle = {CYCLE}\nturnaround = {TURNAROUND}\nwindow = {WINDOW}\n"
                                            f"nodes = {NODES}\n", encoding="ascii")


def report(words, said):
    """What is printed of a run."""
    print(f"{words.interface}: {KBITS} kbit/s, cycles of {CYCLE} bit times, {1000 * CYCLE * BIT:g} ms. "
          "The clock, the bus and Python are not proved")
    for it in sorted(said, key=lambda it: it.get("since", words.cycles)):
        if "verdict" in it:
            print(f"asked in cycle {it['since']}, planned in another thread, answered in cycle {it['settled']}: "
                  f"{it['words']}")
        elif "takes_over" in it:
            print(f"the standby takes over with cycle {it['takes_over']}, {it['after']:.0f} ms after the last trigger")
        elif it.keys() & {"silent", "fault"}:
            print(f"{it['part']}: {it}")
    heard = next(it for it in said if "gaps" in it)
    # The gap of the take-over is the greatest one, and said above.
    gaps = sorted(heard["gaps"])[:-1]
    print(f"triggers: {heard['triggers']}; their distance is off a cycle: {spread_of(gaps)}")
    print(f"frames of slots: {heard['heard']} of {heard['flagged']} heard, {heard['strays']} astray, "
          f"{sum(it.get('late', 0) for it in said)} not sent for it was too late; off their times: {spread_of(heard['lags'])}")
    print(f"recording: {words.into / 'recording.log'}, {heard['frames']} frames")


def main():
    """The demonstration, or one part of it."""
    parser = argparse.ArgumentParser(description=__doc__, formatter_class=argparse.RawDescriptionHelpFormatter)
    parser.add_argument("--interface", choices=("udp_multicast", "virtual"), default="udp_multicast")
    parser.add_argument("--cycles", type=int, default=250, help="how many cycles are opened in all")
    parser.add_argument("--kill", type=int, default=150, help="after how many cycles the master is killed")
    parser.add_argument("--into", type=pathlib.Path, default=pathlib.Path("live-bus"), help="the folder of the files")
    parser.add_argument("--part", choices=PARTS, help=argparse.SUPPRESS)
    words = parser.parse_args()
    if words.part:
        part(words)
        return
    words.into.mkdir(parents=True, exist_ok=True)
    said = []
    (by_processes if words.interface == "udp_multicast" else by_threads)(words, said)
    files(words, said)
    report(words, said)


if __name__ == "__main__":
    main()

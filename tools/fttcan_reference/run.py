"""A run of the bus, frame by frame."""
import collections
import heapq

from .bus import mask_text, trigger_part, triggers, wire_length, worst
from .table import current
from .plan import Master


class Rides:
    """The requests of polled slots, and which instance took which of them."""

    def __init__(self, system, streams):
        self.system, self.streams = system, streams
        # By slot the places of its requests that were not taken; by slot and release the place of what was taken.
        self.waiting, self.taken = {}, {}
        for place, (_, slot, _) in enumerate(streams):
            self.waiting.setdefault(slot, collections.deque()).append(place)
        # By place the release and the cycle in which the request was sent.
        self.sent = {}

    def release(self, table, cycle):
        """Has the instances that are released in a cycle take their requests."""
        for placed in table:
            slot, instance = placed.entry.slot, current(placed, cycle)
            if not instance or instance[1] != cycle or not self.waiting.get(slot):
                continue
            at, _, payload = self.streams[self.waiting[slot][0]]
            if at < cycle * self.system.cycle and len(payload) < placed.entry.length:
                self.taken[slot, cycle] = self.waiting[slot].popleft()

    def data(self, placed, number, release, cycle):
        """The bytes that an instance sends in a cycle."""
        slot, length = placed.entry.slot, placed.entry.length
        if slot not in self.waiting:
            return (number % 256 ** length).to_bytes(length, "big")
        place = self.taken.get((slot, release))
        if place is None:
            return bytes(length)
        self.sent[place] = release, cycle
        return (b"\1" + self.streams[place][2]).ljust(length, b"\0")

    def rows(self):
        """The rows that tell what became of each request."""
        return [",".join(map(str, ("ride", slot, place + 1, *self.sent[place]) if place in self.sent
                             else ("waits", slot, place + 1)))
                for place, (_, slot, _) in enumerate(self.streams)]


class Bus:
    """The bus with the requests that wait, by identifier."""

    def __init__(self, system, requests, rides):
        self.system, self.rides, self.waiting = system, rides, collections.defaultdict(collections.deque)
        for at, identifier, data in requests:
            self.waiting[identifier].append((at, data))
        # The first request of each identifier: those that have arrived, by identifier; the others, by arrival.
        self.arrived, self.coming = [], [(requests[0][0], id_) for id_, requests in self.waiting.items()]
        heapq.heapify(self.coming)

    def next_of(self, identifier):
        """Has the next request of an identifier wait for its arrival."""
        if self.waiting[identifier]:
            heapq.heappush(self.coming, (self.waiting[identifier][0][0], identifier))

    def asynchronous(self, at, until):
        """The frames of an asynchronous window, each with its start."""
        frames, kept = [], []
        while at < until:
            while self.coming and self.coming[0][0] <= at:
                heapq.heappush(self.arrived, heapq.heappop(self.coming)[1])
            if not self.arrived:
                if not self.coming:
                    break
                at = max(at, self.coming[0][0])
                continue
            identifier = heapq.heappop(self.arrived)
            data = self.waiting[identifier][0][1]
            if at + worst(len(data)) > until:
                # It fits at no later time of this window either.
                kept.append(identifier)
                continue
            self.waiting[identifier].popleft()
            self.next_of(identifier)
            frames.append((at, wire_length(identifier, data), identifier, data))
            at += frames[-1][1]
        for identifier in kept:
            heapq.heappush(self.arrived, identifier)
        return frames

    def cycle(self, cycle, mask, sent):
        """The frames of a cycle: start, length, identifier and data; and the length of its synchronous window."""
        begin, width = cycle * self.system.cycle, sum(worst(sent[slot][0].entry.length) for slot in sent)
        frames, at = [], begin
        for identifier, data in enumerate(triggers(cycle, width, mask, self.system.slots)):
            frames.append((at, wire_length(identifier, data), identifier, data))
            at += frames[-1][1]
        window = begin + self.system.cycle - width
        frames += self.asynchronous(begin + trigger_part(self.system.slots) + self.system.turnaround, window)
        at = window
        for slot in sorted(sent):
            data = self.rides.data(*sent[slot], cycle)
            frames.append((at, wire_length(0x100 + slot, data), 0x100 + slot, data))
            at += frames[-1][1]
        return frames, width


class Run:
    """A run of steps: the rows of its log, and what the report counts."""

    def __init__(self, system, requests, streams=()):
        self.rides = Rides(system, streams)
        self.master, self.bus = Master(system), Bus(system, requests, self.rides)
        self.rows, self.is_refused = [], False
        # The placed entries in the order of placing, as slot and origin, with the delays of their instances.
        self.delays, self.widths, self.frames = {}, [], collections.Counter()
        self.left = collections.Counter(identifier for _, identifier, _ in requests)
        self.busy = 0

    def submit(self, change, start=None):
        """Answers a change, which is planned from the next cycle on or from an earlier one."""
        start = self.master.next if start is None else start
        verdict = self.master.submit(change, start)
        self.rows.append(",".join(map(str, ("submit", change.operator, start, verdict.word, *verdict.fields))))
        self.is_refused |= verdict.word != "accepted"
        if verdict.word == "accepted":
            for placed in verdict.table:
                self.delays.setdefault((placed.entry.slot, placed.origin), [])
        elif verdict.word == "miss":
            self.rows += [f"plan,{start + place},{mask_text(mask)}" for place, mask in enumerate(verdict.masks)]

    def open(self):
        """Opens a cycle and runs it."""
        cycle, mask, sent = self.master.open()
        self.rides.release(self.master.table, cycle)
        frames, width = self.bus.cycle(cycle, mask, sent)
        self.widths.append(width)
        self.rows.append(f"open,{cycle},{mask_text(mask)},{width}")
        for start, length, identifier, data in frames:
            self.rows.append(f"frame,{start},{length},{identifier:03x},{data.hex()}")
            self.frames[identifier] += 1
            self.left[identifier] -= identifier >= 0x200
            self.busy += length
        for placed, _, release in sent.values():
            self.delays[placed.entry.slot, placed.origin].append(cycle - release)

    def look(self, operator):
        """Answers a look."""
        self.rows.append(f"look,{operator},{self.master.next}")

    def of(self, steps):
        """Runs the steps."""
        for word, what in steps:
            if word == "cycle":
                for _ in range(what):
                    self.open()
            elif word == "look":
                self.look(what)
            else:
                self.submit(what)
        self.rows.append(f"end,{self.master.next}")
        return self

    def report(self):
        """The rows of the report."""
        rows = []
        for (slot, origin), delays in self.delays.items():
            ends = f"{min(delays)},{max(delays)}" if delays else ","
            rows.append(f"entry,{slot},{origin},{len(delays)},{ends}")
        for identifier in sorted(self.master.system.owners):
            rows.append(f"async,{identifier:03x},{self.frames[identifier]},{self.left[identifier]}")
        ends = f"{min(self.widths)},{max(self.widths)}" if self.widths else ","
        return rows + [f"load,{ends},{sum(self.widths)}"]

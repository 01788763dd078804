"""A node of FTT-CAN, plainly: what it knows as lists, and each answer by going through them. It shares nothing with the
library and its crates."""
import collections

OPENED, NOTED, AGAIN, NOT_TAKEN, OTHER = range(5)
OK, ARGUMENT, NO, FULL = 0, 2, 10, 12
CYCLES_END = 1 << 42
Made = collections.namedtuple("Made", "number tolerance silent room entries ids")
Open = collections.namedtuple("Open", "cycle width mask")


def worst(length):
    """The worst length of a frame with so many data bytes, in bit times."""
    return 55 + 10 * length


class Box:
    """The requests of one identifier."""

    def __init__(self):
        self.waiting, self.first, self.flies = [], 0, False


class PlainNode:
    """A node of a system, as it was made."""

    def __init__(self, system, made):
        self.system, self.made = system, made
        self.boxes = {identifier: Box() for identifier in made.ids}
        self.entries, self.bytes, self.origins = [], {}, {}
        self.next, self.begun, self.opened, self.noted = 0, False, None, None
        self.sent_slots, self.flying, self.tickets = set(), set(), {}

    # What it is told ---------------------------------------------------------------------------------------------------

    def learn(self, table):
        """Learns its own entries of a table."""
        own = [placed for placed in table if placed.entry.node == self.made.number]
        if len(own) > self.made.entries:
            return FULL
        origins = {placed.entry.slot: placed.origin for placed in own}
        self.bytes = {slot: data for slot, data in self.bytes.items()
                      if slot in origins and self.origins.get(slot) == origins[slot]}
        self.entries, self.origins = own, origins
        return OK

    def go_to(self, cycle):
        """Goes on with a cycle."""
        if not self.next <= cycle <= CYCLES_END:
            return ARGUMENT
        self.next, self.begun, self.opened, self.noted = cycle, True, None, None
        return OK

    def set(self, slot, data):
        """Sets the bytes of a slot."""
        if slot >= self.system.slots or len(data) > 8:
            return ARGUMENT
        self.bytes[slot] = data
        return OK

    def put(self, identifier, data):
        """Takes a request."""
        if identifier not in self.boxes:
            return ARGUMENT
        if len(self.boxes[identifier].waiting) >= self.made.room:
            return FULL
        self.boxes[identifier].waiting.append(data)
        return OK

    def trigger(self, identifier, data, passed):
        """Hears a frame."""
        if not self.begun:
            return NOT_TAKEN
        if identifier > (0 if self.system.slots == 40 else 1):
            return OTHER
        width = int.from_bytes(data[1:3], "big")
        if len(data) != 8 or (identifier == 0 and width > 16383):
            return self.close()
        is_open = self.opened is not None and self.noted is None
        if is_open and passed <= self.made.tolerance and self.opened.cycle % 256 == data[0]:
            return AGAIN
        if identifier == 0:
            return self.hear_first(data, width, passed)
        return self.hear_second(data)

    def close(self):
        """No cycle is open any more."""
        self.opened = self.noted = None
        return NOT_TAKEN

    def hear_first(self, data, width, passed):
        """A first trigger frame: of the one cycle that is near what the clock says, and has this number."""
        said, off = self.next + passed, self.made.tolerance
        near = [cycle for cycle in range(max(self.next, said - off), said + off + 1) if cycle % 256 == data[0]]
        if not near or width > self.system.window or near[0] >= CYCLES_END:
            return self.close()
        mask = int.from_bytes(data[3:], "little")
        if self.system.slots == 40:
            return self.open(Open(near[0], width, mask))
        self.next, self.opened, self.noted = near[0], None, Open(near[0], width, mask)
        return NOTED

    def hear_second(self, data):
        """A second trigger frame: of the cycle that was noted."""
        if self.noted is None or self.noted.cycle % 256 != data[0] or self.noted.cycle != self.next or self.next >= CYCLES_END:
            return self.close()
        return self.open(self.noted._replace(mask=self.noted.mask | int.from_bytes(data[1:], "little") << 40))

    def open(self, opened):
        """A cycle is open."""
        self.next, self.opened, self.noted = opened.cycle + 1, opened, None
        self.sent_slots, self.flying = set(), set()
        return OPENED

    # What it has to send -----------------------------------------------------------------------------------------------

    def instance(self, slot, cycle):
        """The number and the length of the slot's instance that may be sent in a cycle; None for none."""
        for placed in self.entries:
            entry, since = placed.entry, cycle - placed.origin - placed.entry.phase
            if entry.slot == slot and since >= 0 and since % entry.period < entry.deadline:
                if placed.end is None or cycle - since % entry.period < placed.end:
                    return since // entry.period, entry.length
        return None

    def owed(self):
        """By slot the data and whether they were set, of all that it owes."""
        found = {}
        if self.opened is None or self.noted is not None:
            return found
        for slot in {placed.entry.slot for placed in self.entries if self.opened.mask >> placed.entry.slot & 1}:
            instance = self.instance(slot, self.opened.cycle)
            if instance and slot not in self.sent_slots:
                number, length = instance
                data = self.bytes.get(slot)
                is_set = data is not None and len(data) == length
                found[slot] = (data if is_set else (number % 256 ** length).to_bytes(length, "big"), is_set)
        return found

    def due(self):
        """The slots that it owes."""
        return sum(1 << slot for slot in self.owed())

    def spans(self):
        """The identifiers that it may send: each with its first and last start and its data."""
        if self.opened is None or self.noted is not None:
            return []
        window = self.system.cycle - self.opened.width
        begin = (135 if self.system.slots == 40 else 270) + self.system.turnaround
        found = [(identifier, begin, window - worst(len(box.waiting[0])), box.waiting[0])
                 for identifier, box in self.boxes.items() if box.waiting and not box.flies]
        found += [(0x100 + slot, window, self.system.cycle - worst(len(data)), data) for slot, (data, is_set) in self.owed().items()
                  if slot not in self.flying and (is_set or not self.made.silent)]
        return found

    def offer(self, into):
        """What it offers at a time, and up to when; None for nothing."""
        found = [(identifier, last) for identifier, first, last, _ in self.spans() if first <= into <= last]
        return min(found) if found else None

    def wake(self, into):
        """The first later time at which it offers something; None for none."""
        found = [max(into + 1, first) for _, first, last, _ in self.spans() if max(into + 1, first) <= last]
        return min(found) if found else None

    def load(self, into, identifier):
        """Takes the frame that it offers; None if it is not offered."""
        offer = self.offer(into)
        if offer is None or offer[0] != identifier:
            return None
        data = next(data for name, _, _, data in self.spans() if name == identifier)
        if identifier >= 0x200:
            self.boxes[identifier].flies = True
            self.tickets[identifier] = self.boxes[identifier].first
        else:
            self.flying.add(identifier - 0x100)
            self.tickets[identifier] = self.opened.cycle
        return data

    def is_open_cycle(self, identifier):
        """Whether the last ticket of a slot is of the open cycle."""
        return self.opened is not None and self.noted is None and self.tickets[identifier] == self.opened.cycle

    def sent(self, identifier):
        """Is told that the frame that was loaded last under an identifier was sent."""
        if identifier >= 0x200:
            box = self.boxes[identifier]
            if not box.waiting or box.first != self.tickets[identifier]:
                return NO
            box.waiting.pop(0)
            box.first, box.flies = box.first + 1, False
            return OK
        if not self.is_open_cycle(identifier) or identifier - 0x100 in self.sent_slots:
            return NO
        self.sent_slots.add(identifier - 0x100)
        self.flying.discard(identifier - 0x100)
        return OK

    def withdrawn(self, identifier):
        """Is told that it was not sent."""
        if identifier >= 0x200:
            box = self.boxes[identifier]
            if not box.waiting or box.first != self.tickets[identifier] or not box.flies:
                return NO
            box.flies = False
            return OK
        if not self.is_open_cycle(identifier) or identifier - 0x100 not in self.flying:
            return NO
        self.flying.discard(identifier - 0x100)
        return OK

    def drop(self, identifier):
        """Drops the oldest request of an identifier."""
        if identifier not in self.boxes:
            return ARGUMENT
        box = self.boxes[identifier]
        if not box.waiting or box.flies:
            return NO
        box.waiting.pop(0)
        box.first += 1
        return OK

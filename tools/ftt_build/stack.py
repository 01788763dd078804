"""How much stack each function of a linked program for a Cortex-M can take at most, as its machine code says.

The library calls nothing through a pointer, and no function of it calls itself, so the deepest path of calls is a bound. Each
function counts with all that it ever subtracts from the stack pointer, and with what an alignment may cost.
"""
import re

from . import archive
from .kit import BuildFault

HEAD = re.compile(r"^([0-9a-f]+) <(.*)>:$")
LINE = re.compile(r"^\s+([0-9a-f]+):\t[0-9a-f ]+\t(\S+)\t?(.*)$")
CALL = re.compile(r"^(?:\w+, )?([0-9a-f]+) <")


def registers(text):
    """How many registers a list has."""
    many = 0
    for part in text[text.index("{") + 1:text.index("}")].split(","):
        ends = [int(end.strip()[1:]) for end in part.split("-")] if "-" in part else [0, 0]
        many += ends[1] - ends[0] + 1
    return many


def taken(word, rest, where):
    """The bytes by which an instruction lowers the stack pointer."""
    rest = rest.partition(";")[0].partition("@")[0].strip()
    if word.startswith(("push", "stmdb")) and (word.startswith("push") or rest.startswith("sp!")):
        return 4 * registers(rest)
    if word.startswith("vpush"):
        return 8 * registers(rest)
    found = re.search(r"\[sp, #-(\d+)\]!", rest)
    if found:
        return int(found[1])
    if re.match(r"sub(\.w|w)?$", word) and re.match(r"sp(,|$)", rest):
        found = re.fullmatch(r"sp, (?:sp, )?#(\d+)", rest)
        if found is None:
            raise BuildFault(f"{where}: {word} {rest} lowers the stack by what no number says")
        return int(found[1])
    found = re.fullmatch(r"\w+, #0, #(\d+)", rest) if word == "bfc" else None
    return (1 << int(found[1])) - 8 if found and int(found[1]) > 3 else 0


class Program:
    """A linked program: by the address of a function its name, its frame and what it calls."""

    def __init__(self, path):
        self.names, self.frames, self.calls, self.deepest = {}, {}, {}, {}
        at = None
        for line in archive.run(["arm-none-eabi-objdump", "-d", path]).splitlines():
            head = HEAD.match(line)
            if head:
                at = int(head[1], 16)
                self.names[at], self.frames[at], self.calls[at] = head[2], 0, set()
                continue
            found = LINE.match(line)
            if found is None or at is None:
                continue
            word, rest = found[2], found[3]
            self.frames[at] += taken(word, rest, self.names[at])
            if re.match(r"b(l|\.w|\.n|[a-z]{2}\.[wn])?$", word) or re.match(r"cbn?z", word):
                target = CALL.match(rest)
                if target and int(target[1], 16) != at and "+0x" not in rest:
                    self.calls[at].add(int(target[1], 16))
            elif word.startswith("blx"):
                # (only what is not of the library calls through a pointer)
                self.calls[at].add(None)

    def depth(self, at, above=()):
        """The most that a function takes, with all that it calls, and the path of names that takes it."""
        if at in above:
            raise BuildFault(f"{self.names[at]} calls itself")
        if at not in self.deepest:
            best, path = 0, []
            for other in self.calls.get(at, ()):
                if other is None:
                    raise BuildFault(f"{self.names[at]} calls through a pointer")
                if other in self.frames:
                    deep, below = self.depth(other, (*above, at))
                    if deep > best:
                        best, path = deep, below
            self.deepest[at] = self.frames[at] + best, [(self.names[at], self.frames[at]), *path]
        return self.deepest[at]

    def of(self, name):
        """The most that a call takes, and its path."""
        return self.depth(next(at for at, it in self.names.items() if it == name))

"""The limits of the formats, as docs/FORMATS.md has them: each stands here once."""

# The most data bytes of a frame, and the greatest bit rate of CAN, in kbit/s.
LENGTH, RATE = 8, 1_000
# How many slots a system may have.
FEW_SLOTS, MANY_SLOTS = SLOTS = (40, 96)
# Identifiers: those of the triggers, of slots, of asynchronous messages, and the greatest one of 11 bits.
TRIGGERS = (0x000, 0x001)
FIRST_SLOT = 0x100
LAST_SLOT = FIRST_SLOT + MANY_SLOTS - 1
FIRST_ASYNC, LAST_ASYNC = 0x200, 0x7EF
LAST_ID = 0x7FF

# The ranges of the keys of a system: bit times, bit times, bit times, a number, and elementary cycles.
CYCLE, TURNAROUND, WINDOW, NODES, HORIZON = (400, 100_000), (0, 1_000), (55, 16_383), (1, 30), (1, 100_000)
POLICIES, FILLS = ("rm", "dm", "edf"), ("prefix", "skip")
# What a system without the key has.
USUAL_HORIZON = 10_000

# The most of a steps file: operations of a change, changes, looks, cycles and operators; and what START is below.
OPERATIONS, CHANGES, LOOKS, CYCLES, OPERATORS = 16, 1_000, 1_000, 20_000, 8
START = 1 << 40
# The most of an entry: cycles of PHASE, PERIOD and DEADLINE; PRIORITY.
TIMES, PRIORITY = 65_535, 255
# The most rows of requests and of streams, and what AT is below.
REQUESTS, STREAMS = 50_000, 10_000
AT = 1 << 40
# The most bytes of a file that is no log.
BYTES = 4_194_304

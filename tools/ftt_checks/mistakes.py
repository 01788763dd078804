"""Mistakes that people make: what is wrong, a part of what is said of it, and what its advice makes of it.

What is right was written by following the words of the advice, and nothing else.
"""
# 135 + 20 + 190 = 345 of 500 bit times.
SYSTEM = "[bus]\ncycle = 500\nturnaround = 20\nwindow = 190\nnodes = 6\n\n[[async]]\nid = 0x300\nnode = 2\n"
STEPS = "add,1,0,0,0,8,0,10,10,0\ncycle,20\n"
REQUESTS = "170,0x300,00ff\n"
ADD = "add,1,0,0,0,8,0,10,10,0\n"
WIDE = SYSTEM.replace("nodes = 6", "nodes = 6\nslots = 96")
PLAN = "fttcan plan 2\nfrom 0\npending 0000000000\nfirst 0\nlength 10\n0000000001 1\n0000000000 9\nend\n"
OLD_PLAN = "fttcan plan 1\nfrom 0\npending 0000000000\nfirst 0\nlength 10\n0000000001\n" + "0000000000\n" * 9 + "end\n"
POLLED = "add,1,0,2,0,8,0,4,4,0\ncycle,20\n"


def system(name, old, new, part, right, base=SYSTEM):
    """A mistake in the system file, where a text stands in place of another one, and what stands there rightly."""
    assert old in base, name
    return name, {"system": base.replace(old, new, 1)}, part, {"system": base.replace(old, right, 1)}


def policy(name, wrong, part, right):
    """A mistake in the table plan."""
    return name, {"system": f"{SYSTEM}[plan]\n{wrong}\n"}, part, {"system": f"{SYSTEM}[plan]\n{right}\n"}


def steps(name, wrong, part, right):
    """A mistake in the steps, of which 20 cycles are opened at the end."""
    return name, {"steps": f"{wrong}\ncycle,20\n"}, part, {"steps": f"{right}\ncycle,20\n"}


def requests(name, wrong, part, right):
    """A mistake in the second row of the requests."""
    return name, {"requests": f"{REQUESTS}{wrong}\n"}, part, {"requests": f"{REQUESTS}{right}\n"}


def streams(name, wrong, part, right):
    """A mistake in the second row of the streams of a slot of 8 bytes."""
    first = {"steps": POLLED}
    return (name, {**first, "streams": f"100,2,\n{wrong}\n"}, part, {**first, "streams": f"100,2,\n{right}\n"})


def plan(name, old, new, part, right, base=PLAN):
    """A mistake in the plan text."""
    assert old in base, name
    return name, {"plan": base.replace(old, new, 1)}, part, {"plan": base.replace(old, right, 1)}


SEVENTEEN = "add,1,0,0,0,0,0,40,40,0\n" + "".join(f"and,add,{slot},0,0,0,40,40,0\n" for slot in range(1, 16))
FAR = "add,1,0,0,0,0,0,101,101,0\nand,add,1,0,0,0,103,103,0"
LATE = "add,1,9995,1,0,8,0,10,10,0"

FILES = [
    # Files in the wrong place, or in the wrong form.
    ("steps in place of the system", {"system": STEPS, "steps": SYSTEM}, "looks like a steps file. The words are "
     "SYSTEM STEPS", {"system": SYSTEM, "steps": STEPS}),
    ("UTF-16", {"steps": STEPS.encode("utf-16")}, "the file is UTF-16. Save it as UTF-8", {"steps": STEPS}),
    ("a workbook", {"steps": b"PK\x03\x04\x14\x00\x06\x00,"}, "the file is an Excel workbook. Save it as text",
     {"steps": STEPS}),
    ("an old workbook", {"system": b"\xd0\xcf\x11\xe0\xa1\xb1\x1a\xe1"}, "the file is an Excel workbook.",
     {"system": SYSTEM}),
    ("semicolons", {"steps": STEPS.replace(",", ";")}, "Save the file with commas", {"steps": STEPS}),
    ("tabs", {"steps": STEPS.replace(",", "\t")}, "Save the file with commas", {"steps": STEPS}),
    ("Ctrl-Z at the end", {"steps": STEPS + "\x1a"}, "It is Ctrl-Z, with which some editors end a file. Take it away.",
     {"steps": STEPS}),
    ("a header row", {"steps": "kind,operator,start\n" + STEPS}, "It looks like a header row. Take it away.",
     {"steps": STEPS}),
    ("a comment", {"steps": "# the doors\n" + STEPS}, "The file has no comments. Take the row away.", {"steps": STEPS}),
    # The system file.
    system("a cycle in quotes", "= 500", '= "500"', "Write an integer without quotes: 500.", "= 500"),
    system("a cycle with a point", "= 500", "= 500.0", "Write an integer without a decimal point: 500.", "= 500"),
    system("a cycle that is true", "= 500", "= true", "Write an integer: 400 to 100000.", "= 400", base=SYSTEM.replace(
        "window = 190", "window = 135")),
    system("a cycle of 300", "= 500", "= 300", "bus.cycle is 300. Take 400 to 100000.", "= 400", base=SYSTEM.replace(
        "window = 190", "window = 135")),
    system("a cycle below the rest", "= 500", "= 300", "bus.cycle is 300. Take 475 to 100000.", "= 475",
           base=SYSTEM.replace(
        "window = 190", "window = 320")),
    system("a window above its range", "= 190", "= 20000", "bus.window is 20000. Take 55 to 345.", "= 345"),
    system("a turnaround above its range", "turnaround = 20", "turnaround = 2000", "Take 0 to 175.",
           "turnaround = 175"),
    system("a window that is too wide", "= 190", "= 400", "Take a cycle of at least 555, or a window of at most 345.",
           "= 345"),
    system("a cycle that is too short", "= 500", "= 444", "bus.window is 300: with the trigger's 135 and the "
           "turnaround's "
           "20 it is 455, above the cycle of 444. Take a cycle of at least 455", "= 455", base=SYSTEM.replace(
               "window = 190", "window = 300")),
    system("31 nodes", "nodes = 6", "nodes = 31", "Take 3 to 30.", "nodes = 3"),
    system("no nodes", "nodes = 6", "nodes = 0", "Take 3 to 30.", "nodes = 30"),
    system("one node of three", "nodes = 6", "nodes = 1", "take 0, or bus.nodes = 3.", "nodes = 3"),
    system("64 slots of a short cycle", "= 500", "= 400\nslots = 64", "bus.slots is 64. Write 40.",
           "= 400\nslots = 40"),
    system("slots in quotes", "nodes = 6", 'nodes = 6\nslots = "96"', "Write an integer without quotes: 40 or 96.",
           "nodes = 6\nslots = 96"),
    system("a window that is true", "= 190", "= true", "Write an integer: 55 to 345.", "= 345"),
    system("a window with a unit that does not fit", "= 190", "= 500 bits", "Write window = 55, or a greater number "
           "up to "
           "345", "= 345"),
    system("nodes with leading zeros", "nodes = 6", "nodes = 0500", "Write nodes = 3, or a greater number up to 30",
           "nodes = 3"),
    system("slots with leading zeros", "nodes = 6", "nodes = 6\nslots = 040", "Write slots = 40",
           "nodes = 6\nslots = 40"),
    system("64 slots", "nodes = 6", "nodes = 6\nslots = 64", "Write 40 or 96.", "nodes = 6\nslots = 96"),
    system("a node that is not there", "node = 2", "node = 6", "take 0 to 5, or bus.nodes = 7.", "node = 5"),
    system("a node more", "node = 2", "node = 40", "nodes count from 0: take 0 to 5.", "node = 5"),
    system("an identifier below 0x200", "0x300", "0x18e", "take one of these, such as 0x200.", "0x200"),
    system("an identifier above 0x7ef", "0x300", "0x7f0", "take one of these, such as 0x200.", "0x200"),
    system("an identifier twice", "node = 2\n", "node = 2\n[[async]]\nid = 768\nnode = 1\n", "Give each identifier to "
           "one node, such as 0x200.", "node = 2\n[[async]]\nid = 0x200\nnode = 1\n"),
    system("an identifier in quotes", "0x300", '"0x300"', "Write an integer without quotes: 0x300.", "0x300"),
    system("an identifier without 0x", "0x300", "30e", "Write id = 0x30e", "0x30e"),
    system("one bracket", "[[async]]", "[async]", "Write [[async]], with two brackets on each side.", "[[async]]"),
    system("a missing key", "cycle = 500\n", "", "Write cycle = NUMBER below [bus], a NUMBER of 400 to 100000.",
           "cycle = 400\n"),
    system("no system at all", SYSTEM, "", "bus is missing. Write [bus], and its keys below.", SYSTEM),
    system("a misspelt key", "cycle", "cyle", "Is it bus.cycle?", "cycle"),
    system("turn_around", "turnaround", "turn_around", "Is it bus.turnaround?", "turnaround"),
    system("turnaround and turn_around", "turnaround = 20", "turnaround = 20\nturn_around = 20", "'bus.turnaround' "
           "stands there too. Take this one away, or write # in front.", "turnaround = 20\n# turn_around = 20"),
    system("a bit rate", "[bus]\n", "[bus]\nbitrate = 500\n", "KBITS is a word of the tools, as in fttmodel KBITS "
           "CYCLE_US ..; here all times are in bit times. Take the key away.", "[bus]\n"),
    system("a key that is none", "[bus]\n", '[bus]\nname = "door"\n', "Take it away, or write # in front.",
           '[bus]\n# name = "door"\n'),
    system("a key above its table", "[bus]", "horizon = 5000\n[bus]", "It belongs below [plan].",
           "[plan]\nhorizon = 5000\n[bus]"),
    system("a key in another table", "nodes = 6", 'nodes = 6\npolicy = "dm"', "'bus.policy' is no key. It belongs "
           "below [plan].", 'nodes = 6\n[plan]\npolicy = "dm"'),
    system("no equals sign", "turnaround = 20", "turnaround 20", "Write turnaround = 20", "turnaround = 20"),
    system("a colon", "turnaround = 20", "turnaround: 20", "Write turnaround = 20", "turnaround = 20"),
    system("a unit", "turnaround = 20", "turnaround = 20 bits", "Write turnaround = 20", "turnaround = 20"),
    system("a comma in a number", "cycle = 500", "cycle = 1,250", "Write cycle = 1250", "cycle = 1250"),
    system("leading zeros", "cycle = 500", "cycle = 0500", "Write cycle = 500", "cycle = 500"),
    system("a comment of C", "cycle = 500", "cycle = 500 // bit times", "Write cycle = 500 # bit times",
           "cycle = 500 # bit times"),
    system("no value", "turnaround = 20", "turnaround =", "Write a value after turnaround =, or take the row away.",
           "turnaround = 20"),
    system("a lost bracket", "[bus]", "[bus", "Write [bus]", "[bus]"),
    system("a key twice", "cycle = 500", "cycle = 500\ncycle = 600", "Take one of the two away.", "cycle = 600"),
    policy("a policy in capitals", 'policy = "DM"', "Write it in lower case.", 'policy = "dm"'),
    policy("a policy without quotes", "policy = dm", 'Write policy = "dm"', 'policy = "dm"'),
    policy("a policy in capitals without quotes", "policy = DM", 'Write policy = "dm"', 'policy = "dm"'),
    policy("a policy in curly quotes", "policy = \u201cedf\u201d", 'Write policy = "edf"', 'policy = "edf"'),
    policy("a policy that is none", 'policy = "fifo"', "Write rm, dm or edf.", 'policy = "edf"'),
    policy("a policy as a number", "policy = 1", "Write rm, dm or edf, in double quotes.", 'policy = "rm"'),
    policy("a filling that is none", 'fill = "best"', "Write prefix or skip.", 'fill = "skip"'),
    policy("a horizon of 0", "horizon = 0", "Take 1 to 100000. Without the key it is 10000.", ""),
    policy("a horizon of a million", "horizon = 1000000", "Take 1 to 100000.", "horizon = 100000"),
    # The steps file: its form.
    steps("capitals", ADD.upper(), "Write it in lower case: add.", ADD),
    steps("a misspelt word", ADD + "cycel,3", "Is it cycle?", ADD + "cycle,3"),
    steps("a loose and", "and,add,0,0,8,0,10,10,0", "write add,OPERATOR,START in place of and,add.", ADD),
    steps("no priority", ADD[:-3], "PRIORITY is missing: "
          "add,OPERATOR,START,SLOT,NODE,LENGTH,PHASE,PERIOD,DEADLINE,PRIORITY.",
          ADD),
    steps("a field too many", ADD.strip() + ",7", "'7' and what follows is too much. Take it away.", ADD),
    steps("padding", ADD + "look,1,,,", "Take the 3 commas at its end away.", ADD + "look,1"),
    steps("spaces for commas", ADD.replace(",", " "), "Write commas between them.", ADD),
    # The steps file: numbers.
    steps("too many cycles at once", "cycle,30000", "COUNT is '30000': it is above 20000. Take 0 to 20000.", "cycle,0"),
    ("too many cycles", {"steps": "cycle,2\ncycle,19999\n"}, "Take at most 19998 here",
     {"steps": "cycle,2\ncycle,19998\n"}),
    ("a row of too many cycles", {"steps": "cycle,2\ncycle,30000\n"}, "it is above 19998. Take 0 to 19998.",
     {"steps": "cycle,2\ncycle,19998\n"}),
    steps("cycles with a point", ADD + "cycle,2.5", "COUNT is a whole number of elementary cycles. Write 2.",
          ADD + "cycle,2"),
    steps("a period with a point", "add,1,0,0,0,8,0,2.5,2,0", "PERIOD is a whole number of elementary cycles. Write "
          "2. For "
          "milliseconds multiply by the bit rate in kbit/s, and divide by bus.cycle: 2.5 ms at 500 kbit/s are 2.",
          "add,1,0,0,0,8,0,2,2,0"),
    steps("a period below 1", "add,1,0,0,0,8,0,0.34,1,0", "PERIOD is a whole number of elementary cycles. Take 1 to "
          "10000",
          "add,1,0,0,0,8,0,10000,1,0"),
    steps("a period in milliseconds", "add,1,0,0,0,8,0,10ms,10,0", "10 ms at 500 kbit/s are 10.", ADD),
    steps("a period of a spreadsheet", "add,1,0,0,0,8,0,1E+01,10,0", "Write 10.", ADD),
    steps("a period above its range", "add,1,0,0,0,8,0,100000,10,0", "Take 10 to 10000: no longer one repeats within "
          "the horizon.", "add,1,0,0,0,8,0,10000,10,0"),
    steps("a period below its deadline", "add,1,0,0,0,8,0,3.0,10,0", "Write 3, and a DEADLINE of 1 to 3.",
          "add,1,0,0,0,8,0,3,3,0"),
    steps("a START of a spreadsheet", "add,1,1E+09,0,0,8,0,10,10,0", "Take 0, which is the next cycle", ADD),
    steps("a deadline above its range", "add,1,0,0,0,8,0,10,70000,0", "DEADLINE is '70000': it is above 10. Take 1 to "
          "10.",
          ADD),
    steps("a phase above its range", "add,1,0,0,0,8,70000,10,10,0", "PHASE is '70000': it is above 9. Take 0 to 9.",
          "add,1,0,0,0,8,9,10,10,0"),
    steps("an empty field", "add,1,0,0,0,,0,10,10,0", "LENGTH is '': it is empty. Take 0 to 8.", ADD),
    steps("a sign", "add,1,+0,0,0,8,0,10,10,0", "a sign is not taken. Write 0.", ADD),
    steps("a comment after a number", ADD + "cycle,3 # three", "a row has no comment. Write 3.", ADD + "cycle,3"),
    steps("a START of 23 digits", "add,1,12345678901234567890123,0,0,8,0,10,10,0", "Take 0, which is the next cycle",
          ADD),
    steps("a START of 2^40", "add,1,1099511627776,0,0,8,0,10,10,0", "Take 0, which is the next cycle, or a little "
          "more.",
          ADD),
    steps("operator 0", "add,0,0,0,0,8,0,10,10,0", "Number the operators from 1 to 8.", ADD),
    steps("operator 9", "add,9,0,0,0,8,0,10,10,0", "Number the operators from 1 to 8.", ADD),
    steps("operator 300", "add,300,0,0,0,8,0,10,10,0", "OPERATOR is '300': it is above 8. Take 1 to 8.", ADD),
    steps("priority 256", "add,1,0,0,0,8,0,10,10,256", "it is above 255. Take 0 to 255.", "add,1,0,0,0,8,0,10,10,255"),
    # The steps file: slots, nodes, bytes.
    steps("slot 0x5", "add,1,0,0x5,0,8,0,10,10,0", "Write 5.", "add,1,0,5,0,8,0,10,10,0"),
    steps("slot 0x105", "add,1,0,0x105,0,8,0,10,10,0", "0x105 is the identifier of slot 5. Write 5.",
          "add,1,0,5,0,8,0,10,10,0"),
    steps("slot 261", "add,1,0,261,0,8,0,10,10,0", "it is 0x105, the identifier of slot 5. Write 5.",
          "add,1,0,5,0,8,0,10,10,0"),
    steps("slot 300", "add,1,0,300,0,8,0,10,10,0", "it is above 39. Take 0 to 39.", "add,1,0,39,0,8,0,10,10,0"),
    steps("slot 200", "add,1,0,200,0,8,0,10,10,0", "The slots are 0 to 39.", "add,1,0,39,0,8,0,10,10,0"),
    ("slot 300 beside a broken system", {"system": SYSTEM.replace("cycle", "cyle"),
                                         "steps": "add,1,0,300,0,8,0,9,9,0\n"},
     "it is above 39. Take 0 to 39.", {"steps": "add,1,0,39,0,8,0,9,9,0\n"}),
    ("slot 300 of 96", {"system": WIDE, "steps": "add,1,0,400,0,8,0,10,10,0\n"}, "it is above 95. Take 0 to 95.",
     {"system": WIDE, "steps": "add,1,0,95,0,8,0,10,10,0\n"}),
    ("slot 95", {"steps": "add,1,0,95,0,8,0,10,10,0\n"}, "With bus.slots = 96 they are 0 to 95.",
     {"system": WIDE, "steps": "add,1,0,95,0,8,0,10,10,0\n"}),
    ("slot 95 of a short cycle", {"system": SYSTEM.replace("500", "470"), "steps": "add,1,0,95,0,8,0,10,10,0\n"},
     "With bus.slots = 96 they are 0 to 95, and bus.cycle has to be at least 480.",
     {"system": WIDE.replace("500", "480"), "steps": "add,1,0,95,0,8,0,10,10,0\n"}),
    steps("a slot by its name", "add,1,0,battery,0,8,0,10,10,0", "Take 0 to 39. The names.csv of fttmodel has it.",
          ADD),
    steps("a node as many as nodes", "add,1,0,0,6,8,0,10,10,0", "take 0 to 5.", "add,1,0,0,5,8,0,10,10,0"),
    steps("node 300", "add,1,0,0,300,8,0,10,10,0", "it is above 5. Take 0 to 5.", "add,1,0,0,5,8,0,10,10,0"),
    steps("length 9", "add,1,0,0,0,9,0,10,10,0", "A frame has 0 to 8 bytes: take these", ADD),
    steps("length 300", "add,1,0,0,0,300,0,10,10,0", "it is above 8. Take 0 to 8.", ADD),
    steps("period 0", "add,1,0,0,0,8,0,0,1,0", "PERIOD is 0. Take at least 1 cycle.", "add,1,0,0,0,8,0,1,1,0"),
    steps("period 0 with a deadline", "add,1,0,0,0,8,0,0,10,0", "Take at least 10 cycles, the DEADLINE.", ADD),
    steps("deadline 0", "add,1,0,0,0,8,0,10,0,0", "Take 1 to the PERIOD, 10.", ADD),
    steps("a deadline above the period", "add,1,0,0,0,8,0,10,11,0", "above the PERIOD. Take 1 to 10.", ADD),
    # The steps file: changes.
    steps("a START that has passed", "cycle,3\n" + ADD, "Take at least START 3", "cycle,3\n" + ADD.replace(",0,",
                                                                                                           ",3,", 1)),
    steps("a START that has passed, put higher", "cycle,3\n" + ADD, "or put the row higher.", ADD + "cycle,3"),
    steps("a slot twice in two changes", ADD + ADD, "Take another slot, such as 1, or write change.",
          ADD + "add,1,0,1,0,8,0,10,10,0"),
    steps("a slot twice, as a change", ADD + ADD, "or write change.", ADD + ADD.replace("add", "change")),
    steps("a slot twice in one change", ADD + "and,add,0,0,8,0,10,10,0", "Leave this row out, or take another slot.",
          ADD + "and,add,1,0,8,0,10,10,0"),
    steps("a slot removed and added in one change", ADD + "remove,1,0,0\nand,add,0,0,8,0,10,10,0",
          "For both, write change in place of the two.", ADD + "change,1,0,0,0,8,0,10,10,0"),
    steps("a slot that is not free yet", "add,1,0,0,0,8,0,4,3,0\nremove,1,10,0\nadd,1,11,0,0,8,0,4,3,0",
          "Take START 12.",
          "add,1,0,0,0,8,0,4,3,0\nremove,1,10,0\nadd,1,12,0,0,8,0,4,3,0"),
    steps("an entry that has not begun", "add,1,9,0,0,8,0,4,3,0\nremove,1,5,0", "Take at least START 9.",
          "add,1,9,0,0,8,0,4,3,0\nremove,1,9,0"),
    steps("no live entry", ADD + "remove,1,10,7", "or take a slot that has one, such as 0.", ADD + "remove,1,10,0"),
    steps("no live entry at all", "remove,1,10,7\n" + ADD, "or leave the row out.", ADD),
    steps("a change of no entry", ADD + "change,1,10,7,0,8,0,10,10,0", "To add one, write add.",
          ADD + "add,1,10,7,0,8,0,10,10,0"),
    steps("17 operations", SEVENTEEN + "and,add,16,0,0,0,40,40,0", "begin another one here, with add,OPERATOR,0 in "
          "place of and,add.", SEVENTEEN + "add,1,0,16,0,0,0,40,40,0"),
    ("a common period after the horizon", {"steps": FAR + "\ncycle,20\n"}, "Take horizon = 10403, or",
     {"system": SYSTEM + "[plan]\nhorizon = 10403\n", "steps": FAR + "\ncycle,20\n"}),
    steps("a START after the horizon", LATE, "Take horizon = 10005, or a START of at most 9990",
          LATE.replace("9995", "9990")),
    # Requests.
    requests("no data field", "170,0x300", "Write the comma before the data even if there are none.", "170,0x300,"),
    requests("AT with a point", "0.34,0x300,", "AT is a whole number of bit times. Take 170 to 1099511627775. For "
             "milliseconds multiply by the bit rate in kbit/s: 0.34 ms at 500 kbit/s are 170.", "170,0x300,"),
    requests("AT in milliseconds", "3ms,0x300,", "3 ms at 500 kbit/s are 1500.", "1500,0x300,"),
    requests("AT above its range", "1099511627776,0x300,", "Take 170 to 1099511627775.", "1099511627775,0x300,"),
    requests("300 for 0x300", "170,300,", "The system owns 0x300: write 0x300.", "170,0x300,"),
    requests("an identifier above all", "170,70000,", "Take one that the system owns: 0x300.", "170,0x300,"),
    requests("a capital X", "170,0X300,", "Write a lower-case x: 0x300.", "170,0x300,"),
    requests("four digits", "170,0x0300,", "Write 0x300.",
             "170,0x300,"),
    requests("an identifier of a slot", "170,0x105,", "Take one that the system owns: 0x300.", "170,0x300,"),
    requests("the trigger's identifier", "170,0,", "which the master sends. Take one that the system owns: 0x300.",
             "170,0x300,"),
    ("hexadecimal digits alone", {"requests": "170,20e,\n"}, "Hexadecimal digits need 0x in front: 0x20e. No node "
     "owns it. Write [[async]] with id = 0x20e and node in the system file.",
     {"requests": "170,0x20e,\n", "system": SYSTEM + "[[async]]\nid = 0x20e\nnode = 0\n"}),
    ("no owner at all", {"system": SYSTEM[:SYSTEM.index("\n[[")], "requests": "170,0x105,\n"}, "The system owns none. "
     "Write [[async]] with id = 0x200 and node in the system file.",
     {"system": SYSTEM.replace("0x300", "0x200"), "requests": "170,0x200,\n"}),
    requests("blanks in the data", "170,0x300,00 ff", "Write 00ff.", "170,0x300,00ff"),
    requests("0x in the data", "170,0x300,0x00ff", "Write 00ff.", "170,0x300,00ff"),
    requests("0x and half a byte", "170,0x300,0x0", "Write 00.", "170,0x300,00"),
    requests("half a byte", "170,0x300,abc", "'0abc'.", "170,0x300,0abc"),
    requests("nine bytes", "170,0x300,001122334455667788", "at most 8 bytes: 16 digits. Part it.",
             "170,0x300,0011223344556677\n170,0x300,88"),
    requests("an order that falls", "169,0x300,", "Sort the rows by AT", "170,0x300,"),
    # Streams.
    streams("a hexadecimal slot", "200,0x2,", "Write 2.", "200,2,"),
    streams("slot 0x102", "200,0x102,", "0x102 is the identifier of slot 2. Write 2.", "200,2,"),
    streams("slot 258 of the streams", "200,258,", "it is 0x102, the identifier of slot 2. Write 2.", "200,2,"),
    streams("slot 40 of the streams", "200,40,", "The slots are 0 to 39.", "200,39,"),
    streams("eight bytes", "200,2,0011223344556677", "at most 7 bytes: 14 digits. Part it.",
            "200,2,00112233445566\n200,2,77"),
    streams("fifteen digits", "200,2,001122334455667", "at most 7 bytes: 14 digits. Part it.",
            "200,2,00112233445566\n200,2,07"),
    streams("AT with a point in streams", "1.5,2,", "Take 100 to 1099511627775. For milliseconds multiply by the bit "
            "rate in kbit/s: 1.5 ms at 500 kbit/s are 750.", "750,2,"),
    streams("two fields", "200,2", "Write the comma before the data even if there are none.", "200,2,"),
    # Plans.
    ("a plan with CRLF", {"plan": PLAN.replace("\n", "\r\n")}, "Save the file with line feeds alone.", {"plan": PLAN}),
    ("a plan with a byte order mark", {"plan": "\ufeff" + PLAN}, "Save the file without it.", {"plan": PLAN}),
    plan("a lost line feed", "end\n", "end", "'end' has no line feed after it. Add one.", "end\n"),
    plan("a log for a plan", PLAN, "submit,1,0,accepted,0,4\nend,0\n", "The plan is what `fttcan admit SYSTEM STEPS` "
         "writes.",
         PLAN),
    plan("leading zeros in a plan", "from 0", "from 00", "has leading zeros. Write 0.", "from 0"),
    plan("FROM too great", "from 0", "from 9999999999999", "Take 0: check takes a plan from cycle 0 on.", "from 0"),
    plan("a blank before a count", " 9\n", "  9\n", "Write digits, and nothing around them: 9.", " 9\n"),
    plan("a mask of one digit", "pending 0000000000", "pending 0", "is in the set: 0000000000.", "pending 0000000000"),
    plan("a mask in 24 digits", "0000000001 1", "000000000000000000000001 1", "Write ten digits: 0000000001.",
         "0000000001 1"),
    plan("a mask with 0x", "0000000001 1", "0x00000001 1", "in the set: 0000000001.", "0000000001 1"),
    plan("a mask of 12 digits of version 1", "0000000001\n", "000000000001\n", "Write ten lower-case hexadecimal "
         "digits: 0000000001.", "0000000001\n", base=OLD_PLAN),
    plan("a count of 0", "0000000000 9", "0000000001 0\n0000000000 9", "mask of the line above. Add the two counts, "
         "in one line.", "0000000000 9"),
    plan("a count of 0 in front", "0000000001 1", "0000000000 0\n0000000001 1", "COUNT is 0. Take the line away, or "
         "take 1 to 10", "0000000001 1"),
    plan("a count that is too great", " 9\n", " 10\n", "COUNT is 10. Take 1 to 9", " 9\n"),
    plan("text after the end", "end\n", "end\n\n", "text stands after end. Take it away.", "end\n"),
]

# The log of a run of one cycle, and its files.
LOGGED = {"system": "[bus]\ncycle = 1000\nwindow = 135\nnodes = 2\n", "steps": "add,1,0,0,0,0,0,1,1,0\ncycle,1\n"}
LOG = ("submit,1,0,accepted,0,1\nopen,0,0000000001,55\nframe,0,126,000,0000370100000000\nframe,945,51,100,\nend,1\n")


def log(name, old, new, part):
    """A mistake in a log, where this text stands in place of the right one."""
    return name, {**LOGGED, "log": LOG.replace(old, new)}, part, {**LOGGED, "log": LOG}


def wishes(name, wrong, part, right):
    """A mistake in wishes for a bus with a slot."""
    return name, {**LOGGED, "wishes": wrong}, part, {**LOGGED, "wishes": right}


FILES += [
    log("a log with a report", "end,1\n", "end,1\nentry,0,0,1,0,0\nload,55,55,55\n", "run.log:6: mistake: the word is "
        "'entry': after the row `end` come the rows of a report (--report), and audit takes none. Take them away"),
    log("a log of poll", "end,1\n", "end,1\nwaits,0,1\n", "the word is 'waits': after the row `end` come the rows "
        "of a log of `poll`"),
    log("a frame without the comma of its data", "51,100,", "51,100", "Write frame,START,LEN,ID,DATA. Write the comma "
        "before the data"),
    log("an identifier with 0x", "51,100,", "51,0x100,", "run.log:4: mistake: ID is '0x100': three hexadecimal digits "
        "are taken, in lower case and without 0x. Write 100."),
    log("a mask of one digit in a log", "0000000001,55", "1,55", "MASK is '1': a mask has 10 digits in lower case, or "
        "24. Write 0000000001."),
    log("data in capitals", "0000370100000000", "0x0000370100000000", "DATA is '0x0000370100000000': two hexadecimal "
        "digits for each byte are taken, in lower case, at most 16. Write 0000370100000000."),
    log("zeros in front in a log", "frame,0,", "frame,00,", "START is '00': digits alone are taken, without zeros in "
        "front. Write 0."),
    log("a verdict that is none", "accepted", "acepted", "the verdict is 'acepted': Is it accepted?"),
    log("a verdict without its fields", "accepted,0,1", "accepted,0",
        "Write submit,CALLER,FROM,accepted,FIRST,LENGTH."),
    log("a word of a log", "open,", "opn,", "the word is 'opn': Is it open?"),
    log("a plan for a log", LOG, "fttcan plan 2\nfrom 0\n", "this is a plan text. Its audit is `fttcan check SYSTEM "
        "STEPS PLAN`."),
    log("a recording for a log", LOG, "(1.000246) can0 000#0000370100000000\n", "this is a recording of candump."),
    log("steps for a log", LOG, "add,1,0,0,0,0,0,1,1,0\n", "this is a row of a steps file."),
    wishes("wishes without a start", "add,1,1,0,0,4,1,2,4\n", "Write a first row above it: start,1,",
           "start,1\nadd,1,1,0,0,4,1,2,4\n"),
    wishes("wishes without a period", "start,1\nadd,1,1,0,0,4,1\n", "The PERIOD is missing. Write one at the end",
           "start,1\nadd,1,1,0,0,4,1,2\n"),
    wishes("nine periods", "start,1\nadd,1,1,0,0,9,1,1,2,3,4,5,6,7,8,9\n", "It has 9 periods. Take at most 8.",
           "start,1\nadd,1,1,0,0,9,1,2,3,4,5,6,7,8,9\n"),
    wishes("a change in wishes", "start,1\nchange,0\n", "Write a row remove,SLOT, and a row add with another slot.",
           "start,1\nremove,0\n"),
    wishes("and in wishes", "start,1\nand,remove,0\n", "Take it away: each row is an operation of the same change.",
           "start,1\nremove,0\n"),
    wishes("a start in capitals", "START,1\nremove,0\n", "Write it in lower case: start.", "start,1\nremove,0\n"),
    wishes("wishes without an operation", "start,1\n", "Write a row add or remove below the start.",
           "start,1\nremove,0\n"),
    wishes("wishes without a row", "", "Write start,1, and below it", "start,1\nremove,0\n"),
    wishes("a start that is no number", "start,1 #\nremove,0\n", "START is '1 #': a row has no comment. Write 1.",
           "start,1\nremove,0\n"),
    wishes("a period with a sign", "start,1\nadd,1,1,0,0,4,1,+2\n", "a sign is not taken. Write 2",
           "start,1\nadd,1,1,0,0,4,1,2\n"),
]

REPLAY = "replay system.toml steps.csv"
HANDOVER = "handover system.toml steps.csv"
WORDS = [
    (f"{REPLAY} --tail 0", "--tail is '0'. Take 1 to 10000, in digits.", f"{REPLAY} --tail 1"),
    (f"{REPLAY} --tail 20000", "Take 1 to 10000", f"{REPLAY} --tail 10000"),
    (f"{REPLAY} --Report", "Is it --report?", f"{REPLAY} --report"),
    (f"{REPLAY} --report --report", "Take one away.", f"{REPLAY} --report"),
    (f"{REPLAY} --report=1", "Write it alone.", f"{REPLAY} --report"),
    ("repaly system.toml steps.csv", "Is it replay?", REPLAY),
    ("admit system.toml", "STEPS is missing. admit takes SYSTEM STEPS.", "admit system.toml steps.csv"),
    (f"{REPLAY} requests.csv plan.txt", "'plan.txt' is too much.", f"{REPLAY} requests.csv"),
    (f"{HANDOVER} requests.csv 3", f"AT comes first: {HANDOVER} 3 requests.csv.", f"{HANDOVER} 3 requests.csv"),
    (f"{HANDOVER} x", "AT is 'x'. Take 0 to 20000, in digits.", f"{HANDOVER} 0"),
    (f"{HANDOVER} 20001", "AT is '20001'. Take 0 to 20000, in digits.", f"{HANDOVER} 20000"),
    (f"{HANDOVER} 3.0 requests.csv", "AT is '3.0'. Take 0 to 20000", f"{HANDOVER} 3 requests.csv"),
    (HANDOVER, "AT is missing. handover takes SYSTEM STEPS AT, and REQUESTS where there is one.", f"{HANDOVER} 3"),
    ("gen abc", "NUMBER is 'abc'. Take 0 to 4294967295, in digits.", "gen 0"),
]

HEAD = "name,sender,length,period"
ONE = f"{HEAD}\na,x,8,10\n"
MANY = f"{HEAD}\n" + "".join(f"m{place},x,0,100\n" for place in range(41))
# Four asynchronous messages of 8 bytes, each 1 ms: 4 * 27 % with 500 kbit/s, besides 27 % of triggers and 5.4 %.
FULL = f"{HEAD},kind,id\na,n1,8,5,sync,1\n" + "".join(f"m{place},n2,8,1,async,0x20{place}\n" for place in range(4))


def messages(name, wrong, part, right):
    """A mistake in a list of messages."""
    return name, (wrong, ""), part, (right, "")


def bus(name, wrong, part, right, text=ONE):
    """A mistake in the words of a call of fttmodel."""
    return name, (text, wrong), part, (text, right)


MESSAGES = [
    messages("the columns ecu and dlc", "name,ecu,dlc,period\na,x,8,10\n", "Is it sender?", ONE),
    messages("a misspelt column", f"{HEAD},dealine\na,x,8,10,5\n", "Is it deadline?", f"{HEAD},deadline\na,x,8,10,5\n"),
    messages("a decimal comma", f'{HEAD}\na,x,8,"5,5"\n', "Write milliseconds in digits, with a point: 2.5.",
             f"{HEAD}\na,x,8,5.5\n"),
    messages("a unit of milliseconds", f"{HEAD}\na,x,8,5ms\n", "Write milliseconds in digits", f"{HEAD}\na,x,8,5\n"),
    messages("a name twice", f"{HEAD}\na,x,8,10\na,y,8,10\n", "Give each message its own.",
             f"{HEAD}\na,x,8,10\nb,y,8,10\n"),
    messages("nine data bytes", f"{HEAD}\na,x,9,10\n", "Part longer messages into frames of at most 8 bytes.",
             f"{HEAD}\na,x,8,10\nb,x,1,10\n"),
    messages("a workbook of messages", b"PK\x03\x04\x14\x00", "the file is an Excel workbook. Save it as text", ONE),
    messages("a deadline above the period", f"{HEAD},deadline\na,x,8,10,11\n", "Take at most the period.",
             f"{HEAD},deadline\na,x,8,10,10\n"),
    messages("a period of 0 cycles", f"{HEAD}\na,x,8,0.5\n", "Take a shorter cycle, or a longer time.", ONE),
    messages("a deadline of an asynchronous message without a period",
             f"{HEAD},deadline,kind,id\na,x,2,,20,async,0x300\n", "Write one, or write polled.",
             f"{HEAD},deadline,kind,id\na,x,2,50,20,async,0x300\n"),
    messages("the same, polled", f"{HEAD},deadline,kind,id\na,x,2,,20,async,0x300\n", "Write one, or write polled.",
             f"{HEAD},deadline,kind\na,x,2,,20,polled\n"),
    # The window of 290 leaves room for one frame of 2 bytes: 75 - 1 + 500 - 1 + 1 + 71 = 645 bit times to the end. One
    # of 220 leaves 71 times to start at: 575
    bus("a bound after the deadline", "500 1000 messages.csv made", "a may take 1.29 ms, and its deadline is 1.15. Take "
        "--window 220 or less", "500 1000 messages.csv made --window 220",
        f"{HEAD},deadline,kind,id\na,x,2,50,1.15,async,0x300\n"),
    bus("41 messages", "500 1000 messages.csv made", "Take --slots 96", "500 1000 messages.csv made --slots 96", MANY),
    bus("a rate in bit/s", "500000 1000 messages.csv made", "KBITS is 500000, and CAN ends at 1000 kbit/s. If this is "
        "in bit/s, write 500.", "500 1000 messages.csv made"),
    bus("a rate of CAN FD", "2000 1000 messages.csv made", "CAN ends at 1000 kbit/s.", "1000 1000 messages.csv made"),
    bus("a cycle that is too short", "500 500 messages.csv made", "Take 800 to 200000 us.",
        "500 800 messages.csv made"),
    bus("a window of all time", "500 1000 messages.csv made --window 400", "Take at most 365",
        "500 1000 messages.csv made --window 365"),
    bus("a folder that is a file", "500 1000 messages.csv messages.csv", "OUT is a folder, and a file of this name is "
        "there.",
        "500 1000 messages.csv made"),
    # 1000 kbit/s and 1000 us: 2.7 + 13.5 + 54 %. A window of 191 leaves 540 times to start at, and the last message needs
    # one after three frames of 135: 134 + 1000 - 540 + 405 + 1 = 1000
    bus("a bus that is too full", "500 1000 messages.csv made", "the bus is asked for 140.4 % of its time",
        "1000 1000 messages.csv made --window 191", FULL),
]

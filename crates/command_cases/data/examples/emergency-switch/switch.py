"""An emergency switch of twenty operations: first the change that makes room, then the change that has to come together.

It needs the package fttcan and its library, and no bus: what each cycle would send is printed.
"""
from fttcan import Add, Master, Operation, Refused, Remove, Rules, mask_text

# A window of 1215 bit times has room for nine of the longest frames. Five nodes, 40 slots, rate monotonic.
RULES = Rules(window=1215, nodes=5)
JOINTS = tuple(Add(slot=slot, node=0, length=8, period=1, deadline=1) for slot in range(4))
# Three of them are released in each cycle, so none ever waits.
COMFORT = tuple(Add(slot=4 + n, node=1 + n // 3, length=8, phase=n // 3, period=4, deadline=4) for n in range(12))
BRAKES = tuple(Add(slot=20 + n, node=node, length=2, period=1, deadline=1) for n, node in enumerate((0, 1, 2, 3, 4, 4, 4, 3)))


def ask(master: Master, what: str, *operations: Operation) -> bool:
    """Asks for a change from the next cycle on, and says whether it was accepted."""
    try:
        print(f"  {what}: {master.submit(master.next, *operations)}")
    except Refused as refusal:
        print(f"  {what}: refused. {refusal}")
        return False
    return True


def run(master: Master, cycles: int) -> None:
    """Opens some cycles, and prints the first two."""
    for count in range(cycles):
        order = master.open()
        if count < 2:
            print(f"cycle {order.cycle}: {mask_text(order.flags)}, {order.window} bit times")


def main() -> None:
    """Ten cycles of the machine, ten of the emergency, and ten of the machine again."""
    with Master(RULES) as master:
        ask(master, "the machine", *JOINTS, *COMFORT)
        run(master, 10)
        if ask(master, "room", *(Remove(it.slot) for it in COMFORT)):
            ask(master, "the emergency", *BRAKES)
        run(master, 10)
        if ask(master, "the emergency is over", *(Remove(it.slot) for it in BRAKES)):
            ask(master, "the machine", *COMFORT)
        run(master, 10)


if __name__ == "__main__":
    main()

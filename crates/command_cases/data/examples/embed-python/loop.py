"""A controller that opens the cycles of a machine, with an emergency switch while it runs, and a standby beside it.

It needs the package fttcan and its library, and no bus: each trigger is printed in place of being sent.
"""
from fttcan import Add, Master, Miss, Operation, Order, Refused, Remove, Rules, Standby, Trigger, frames, mask_text

# A window of 270 bit times has room for two of the longest frames. Four nodes, 40 slots, rate monotonic.
RULES = Rules(window=270, nodes=4)
MESSAGES = {0: "speed", 1: "pressure", 2: "temperature", 9: "emergency"}
MACHINE = (Add(slot=0, node=0, length=8, period=1, deadline=1),
           Add(slot=1, node=1, length=8, period=2, deadline=2),
           Add(slot=2, node=2, length=1, period=4, deadline=4))
# The switch has to be heard in each cycle, and goes in front of all others.
SWITCH = Add(slot=9, node=3, length=1, period=1, deadline=1)


def ask(master: Master, standby: Standby, what: str, *operations: Operation) -> bool:
    """Asks for a change from the next cycle on. Where it is accepted, the standby is told."""
    start = master.next
    try:
        verdict = master.submit(start, *operations)
    except Refused as refusal:
        print(f"  {what}: refused. {refusal}")
        if isinstance(refusal, Miss):
            print(f"  it would have sent {', '.join(map(mask_text, refusal.trail))}")
        return False
    standby.change(start, *operations)
    print(f"  {what}: {verdict}")
    return True


def tell(order: Order) -> list[frames.Frame]:
    """The trigger of a cycle, which a real controller sends now."""
    sent = frames.encode(Trigger(order.cycle, order.flags, order.window), RULES.slots)
    names = ", ".join(MESSAGES[slot] for slot in order.slots)
    print(f"cycle {order.cycle}: {sent[0].data.hex()}, {order.window} bit times: {names}")
    return sent


def main() -> None:
    """Eight cycles of a master, and three of its standby."""
    with Standby(RULES) as standby, Master(RULES) as master:
        ask(master, standby, "the machine", *MACHINE)
        for cycle in range(8):
            if cycle == 4 and not ask(master, standby, "the switch", SWITCH):
                # Nothing was changed by the refusal. What is needed least makes room.
                ask(master, standby, "the switch in place of pressure", SWITCH, Remove(1))
            standby.trigger(*tell(master.open()))
        print("  the master is gone, and the standby goes on")
        master.close()
        with standby.take_over() as successor:
            for _ in range(3):
                tell(successor.open())


if __name__ == "__main__":
    main()
